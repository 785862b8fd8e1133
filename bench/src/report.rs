//! Prints the tables.

use crate::rows::{ROWS, Row};

/// The goals: maximum ratios of the time to that of the plain translation and of the crate, and of
/// the cost per record at the largest size to that at the smallest.
const MOST_OF_PLAIN: f64 = 1.1;
const MOST_OF_CRATE: f64 = 1.0;
const MOST_GROWTH: f64 = 1.3;

/// Times of a row: for each size, the time of each side.
pub type Found = [Vec<f64>; 3];

fn grouped(number: usize) -> String {
    if number < 1_000 {
        return number.to_string();
    }
    format!("{},{:03}", grouped(number / 1_000), number % 1_000)
}

pub fn print_times(found: &[Found]) {
    println!("| row | size | proved | plain | crate | lean | proved / plain | proved / crate |");
    println!("|---|---:|---:|---:|---:|---:|---:|---:|");
    for (row, sizes) in ROWS.iter().zip(found) {
        for (size, times) in sizes.iter().enumerate() {
            let (proved, plain, original) = (times[0], times[1], times[2]);
            let lean = times.get(3).map_or(String::new(), |time| format!("{time:.2} "));
            println!(
                "| {} | {} | {proved:.2} | {plain:.2} | {original:.2} | {lean}| {:.2} | {:.2} |",
                row.name,
                grouped(row.size(size)),
                proved / plain,
                proved / original
            );
        }
    }
}

fn growth(sizes: &Found, side: usize) -> f64 {
    sizes[2][side] / sizes[0][side]
}

pub fn print_growth(found: &[Found]) {
    println!("| row | proved | | | growth | plain | | | growth |");
    println!("|---|---:|---:|---:|---:|---:|---:|---:|---:|");
    for (row, sizes) in ROWS.iter().zip(found) {
        let cells: String = [0, 1]
            .iter()
            .map(|&side| {
                let [small, middle, large] = [0, 1, 2].map(|size: usize| sizes[size][side]);
                let growth = growth(sizes, side);
                format!(" {small:.2} | {middle:.2} | {large:.2} | {growth:.2} |")
            })
            .collect();
        println!("| {} |{cells}", row.name);
    }
}

/// Prints the rows that miss a goal, with the value that misses it.
fn print_missed(goal: &str, found: &[Found], missed: impl Fn(&Found) -> Option<f64>) {
    let rows = ROWS.iter().zip(found);
    let named = |(row, sizes): (&Row, &Found)| {
        missed(sizes).map(|value| format!("  {} ({value:.2})", row.name))
    };
    let missed: Vec<String> = rows.filter_map(named).collect();
    println!("{goal}: {} of {} rows miss it", missed.len(), ROWS.len());
    for row in missed {
        println!("{row}");
    }
}

/// Returns the largest ratio, over all sizes, of the proved side to another.
fn most(sizes: &Found, side: usize) -> f64 {
    sizes.iter().map(|times| times[0] / times[side]).fold(0.0, f64::max)
}

pub fn print_goals(found: &[Found]) {
    let above = |value: f64, most: f64| (value > most).then_some(value);
    print_missed(&format!("At most {MOST_OF_PLAIN} × plain at every size"), found, |sizes| {
        above(most(sizes, 1), MOST_OF_PLAIN)
    });
    print_missed("Faster than the crate at every size", found, |sizes| {
        above(most(sizes, 2), MOST_OF_CRATE)
    });
    print_missed(&format!("Growth within {MOST_GROWTH} ×"), found, |sizes| {
        above(growth(sizes, 0), MOST_GROWTH)
    });
}
