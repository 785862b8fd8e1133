//! Command line arguments.

use std::fmt;

pub struct Arguments {
    /// Fewer short inputs, and fewer cases unless their number is given.
    pub short: bool,
    pub cases: u64,
    pub seed: u64,
    pub threads: u64,
}

impl Arguments {
    pub fn read(mut words: impl Iterator<Item = String>) -> Result<Self, String> {
        let (mut short, mut cases, mut seed, mut threads) = (false, None, 1, 2);
        while let Some(word) = words.next() {
            let mut number = || {
                let number = words.next().and_then(|number| number.parse().ok());
                number.ok_or(format!("{word} wants a number"))
            };
            match word.as_str() {
                "short" => short = true,
                "--cases" => cases = Some(number()?),
                "--seed" => seed = number()?,
                "--threads" => threads = number()?.max(1),
                _ => return Err(format!("{word} isn't known")),
            }
        }
        let usual = if short { 6_850_000 } else { 250_000_000 };
        Ok(Self { short, cases: cases.unwrap_or(usual), seed, threads })
    }
}

impl fmt::Display for Arguments {
    fn fmt(&self, f: &mut fmt::Formatter<'_>) -> fmt::Result {
        let Self { short, cases, seed, threads } = self;
        let run = if *short { "short" } else { "full" };
        write!(f, "{run} run, {cases} cases, seed {seed}, threads {threads}")
    }
}
