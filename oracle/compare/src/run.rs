//! Runs the families of inputs in order, each divided among the threads.

use std::sync::Mutex;
use std::sync::atomic::{AtomicU64, Ordering};
use std::sync::mpsc::{Receiver, RecvTimeoutError, channel};
use std::thread;
use std::time::Duration;

use crate::arguments::Arguments;
use crate::check::check;
use crate::families::{self, Family};
use crate::report::Report;

/// Interval of the progress lines.
const BEAT: Duration = Duration::from_secs(5);

/// Number of inputs that a thread takes at once.
const SHARE: u64 = 32;

pub fn run(arguments: &Arguments, report: &Report) {
    let now = Mutex::new("");
    let (ended, end) = channel::<()>();
    thread::scope(|scope| {
        scope.spawn(|| beat(report, &now, end));
        for family in families::all(arguments) {
            *now.lock().expect("no panic while held") = family.name;
            let before = report.cases();
            share(arguments, report, &family);
            let cases = report.cases() - before;
            report.print(&format!("{}: {cases} cases", family.name));
        }
        drop(ended);
    });
}

/// Prints the progress until the sender is dropped.
fn beat(report: &Report, now: &Mutex<&str>, end: Receiver<()>) {
    while end.recv_timeout(BEAT) == Err(RecvTimeoutError::Timeout) {
        report.progress(&now.lock().expect("no panic while held"));
    }
}

/// Tries all inputs of a family; random ones until there are enough cases.
fn share(arguments: &Arguments, report: &Report, family: &Family) {
    let next = AtomicU64::new(0);
    let work = || loop {
        let from = next.fetch_add(SHARE, Ordering::Relaxed);
        let enough = family.inputs.is_none() && report.cases() >= arguments.cases;
        let end = family.inputs.unwrap_or(u64::MAX);
        if from >= end || enough {
            break;
        }
        for number in from..end.min(from + SHARE) {
            let (input, calls) = (family.make)(number);
            let origin = || format!("{} number {number}, seed {}", family.name, arguments.seed);
            for &call in calls {
                check(call, &input, &origin, report);
            }
        }
    };
    thread::scope(|scope| {
        for _ in 0..arguments.threads {
            scope.spawn(work);
        }
    });
}
