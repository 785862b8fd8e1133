//! Prints one line for each example, and the totals.

use std::fmt::Debug;
use std::process::ExitCode;

#[derive(Default)]
pub struct Report {
    passed: u32,
    failed: u32,
}

impl Report {
    /// Compares the oracle's answer with the expected one.
    pub fn same<T: Debug + PartialEq>(&mut self, name: &str, expected: T, got: T) {
        if expected == got {
            self.passed += 1;
            println!("ok {name}");
        } else {
            self.failed += 1;
            println!("FAILED {name}: expected {expected:?} got {got:?}");
        }
    }

    pub fn finish(&self) -> ExitCode {
        println!("{} passed, {} failed", self.passed, self.failed);
        if self.failed == 0 { ExitCode::SUCCESS } else { ExitCode::FAILURE }
    }
}
