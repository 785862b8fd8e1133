//! An answer of the Rust, or its panic.

use std::any::Any;
use std::cell::Cell;
use std::panic::{self, AssertUnwindSafe};
use std::sync::Once;

/// What the Rust did: returned a value, or panicked with a message.
#[derive(Debug, Clone, PartialEq, Eq)]
pub enum Outcome<T> {
    Value(T),
    Panicked(String),
}

impl<T> Outcome<T> {
    /// Applies `f` to the value; a panic stays.
    pub fn map<U>(self, f: impl FnOnce(T) -> U) -> Outcome<U> {
        match self {
            Self::Value(value) => Outcome::Value(f(value)),
            Self::Panicked(message) => Outcome::Panicked(message),
        }
    }

    /// Returns the outcome of `f` on the value; a panic stays.
    pub fn and_then<U>(self, f: impl FnOnce(T) -> Outcome<U>) -> Outcome<U> {
        match self {
            Self::Value(value) => f(value),
            Self::Panicked(message) => Outcome::Panicked(message),
        }
    }
}

thread_local! {
    /// Whether this thread is running the Rust.
    static ASKING: Cell<bool> = const { Cell::new(false) };
}

/// Runs `question` and catches its panic.
pub fn ask<T>(question: impl FnOnce() -> T) -> Outcome<T> {
    silence_while_asking();
    let before = ASKING.replace(true);
    let answer = panic::catch_unwind(AssertUnwindSafe(question));
    ASKING.set(before);
    match answer {
        Ok(value) => Outcome::Value(value),
        Err(payload) => Outcome::Panicked(message(payload.as_ref())),
    }
}

/// Installs a panic hook that prints nothing for a caught panic; any other prints as usual.
fn silence_while_asking() {
    static HOOK: Once = Once::new();
    HOOK.call_once(|| {
        let usual = panic::take_hook();
        panic::set_hook(Box::new(move |info| {
            if !ASKING.get() {
                usual(info);
            }
        }));
    });
}

fn message(payload: &(dyn Any + Send)) -> String {
    if let Some(text) = payload.downcast_ref::<&str>() {
        (*text).to_owned()
    } else if let Some(text) = payload.downcast_ref::<String>() {
        text.clone()
    } else {
        "a panic without a message".to_owned()
    }
}
