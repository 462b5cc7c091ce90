//! Ends the comparison when one case takes too long (a call that never
//! comes back would otherwise look like slow progress).

use std::process::exit;
use std::sync::atomic::{AtomicU64, Ordering};
use std::thread::{sleep, spawn};
use std::time::Duration;

static CASES: AtomicU64 = AtomicU64::new(0);
const SECONDS: u64 = 60;

/// Notes that another case has begun.
pub fn alive() {
    CASES.fetch_add(1, Ordering::Relaxed);
}

/// Watches from now on.
pub fn start(hint: String) {
    spawn(move || loop {
        let before = CASES.load(Ordering::Relaxed);
        sleep(Duration::from_secs(SECONDS));
        if CASES.load(Ordering::Relaxed) == before {
            println!("STUCK: one case for {SECONDS} seconds; {hint}");
            exit(1);
        }
    });
}
