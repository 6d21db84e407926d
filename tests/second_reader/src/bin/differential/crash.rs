//! Names the case at hand where a call of the archive ends this process by a signal.

use std::io::Write;
use std::sync::atomic::{AtomicU64, Ordering};
use std::sync::Mutex;

const SIGNALS: [i32; 5] = [4, 6, 7, 8, 11]; // ILL, ABRT, BUS, FPE, SEGV
const ENUMERATED: u64 = u64::MAX;

static SECTION: Mutex<&str> = Mutex::new("");
static SEED: AtomicU64 = AtomicU64::new(0);
static NUMBER: AtomicU64 = AtomicU64::new(ENUMERATED);

extern "C" {
    fn signal(number: i32, handler: extern "C" fn(i32)) -> usize;
    fn _exit(status: i32) -> !;
}

/// Prints the case and ends; nothing else is safe to do after such a signal.
extern "C" fn crashed(number: i32) {
    let case = NUMBER.load(Ordering::Relaxed);
    let section = SECTION.try_lock().map(|name| *name).unwrap_or("");
    let mut out = std::io::stderr();
    let _ = match case {
        ENUMERATED => writeln!(out, "{section}: signal {number} in an enumerated case"),
        _ => writeln!(
            out,
            "{section}: signal {number}; repeat it with --only {section} --seed {} --from {case} --cases 1",
            SEED.load(Ordering::Relaxed)
        ),
    };
    // SAFETY: ends the process without running anything more in it.
    unsafe { _exit(1) }
}

pub fn watch(seed: u64) {
    SEED.store(seed, Ordering::Relaxed);
    for number in SIGNALS {
        // SAFETY: the handler only prints and ends the process.
        unsafe { signal(number, crashed) };
    }
}

/// Says which case comes next; `None` for the enumerated ones.
pub fn enter(section: &'static str, number: Option<u64>) {
    *SECTION.lock().unwrap() = section;
    NUMBER.store(number.unwrap_or(ENUMERATED), Ordering::Relaxed);
}
