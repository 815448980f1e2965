//! Signs of life of a step that takes its time.

use crate::shown;
use std::io::{self, Write};
use std::sync::atomic::{AtomicUsize, Ordering};
use std::sync::mpsc::{channel, RecvTimeoutError};
use std::thread;
use std::time::{Duration, Instant};

/// How long a step is waited for in silence, and then from line to line.
const FIRST: Duration = Duration::from_secs(1);
const NEXT: Duration = Duration::from_secs(10);

/// Does a step. Where it takes longer than a second, a line on standard error says what is being done, and after every
/// ten seconds one more.
pub fn step<T>(doing: impl Fn() -> String + Send + Sync, work: impl FnOnce() -> T) -> T {
    let (working, ended) = channel::<()>();
    let start = Instant::now();
    let watch = move || {
        let mut wait = FIRST;
        while ended.recv_timeout(wait) == Err(RecvTimeoutError::Timeout) {
            let _ = writeln!(io::stderr(), "desk: {}, {} s so far", doing(), start.elapsed().as_secs());
            wait = NEXT;
        }
    };
    thread::scope(|scope| {
        // Without a thread to spare the step is done in silence.
        let _ = thread::Builder::new().spawn_scoped(scope, watch);
        let answer = work();
        drop(working);
        answer
    })
}

/// Prints one after another, such as points, and says how many of them so far.
pub fn printing<W: Write, T>(
    out: &mut W,
    what: &str,
    all: impl ExactSizeIterator<Item = T>,
    print: impl Fn(&mut W, T) -> io::Result<()>,
) -> io::Result<()> {
    let (printed, count) = (AtomicUsize::new(0), shown::many(all.len(), what));
    let print_all = || {
        for one in all {
            print(out, one)?;
            printed.fetch_add(1, Ordering::Relaxed);
        }
        out.flush()
    };
    step(|| format!("printing, {} of {count}", shown::count(printed.load(Ordering::Relaxed) as u64)), print_all)
}
