//! Does the parts of a run on some threads. What a part does must not depend on the thread.

use std::sync::Mutex;
use std::sync::atomic::{AtomicBool, AtomicUsize, Ordering};
use std::thread;
use std::time::Instant;

const THREADS: usize = 2;

/// A difference, with all that is needed to see it again.
pub struct Difference(pub String);

/// What a judge counted.
pub trait Tally: Default + Send {
    fn add(&mut self, more: &Self);
    fn print(&self);
}

/// Adds each count to its sum.
pub fn add_counts(sums: &mut [u64], more: &[u64]) {
    for (sum, n) in sums.iter_mut().zip(more) {
        *sum += n;
    }
}

/// Does the parts; prints what the judges counted, and the seconds.
pub fn compare<Part: Sync, Judge, Sum: Tally>(
    parts: &[Part],
    new_judge: impl Fn() -> Judge + Sync,
    run_part: impl Fn(&Part, &mut Judge) -> Result<(), Difference> + Sync,
    tally: impl Fn(Judge) -> Sum + Sync,
) -> Result<Sum, String> {
    let (sum, seconds) = run(parts, new_judge, run_part, tally)
        .map_err(|Difference(text)| format!("DIFFERENCE\n{text}"))?;
    sum.print();
    println!("{seconds:.0} seconds");
    Ok(sum)
}

/// Does the parts in their order, each with the judge of its thread, until one has a difference.
/// Gives the sum of what the judges counted, and the seconds.
pub fn run<Part: Sync, Judge, Sum: Tally, Difference: Send>(
    parts: &[Part],
    new_judge: impl Fn() -> Judge + Sync,
    run_part: impl Fn(&Part, &mut Judge) -> Result<(), Difference> + Sync,
    tally: impl Fn(Judge) -> Sum + Sync,
) -> Result<(Sum, f64), Difference> {
    let start = Instant::now();
    let next = AtomicUsize::new(0);
    let stop = AtomicBool::new(false);
    let first = Mutex::new(None);
    let thread = || {
        let mut judge = new_judge();
        while !stop.load(Ordering::Relaxed)
            && let Some(part) = parts.get(next.fetch_add(1, Ordering::Relaxed))
        {
            if let Err(difference) = run_part(part, &mut judge) {
                stop.store(true, Ordering::Relaxed);
                first
                    .lock()
                    .expect("no thread panics")
                    .get_or_insert(difference);
            }
        }
        tally(judge)
    };
    let mut sum = Sum::default();
    thread::scope(|scope| {
        let handles: Vec<_> = (0..THREADS).map(|_| scope.spawn(thread)).collect();
        for handle in handles {
            sum.add(&handle.join().expect("no panic"));
        }
    });
    match first.into_inner().expect("no thread panics") {
        Some(difference) => Err(difference),
        None => Ok((sum, start.elapsed().as_secs_f64())),
    }
}
