//! Many cases on several threads; which case comes next depends on no thread.

use std::sync::atomic::{AtomicU64, Ordering};
use std::thread;

use crate::{Checker, Difference, Loader, Tally};

/// So many cases are taken at a time.
const STRIDE: u64 = 32;

/// After so many cases, a multiple of the former, a line says how far the run is.
const TOLD: u64 = 100_000;

/// One in so many cases comes with a renumbered pair.
const PAIR_EVERY: u64 = 4;

/// Which cases of which seed.
#[derive(Clone, Copy, Debug)]
pub struct Plan {
    pub seed: u64,
    pub from: u64,
    pub cases: u64,
    pub jobs: usize,
    /// Cases with a host list of more blocks are left out.
    pub host_blocks: u64,
}

/// Where a run stands.
struct Progress {
    next: AtomicU64,
    /// The lowest case that differs, so far.
    differs: AtomicU64,
}

/// Runs the cases; the first that differs, whatever the threads, is what is found.
pub fn run<L: Loader>(loader: &L, plan: &Plan) -> Result<Tally, Box<Difference>> {
    let progress = Progress {
        next: AtomicU64::new(plan.from),
        differs: AtomicU64::new(u64::MAX),
    };
    let parts: Vec<_> = thread::scope(|scope| {
        let spawn = |_| scope.spawn(|| work(loader, plan, &progress));
        let workers: Vec<_> = (0..plan.jobs.max(1)).map(spawn).collect();
        let join = |worker: thread::ScopedJoinHandle<'_, _>| worker.join().expect("no panic");
        workers.into_iter().map(join).collect()
    });
    let mut tally = Tally::default();
    let mut first: Option<Box<Difference>> = None;
    for part in parts {
        match part {
            Ok(part) => tally.merge(&part),
            Err(found) if first.as_ref().is_none_or(|f| found.index < f.index) => {
                first = Some(found);
            }
            Err(_) => {}
        }
    }
    first.map_or(Ok(tally), Err)
}

/// Takes cases until none is left below the lowest that differs.
fn work<L: Loader>(loader: &L, plan: &Plan, progress: &Progress) -> Result<Tally, Box<Difference>> {
    let mut checker = Checker::new(loader);
    let end = plan.from.saturating_add(plan.cases);
    loop {
        let start = progress.next.fetch_add(STRIDE, Ordering::Relaxed);
        let taken = start - plan.from;
        if taken > 0 && taken.is_multiple_of(TOLD) && start < end {
            eprintln!("versus: {taken} cases taken");
        }
        for index in start..start.saturating_add(STRIDE).min(end) {
            if index > progress.differs.load(Ordering::Relaxed) {
                return Ok(checker.tally);
            }
            if let Err(found) = one(&mut checker, plan, index) {
                progress.differs.fetch_min(index, Ordering::Relaxed);
                return Err(Box::new(found));
            }
        }
        if start >= end {
            return Ok(checker.tally);
        }
    }
}

fn one<L: Loader>(checker: &mut Checker<'_, L>, plan: &Plan, index: u64) -> Result<(), Difference> {
    checker.case(plan.seed, index, plan.host_blocks)?;
    if index.is_multiple_of(PAIR_EVERY) {
        checker.pair(plan.seed, index)?;
    }
    Ok(())
}
