//! Work on many seeds, on all processors.

use std::panic::resume_unwind;
use std::thread;

/// Gives every processor its part of the seeds below the limit, and the parts'
/// results.
pub fn on_all_processors<Part: Send>(
    seeds: u64,
    work: impl Fn(&mut dyn Iterator<Item = u64>) -> Part + Sync,
) -> Vec<Part> {
    let workers = thread::available_parallelism().map_or(1, usize::from);
    thread::scope(|scope| {
        let work = &work;
        let start = |first: usize| {
            let mut part = (first as u64..seeds).step_by(workers);
            scope.spawn(move || work(&mut part))
        };
        let handles: Vec<_> = (0..workers).map(start).collect();
        let join = |handle: thread::ScopedJoinHandle<'_, Part>| handle.join();
        let results = handles.into_iter().map(join);
        results
            .map(|part| part.unwrap_or_else(|cause| resume_unwind(cause)))
            .collect()
    })
}
