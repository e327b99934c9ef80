//! The same work on each of many things, on all processors.

use std::thread;

/// What the work gives for each, in their order. Threads take turns, since the
/// heavy cases stand together.
pub fn each_of<T: Sync, R: Send>(list: &[T], work: impl Fn(&T) -> R + Sync) -> Vec<R> {
    let threads = thread::available_parallelism().map_or(1, |count| count.get());
    let work = &work;
    let mut parts: Vec<_> = thread::scope(|scope| {
        let part = |first: usize| list.iter().skip(first).step_by(threads).map(work).collect();
        let started: Vec<_> =
            (0..threads).map(|first| scope.spawn(move || -> Vec<R> { part(first) })).collect();
        let ended = started.into_iter().map(|thread| thread.join().expect("a thread that works"));
        ended.map(Vec::into_iter).collect()
    });
    (0..list.len()).map(|at| parts[at % threads].next().expect("a result for each")).collect()
}
