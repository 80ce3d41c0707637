//! Work in chunks, which threads take one after the other.

use std::sync::atomic::{AtomicUsize, Ordering};
use std::thread;

/// What each thread counted. `work` does the chunk with that number and adds it to its thread's count; a thread's chunks rise.
pub fn counted<C: Default + Send>(threads: usize, chunks: usize, work: impl Fn(usize, &mut C) + Sync) -> Vec<C> {
    let next = AtomicUsize::new(0);
    let count = || {
        let mut counts = C::default();
        loop {
            let chunk = next.fetch_add(1, Ordering::Relaxed);
            if chunk >= chunks {
                return counts;
            }
            work(chunk, &mut counts);
        }
    };
    thread::scope(|scope| {
        let workers: Vec<_> = (0..threads).map(|_| scope.spawn(count)).collect();
        workers.into_iter().map(|worker| worker.join().expect("a thread ended early")).collect()
    })
}
