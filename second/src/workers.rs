//! Numbered work that several threads share.

use crate::progress::Progress;
use std::io;

const WORKERS: u64 = 2;

/// Does the work for the numbers below `count`, and returns what each worker
/// has found. How far it has come is said by this name.
pub fn share<T: Default + Send>(
    name: &str,
    count: u64,
    work: impl Fn(u64, &mut T) -> io::Result<()> + Sync,
) -> io::Result<Vec<T>> {
    let progress = Progress::new(name, count);
    let part = |first: u64| {
        let mut found = T::default();
        for number in (first..count).step_by(WORKERS as usize) {
            work(number, &mut found)?;
            progress.step();
        }
        Ok(found)
    };
    std::thread::scope(|scope| {
        let part = &part;
        let start = |first| scope.spawn(move || part(first));
        let workers: Vec<_> = (0..WORKERS).map(start).collect();
        let join = |worker: std::thread::ScopedJoinHandle<io::Result<T>>| {
            worker.join().expect("a worker panicked")
        };
        workers.into_iter().map(join).collect()
    })
}
