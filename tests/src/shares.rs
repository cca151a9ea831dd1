//! The comparison in shares that know nothing of each other, on as many threads as there are cores.

use crate::random::Random;
use std::sync::atomic::{AtomicUsize, Ordering};
use std::sync::Mutex;
use std::thread;

/// Compares with the second implementation, up to the first difference.
pub type Share = Box<dyn Fn(&mut Random) -> Result<Agreement, String> + Send + Sync>;

/// How many answers of a share agree, and what is to be printed of them.
pub struct Agreement {
    pub answers: usize,
    pub text: String,
}

/// Runs all shares, each with random words of its own; after a difference no other is begun. Hands
/// back what the first that differs says, or all in their order.
pub fn run(shares: &[&Share], random: &mut Random) -> Result<Vec<Agreement>, String> {
    let seeds: Vec<u64> = shares.iter().map(|_| random.word()).collect();
    let next = AtomicUsize::new(0);
    let ended = Mutex::new(vec![]);
    let work = || loop {
        let index = next.fetch_add(1, Ordering::Relaxed);
        let Some(share) = shares.get(index) else { break };
        let result = share(&mut Random::new(seeds[index]));
        if result.is_err() {
            next.store(shares.len(), Ordering::Relaxed);
        }
        ended.lock().unwrap().push((index, result));
    };
    thread::scope(|scope| {
        let threads = thread::available_parallelism().map_or(1, usize::from);
        (0..threads).for_each(|_| drop(scope.spawn(work)));
    });
    let mut ended = ended.into_inner().unwrap();
    ended.sort_by_key(|(index, _)| *index);
    ended.into_iter().map(|(_, result)| result).collect()
}
