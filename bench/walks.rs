//! A plain chain of nodes over atomic words, walked to its last node: what a walk costs at least.
//!
//! Usage: walks LENGTH ROUNDS. A node is five words, as on the shared table; its first two are the key and the link to the next node. Each
//! load is sequentially consistent.
use std::sync::atomic::{AtomicU64, Ordering::SeqCst};

const NODE: usize = 5;

/// A chain of so many nodes, whose keys are 1, 2 and so on; a link is the node's number plus 1, and 0 at the end.
fn chain(length: usize) -> Vec<AtomicU64> {
    (0..length * NODE)
        .map(|at| match (at / NODE, at % NODE) {
            (node, 0) => node as u64 + 1,
            (node, 1) if node + 1 < length => node as u64 + 2,
            _ => 0,
        })
        .map(AtomicU64::new)
        .collect()
}

/// The number of the node that has this key, and 0 where none has it.
#[inline(never)]
fn find(words: &[AtomicU64], head: &AtomicU64, key: u64) -> u64 {
    let mut link = head.load(SeqCst);
    while link != 0 {
        let node = (link as usize - 1) * NODE;
        if words[node].load(SeqCst) == key {
            return link;
        }
        link = words[node + 1].load(SeqCst);
    }
    0
}

fn main() {
    let mut numbers = std::env::args().skip(1).map(|word| word.parse::<usize>().expect("a number"));
    let (Some(length), Some(rounds)) = (numbers.next(), numbers.next()) else {
        eprintln!("walks LENGTH ROUNDS");
        std::process::exit(2);
    };
    let words = chain(length);
    let head = AtomicU64::new(1);
    let sum: u64 = (0..rounds).map(|_| find(&words, &head, length as u64)).sum();
    println!("{sum}");
}
