// The same atomic operations as the program `speed` makes on the shared table, in plain Rust over a row of words: what its time is
// compared with. Both add up what they find, and print the same line.
//
// Each word stands at a place that is known when this is built, and the row's pointer stays at hand. Built with `--cfg table` it is a table for
// any sizes that threads may share: a step reads where the row is and where the group of its word begins.
use std::hint::black_box;
use std::sync::atomic::AtomicU64;
use std::sync::atomic::Ordering::SeqCst;

// How many runners announce and guard, the keeper among them; the number of the first descriptor among all slots, and how many words it has.
const RUNNERS: usize = 3;
const SLOT: usize = 10;
const DESCRIPTOR: usize = 21;
const WORDS: usize = 532;

struct Words {
    words: &'static [AtomicU64],
    entries: usize,
    cells: usize,
    descriptors: usize,
    node_slots: usize,
}

impl Words {
    fn epoch(&self) -> &AtomicU64 {
        &self.words[1]
    }

    fn announcement(&self, runner: usize) -> &AtomicU64 {
        &self.words[3 + runner]
    }

    fn guard(&self, runner: usize) -> &AtomicU64 {
        &self.words[3 + RUNNERS + runner]
    }

    fn stamp(&self, request: usize) -> &AtomicU64 {
        &self.words[self.entries + 2 * request]
    }

    fn cell(&self, place: usize) -> &AtomicU64 {
        &self.words[self.cells + place]
    }

    fn own(&self, slot: usize, word: usize) -> &AtomicU64 {
        &self.words[self.descriptors + DESCRIPTOR * (slot - self.node_slots) + word]
    }

    // An entry and its end: the epoch of the entry.
    fn enter(&self) -> u64 {
        let loaded = self.epoch().load(SeqCst);
        self.announcement(0).store(loaded, SeqCst);
        let epoch = self.epoch().load(SeqCst);
        self.guard(0).store(0, SeqCst);
        self.announcement(0).store(0, SeqCst);
        epoch
    }

    // A scan: whether the epoch went on.
    fn scan(&self) -> bool {
        let epoch = self.epoch().load(SeqCst);
        let mut clear = true;
        for runner in 0..RUNNERS {
            let found = self.announcement(runner).load(SeqCst);
            clear = clear && (found == 0 || found == epoch);
        }
        clear && epoch < 1 << 62 && self.epoch().compare_exchange(epoch, epoch + 1, SeqCst, SeqCst).is_ok()
    }

    // How many words of a descriptor aren't this number.
    fn others(&self, number: u64) -> u64 {
        (0..DESCRIPTOR).map(|word| u64::from(self.own(SLOT, word).load(SeqCst) != number)).sum()
    }

    fn store(&self, number: u64) -> u64 {
        self.own(SLOT, 13).store(number, SeqCst);
        number
    }
}

fn sum_of(rounds: u32, round: impl Fn(u32) -> u64) -> u64 {
    let mut sum = 0_u64;
    for number in 0..rounds {
        sum = sum.wrapping_add(round(number));
    }
    sum
}

// The words of a table of the test structure with two workers.
fn words() -> Words {
    let words: Vec<AtomicU64> = (0..WORDS).map(|_| AtomicU64::new(0)).collect();
    let words = Words { words: black_box(words.leak()), entries: 9, cells: 11, descriptors: 64, node_slots: SLOT };
    words.epoch().store(1, SeqCst);
    words.cell(1).store(1 << 32, SeqCst);
    words
}

fn main() {
    let mut args = std::env::args().skip(1);
    let kind = args.next().expect("a kind of step");
    let rounds: u32 = args.next().expect("a number of rounds").parse().expect("a number");
    let words = words();
    let words = if cfg!(table) { black_box(&words) } else { &words };
    let (steps, sum) = match kind.as_str() {
        "load_entry" => (1, sum_of(rounds, |_| words.stamp(0).load(SeqCst))),
        "load_cell" => (1, sum_of(rounds, |_| words.cell(1).load(SeqCst))),
        "private_load" => (1, sum_of(rounds, |_| words.own(SLOT, 13).load(SeqCst))),
        "private_store" => (1, sum_of(rounds, |round| words.store(u64::from(round)))),
        "descriptor" => (DESCRIPTOR, sum_of(rounds, |round| words.others(u64::from(round)))),
        "enter" => (5, sum_of(rounds, |_| words.enter())),
        "scan" => (5, sum_of(rounds, |_| u64::from(words.scan()))),
        _ => panic!("no kind of step has this name"),
    };
    println!("{kind}: {rounds} rounds of {steps} steps, sum {sum}");
}
