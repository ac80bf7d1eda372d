// The same atomic steps as the program `speed` makes, in plain Rust over a row of words: what its time is compared with. Both add up the replies,
// and print the same line.
//
// It is a table for any sizes that threads may share, as the shared table is: a step reads where the row is and where the group of its word begins. What
// a run has loaded and agreed on it keeps in a trail, and by that it goes on, as the proved run does.
use std::hint::black_box;
use std::sync::atomic::AtomicU64;
use std::sync::atomic::Ordering::SeqCst;

const DESCRIPTOR: usize = 21;
const BLOCK: usize = 8;
const DONE: usize = 12;
const LOG: usize = 13;
const SECTIONS: usize = 8;
// The worker's and the keeper's.
const BLOCKS: usize = 8 * SECTIONS + 16;
const REQUESTS: usize = 8;
const NUMBER: u64 = 7;
const REPLY: u64 = 1 << 32;

fn value(word: u64) -> u64 {
    word & 0xffff_ffff
}

fn version(word: u64) -> u64 {
    word >> 32
}

fn pack(value: u64, version: u64) -> u64 {
    version << 32 | value
}

struct Table {
    words: Vec<AtomicU64>,
    entries: usize,
    cells: usize,
    descriptors: usize,
    version_max: u64,
}

struct Thunk {
    form: u64,
    request: u64,
    lock: u64,
    word: u64,
    operands: [u64; 8],
}

struct Worker {
    number: usize,
    free: Vec<usize>,
    limbo: Vec<usize>,
    steps: u64,
}

impl Table {
    // One worker and the keeper, with an announcement and a guard word each, 20 cells, the descriptors, and the blocks.
    fn new() -> Table {
        let (entries, cells) = (7, 7 + 2 * REQUESTS);
        let descriptors = cells + 43;
        let words: Vec<AtomicU64> = (0..descriptors + DESCRIPTOR * SECTIONS + BLOCK * BLOCKS).map(|_| AtomicU64::new(0)).collect();
        words[1].store(1, SeqCst);
        for cell in cells..descriptors {
            words[cell].store(1 << 32, SeqCst);
        }
        Table { words, entries, cells, descriptors, version_max: 0xffff_ffff }
    }

    fn exchange(&self, at: usize, old: u64, new: u64) -> u64 {
        match self.words[at].compare_exchange(old, new, SeqCst, SeqCst) {
            Ok(found) | Err(found) => found,
        }
    }

    fn load(&self, at: usize) -> u64 {
        self.words[at].load(SeqCst)
    }

    // Three steps.
    fn enter(&self, worker: &Worker) {
        let epoch = self.load(1);
        self.words[3 + worker.number].store(epoch, SeqCst);
        black_box(self.load(1));
    }

    // The words of a free descriptor become the thunk's, no done and an empty log; then the own guard word names it, and
    // one exchange of the lock.
    fn publish(&self, worker: &mut Worker, thunk: &Thunk) -> Option<(usize, u64)> {
        let descriptor = *worker.free.last()?;
        let at = self.descriptors + DESCRIPTOR * descriptor;
        let o = &thunk.operands;
        let words = [thunk.form, thunk.request, thunk.lock, thunk.word, o[0], o[1], o[2], o[3], o[4], o[5], o[6], o[7]];
        for (index, word) in words.into_iter().enumerate() {
            if self.load(at + index) != word {
                self.words[at + index].store(word, SeqCst);
            }
        }
        for index in DONE..DESCRIPTOR {
            if self.load(at + index) != 0 {
                self.words[at + index].store(0, SeqCst);
            }
        }
        self.words[5 + worker.number].store(descriptor as u64 + 1, SeqCst);
        let held = pack(descriptor as u64 + 1, version(thunk.word) + 1);
        let found = self.exchange(self.cells + thunk.lock as usize, thunk.word, held);
        if found != thunk.word {
            return None;
        }
        worker.free.pop();
        Some((descriptor, held))
    }

    // Twenty-two steps: the opening, the body's and the end.
    fn run(&self, worker: &mut Worker, descriptor: usize) -> u64 {
        let at = self.descriptors + DESCRIPTOR * descriptor;
        let mut opened = [0; 13];
        for (index, word) in opened.iter_mut().enumerate() {
            *word = self.load(at + index);
            worker.steps += 1;
        }
        let thunk = Thunk {
            form: opened[0],
            request: opened[1],
            lock: opened[2],
            word: opened[3],
            operands: opened[4..12].try_into().expect("eight operands"),
        };
        let mut trail = ([0_u64; 64], 0_usize);
        assert!(thunk.form == 101);
        let agreed = self.load(self.cells + 1);
        let found = self.exchange(at + LOG + trail.1, 0, agreed);
        trail.0[trail.1] = if found == 0 { agreed } else { found };
        trail.1 += 1;
        let read = trail.0[0];
        if version(read) != self.version_max {
            let clock = self.load(2);
            let entry = self.entries + 2 * thunk.request as usize;
            let found = self.exchange(entry, 0, 2 * (clock + 1));
            let stamp = if found == 0 { 2 * (clock + 1) } else { found };
            self.words[2].fetch_max(stamp / 2, SeqCst);
            self.exchange(self.cells + 1, read, pack(value(thunk.operands[0]), version(read) + 1));
            self.exchange(entry + 1, 0, REPLY);
            worker.steps += 7;
        }
        self.exchange(at + DONE, 0, 1);
        let held = pack(descriptor as u64 + 1, version(thunk.word) + 1);
        self.exchange(self.cells + thunk.lock as usize, held, pack(0, version(held) + 1));
        worker.steps += 2;
        REPLY
    }

    // One step each: the guard is let go, and the end of the entry.
    fn leave(&self, worker: &mut Worker, descriptor: usize) {
        worker.limbo.push(descriptor);
        self.words[5 + worker.number].store(0, SeqCst);
        self.words[3 + worker.number].store(0, SeqCst);
    }

    fn serve(&self, worker: &mut Worker, request: u64) -> Option<u64> {
        self.enter(worker);
        let word = self.load(self.cells);
        if value(word) != 0 || version(word) > self.version_max - 2 {
            return None;
        }
        let thunk = Thunk { form: 101, request, lock: 0, word, operands: [NUMBER, 0, 0, 0, 0, 0, 0, 0] };
        let (descriptor, _) = self.publish(worker, &thunk)?;
        let reply = self.run(worker, descriptor);
        self.leave(worker, descriptor);
        Some(reply)
    }
}

#[inline(never)]
fn serve_all(table: &Table, worker: &mut Worker, count: u64) -> u64 {
    (0..count).filter_map(|request| table.serve(worker, request)).fold(0, u64::wrapping_add)
}

fn main() {
    let mut args = std::env::args().skip(1).map(|word| word.parse::<u64>().expect("a number"));
    let (Some(each), Some(tables)) = (args.next(), args.next()) else {
        panic!("how many sections on a table, at most 8, and how many tables");
    };
    let mut sum = 0_u64;
    for _ in 0..tables {
        let table = Table::new();
        let mut worker = Worker { number: 0, free: (0..SECTIONS).rev().collect(), limbo: Vec::with_capacity(SECTIONS), steps: 0 };
        sum = sum.wrapping_add(serve_all(black_box(&table), black_box(&mut worker), each.min(8)));
        black_box(worker.steps);
    }
    println!("{tables} tables with {each} sections, sum {sum}");
}
