//! `btree_rows WORK FEW MANY TIMES`: the works `fills`, `creates` and `doubles` of `store_bench`, in plain
//! Rust with `std::collections::BTreeMap` in place of an index. It prints the nanoseconds of processor time
//! that the creates took on few rows and on many. Linux on x86-64, for the clock of the thread's
//! processor time.
use std::collections::btree_map::Entry;
use std::collections::BTreeMap;
use std::sync::Arc;

/// What a small document takes.
type Document = [u64; 8];

/// How many creates are made ready at a time, and then timed.
const LOT: usize = 100;

#[derive(Default)]
struct Table {
    rows: BTreeMap<String, (u64, Arc<Document>)>,
    next: u64,
}

impl Table {
    fn create(&mut self, raw: String, document: Arc<Document>) -> bool {
        match self.rows.entry(raw) {
            Entry::Occupied(_) => false,
            Entry::Vacant(row) => {
                row.insert((self.next, document));
                self.next += 1;
                true
            }
        }
    }

    fn filled(order: u64, rows: usize) -> Table {
        let mut table = Table::default();
        for place in 0..rows {
            let (raw, document) = create_at(order, place);
            assert!(table.create(raw, document));
        }
        table
    }

    /// Does a lot of creates from a place of a random order on, and tells the time that they took.
    fn create_lot(&mut self, order: u64, place: usize) -> u64 {
        let creates: Vec<_> = (place..place + LOT).map(|at| create_at(order, at)).collect();
        let start = spent();
        for (raw, document) in creates {
            assert!(self.create(raw, document));
        }
        spent() - start
    }
}

/// A table that has `first` rows, grows by creates to `last`, and then begins anew in another order.
struct Growing {
    table: Table,
    order: u64,
    rows: usize,
    first: usize,
    last: usize,
}

impl Growing {
    fn new(order: u64, first: usize, last: usize) -> Growing {
        Growing {
            table: Table::filled(order, first),
            order,
            rows: first,
            first,
            last,
        }
    }

    /// Does ten lots of creates, and tells the time that they took.
    fn grow(&mut self) -> u64 {
        let mut took = 0;
        for _ in 0..10 {
            if self.rows >= self.last {
                self.order += 2;
                self.table = Table::filled(self.order, self.first);
                self.rows = self.first;
            }
            took += self.table.create_lot(self.order, self.rows);
            self.rows += LOT;
        }
        took
    }
}

/// The raw id at this place of a random order, by the generator SplitMix64.
fn raw_at(order: u64, place: usize) -> String {
    let place = (order << 32 | place as u64).wrapping_mul(0x9e37_79b9_7f4a_7c15);
    let once = (place ^ place >> 30).wrapping_mul(0xbf58_476d_1ce4_e5b9);
    let twice = (once ^ once >> 27).wrapping_mul(0x94d0_49bb_1331_11eb);
    format!("t:{:016x}", twice ^ twice >> 31)
}

fn create_at(order: u64, place: usize) -> (String, Arc<Document>) {
    (raw_at(order, place), Arc::new([0; 8]))
}

/// The processor time of this thread, in nanoseconds.
fn spent() -> u64 {
    unsafe extern "C" {
        fn clock_gettime(clock: i32, time: *mut [i64; 2]) -> i32;
    }
    const THREAD_CPUTIME: i32 = 3;
    let mut time = [0; 2];
    let refused = unsafe { clock_gettime(THREAD_CPUTIME, &mut time) };
    assert_eq!(refused, 0, "no clock");
    (time[0] * 1_000_000_000 + time[1]) as u64
}

fn main() {
    let words: Vec<String> = std::env::args().skip(1).collect();
    let [work, few, many, times] = &words[..] else {
        panic!("the words are WORK FEW MANY TIMES")
    };
    let number = |word: &String| word.parse::<usize>().expect("a number");
    let (few, many, times) = (number(few), number(many), number(times));
    let growing = |order: u64, rows: usize| match work.as_str() {
        "fills" => Growing::new(order, 0, rows),
        "creates" => Growing::new(order, rows, rows + rows / 10),
        "doubles" => Growing::new(order, rows, 2 * rows),
        _ => panic!("the works are fills, creates and doubles"),
    };
    let (mut short, mut long) = (growing(0, few), growing(1, many));
    let mut took = (0, 0);
    for _ in 0..times / (10 * LOT) {
        took.1 += long.grow();
        took.0 += short.grow();
    }
    eprintln!("{} {}", took.0, took.1);
}
