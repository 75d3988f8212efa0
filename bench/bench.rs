// Time a message of judging and taking batches: the compiled library beside the independent implementation of the tests, on the
// same batches in one run. The independent one stands twice, with a checksum of one table byte a step and of sixteen.
//   bench [ROUNDS]
#[path = "../tests/feed.rs"]
mod feed;
#[path = "../tests/library.rs"]
mod library;
#[path = "../tests/random.rs"]
mod random;
#[path = "../tests/reference.rs"]
mod reference;

use feed::Book;
use library::Lists;
use random::Random;
use reference::{Form, Sum, GAP_ROW, RECORD, SPREAD_RECORD};
use std::ptr;
use std::time::Instant;

const LETTER: u8 = b'D';
const FUTURES: u8 = b'F';
const MESSAGES: usize = 1_536; // of a feed; a mix has some more
const BATCH: usize = 64; // messages in a batch of the table

type Answered = (u32, [u64; 4]);

#[derive(Clone, Copy)]
enum Box {
    Ours,
    Independent(Sum),
}

// So many bytes before the library's functions, from the start of a cache line on; `bench/run` says why.
std::arch::global_asm!(
    ".pushsection .text.shift, \"ax\", @progbits",
    ".p2align 6",
    ".globl bench_shift",
    "bench_shift:",
    concat!(".skip ", env!("SHIFT")),
    "ret",
    ".popsection"
);

extern "C" {
    fn bench_shift();
}

#[used]
static SHIFT: unsafe extern "C" fn() = bench_shift;

const BOXES: [Box; 3] = [Box::Ours, Box::Independent(reference::sum_by_bytes), Box::Independent(reference::sum_by_sixteens)];

// The same value, of which the compiler knows nothing. std's own is newer than the oldest rustc that we compile with, Debian 12's.
fn unknown<T: Copy>(value: T) -> T {
    unsafe { ptr::read_volatile(&value) }
}

#[derive(Clone)]
struct Memory {
    rows: Vec<u32>,
    records: Vec<u64>,
}

impl Box {
    fn judge(self, lists: Lists, memory: &mut Memory, batch: &[u8]) -> Answered {
        let (rows, records) = (&memory.rows, &memory.records);
        match self {
            Box::Ours => lists.judge(rows, records, batch),
            Box::Independent(sum) => reference::told(reference::judge(sum, lists.list, lists.spreads, rows, records, batch)),
        }
    }

    fn take(self, lists: Lists, memory: &mut Memory, batch: &[u8]) -> Answered {
        let (rows, records) = (&mut memory.rows, &mut memory.records);
        match self {
            Box::Ours => lists.take(rows, records, batch),
            Box::Independent(sum) => reference::told(reference::take(sum, lists.list, lists.spreads, rows, records, batch)),
        }
    }
}

struct Feed {
    list: Vec<u8>,
    spreads: Vec<u8>,
    started: Memory,
    batches: Vec<Vec<u8>>,
    messages: usize,
    piece: usize, // batches timed in one piece
}

// An update as an exchange sends it: every row filled, prices to four places; of a spread's prices every second one lies below zero.
fn an_update(r: &mut Random, form: &Form, letter: u8, number: u32, key: &[u8]) -> Vec<u8> {
    let values: Vec<u64> = form
        .told()
        .iter()
        .map(|&(row, _)| match row {
            reference::Row::Number(kind) if kind == reference::PRICE => (800_000 + r.below(100_000)) * 1_000,
            reference::Row::Number(_) => 1 + r.below(10_000_000),
            reference::Row::Difference => reference::difference_cell(r.one_in(2), (1 + r.below(100_000)) * 1_000),
            reference::Row::MarketType => b'N' as u64,
            _ => b' ' as u64,
        })
        .collect();
    let data = reference::write_data(form, key, &values).unwrap_or_else(|_| panic!("these can be written"));
    feed::sealed([letter, form.code], number, &data)
}

// Late ones come eight behind their place, and one of forty never.
fn late_and_missing(count: usize) -> Vec<u32> {
    let mut numbers: Vec<u32> = (1..=count as u32).filter(|n| n % 40 != 7).collect();
    for k in (8..numbers.len()).step_by(13) {
        numbers[k - 8..=k].rotate_left(1);
    }
    numbers
}

// Updates of both levels, and now and then a message that is passed over or a heartbeat, which takes no number.
fn a_mix(r: &mut Random, keys: &[feed::Key]) -> Vec<Vec<u8>> {
    let mut messages = vec![];
    for number in late_and_missing(MESSAGES) {
        let key = r.pick(keys);
        match r.below(10) {
            0 => messages.extend([feed::sealed([LETTER, b'H'], 0, &[]), feed::sealed([LETTER, b'O'], number, b"N")]),
            1..=5 => messages.push(an_update(r, reference::of_contract(LETTER, 1), LETTER, number, &key)),
            _ => messages.push(an_update(r, reference::of_contract(LETTER, 2), LETTER, number, &key)),
        }
    }
    messages
}

const CALLS: [&str; 2] = ["judge", "take"];
const LEVEL_2: &str = "level 2";
const HEARTBEATS: &str = "heartbeats";
const PASSED_OVER: &str = "passed over, 505 bytes";

// A spread for each contract, as far as a segment may have so many.
fn pairs(keys: &[feed::Key]) -> Vec<feed::Pair> {
    let mut r = Random::new(keys.len() as u64 + 1);
    let mut pairs: Vec<feed::Pair> = vec![];
    while pairs.len() < keys.len().min(1_024) {
        pairs.push(feed::pair(&r.pick(keys), &r.pick(keys)));
        pairs.sort();
        pairs.dedup();
    }
    pairs
}

// Every feed comes with both lists, cut into batches of so many messages.
fn cut(book: &Book, batch: usize, messages: Vec<Vec<u8>>) -> Feed {
    let (list, spreads) = (book.bytes(), book.spread_bytes());
    let records = RECORD * book.contracts() + SPREAD_RECORD * book.number_of_pairs();
    let mut started = Memory { rows: vec![0; GAP_ROW], records: vec![0; records] };
    reference::start(&list, &spreads, &[1], &mut started.rows, &mut started.records).expect("the lists are sound");
    let batches = messages.chunks(batch).map(feed::batch).collect();
    Feed { list, spreads, started, batches, messages: messages.len(), piece: PIECE / batch }
}

// Updates of a form, each of one of the keys.
fn updates<const N: usize>(r: &mut Random, form: &Form, letter: u8, keys: &[[u8; N]]) -> Vec<Vec<u8>> {
    let update = |number| {
        let key = r.pick(keys);
        an_update(r, form, letter, number, &key)
    };
    (1..=MESSAGES as u32).map(update).collect()
}

fn feeds(contracts: usize, batch: usize) -> Vec<(&'static str, Feed)> {
    let mut r = Random::new(contracts as u64);
    let keys = feed::keys(&mut r, contracts);
    let pairs = pairs(&keys);
    let book = Book { segments: vec![(LETTER, keys.clone())], spreads: vec![(LETTER, pairs.clone())] };
    let numbers = || 1..=MESSAGES as u32;
    let all = [
        ("level 1", updates(&mut r, reference::of_contract(LETTER, 1), LETTER, &keys)),
        (LEVEL_2, updates(&mut r, reference::of_contract(LETTER, 2), LETTER, &keys)),
        ("spreads, level 1", updates(&mut r, reference::of_pair(1), LETTER, &pairs)),
        ("spreads, level 2", updates(&mut r, reference::of_pair(2), LETTER, &pairs)),
        (HEARTBEATS, numbers().map(|_| feed::sealed([LETTER, b'H'], 0, &[])).collect()),
        ("a mix, late and missing", a_mix(&mut r, &keys)),
        (PASSED_OVER, numbers().map(|number| feed::sealed([LETTER, b'B'], number, &[b'x'; 494])).collect()),
    ];
    all.into_iter().map(|(name, messages)| (name, cut(&book, batch, messages))).collect()
}

// FN's updates, whose prices are narrower and which have a time stamp.
fn futures(contracts: usize, batch: usize) -> Vec<(&'static str, Feed)> {
    let mut r = Random::new(contracts as u64);
    let keys = feed::keys(&mut r, contracts);
    let book = Book::of(vec![(FUTURES, keys.clone())]);
    let of_level = |level| updates(&mut r, reference::of_contract(FUTURES, level), FUTURES, &keys);
    let names = ["futures, level 1", "futures, level 2"];
    names.into_iter().zip([1, 2].map(of_level)).map(|(name, messages)| (name, cut(&book, batch, messages))).collect()
}

// Messages timed in one piece. On a busy machine a process is put aside every few milliseconds: a piece must be much shorter, or
// the slower box meets that in every round and the faster one in few.
const PIECE: usize = 256;

// One round: all batches in turn, the nanoseconds of each piece and what was answered.
fn timed(feed: &Feed, memory: &mut Memory, call: impl Fn(Lists, &mut Memory, &[u8]) -> Answered) -> (Vec<f64>, Vec<Answered>) {
    let mut answers = Vec::with_capacity(feed.batches.len());
    let mut times = vec![];
    for piece in feed.batches.chunks(feed.piece) {
        let begun = Instant::now();
        for batch in piece {
            let lists = Lists { list: unknown(&feed.list), spreads: unknown(&feed.spreads) };
            answers.push(call(lists, memory, unknown(batch)));
        }
        times.push(begun.elapsed().as_nanos() as f64);
    }
    (times, answers)
}

// Nanoseconds a message for each box: the best of the rounds for each piece, the boxes in turn so that all meet the same machine.
fn best(feed: &Feed, rounds: usize, call: impl Fn(Box, Lists, &mut Memory, &[u8]) -> Answered) -> [f64; 3] {
    let pieces = feed.batches.chunks(feed.piece).len();
    let mut best = [vec![f64::INFINITY; pieces], vec![f64::INFINITY; pieces], vec![f64::INFINITY; pieces]];
    for _ in 0..rounds {
        let mut right = None;
        for (of, best) in BOXES.into_iter().zip(&mut best) {
            let mut memory = feed.started.clone();
            let (times, answers) = timed(feed, &mut memory, |lists, memory, batch| call(of, lists, memory, batch));
            best.iter_mut().zip(times).for_each(|(best, time)| *best = best.min(time));
            assert!(answers.iter().all(|answer| answer.0 == 0), "a batch is refused");
            let got = (answers, memory.rows[..feed::live_cells(&memory.rows)].to_vec(), memory.records);
            assert!(*right.get_or_insert(got.clone()) == got, "the boxes answer differently");
        }
    }
    best.map(|pieces| pieces.iter().sum::<f64>() / feed.messages as f64)
}

fn checksum_alone(length: usize, rounds: usize) -> f64 {
    let text = vec![b'7'; length];
    let one = |_| {
        let begun = Instant::now();
        for _ in 0..1_000 {
            unknown(reference::sum_by_sixteens(unknown(&text)));
        }
        begun.elapsed().as_nanos() as f64 / 1_000.0
    };
    (0..rounds).map(one).fold(f64::INFINITY, f64::min)
}

fn row(name: &str, contracts: usize, what: &str, [ours, bytes, sixteens]: [f64; 3]) {
    println!("{name:<24} {contracts:>9} {what:>6} {ours:>8.0} {bytes:>8.0} {sixteens:>8.0} {:>7.2} {:>7.2}", ours / bytes, ours / sixteens);
}

fn named<'a, T>(all: &'a [(&str, T)], wanted: &str) -> &'a T {
    &all.iter().find(|(name, _)| *name == wanted).expect("it is one of the feeds").1
}

// The two rows of a feed: judging and taking, ns a message for each box.
fn shown(name: &str, feed: &Feed, contracts: usize, rounds: usize) -> [[f64; 3]; 2] {
    let times = [best(feed, rounds, Box::judge), best(feed, rounds, Box::take)];
    CALLS.into_iter().zip(times).for_each(|(what, times)| row(name, contracts, what, times));
    times
}

// What a level 2 update costs beside a passed-over message of its length: its rows and the key's lookup.
fn rows_alone(contracts: usize, times: &[(&str, [[f64; 3]; 2])]) {
    let (level2, passed) = (named(times, LEVEL_2), named(times, PASSED_OVER));
    for (k, what) in CALLS.into_iter().enumerate() {
        row("level 2 less passed over", contracts, what, [0, 1, 2].map(|i| level2[k][i] - passed[k][i]));
    }
}

// What judging and taking cost beside the two things that must be done for an update: its checksum, and reading its rows once.
fn batches_of_one(rounds: usize) {
    const CONTRACTS: usize = 64;
    println!("batches of one message, ns a batch");
    let feeds = feeds(CONTRACTS, 1);
    let ours = |wanted: &str| shown(wanted, named(&feeds, wanted), CONTRACTS, rounds).map(|[ours, ..]| ours);
    let ([judge, take], [passed_over, _], [heartbeat, _]) = (ours(LEVEL_2), ours(PASSED_OVER), ours(HEARTBEATS));
    let (checksum, rows) = (passed_over - heartbeat, judge - passed_over);
    let ratio = |time: f64| time / (checksum + rows);
    println!(
        "judged, the checksum of 502 bytes is {checksum:.0} (passed over less heartbeat), rows and key {rows:.0} (level 2 less passed over); to both: \
         judge {:.2}, take {:.2}, judge and take {:.2}",
        ratio(judge),
        ratio(take),
        ratio(judge + take)
    );
}

fn main() {
    let rounds = std::env::args().nth(1).and_then(|n| n.parse().ok()).unwrap_or(60);
    println!("ns a message, best of {rounds} rounds for each {PIECE} of {MESSAGES} messages, {BATCH} a batch; the ratio is ours to the independent one's,");
    println!("whose checksum takes one byte or sixteen a step");
    println!("{:<24} {:>9} {:>6} {:>8} {:>8} {:>8} {:>7} {:>7}", "messages", "contracts", "", "ours", "by 1", "by 16", "ratio 1", "16");
    let mut worst: (f64, f64) = (0.0, 0.0);
    for contracts in [1, 64, 4_096] {
        let all = feeds(contracts, BATCH).into_iter().chain(futures(contracts, BATCH));
        let times: Vec<_> = all.map(|(name, feed)| (name, shown(name, &feed, contracts, rounds))).collect();
        for [ours, bytes, sixteens] in times.iter().flat_map(|(_, times)| *times) {
            worst = (worst.0.max(ours / bytes), worst.1.max(ours / sixteens));
        }
        rows_alone(contracts, &times);
    }
    println!("largest ratio {:.2} to one byte a step, {:.2} to sixteen", worst.0, worst.1);
    println!("the checksum alone, sixteen bytes a step: {:.0} ns for 246 bytes, {:.0} for 502", checksum_alone(246, rounds), checksum_alone(502, rounds));
    batches_of_one(rounds);
}
