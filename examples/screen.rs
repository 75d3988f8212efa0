//! A small host: starts a box, takes a file of batches, one behind the other, and prints how many keys their lookups compared, what is
//! missing, and five prices a side of each listed contract and of each listed spread; of a contract also the time of day that its update has,
//! and whether it is of the pre-open session. Without a file of spreads there are none.
//!   screen CONTRACTS BATCHES [SPREADS]
use std::process::exit;

/// The library's functions: `include/quotebox.h` says what each is lent and what it answers.
mod library {
    pub const KEY: usize = 39;
    pub const PAIR: usize = 78;
    pub const VALUES: usize = 35;
    pub const MOST_RUNS: usize = 64;
    pub const SESSION: usize = 1;
    pub const TIME_STAMP: usize = 3;
    pub const BUY: usize = 4;
    pub const SELL: usize = 14;
    pub const SPREAD_BUY: usize = 1;
    pub const SPREAD_SELL: usize = 11;
    pub const NONE: u64 = u64::MAX;
    pub const MINUS: u64 = 1 << 63;
    pub const PRE_OPEN: u64 = 1;
    pub const MEMORY: u32 = 15;

    #[link(name = "host", kind = "static")]
    extern "C" {
        #[rustfmt::skip]
        pub fn quotebox_no_spreads(
            list: *const u8, list_length: usize, out: *mut u8, out_length: usize, answer: &mut [u64; 4],
        ) -> u32;
        #[rustfmt::skip]
        pub fn quotebox_start(
            list: *const u8, list_length: usize, spreads: *const u8, spreads_length: usize, starts: *const u32, starts_length: usize,
            rows: *mut u32, rows_length: usize, records: *mut u64, records_length: usize,
            answer: &mut [u64; 4],
        ) -> u32;
        #[rustfmt::skip]
        pub fn quotebox_take(
            list: *const u8, list_length: usize, spreads: *const u8, spreads_length: usize,
            rows: *mut u32, rows_length: usize, records: *mut u64, records_length: usize,
            batch: *const u8, batch_length: usize, answer: &mut [u64; 4],
        ) -> u32;
        #[rustfmt::skip]
        pub fn quotebox_list_gaps(
            list: *const u8, list_length: usize, spreads: *const u8, spreads_length: usize,
            rows: *const u32, rows_length: usize, records: *const u64, records_length: usize,
            letter: u8, cells: *mut u32, cells_length: usize, answer: &mut [u64; 4],
        ) -> u32;
        #[rustfmt::skip]
        pub fn quotebox_read_level2(
            list: *const u8, list_length: usize, spreads: *const u8, spreads_length: usize,
            rows: *const u32, rows_length: usize, records: *const u64, records_length: usize,
            letter: u8, key: &[u8; KEY], values: &mut [u64; VALUES], answer: &mut [u64; 4],
        ) -> u32;
        #[rustfmt::skip]
        pub fn quotebox_read_spread2(
            list: *const u8, list_length: usize, spreads: *const u8, spreads_length: usize,
            rows: *const u32, rows_length: usize, records: *const u64, records_length: usize,
            letter: u8, pair: &[u8; PAIR], values: &mut [u64; VALUES], answer: &mut [u64; 4],
        ) -> u32;
    }
}

/// What a call returns, 0 for accepted, and its answer.
type Told = (u32, [u64; 4]);

/// Both lists and the memory that is lent. The library keeps to each slice, so these calls are safe.
struct QuoteBox {
    list: Vec<u8>,
    spreads: Vec<u8>,
    rows: Vec<u32>,
    records: Vec<u64>,
}

#[rustfmt::skip]
impl QuoteBox {
    fn start(&mut self, starts: &[u32]) -> Told {
        let mut answer = [0; 4];
        let number = unsafe {
            library::quotebox_start(
                self.list.as_ptr(), self.list.len(), self.spreads.as_ptr(), self.spreads.len(), starts.as_ptr(), starts.len(),
                self.rows.as_mut_ptr(), self.rows.len(), self.records.as_mut_ptr(), self.records.len(),
                &mut answer,
            )
        };
        (number, answer)
    }

    fn take(&mut self, batch: &[u8]) -> Told {
        let mut answer = [0; 4];
        let number = unsafe {
            library::quotebox_take(
                self.list.as_ptr(), self.list.len(), self.spreads.as_ptr(), self.spreads.len(),
                self.rows.as_mut_ptr(), self.rows.len(), self.records.as_mut_ptr(), self.records.len(),
                batch.as_ptr(), batch.len(), &mut answer,
            )
        };
        (number, answer)
    }

    fn list_gaps(&self, letter: u8, cells: &mut [u32]) -> Told {
        let mut answer = [0; 4];
        let number = unsafe {
            library::quotebox_list_gaps(
                self.list.as_ptr(), self.list.len(), self.spreads.as_ptr(), self.spreads.len(),
                self.rows.as_ptr(), self.rows.len(), self.records.as_ptr(), self.records.len(),
                letter, cells.as_mut_ptr(), cells.len(), &mut answer,
            )
        };
        (number, answer)
    }

    fn read_level2(&self, letter: u8, key: &[u8; library::KEY], values: &mut [u64; library::VALUES]) -> Told {
        let mut answer = [0; 4];
        let number = unsafe {
            library::quotebox_read_level2(
                self.list.as_ptr(), self.list.len(), self.spreads.as_ptr(), self.spreads.len(),
                self.rows.as_ptr(), self.rows.len(), self.records.as_ptr(), self.records.len(),
                letter, key, values, &mut answer,
            )
        };
        (number, answer)
    }

    fn read_spread2(&self, letter: u8, pair: &[u8; library::PAIR], values: &mut [u64; library::VALUES]) -> Told {
        let mut answer = [0; 4];
        let number = unsafe {
            library::quotebox_read_spread2(
                self.list.as_ptr(), self.list.len(), self.spreads.as_ptr(), self.spreads.len(),
                self.rows.as_ptr(), self.rows.len(), self.records.as_ptr(), self.records.len(),
                letter, pair, values, &mut answer,
            )
        };
        (number, answer)
    }
}

/// The spread list without pairs, for the contract list's segments: 26 bytes are enough for three. Where the contract list is no list, start
/// will say so.
fn no_spreads(list: &[u8]) -> Vec<u8> {
    let (mut out, mut answer) = (vec![0; 26], [0; 4]);
    let refused = unsafe { library::quotebox_no_spreads(list.as_ptr(), list.len(), out.as_mut_ptr(), out.len(), &mut answer) };
    out.truncate(if refused == 0 { answer[0] as usize } else { 0 });
    out
}

fn fail(what: &str) -> ! {
    eprintln!("screen: {what}");
    exit(1)
}

fn read_file(path: &str) -> Vec<u8> {
    std::fs::read(path).unwrap_or_else(|_| fail(path))
}

fn u16_at(bytes: &[u8], at: usize) -> usize {
    (bytes[at] as usize) << 8 | bytes[at + 1] as usize
}

/// A start that is lent too little says what it wants: the gap rows first, then the records.
fn start(list: Vec<u8>, spreads: Vec<u8>) -> QuoteBox {
    let mut quotes = QuoteBox { list, spreads, rows: vec![], records: vec![] };
    let mut told = quotes.start(&[1, 1, 1]);
    if told.0 == library::MEMORY {
        quotes.rows = vec![0; told.1[2] as usize];
        told = quotes.start(&[1, 1, 1]);
    }
    if told.0 == library::MEMORY {
        quotes.records = vec![0; told.1[2] as usize];
        told = quotes.start(&[1, 1, 1]);
    }
    if told.0 != 0 {
        println!("start refused {}", told.0);
        exit(1);
    }
    quotes
}

/// Each batch says how long it is; what is left at the end is handed over as it is, and refused. A refused batch's lookups count too.
fn take_all(quotes: &mut QuoteBox, batches: &[u8]) {
    const FRONT: usize = 5;
    let mut left = batches;
    let mut batch = 0;
    let (mut compared, mut most) = (0, 0);
    while !left.is_empty() {
        let says = if left.len() < FRONT { left.len() } else { FRONT + u16_at(left, 1) };
        let length = says.min(left.len());
        let (refused, answer) = quotes.take(&left[..length]);
        if refused != 0 {
            println!("batch {batch} refused {refused} message {}", answer[0]);
        }
        compared += answer[3];
        most = most.max(answer[3]);
        left = &left[length..];
        batch += 1;
    }
    println!("{compared} keys compared, at most {most} in a batch");
}

/// A price as a decimal without needless zeros; blank for none.
fn price(units: u64) -> String {
    if units == library::NONE {
        return String::new();
    }
    let text = format!("{}.{:07}", units / 10_000_000, units % 10_000_000);
    text.trim_end_matches('0').trim_end_matches('.').to_string()
}

fn quantity(units: u64) -> String {
    if units == library::NONE { String::new() } else { units.to_string() }
}

/// A spread's price may be below zero.
fn difference(units: u64) -> String {
    if units == library::NONE || units & library::MINUS == 0 { price(units) } else { format!("-{}", price(units & !library::MINUS)) }
}

/// The five parts of a key, those that are blank left out.
fn show_key(key: &[u8]) {
    let mut at = 0;
    for width in [6, 10, 11, 10, 2] {
        let part = String::from_utf8_lossy(&key[at..at + width]);
        if !part.trim_end_matches(' ').is_empty() {
            print!(" {}", part.trim_end_matches(' '));
        }
        at += width;
    }
}

fn show_line(bought: &str, buy: &str, sell: &str, sold: &str) {
    println!("| {bought:>12} {buy:>17} | {sell:>17} {sold:>12} |");
}

/// Five orders a side, each a price and a quantity.
fn show_orders(buy: &[u64], sell: &[u64], shown: fn(u64) -> String) {
    show_line("quantity", "buy", "sell", "quantity");
    for (buy, sell) in buy.chunks(2).zip(sell.chunks(2)).take(5) {
        show_line(&quantity(buy[1]), &shown(buy[0]), &shown(sell[0]), &quantity(sell[1]));
    }
}

/// When the update was sent, as the time of day in UTC, and the session where it is not the normal market's.
fn show_moment(values: &[u64; library::VALUES]) {
    let (stamp, of_day) = (values[library::TIME_STAMP], values[library::TIME_STAMP] % 86_400);
    if stamp != library::NONE {
        print!(" {:02}:{:02}:{:02}", of_day / 3_600, of_day / 60 % 60, of_day % 60);
    }
    if values[library::SESSION] == library::PRE_OPEN {
        print!(" pre-open");
    }
}

fn show_contract(quotes: &QuoteBox, letter: u8, key: &[u8]) {
    print!("{}", letter as char);
    show_key(key);
    let mut values = [0; library::VALUES];
    let (refused, answer) = quotes.read_level2(letter, key.try_into().unwrap(), &mut values);
    if refused != 0 {
        fail("a listed contract is refused");
    }
    if answer[0] != 0 {
        show_moment(&values);
    }
    println!();
    if answer[0] == 0 {
        println!("| no record");
    } else {
        show_orders(&values[library::BUY..], &values[library::SELL..], price);
    }
}

fn show_spread(quotes: &QuoteBox, letter: u8, pair: &[u8]) {
    print!("{}", letter as char);
    show_key(&pair[..library::KEY]);
    print!(" /");
    show_key(&pair[library::KEY..]);
    println!();
    let mut values = [0; library::VALUES];
    let (refused, answer) = quotes.read_spread2(letter, pair.try_into().unwrap(), &mut values);
    if refused != 0 {
        fail("a listed spread is refused");
    }
    if answer[0] == 0 {
        println!("| no record");
    } else {
        show_orders(&values[library::SPREAD_BUY..], &values[library::SPREAD_SELL..], difference);
    }
}

/// How far the segment has come, and what is missing.
fn show_gaps(quotes: &QuoteBox, letter: u8) {
    let mut cells = [0; 2 * library::MOST_RUNS];
    let (refused, answer) = quotes.list_gaps(letter, &mut cells);
    if refused != 0 {
        fail("a listed segment is refused");
    }
    print!("{} highest {} missing", letter as char, answer[0]);
    for run in cells.chunks(2).take(answer[1] as usize) {
        print!(" {}-{}", run[0], run[1]);
    }
    println!();
}

/// A list's keys of the segment at a place, contracts or pairs, each shown.
fn show_keys(quotes: &QuoteBox, list: &[u8], segment: usize, key: usize, show: fn(&QuoteBox, u8, &[u8])) {
    let entry = 2 + 8 * segment;
    let keys = u16_at(list, entry + 4) << 16 | u16_at(list, entry + 6);
    for key in list[keys..].chunks_exact(key).take(u16_at(list, entry + 2)) {
        show(quotes, list[entry], key);
    }
}

fn main() {
    let words: Vec<String> = std::env::args().skip(1).collect();
    let (contracts, batches, spreads) = match &words[..] {
        [contracts, batches] => (contracts, batches, None),
        [contracts, batches, spreads] => (contracts, batches, Some(spreads)),
        _ => fail("screen CONTRACTS BATCHES [SPREADS]"),
    };
    let list = read_file(contracts);
    let spreads = spreads.map_or_else(|| no_spreads(&list), |path| read_file(path));
    let mut quotes = start(list, spreads);
    take_all(&mut quotes, &read_file(batches));
    for segment in 0..u16_at(&quotes.list, 0) {
        show_gaps(&quotes, quotes.list[2 + 8 * segment]);
        show_keys(&quotes, &quotes.list, segment, library::KEY, show_contract);
        show_keys(&quotes, &quotes.spreads, segment, library::PAIR, show_spread);
    }
}
