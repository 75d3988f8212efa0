// Makes the feed of the demonstration with the box's own writers, asked through the program `calls`; what the box only passes over is laid
// out here.
//   make FOLDER PROGRAM...      writes FOLDER/contracts, FOLDER/spreads and FOLDER/feed
#[path = "../tests/asks.rs"]
mod asks;
#[path = "../tests/feed.rs"]
mod feed;
#[allow(dead_code)] // feed needs it
#[path = "../tests/random.rs"]
mod random;
#[path = "../tests/reference.rs"]
mod reference;

use asks::Ask;
use feed::{Book, Key, Pair};
use reference::{difference_cell, NONE};
use std::fs;
use std::io::Write;
use std::path::Path;
use std::process::{Command, Stdio};

const EURO: Key = *b"FUTCUREURINR    27MAR2026            XX";
const DOLLAR: Key = *b"FUTCURUSDINR    27MAR2026            XX";
const FAR_DOLLAR: Key = *b"FUTCURUSDINR    28APR2026            XX";
const DOLLAR_CALL: Key = *b"OPTCURUSDINR    27MAR2026     84.2500CE";
const FAR_NIFTY: Key = *b"FUTIDXNIFTY     27JAN2026            XX";
const NIFTY: Key = *b"FUTIDXNIFTY     30DEC2025            XX";
const NIFTY_CALL: Key = *b"OPTIDXNIFTY     30DEC2025    26000.00CE";
const CRUDE: Key = *b"FUTCOMCRUDEOIL  19MAR2026            XX";
const GOLD: Key = *b"FUTCOMGOLD      05APR2026            XX";
const FAR_GOLD: Key = *b"FUTCOMGOLD      05JUN2026            XX";

fn dollar_roll() -> Pair {
    feed::pair(&DOLLAR, &FAR_DOLLAR)
}

fn gold_roll() -> Pair {
    feed::pair(&GOLD, &FAR_GOLD)
}

// A message of the feed: one that the box writes, or one that it only passes over, and so has no writer for.
enum Sent {
    Written(Ask),
    LaidOut(Vec<u8>),
}

fn price(whole: u64, ten_thousandths: u64) -> u64 {
    whole * 10_000_000 + ten_thousandths * 1_000
}

// Buy, sell and the step at which the orders behind the best of each side stand.
type Prices = (u64, u64, u64);

fn update(code: &[u8; 2], level: usize, number: u32, key: Key, prices: Prices, orders: u64) -> Sent {
    stamped(code, level, number, key, (b'N', NONE), prices, orders)
}

// 29 December 2025, 3:30:00 UTC, in seconds from the beginning of 1970: F's pre-open session.
const MORNING: u64 = 1_766_979_000;

// An update with its market type and, of F, its time stamp.
#[rustfmt::skip]
fn stamped(
    code: &[u8; 2], level: usize, number: u32, key: Key, (market_type, stamp): (u8, u64), (buy, sell, step): Prices, orders: u64,
) -> Sent {
    let depth = if level == 1 { 1 } else { 5 };
    let side = |k: u64, price: u64| if k < orders { [price, 100 + 25 * k] } else { [NONE, NONE] };
    let mut values = vec![market_type as u64, stamp];
    values.extend((0..depth).flat_map(|k| side(k, buy - step * k)));
    values.extend((0..depth).flat_map(|k| side(k, sell + step * k)));
    values.extend([buy, 1_200 + number as u64, b' ' as u64, buy, sell, buy - step, sell, NONE]);
    if level == 2 {
        values.extend([5_400, 4_950]);
    }
    values.push(NONE);
    Sent::Written(Ask::Write { code: *code, level, number, key, room: 505, values })
}

fn difference(units: i64) -> u64 {
    difference_cell(units < 0, units.unsigned_abs())
}

// The same of a spread, whose prices are differences: those of a roll into a dearer contract lie below zero.
fn spread(code: &[u8; 2], level: usize, number: u32, pair: Pair, (buy, sell, step): (i64, i64, i64), orders: i64) -> Sent {
    let depth = if level == 1 { 1 } else { 5 };
    let side = |k: i64, price: i64| if k < orders { [difference(price), 10 + 5 * k as u64] } else { [NONE, NONE] };
    let mut values = vec![];
    values.extend((0..depth).flat_map(|k| side(k, buy - step * k)));
    values.extend((0..depth).flat_map(|k| side(k, sell + step * k)));
    values.extend([difference(buy), 300 + number as u64, difference(sell), difference(sell), difference(buy - step)]);
    if level == 2 {
        values.extend([420, 385]);
    }
    Sent::Written(Ask::WriteSpread { code: *code, level, number, pair, room: 483, values })
}

fn heartbeat(code: &[u8; 2]) -> Sent {
    Sent::Written(Ask::Write { code: *code, level: 1, number: 0, key: EURO, room: 11, values: vec![NONE; 15] })
}

// With an empty trailer.
fn laid_out(code: &[u8; 2], number: u32, data: &[u8]) -> Sent {
    Sent::LaidOut(feed::unsealed(*code, number, data))
}

// A day's beginning on a bad line: number 4 of D comes late and 6 to 8 never, T starts at 3, and one batch is damaged. The dollar's roll
// is quoted about zero, gold's far below it; they come in batches of their own, since the program `gaps` knows no spreads. Then the market
// status that T began with comes late, its trailer empty as it should be, and number 1 by half: an empty trailer that should not be.
fn currency_and_commodity() -> Vec<Vec<Sent>> {
    let euro = (price(90, 2_525), price(90, 2_550), price(0, 25));
    let dollar = (price(83, 5_000), price(83, 5_025), price(0, 25));
    let call = (price(0, 3_100), price(0, 3_350), price(0, 50));
    let crude = (price(5_812, 0), price(5_814, 0), price(1, 0));
    let gold = (price(61_234, 0), price(61_240, 0), price(5, 0));
    let (dollars, golds) = ((-25_000, 50_000, 25_000), (-3_125_000_000, -3_110_000_000, 5_000_000));
    let old = (-125_000_000, -120_000_000, 5_000_000);
    let open_interest = [&GOLD[..], b"      4210N"].concat();
    vec![
        vec![heartbeat(b"DH"), update(b"DN", 1, 1, EURO, euro, 1), update(b"DN", 2, 2, DOLLAR, dollar, 5), update(b"DN", 2, 3, DOLLAR_CALL, call, 2)],
        vec![heartbeat(b"TH"), update(b"TN", 2, 3, GOLD, gold, 4), update(b"TN", 1, 4, CRUDE, crude, 1)],
        vec![update(b"DN", 2, 5, DOLLAR, (price(83, 5_100), price(83, 5_125), price(0, 25)), 5), update(b"DN", 2, 4, DOLLAR, dollar, 1)],
        vec![update(b"TN", 2, 5, GOLD, (price(61_200, 0), price(61_201, 0), price(1, 0)), 5)],
        vec![update(b"DN", 2, 9, EURO, (price(90, 2_475), price(90, 2_500), price(0, 25)), 3), heartbeat(b"DH")],
        vec![update(b"TN", 2, 6, CRUDE, crude, 5)],
        vec![spread(b"TP", 2, 7, gold_roll(), golds, 3)],
        vec![
            spread(b"DP", 2, 11, dollar_roll(), dollars, 5),
            spread(b"DP", 2, 10, dollar_roll(), old, 1),
            spread(b"DP", 1, 12, dollar_roll(), dollars, 1),
        ],
        vec![laid_out(b"TO", 2, b"N")],
        vec![laid_out(b"TI", 1, &open_interest)],
    ]
}

// F's morning: orders are collected in the pre-open session, then the normal market opens and the near contract is quoted in it, while the far
// one still shows what the pre-open session left. Number 6, of that session, comes behind the normal market's first update and changes nothing.
// The call is quoted in the odd lot market alone, which no screen shows. Number 5 never comes.
fn futures() -> Vec<Vec<Sent>> {
    let (pre_open, far) = ((price(26_150, 500), price(26_151, 0), price(0, 500)), (price(26_310, 0), price(26_312, 0), price(1, 0)));
    let (normal, call) = ((price(26_148, 0), price(26_148, 500), price(0, 500)), (price(212, 1_500), price(212, 4_000), price(0, 500)));
    let near = |code, number, seconds, prices, orders| stamped(code, 2, number, NIFTY, (b'N', MORNING + seconds), prices, orders);
    vec![
        vec![
            heartbeat(b"FH"),
            laid_out(b"PO", 1, b"N"),
            near(b"PN", 2, 61, pre_open, 4),
            stamped(b"PN", 2, 3, FAR_NIFTY, (b'N', MORNING + 75), far, 3),
            laid_out(b"PC", 4, b"N"),
        ],
        vec![laid_out(b"FO", 7, b"N"), near(b"FN", 8, 900, normal, 5)],
        vec![near(b"PN", 6, 480, pre_open, 1), stamped(b"FN", 2, 9, NIFTY_CALL, (b'O', MORNING + 902), call, 2)],
    ]
}

const DAMAGED: usize = 3;

fn asked(program: &[String], input: &[u8]) -> String {
    let mut ran = Command::new(&program[0]).args(&program[1..]).stdin(Stdio::piped()).stdout(Stdio::piped()).spawn().expect("the program runs");
    ran.stdin.take().unwrap().write_all(input).unwrap();
    String::from_utf8(ran.wait_with_output().unwrap().stdout).expect("lines of text")
}

fn message(line: &str) -> Vec<u8> {
    let hex = line.strip_prefix("write ok ").and_then(|rest| rest.split(' ').nth(1)).unwrap_or_else(|| panic!("not written: {line}"));
    (0..hex.len() / 2).map(|i| u8::from_str_radix(&hex[2 * i..2 * i + 2], 16).unwrap()).collect()
}

fn to_ask(sent: &Sent) -> Vec<u8> {
    match sent {
        Sent::Written(ask) => ask.bytes(),
        Sent::LaidOut(_) => vec![],
    }
}

// What the next line says, where the program was asked for it.
fn bytes_of<'a>(sent: Sent, lines: &mut impl Iterator<Item = &'a str>) -> Vec<u8> {
    match sent {
        Sent::Written(_) => message(lines.next().expect("a line for each message")),
        Sent::LaidOut(message) => message,
    }
}

fn main() {
    let words: Vec<String> = std::env::args().skip(1).collect();
    let (folder, program) = (Path::new(&words[0]), &words[1..]);
    let mut book = Book::of(vec![
        (b'D', vec![EURO, DOLLAR, FAR_DOLLAR, DOLLAR_CALL]),
        (b'F', vec![FAR_NIFTY, NIFTY, NIFTY_CALL]),
        (b'T', vec![CRUDE, GOLD, FAR_GOLD]),
    ]);
    book.spreads[0].1.push(dollar_roll());
    book.spreads[2].1.push(gold_roll());
    fs::write(folder.join("contracts"), book.bytes()).unwrap();
    fs::write(folder.join("spreads"), book.spread_bytes()).unwrap();
    let batches: Vec<Vec<Sent>> = currency_and_commodity().into_iter().chain(futures()).collect();
    let said = asked(program, &batches.iter().flatten().flat_map(to_ask).collect::<Vec<u8>>());
    let mut lines = said.lines();
    let mut feed = vec![];
    for (k, sent) in batches.into_iter().enumerate() {
        let messages: Vec<Vec<u8>> = sent.into_iter().map(|sent| bytes_of(sent, &mut lines)).collect();
        let mut batch = feed::batch(&messages);
        if k == DAMAGED {
            batch[100] ^= 1;
        }
        feed.extend(batch);
    }
    fs::write(folder.join("feed"), feed).unwrap();
}
