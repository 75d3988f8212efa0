// Every public call of the compiled box, asked through the program `calls` and held against the reference line by line.
//   calls PROGRAM... [--seed N] [--times N] [--keep FOLDER]
// N times the usual number of histories; --keep leaves the last history's `contracts` and `input` in FOLDER.
mod asks;
mod feed;
mod futures;
mod halving;
mod history;
mod lookups;
mod program;
mod random;
mod reference;
mod spreads;
mod sums;

use asks::{lines, Ask, Bench, LARGEST_LIST};
use feed::Book;
use history::{History, Seen};
use program::{Contracts, Held, Options};
use random::Random;
use reference::{of_contract, of_pair, Form, Row, GAP_ROW, KEY, NONE, PRICE, RECORD, SPREAD_RECORD};

const HISTORIES: u64 = 80;

fn histories(options: &Options, held: &mut Held) {
    let mut seen = Seen::new();
    let (mut calls, mut batches) = (0, 0);
    for number in 0..HISTORIES * options.times {
        let h = History::held(options.seed, number, &mut seen);
        calls += h.lines.len();
        batches += h.batches();
        let expected: Vec<String> = h.lines.iter().map(|(_, line)| line.clone()).chain(["end".into()]).collect();
        let contracts = h.contracts.as_deref().map_or(Contracts::Missing, Contracts::File);
        let said = options.run(contracts, &h.input);
        held.lines(&expected, &said, |line| format!("calls: seed {} history {number} {}", options.seed, h.origin(line)));
        if number == 0 {
            held.notices(&expected, &said);
        }
    }
    for what in history::wanted() {
        held.hold(seen.contains_key(&what), || format!("calls: seed {}: not met: {what}", options.seed));
    }
    println!("calls: {} histories, {batches} batches, {calls} calls", HISTORIES * options.times);
}

// ---- document 01's cases, with the lines written out

fn price_case(text: &str) -> Ask {
    let mut data = CASE_KEY.to_vec();
    data.extend(b"N");
    data.extend(format!("{text:>17}").bytes());
    data.extend(vec![b' '; 238 - data.len()]);
    Ask::Take(feed::batch(&[feed::sealed(*b"DN", 1, &data)]))
}

const CASE_KEY: [u8; KEY] = *b"FUTCURUSDINR    27-MAR-2026          XX";
const HEARTBEAT: [u8; 16] = [1, 0, 11, 0, 1, 0x44, 0x48, 0, 11, 0, 0, 0, 0, 0, 0, 13];

fn numbered(letter: u8, numbers: impl IntoIterator<Item = u32>) -> Ask {
    let messages: Vec<Vec<u8>> = numbers.into_iter().map(|n| feed::sealed([letter, b'E'], n, &[])).collect();
    Ask::Take(feed::batch(&messages))
}

type Case = (&'static str, Vec<Ask>, Vec<String>);

// P5 to P10.
fn batch_cases() -> Vec<Case> {
    let start = || Ask::Start(vec![1]);
    let exchanged = [&HEARTBEAT[..1], &[0, 1, 0, 11], &HEARTBEAT[5..]].concat();
    let record = || Ask::Record { letter: b'D', level: 1, key: CASE_KEY };
    let read = |buy: &str| format!("record ok 1 0 78 - {buy} - - - - - 32 - - - - - -");
    let (too_large, malformed) = ("take refused 12 0 6 0 0", "take refused 11 0 6 0 0");
    vec![
        ("P5, P6", vec![start(), Ask::Take(HEARTBEAT.to_vec()), Ask::Take(exchanged)], lines(&["start ok", "take ok 0 0 1 0", "take refused 1 0 0 0 0"])),
        ("P7", vec![start(), price_case("100.25"), record()], lines(&["start ok", "take ok 1 0 0 1", &read("1002500000")])),
        ("P8", vec![start(), price_case("99999999999.99999"), record()], lines(&["start ok", "take ok 1 0 0 1", &read("999999999999999900")])),
        (
            "P9, P10",
            vec![start(), price_case("100000000000"), price_case("1.00000000"), price_case("100."), price_case("-1"), record()],
            lines(&["start ok", too_large, too_large, malformed, malformed, "record none"]),
        ),
    ]
}

// P11 to P14.
fn gap_cases() -> Vec<Case> {
    let start = || Ask::Start(vec![1]);
    let gaps = || Ask::Gaps { letter: b'D', cells: 128 };
    let take = |numbers: &[u32]| numbered(b'D', numbers.iter().copied());
    let odd = |to: u32| (1..=to).step_by(2).map(|n| format!(" {n}-{n}")).collect::<String>();
    let mut values = vec![NONE; 15];
    (values[0], values[2], values[8]) = (b'N' as u64, PRICE.largest, b' ' as u64);
    vec![
        (
            "P11, P12",
            vec![start(), take(&[1, 2, 5, 9, 4]), gaps(), take(&[7]), gaps(), Ask::Off { letter: b'D' }, take(&[3]), gaps()],
            lines(&[
                "start ok",
                "take ok 5 0 0 0",
                "gaps ok 9 2 3-3 6-8",
                "take ok 1 0 0 0",
                "gaps ok 9 3 3-3 6-6 8-8",
                "off ok 3 3",
                "take ok 0 1 0 0",
                "gaps ok 9 2 6-6 8-8",
            ]),
        ),
        (
            "P13",
            vec![start(), numbered(b'D', (2..=128).step_by(2)), gaps(), take(&[130]), take(&[129]), take(&[127]), gaps()],
            lines(&[
                "start ok",
                "take ok 64 0 0 0",
                &format!("gaps ok 128 64{}", odd(127)),
                "take refused 14 0 0 0 0",
                "take ok 1 0 0 0",
                "take ok 1 0 0 0",
                &format!("gaps ok 129 63{}", odd(125)),
            ]),
        ),
        ("P14", vec![Ask::Write { code: *b"DN", level: 1, number: 1, key: CASE_KEY, room: 249, values }], lines(&["write refused 12 0 6 0"])),
    ]
}

// Request 02 M-100 prints 227 bytes for TP's level 1 and 483 for DP's level 2; the widths must come to as much, and those of 002's sections
// 4.4 and 4.5 to 204 and 404.
fn lengths(held: &mut Held) {
    let (currency, futures, pairs) = ([1, 2].map(|level| of_contract(b'D', level)), [1, 2].map(|level| of_contract(b'F', level)), [1, 2].map(of_pair));
    let all = [(19, 39, 249), (37, 39, 505), (20, 39, 204), (38, 39, 404), (19, 78, 227), (37, 78, 483)];
    for (form, (rows, key, length)) in [currency, futures, pairs].concat().into_iter().zip(all) {
        let widths = |rows: &[(Row, usize)]| rows.iter().map(|&(_, width)| width).sum::<usize>();
        let sent = form.rows.iter().filter(|(row, _)| *row != Row::Unsent).count();
        let right = (sent, widths(&form.rows[..form.key_rows]), widths(form.rows) + 11) == (rows, key, length);
        held.hold(right && form.length == length, || format!("reference: the rows of {} bytes", form.length));
    }
    let cells = |forms: [&Form; 2]| forms.map(|form| form.front() + form.told().len());
    held.hold(cells(currency) == [17, 35] && cells(futures) == [17, 35] && RECORD == 17 + 35, || "reference: a contract's cells".into());
    held.hold(cells(pairs) == [10, 28] && SPREAD_RECORD == 10 + 28, || "reference: a pair's cells".into());
}

// The cases that only the reference's own functions can be asked: sums, and texts as such.
fn reference_cases(held: &mut Held) {
    lengths(held);
    lookups::rule(held);
    let sums: [(&[u8], [u8; 2]); 4] = [(b"123456789", [0xC3, 0x31]), (b"", [0, 0]), (b"\x01", [0x21, 0x10]), (b"\x32", [0x10, 0x16])];
    for (text, sent) in sums {
        for sum in [reference::sum_by_bits, reference::sum_by_bytes, reference::sum_by_sixteens] {
            held.hold(sum(text) == sent, || format!("reference: the sum of {text:?} is not {sent:02x?}"));
        }
    }
    let mut r = Random::new(7);
    for length in 0..600u64 {
        let text: Vec<u8> = (0..length).map(|_| r.next() as u8).collect();
        let bits = reference::sum_by_bits(&text);
        held.hold(bits == reference::sum_by_bytes(&text) && bits == reference::sum_by_sixteens(&text), || format!("reference: sums of {length} bytes differ"));
    }
    let text = b"           100.25";
    held.hold(reference::read_number(PRICE, text) == Ok(1_002_500_000), || "reference: P7".into());
    held.hold(reference::write_number(PRICE, PRICE.largest, 18).is_none(), || "reference: P14 at 18".into());
    held.hold(reference::write_number(PRICE, PRICE.largest, 19) == Some("99999999999.9999999".into()), || "reference: P14 at 19".into());
}

fn paper(options: &Options, held: &mut Held) {
    reference_cases(held);
    let list = Book::of(vec![(b'D', vec![CASE_KEY])]).bytes();
    let cases = batch_cases().into_iter().chain(gap_cases()).map(|(name, asked, lines)| (name.to_string(), list.clone(), asked, lines));
    for (name, list, asked, lines) in cases.chain(spreads::cases()).chain(sums::cases()).chain(lookups::cases()).chain(futures::cases()) {
        let mut bench = Bench::new(Some(&list));
        let by_reference: Vec<String> = asked.iter().filter_map(|ask| bench.line(ask)).collect();
        held.hold(by_reference == lines, || format!("reference: {name}: {by_reference:?}"));
        let input: Vec<u8> = asked.iter().flat_map(|ask| ask.bytes()).collect();
        let lines: Vec<String> = lines.into_iter().chain(["end".into()]).collect();
        held.lines(&lines, &options.run(Contracts::File(&list), &input), |line| format!("calls: case {name}, line {line}"));
    }
}

// The file itself: missing, a folder, at its largest, one key too large to be read; and input that comes in pieces.
fn files(options: &Options, held: &mut Held) {
    let mut r = Random::new(options.seed);
    let mut lists: Vec<Vec<u8>> = [1usize, 174, 175, 419, 420].map(|n| Book::of(vec![(b'D', feed::keys(&mut r, n))]).bytes()).to_vec();
    lists.extend([vec![], vec![0; LARGEST_LIST], vec![0; LARGEST_LIST + 1]]);
    let all = lists.iter().map(|list| Contracts::File(list)).chain([Contracts::Missing, Contracts::Folder]);
    for (i, contracts) in all.enumerate() {
        let asked = [Ask::Start(vec![1]), numbered(b'D', [2, 3]), Ask::Gaps { letter: b'D', cells: 2 }, price_case("1.5"), Ask::Off { letter: b'D' }];
        let mut bench = Bench::new(contracts.bytes());
        let lines: Vec<String> = asked.iter().filter_map(|ask| bench.line(ask)).chain(["end".into()]).collect();
        let input: Vec<u8> = asked.iter().flat_map(|ask| ask.bytes()).collect();
        held.lines(&lines, &options.run(contracts, &input), |line| format!("calls: file {i}, line {line}"));
        for piece in [1, 7] {
            held.lines(&lines, &options.run_dripping(contracts, &input, piece), |line| format!("calls: file {i}, {piece} bytes at a time, line {line}"));
        }
    }
}

// Lists and pairs at the largest that the bench's memory and its commands hold, and one more.
fn pairs_at_the_most(options: &Options, held: &mut Held) {
    let mut r = Random::new(options.seed.wrapping_add(70));
    // 128 contracts and 64 pairs fill the memory, 25 and 205 want two cells more; 209 pairs are the most in 16,384 bytes.
    for (contracts, pairs) in [(128, 64), (25, 205), (128, 65), (129, 64), (174, 0), (175, 0), (14, 196), (22, 209), (23, 209)] {
        let keys = feed::keys(&mut r, contracts);
        let mut all: Vec<feed::Pair> = keys.iter().take(15).flat_map(|a| keys.iter().take(15).map(move |b| feed::pair(a, b))).collect();
        all.truncate(pairs);
        let (first, last) = (all.first().copied(), all.last().copied());
        let book = Book { segments: vec![(b'T', keys)], spreads: vec![(b'T', all)] };
        let mut asked = vec![Ask::Spreads(book.spread_bytes()), Ask::Start(vec![1])];
        for (k, pair) in [first, last].into_iter().flatten().enumerate() {
            for level in 1..=2 {
                let number = (1 + 2 * k + level) as u32;
                asked.push(Ask::Take(feed::batch(&[feed::an_update(&mut r, of_pair(level), b'T', number, &pair)])));
                asked.push(Ask::Spread { letter: b'T', level, pair });
            }
        }
        asked.extend([Ask::Spreads(vec![0; LARGEST_LIST]), Ask::Start(vec![1])]);
        let list = book.bytes();
        let mut bench = Bench::new(Some(&list));
        let lines: Vec<String> = asked.iter().filter_map(|ask| bench.line(ask)).chain(["end".into()]).collect();
        let wanted = 52 * contracts + 38 * pairs;
        let first = if wanted <= 9_088 { "start ok".into() } else { format!("start refused 15 0 0 {wanted}") };
        held.hold(lines[0] == first, || format!("reference: {contracts} contracts and {pairs} pairs: {}", lines[0]));
        let input: Vec<u8> = asked.iter().flat_map(|ask| ask.bytes()).collect();
        let said = options.run(Contracts::File(&list), &input);
        held.lines(&lines, &said, |line| format!("calls: {contracts} contracts and {pairs} pairs, line {line}"));
    }
}

// ---- quotes written by the compiled writer and read back here

const WRITES: usize = 50_000;
const WRITES_A_RUN: usize = 2_000;

fn from_hex(text: &str) -> Vec<u8> {
    (0..text.len() / 2).filter_map(|i| u8::from_str_radix(&text[2 * i..2 * i + 2], 16).ok()).collect()
}

// A quote of a contract, or of the pair of it with another.
struct Quoted {
    form: &'static Form,
    code: [u8; 2],
    number: u32,
    contracts: Vec<feed::Key>, // ascending
    values: Vec<u64>,
}

fn a_quoted(r: &mut Random, code: [u8; 2], level: usize) -> Quoted {
    let form = if code[1] == b'P' { of_pair(level) } else { of_contract(code[0], level) };
    let number = 1 + r.below(4_294_967_295) as u32;
    Quoted { form, code, number, contracts: feed::keys(r, if form.is_pair() { 2 } else { 1 }), values: feed::values_of(r, form) }
}

impl Quoted {
    fn pair(&self) -> feed::Pair {
        feed::pair(&self.contracts[1], &self.contracts[0])
    }

    fn ask(&self) -> Ask {
        let Quoted { form: Form { level, length, .. }, code, number, values, .. } = self;
        let (code, level, number, room, values) = (*code, *level, *number, *length as u16, values.clone());
        if self.form.is_pair() {
            Ask::WriteSpread { code, level, number, pair: self.pair(), room, values }
        } else {
            Ask::Write { code, level, number, key: self.contracts[0], room, values }
        }
    }

    // Its number, of a contract its session, and its values, minus zero as zero; no record where the market type is another than N.
    fn right(&self) -> Option<Vec<u64>> {
        let values = reference::readings(self.form, &self.values);
        let session = if self.form.is_pair() { vec![] } else { vec![(self.code[0] == b'P') as u64] };
        let kept = self.form.is_pair() || values[0] == b'N' as u64;
        kept.then(|| [vec![self.number as u64], session, values].concat())
    }

    // What a box with just this contract or pair holds after it took the message; None where it refuses it.
    fn read_back(&self, message: Vec<u8>) -> Option<Option<Vec<u64>>> {
        let letter = if self.code[0] == b'P' { b'F' } else { self.code[0] };
        let mut book = Book::of(vec![(letter, self.contracts.clone())]);
        if self.form.is_pair() {
            book.spreads[0].1.push(self.pair());
        }
        let (list, spreads) = (book.bytes(), book.spread_bytes());
        let (mut rows, mut records) = (vec![0; GAP_ROW], vec![0; 2 * RECORD + SPREAD_RECORD]);
        reference::start(&list, &spreads, &[self.number], &mut rows, &mut records).ok()?;
        reference::take(reference::sum_by_sixteens, &list, &spreads, &mut rows, &mut records, &feed::batch(&[message])).ok()?;
        let level = self.form.level;
        if self.form.is_pair() {
            reference::read_spread(&list, &spreads, &rows, &records, letter, &self.pair(), level).ok()
        } else {
            reference::read_record(&list, &spreads, &rows, &records, letter, &self.contracts[0], level).ok()
        }
    }
}

fn writes(options: &Options, held: &mut Held) {
    let mut r = Random::new(options.seed.wrapping_add(50));
    for run in 0..WRITES / WRITES_A_RUN * options.times as usize {
        let codes = [b"DN", b"TN", b"FN", b"PN", b"DP", b"TP"];
        let quotes: Vec<Quoted> = (0..WRITES_A_RUN).map(|i| a_quoted(&mut r, *codes[i / 2 % codes.len()], 1 + i % 2)).collect();
        let input: Vec<u8> = quotes.iter().flat_map(|quoted| quoted.ask().bytes()).collect();
        let said = options.run(Contracts::Missing, &input);
        let mut said = said.lines();
        for (i, quoted) in quotes.iter().enumerate() {
            let line = said.next().unwrap_or("");
            let message = line.strip_prefix(&format!("write ok {} ", quoted.form.length)).map(from_hex);
            let back = message.and_then(|message| quoted.read_back(message));
            let right = quoted.right();
            let otherwise = || format!("calls: seed {} write {run}/{i}: wrote {right:?}, the line {line:?} reads back as {back:?}", options.seed);
            held.hold(back.as_ref() == Some(&right), otherwise);
        }
        held.hold(said.next() == Some("end"), || format!("calls: seed {} write {run}: no end", options.seed));
    }
    println!("calls: {} quotes written and read back", WRITES * options.times as usize);
}

fn main() {
    let options = Options::read();
    let mut held = Held { passed: 0, failed: 0 };
    paper(&options, &mut held);
    files(&options, &mut held);
    pairs_at_the_most(&options, &mut held);
    histories(&options, &mut held);
    writes(&options, &mut held);
    held.end();
}
