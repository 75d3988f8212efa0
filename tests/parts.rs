// The parts of the box as compiled, held against an implementation written from the papers: checksums, numbers in text, the
// contract list, the spread list, gap rows, the rows of an update.
//   parts PROGRAM... [--seed N] [--times N] [--keep FOLDER]
// PROGRAM is run once; it answers a line for each thing that it is asked (crate `parts`).
mod feed;
mod halving;
mod program;
mod random;
mod reference;

use program::{Contracts, Held, Options};
use random::Random;
use reference::{of_contract, Form, Kind, Row, Sought, KEY, MOST_CELLS, NONE, PRICE, QUANTITY, TURNOVER};
use std::collections::BTreeSet;

#[derive(Clone, Copy)]
struct Named {
    name: u8,
    kind: Kind,
    signed: bool,
}

const KINDS: [Named; 4] = [
    Named { name: b'P', kind: PRICE, signed: false },
    Named { name: b'D', kind: PRICE, signed: true },
    Named { name: b'Q', kind: QUANTITY, signed: false },
    Named { name: b'T', kind: TURNOVER, signed: false },
];

// Below zero or not, and the amount; none for a blank text.
fn number(of: Named, text: &[u8]) -> Result<Option<(bool, u64)>, u8> {
    if of.signed {
        return reference::read_difference(text);
    }
    let units = reference::read_number(of.kind, text)?;
    Ok(if units == NONE { None } else { Some((false, units)) })
}

fn read(of: Named, text: &[u8]) -> String {
    match number(of, text) {
        Ok(None) => "none".into(),
        Ok(Some((below, units))) => format!("{} {units}", if below { "below" } else { "amount" }),
        Err(11) => "malformed".into(),
        Err(_) => "out of range".into(),
    }
}

fn written(of: Named, below: bool, units: u64, width: usize) -> Option<String> {
    if of.signed { reference::write_difference(below, units, width) } else { reference::write_number(of.kind, units, width) }
}

struct Asked {
    asks: Vec<u8>,
    lines: Vec<String>,
    checks: Vec<&'static str>,
}

impl Asked {
    fn ask(&mut self, kind: u8, text: &[u8], line: String, check: &'static str) {
        self.asks.push(kind);
        self.asks.extend((text.len() as u16).to_be_bytes());
        self.asks.extend(text);
        self.lines.push(line);
        self.checks.push(check);
    }

    fn sum(&mut self, text: &[u8]) {
        let sent = reference::sum_by_bits(text);
        self.ask(b'C', text, format!("{} {}", sent[0], sent[1]), "sums");
    }

    fn read(&mut self, of: Named, text: &[u8]) {
        self.ask(of.name, text, read(of, text), "texts");
    }

    // What is written is read back too.
    fn write(&mut self, of: Named, below: bool, units: u64, width: usize) {
        let mut asked = units.to_be_bytes().to_vec();
        asked.extend([width as u8, below as u8]);
        let text = written(of, below, units, width);
        let line = text.as_ref().map_or("refused".into(), |text| format!("[{text}]"));
        self.ask(of.name.to_ascii_lowercase(), &asked, line, "amounts");
        if let Some(text) = text {
            let side = if of.signed && below && units > 0 { "below" } else { "amount" };
            self.ask(of.name, text.as_bytes(), format!("{side} {units}"), "amounts read back");
        }
    }
}

// A text that is nearly a number: a minus, digits, a point and spaces where they belong, and sometimes one thing wrong.
fn a_text(r: &mut Random, of: Named) -> Vec<u8> {
    let mut text = vec![b' '; r.below(8) as usize];
    if r.one_in(if of.signed { 2 } else { 20 }) {
        text.push(b'-');
    }
    let few = r.below(14) as usize;
    let many = r.below(40) as usize;
    for _ in 0..if r.one_in(10) { many } else { few } {
        text.push(b'0' + r.below(10) as u8);
    }
    if r.below(5) < 3 {
        text.push(b'.');
        for _ in 0..r.below(of.kind.places as u64 + 3) {
            text.push(b'0' + if r.one_in(3) { 0 } else { r.below(10) as u8 });
        }
    }
    text.extend(vec![b' '; r.below(3) as usize]);
    if r.one_in(4) && !text.is_empty() {
        let at = r.below(text.len() as u64) as usize;
        text[at] = r.pick(b" .-+,:/09xE\x00\x1f\x80\xff");
    }
    text
}

fn an_amount(r: &mut Random, kind: Kind) -> u64 {
    let top = kind.largest;
    match r.below(6) {
        0 => top + r.below(3) - 1,
        1 => r.next(),
        2 => r.below(1000),
        3 => r.below(1000) * 10u64.pow(r.below(15) as u32),
        4 => 10u64.pow(r.below(19) as u32) + r.below(3) - 1,
        _ => r.below(top),
    }
}

// Every text of up to six characters, each of every sort: so the parts of a number in every order, missing and doubled.
fn short_texts() -> Vec<Vec<u8>> {
    let mut all = vec![vec![]];
    let mut longest = all.clone();
    for _ in 0..6 {
        longest = longest.iter().flat_map(|text: &Vec<u8>| b" -.07x".map(|c| [&text[..], &[c]].concat())).collect();
        all.extend(longest.clone());
    }
    all
}

// Digits about 2^64, with zeros in front, and a point in every place of them and in none; each behind a minus too.
fn long_texts() -> Vec<Vec<u8>> {
    let mut all = vec![];
    for digits in ["1844674407370955160", "1844674407370955161", "18446744073709551609", "18446744073709551614", "18446744073709551615", "18446744073709551616",
        "184467440737095516149", "999999999999999999", "1000000000000000000"]
    {
        for zeros in [0, 1, 19, 20, 25] {
            let text = [vec![b'0'; zeros], digits.bytes().collect()].concat();
            for point in 0..=text.len() {
                all.push([&text[..point], b".", &text[point..]].concat());
            }
            all.push(text);
        }
    }
    let below: Vec<Vec<u8>> = all.iter().map(|text| [b"-", &text[..]].concat()).collect();
    all.extend(below);
    all
}

// A minus before, behind and amid each, and two of them: where one may stand, and where none may.
fn with_minus(text: &str) -> Vec<String> {
    let mut all = vec![text.to_string(), format!("--{text}"), format!("- {text}"), format!("+{text}"), format!("-{text}-")];
    all.extend((0..=text.len()).map(|at| format!("{}-{}", &text[..at], &text[at..])));
    all
}

// Texts of every length, and each bit of texts with and without bytes behind their last whole word: the sum is linear, so a step
// that treats one bit wrongly shows in these.
fn sums(asked: &mut Asked, r: &mut Random) {
    for length in 0..=600usize {
        for _ in 0..17 {
            let text: Vec<u8> = (0..length).map(|_| r.next() as u8).collect();
            asked.sum(&text);
        }
    }
    for length in [96usize, 103] {
        for bit in 0..8 * length {
            let mut text = vec![0u8; length];
            text[bit / 8] = 128 >> (bit % 8);
            asked.sum(&text);
        }
    }
}

fn numbers_in_text(asked: &mut Asked, r: &mut Random, numbers: usize) {
    let (short, long) = (short_texts(), long_texts());
    for of in KINDS {
        short.iter().chain(&long).for_each(|text| asked.read(of, text));
        for edge in ["", " ", ".", "0", "0.5", ".5", "5.", "00", "007.5", "1 2", "1. 5", "1 .5", "1..5", "1.5.", "1.5.2", "0.0", "0.0000001", "0.00000001", "1.00000000", "100.",
            "999999999999", "1000000000000", "99999999999.9999999", "99999999999.99999999", "100000000000", "9999999999999999.99", "10000000000000000", "18446744073709551616",
            "340282366920938463463374607431768211456"]
        {
            for text in with_minus(edge) {
                for pad in 0..4 {
                    asked.read(of, &[&b" "[..pad % 2], text.as_bytes(), &b" "[..pad / 2]].concat());
                }
            }
        }
        for width in 0..=25usize {
            for units in [0, 1, 5_000_000, of.kind.largest - 1, of.kind.largest, of.kind.largest + 1, u64::MAX, 1_002_500_000] {
                asked.write(of, false, units, width);
                asked.write(of, true, units, width);
            }
        }
    }
    for i in 0..numbers {
        let of = KINDS[i / 2 % KINDS.len()];
        if i % 2 == 0 {
            let text = a_text(r, of);
            asked.read(of, &text);
        } else {
            let units = an_amount(r, of.kind);
            let width = r.below(26) as usize;
            asked.write(of, r.one_in(2), units, width);
        }
    }
}

// ---- the contract list

// The line of a key that is looked up in a listed segment.
fn looked_up(segment: usize, sought: Sought) -> String {
    let place = sought.place.map_or("nowhere".into(), |place| format!("place {place}"));
    format!("segment {segment} {place} compared {}", sought.compared)
}

// Found where it stands, as keys that ascend have it; counted by halving.
fn among<const N: usize>(segment: usize, keys: &[[u8; N]], key: &[u8; N]) -> String {
    let place = keys.iter().position(|listed| listed == key);
    looked_up(segment, Sought { place, ..reference::find::<N>(&keys.concat(), key) })
}

fn lists(asked: &mut Asked, r: &mut Random, count: usize) {
    for _ in 0..count {
        let book = feed::a_book(r, 9);
        let sound = book.bytes();
        let list = if r.one_in(2) { feed::damaged_list(r, &sound) } else { sound.clone() };
        let header = reference::header(&list);
        let whole = matches!(&header, Some(h) if reference::bodies_sound(&list, h));
        asked.ask(b'L', &list, format!("sound {whole} header {}", header.is_some()), "lists");
        for _ in 0..4 {
            let letter = r.pick(b"DTDTFFP");
            let mut key = if r.one_in(4) { feed::a_key(r) } else { book.a_key(r, letter) };
            if r.one_in(5) {
                key[KEY - 1] ^= 1;
            }
            let line = match book.segments.iter().position(|s| s.0 == letter) {
                None => "nowhere".into(),
                Some(i) => among(i, &book.segments[i].1, &key),
            };
            asked.ask(b'K', &[&[letter], &key[..], &sound].concat(), line, "keys");
        }
        let shuffled = feed::shuffled_list(r, &sound);
        let segment = reference::header(&shuffled).unwrap().segments()[0];
        let key = book.a_key(r, segment.letter);
        let sought = reference::find::<KEY>(&shuffled[segment.offset..segment.offset + KEY * segment.count], &key);
        asked.ask(b'K', &[&[segment.letter], &key[..], &shuffled].concat(), looked_up(0, sought), "keys in any order");
    }
}

// Segments as large as a question can hold with a letter, a key and a list's contents; counted by the rule on numbers.
fn segments<const N: usize>(asked: &mut Asked, kind: u8, sizes: impl Iterator<Item = usize>, numbered: fn(usize) -> [u8; N]) {
    const QUESTION: usize = 65_535;
    for keys in sizes.take_while(|keys| 1 + N + 10 + N * keys <= QUESTION) {
        let list = feed::file(&[(b'T', halving::listed(keys, numbered))]);
        for place in halving::here_and_there(keys) {
            let sought = Sought { place: place.listed.then_some(place.below), compared: halving::compared(keys, place) };
            let question = [b"T", &numbered(place.number())[..], &list].concat();
            asked.ask(kind, &question, looked_up(0, sought), "segments of every size");
        }
    }
}

fn lookups(asked: &mut Asked) {
    segments(asked, b'K', halving::sizes(halving::MOST_CONTRACTS).skip(1), halving::contract);
    segments(asked, b'V', halving::sizes(halving::MOST_PAIRS), halving::pair);
}

// ---- the spread list, beside a sound contract list

fn spreads(asked: &mut Asked, r: &mut Random, count: usize) {
    for _ in 0..count {
        let book = feed::a_book(r, 5);
        let (list, pairs) = (book.bytes(), book.pairs(r, 9));
        let spreads = if r.one_in(3) { feed::file(&pairs) } else { feed::damaged_spreads(r, &book, &pairs) };
        let header = reference::header(&list).unwrap();
        let spread_header = reference::spread_header(&header, &spreads);
        let whole = matches!(&spread_header, Some(h) if reference::pairs_sound(&list, &header, &spreads, h));
        let both = [&(list.len() as u16).to_be_bytes()[..], &list, &spreads].concat();
        asked.ask(b'X', &both, format!("sound {whole} header {}", spread_header.is_some()), "spread lists");
        let none: Vec<(u8, Vec<feed::Pair>)> = pairs.iter().map(|(letter, _)| (*letter, vec![])).collect();
        let empty = feed::file(&none);
        let sent = reference::sum_by_bits(&empty);
        asked.ask(b'Z', &list, format!("size {} sum {} {}", empty.len(), sent[0], sent[1]), "no spreads");
        for (i, (letter, listed)) in pairs.iter().enumerate() {
            let pair = feed::pair(&book.a_key(r, *letter), &book.a_key(r, *letter));
            asked.ask(b'V', &[&[*letter], &pair[..], &feed::file(&pairs)].concat(), among(i, listed, &pair), "pairs");
        }
    }
}

// ---- the gap row, against a set of missing numbers

struct Gaps {
    start: u64,
    highest: u64,
    missing: BTreeSet<u64>,
}

impl Gaps {
    fn runs(&self) -> Vec<(u64, u64)> {
        let mut runs: Vec<(u64, u64)> = vec![];
        for &n in &self.missing {
            match runs.last_mut() {
                Some(r) if r.1 + 1 == n => r.1 = n,
                _ => runs.push((n, n)),
            }
        }
        runs
    }

    fn take(&mut self, n: u64) -> &'static str {
        if n <= self.highest && !self.missing.contains(&n) {
            return "old";
        }
        let mut after = Gaps { start: self.start, highest: self.highest.max(n), missing: self.missing.clone() };
        if n > self.highest {
            after.missing.extend(self.highest + 1..n);
        } else {
            after.missing.remove(&n);
        }
        if after.runs().len() > 64 {
            return "full";
        }
        *self = after;
        "taken"
    }

    fn line(&self) -> String {
        let runs = self.runs();
        let mut line = format!("sound true highest {} runs {}", self.highest, runs.len());
        for (a, b) in runs {
            line.push_str(&format!(" {a}-{b}"));
        }
        line
    }
}

// Mostly what comes next, sometimes after a hole, an old number or a missing one.
fn a_number(r: &mut Random, gaps: &Gaps, wide: u64) -> u64 {
    let near = gaps.highest + 1 + r.below(wide);
    let n = match r.below(8) {
        0..=4 => near,
        5 => gaps.highest.saturating_sub(r.below(60)),
        6 => gaps.missing.iter().nth(r.below(gaps.missing.len() as u64 + 1) as usize).copied().unwrap_or(near),
        _ => gaps.highest + 1,
    };
    n.clamp(1, 4_294_967_295)
}

fn sequences(asked: &mut Asked, r: &mut Random, count: usize) {
    for i in 0..count {
        let start = match i % 4 {
            0 => 1,
            1 => 1 + r.below(1000),
            2 => 4_294_967_295 - r.below(300),
            _ => 1 + r.below(4_294_967_295),
        };
        let mut gaps = Gaps { start, highest: start - 1, missing: BTreeSet::new() };
        asked.ask(b'S', &(start as u32).to_be_bytes(), "started".into(), "starts");
        let wide = r.pick(&[2, 3, 5, 20]);
        for _ in 0..60 + r.below(200) {
            let n = a_number(r, &gaps, wide);
            let line = gaps.take(n).to_string();
            asked.ask(b'N', &(n as u32).to_be_bytes(), line, "numbers in turn");
            if r.one_in(25) {
                let line = match gaps.runs().first().copied() {
                    None => "no gap".into(),
                    Some((first, last)) => {
                        gaps.missing.retain(|k| *k > last);
                        format!("off {first} {last}")
                    }
                };
                asked.ask(b'O', &[], line, "write-offs");
            }
            if r.one_in(10) {
                asked.ask(b'G', &[], gaps.line(), "gap lists");
            }
        }
        asked.ask(b'G', &[], gaps.line(), "gap lists");
    }
}

// A gap row handed back: sound by the table's row 18, or with one number changed.
fn rows_back(asked: &mut Asked, r: &mut Random, count: usize) {
    for _ in 0..count {
        let start = 1 + r.below(50) as u32;
        let runs = r.below(66) as u32;
        let mut row = vec![0u32; 132];
        row[0] = start;
        let mut at = start;
        for k in 0..runs.min(64) as usize {
            row[4 + 2 * k] = at + r.below(3) as u32;
            row[5 + 2 * k] = row[4 + 2 * k] + r.below(3) as u32;
            at = row[5 + 2 * k] + 2;
        }
        row[1] = at.max(start) - 1 + r.below(3) as u32 - if runs > 0 { 1 } else { 0 };
        row[2] = runs;
        if r.one_in(2) {
            let k = r.below(4 + 2 * (runs as u64 + 1)).min(131) as usize;
            row[k] = r.pick(&[0, row[k].wrapping_add(1), row[k].wrapping_sub(1), u32::MAX, 64, 65]);
        }
        let bytes: Vec<u8> = row.iter().flat_map(|n| n.to_be_bytes()).collect();
        asked.ask(b'B', &bytes, format!("sound {}", reference::row_sound(&row)), "rows handed back");
    }
}

// ---- the rows of an update

fn faulty((number, row): (u8, usize)) -> String {
    format!("{} {row}", if number == 11 { "field" } else { "range" })
}

// One cell for each row, the key's among them: what is unsent is no row.
fn rows_in(form: &Form, told: &[u64]) -> Vec<u64> {
    let sent = told.iter().zip(form.told()).filter(|(_, (row, _))| *row != Row::Unsent).map(|(&cell, _)| cell);
    vec![0; form.key_rows].into_iter().chain(sent).collect()
}

fn read_rows(form: &Form, data: &[u8]) -> String {
    let mut cells = [0; MOST_CELLS];
    match reference::read_cells(form, data, &mut cells) {
        Err(fault) => faulty(fault),
        Ok(()) => rows_in(form, &cells).iter().fold("good".into(), |line, cell| format!("{line} {cell}")),
    }
}

fn rows(asked: &mut Asked, r: &mut Random, count: usize) {
    for _ in 0..count {
        let asked_form = 1 + r.below(4) as u8; // D's form of each level, and then F's
        let form = of_contract(if asked_form < 3 { b'D' } else { b'F' }, 1 + (asked_form as usize + 1) % 2);
        let mut key = feed::a_key(r);
        let mut values = feed::values_of(r, form);
        if r.one_in(3) {
            feed::damage_quote(r, &mut values);
        }
        if r.one_in(8) {
            key[r.below(KEY as u64) as usize] = r.pick(&[0, 31, 127, 255]);
        }
        let written = reference::write_data(form, &key, &values);
        let line = written.as_ref().map_or_else(|&fault| faulty(fault), |data| format!("[{}]", String::from_utf8_lossy(data)));
        let bytes: Vec<u8> = rows_in(form, &values).iter().flat_map(|c| c.to_be_bytes()).collect();
        asked.ask(b'W', &[&[asked_form], &key[..], &bytes].concat(), line, "rows written");
        let mut data = written.unwrap_or_else(|_| vec![b' '; form.length - 11]);
        for _ in 0..r.below(3) {
            let i = r.below(data.len() as u64) as usize;
            data[i] = r.pick(b" .0959NS-\x00\xff");
        }
        asked.ask(b'U', &[&[asked_form], &data[..]].concat(), read_rows(form, &data), "rows read");
    }
}

fn all_asked(seed: u64, times: usize) -> Asked {
    let mut r = Random::new(seed);
    let mut asked = Asked { asks: vec![], lines: vec![], checks: vec![] };
    sums(&mut asked, &mut r);
    numbers_in_text(&mut asked, &mut r, 100_000 * times);
    lists(&mut asked, &mut r, 1_000 * times);
    spreads(&mut asked, &mut r, 1_000 * times);
    lookups(&mut asked);
    sequences(&mut asked, &mut r, 100 * times);
    rows_back(&mut asked, &mut r, 2_000 * times);
    rows(&mut asked, &mut r, 2_000 * times);
    asked
}

fn main() {
    let options = Options::read();
    let mut held = Held { passed: 0, failed: 0 };
    let mut asked = all_asked(options.seed, options.times as usize);
    let said = options.run(Contracts::Missing, &asked.asks);
    asked.lines.push("end".into());
    asked.checks.push("end");
    held.lines(&asked.lines, &said, |line| format!("parts: seed {} {} {line}", options.seed, asked.checks.get(line).unwrap_or(&"past the end")));
    held.end();
}
