// Lists, texts, messages and batches that look random: sound ones, and ones in which one thing or two are wrong.
#![allow(dead_code)] // each test uses a part

use crate::random::Random;
use crate::reference::{self, Form, Kind, Row, FUTURES_LENGTHS, KEY, LENGTHS, MINUS, NONE, PAIR, PRICE, QUANTITY, RUNS, SPREAD_LENGTHS};

pub type Key = [u8; KEY];
pub type Pair = [u8; PAIR];

// ---- contract lists, and spread lists beside them

// A house file of these segments and keys.
pub fn file<const N: usize>(segments: &[(u8, Vec<[u8; N]>)]) -> Vec<u8> {
    let mut list = (segments.len() as u16).to_be_bytes().to_vec();
    let mut offset = list.len() + 8 * segments.len();
    for (letter, keys) in segments {
        list.extend([*letter, 0]);
        list.extend((keys.len() as u16).to_be_bytes());
        list.extend((offset as u32).to_be_bytes());
        offset += N * keys.len();
    }
    list.extend(segments.iter().flat_map(|(_, keys)| keys.concat()));
    list
}

#[derive(Clone)]
pub struct Book {
    pub segments: Vec<(u8, Vec<Key>)>,
    pub spreads: Vec<(u8, Vec<Pair>)>,
}

impl Book {
    // Without pairs.
    pub fn of(segments: Vec<(u8, Vec<Key>)>) -> Book {
        let spreads = segments.iter().map(|(letter, _)| (*letter, vec![])).collect();
        Book { segments, spreads }
    }

    pub fn with_pairs(mut self, r: &mut Random, most: u64) -> Book {
        self.spreads = self.pairs(r, most);
        self
    }

    pub fn bytes(&self) -> Vec<u8> {
        file(&self.segments)
    }

    pub fn spread_bytes(&self) -> Vec<u8> {
        file(&self.spreads)
    }

    // Pairs of listed keys, at most `most` a segment.
    pub fn pairs(&self, r: &mut Random, most: u64) -> Vec<(u8, Vec<Pair>)> {
        let segments = self.segments.iter().map(|(letter, keys)| {
            let number = if r.one_in(3) { 0 } else { r.below(most + 1) };
            let mut pairs: Vec<Pair> = (0..number).map(|_| pair(&r.pick(keys), &r.pick(keys))).collect();
            pairs.sort();
            pairs.dedup();
            (*letter, pairs)
        });
        segments.collect()
    }

    pub fn letters(&self) -> Vec<u8> {
        self.segments.iter().map(|s| s.0).collect()
    }

    pub fn contracts(&self) -> usize {
        self.segments.iter().map(|s| s.1.len()).sum()
    }

    pub fn a_key(&self, r: &mut Random, letter: u8) -> Key {
        match self.segments.iter().find(|s| s.0 == letter) {
            Some((_, keys)) => r.pick(keys),
            None => a_key(r),
        }
    }

    // A letter's pairs.
    pub fn listed_pairs(&self, letter: u8) -> &[Pair] {
        self.spreads.iter().find(|s| s.0 == letter).map_or(&[], |(_, pairs)| pairs)
    }

    pub fn number_of_pairs(&self) -> usize {
        self.spreads.iter().map(|s| s.1.len()).sum()
    }

    // A listed pair; where the letter has none, two of its contracts.
    pub fn a_pair(&self, r: &mut Random, letter: u8) -> Pair {
        match self.listed_pairs(letter) {
            [] => pair(&self.a_key(r, letter), &self.a_key(r, letter)),
            pairs => r.pick(pairs),
        }
    }

    // A pair that a careless box would find: of two contracts that are listed, the wrong way round, another segment's, a byte off.
    fn a_pair_beside(&self, r: &mut Random, letter: u8) -> Pair {
        let mut found = self.a_pair(r, letter);
        match r.below(4) {
            0 => pair(&self.a_key(r, letter), &self.a_key(r, letter)),
            1 => {
                found.rotate_left(KEY);
                found
            }
            2 => {
                let other = r.pick(&self.letters());
                self.a_pair(r, other)
            }
            _ => {
                found[r.below(PAIR as u64) as usize] = r.pick(b"\x00\x1f!~\x7f\xff Z");
                found
            }
        }
    }

    // The key of an update of a form: listed, where there is one.
    pub fn a_key_for(&self, r: &mut Random, form: &Form, letter: u8) -> Vec<u8> {
        if form.is_pair() { self.a_pair(r, letter).to_vec() } else { self.a_key(r, letter).to_vec() }
    }
}

pub fn pair(first: &Key, second: &Key) -> Pair {
    [&first[..], second].concat().try_into().unwrap()
}

// Many keys begin alike, so that the last bytes count.
pub fn a_key(r: &mut Random) -> Key {
    let mut key = *b"FUTCURUSDINR    27-MAR-2026          XX";
    match r.below(4) {
        0 => key[16..18].copy_from_slice(format!("{:02}", 1 + r.below(28)).as_bytes()),
        1 => key[27..37].copy_from_slice(format!("{:>10}", r.below(100_000)).as_bytes()),
        2 => key.iter_mut().for_each(|b| *b = r.pick(b" A~")),
        _ => key[30..].iter_mut().for_each(|b| *b = 32 + r.below(95) as u8),
    }
    key
}

pub fn keys(r: &mut Random, number: usize) -> Vec<Key> {
    let mut keys = vec![];
    while keys.len() < number {
        keys.push(a_key(r));
        if r.one_in(8) {
            let mut beside = keys[keys.len() - 1];
            beside[KEY - 1] = if beside[KEY - 1] < 126 { beside[KEY - 1] + 1 } else { 32 };
            keys.push(beside);
        }
        keys.sort();
        keys.dedup();
    }
    keys.truncate(number);
    keys
}

// The letters of a list's segments.
pub fn some_letters(r: &mut Random) -> &'static [u8] {
    r.pick(&[b"DFT".as_slice(), b"DFT", b"DF", b"FT", b"DT", b"DT", b"D", b"F", b"T"])
}

// At most `most` contracts a segment.
pub fn a_book(r: &mut Random, most: u64) -> Book {
    let letters = some_letters(r);
    book_of(r, letters, most)
}

pub fn book_of(r: &mut Random, letters: &[u8], most: u64) -> Book {
    let segments = letters.iter().map(|&letter| {
        let number = if r.one_in(3) { 1 + r.below(3).min(most - 1) } else { 1 + r.below(most) };
        (letter, keys(r, number as usize))
    });
    Book::of(segments.collect())
}

// One thing wrong: the contents, a body, the size, the order of two keys.
pub fn damaged_list(r: &mut Random, list: &[u8]) -> Vec<u8> {
    damaged_file(r, list, KEY)
}

// The bytes before the bodies of a file that is sound so far.
fn contents_of(list: &[u8]) -> usize {
    2 + 8 * list[1] as usize
}

fn damaged_file(r: &mut Random, list: &[u8], key: usize) -> Vec<u8> {
    let mut list = list.to_vec();
    let contents = contents_of(&list);
    let keys = (list.len() - contents) / key;
    match r.below(8) {
        0 => list.push(r.next() as u8),
        1 => {
            list.pop();
        }
        2 | 3 => {
            let at = r.below(contents as u64) as usize;
            list[at] = list[at].wrapping_add(r.pick(&[1, 255, 16, 128]));
        }
        4 if keys > 0 => {
            let at = contents + r.below((list.len() - contents) as u64) as usize;
            list[at] = r.pick(&[0, 31, 127, 255]);
        }
        5 if keys > 1 => {
            let at = contents + key * r.below(keys as u64 - 1) as usize;
            let (a, b) = list[at..at + 2 * key].split_at_mut(key);
            if r.one_in(2) { a.swap_with_slice(b) } else { b.copy_from_slice(a) }
        }
        6 => list = list[..r.below(contents as u64 + 1) as usize].to_vec(),
        _ => {
            let at = r.below(contents as u64) as usize;
            list[at] = r.pick(b"\x00\x01\x02\x03\x04DFPTZ\x10\xff");
        }
    }
    list
}

// What may be wrong with a spread list: what a call after start looks at too, and what start alone does.
pub const WRONG_CONTENTS: [&str; 11] = [
    "an empty file",
    "another number of segments",
    "fewer segments than the contract list's",
    "another letter",
    "a byte that should be zero",
    "a count of 1,025",
    "a count that is off",
    "an offset that is off",
    "a byte too many",
    "a byte too few",
    "contents cut short",
];
pub const WRONG_PAIRS: [&str; 6] = [
    "pairs not ascending",
    "a pair twice",
    "a byte outside 32 to 126",
    "a first half that is not listed",
    "a second half that is not listed",
    "a half that is listed for another segment alone",
];

pub fn spread_wrongs() -> Vec<&'static str> {
    [&WRONG_CONTENTS[..], &WRONG_PAIRS].concat()
}

// All segments but one; None where there is no other.
fn without(pairs: &[(u8, Vec<Pair>)], which: usize) -> Option<Vec<(u8, Vec<Pair>)>> {
    let mut fewer = pairs.to_vec();
    fewer.remove(which);
    Some(fewer).filter(|fewer| !fewer.is_empty())
}

// The spread list of these pairs with just that wrong; None where there is no such segment, or nothing would be wrong.
fn with_wrong_contents(r: &mut Random, what: &str, pairs: &[(u8, Vec<Pair>)]) -> Option<Vec<u8>> {
    let mut spreads = file(pairs);
    let which = r.below(pairs.len() as u64) as usize;
    let (letter, count, offset) = (pairs[which].0, pairs[which].1.len() as u16, 2 + 8 * pairs.len() as u32);
    let mut put = |field: usize, bytes: &[u8]| spreads[field..field + bytes.len()].copy_from_slice(bytes);
    let at = 2 + 8 * which; // its contents: letter, zero byte, count, offset
    match what {
        "an empty file" => spreads.clear(),
        "another number of segments" => put(0, &r.pick(&[0, 4, 0x0101, 0x0100, 0x0200, 0x0300u16]).to_be_bytes()),
        "fewer segments than the contract list's" => spreads = file(&without(pairs, which)?),
        "another letter" => put(at, &[r.pick(&b"DFTPdftU".iter().copied().filter(|&other| other != letter).collect::<Vec<u8>>())]),
        "a byte that should be zero" => put(at + 1, &[r.pick(&[1, 32, 255])]),
        "a count of 1,025" => put(at + 2, &1_025u16.to_be_bytes()),
        "a count that is off" => put(at + 2, &(if count > 0 && r.one_in(2) { count - 1 } else { count + 1 }).to_be_bytes()),
        "an offset that is off" => {
            put(at + 4, &r.pick(&[0, 1, offset - 8, offset - 1, offset + 1, offset + 78, offset + (1 << 16)]).to_be_bytes());
            return Some(spreads).filter(|spreads| *spreads != file(pairs));
        }
        "a byte too many" => spreads.push(r.pick(b" ~\x00")),
        "a byte too few" => {
            spreads.pop();
        }
        _ => spreads.truncate(1 + r.below(offset as u64 - 1) as usize),
    }
    Some(spreads)
}

// The same with what start alone looks at; None where the contracts leave no room for it.
fn with_wrong_pairs(r: &mut Random, what: &str, book: &Book, pairs: &[(u8, Vec<Pair>)]) -> Option<Vec<u8>> {
    let mut all = pairs.to_vec();
    let which = r.below(all.len() as u64) as usize;
    let keys = &book.segments[which].1;
    let pairs = &mut all[which].1;
    let not_listed = |key: Key| Some(key).filter(|key| !keys.contains(key));
    match what {
        "pairs not ascending" => {
            let (low, high) = (keys[0], *keys.last().filter(|_| keys.len() > 1)?);
            *pairs = vec![pair(&low, &high), pair(&low, &low)];
            return Some(file(&all));
        }
        "a pair twice" => {
            let twice = pair(&r.pick(keys), &r.pick(keys));
            pairs.extend([twice, twice]);
        }
        "a byte outside 32 to 126" => {
            let mut bad = pair(&r.pick(keys), &r.pick(keys));
            bad[r.below(PAIR as u64) as usize] = r.pick(&[0, 31, 127, 255]);
            pairs.push(bad);
        }
        "a first half that is not listed" => pairs.push(pair(&not_listed(a_key(r))?, &r.pick(keys))),
        "a second half that is not listed" => pairs.push(pair(&r.pick(keys), &not_listed(a_key(r))?)),
        _ => {
            let other = (which + 1 + r.below(2) as usize) % book.segments.len();
            let (listed, strange) = (r.pick(keys), not_listed(r.pick(&book.segments[other].1))?);
            pairs.push(if r.one_in(2) { pair(&listed, &strange) } else { pair(&strange, &listed) });
        }
    }
    pairs.sort();
    Some(file(&all))
}

// A spread list in which just that is wrong, where there can be one.
pub fn wrong_spreads(r: &mut Random, what: &str, book: &Book, pairs: &[(u8, Vec<Pair>)]) -> Option<Vec<u8>> {
    if WRONG_CONTENTS.contains(&what) { with_wrong_contents(r, what, pairs) } else { with_wrong_pairs(r, what, book, pairs) }
}

// One thing wrong: any of these, any byte of the file, or another list's pairs.
pub fn damaged_spreads(r: &mut Random, book: &Book, pairs: &[(u8, Vec<Pair>)]) -> Vec<u8> {
    match r.below(6) {
        0 => damaged_file(r, &file(pairs), PAIR),
        1 => file(&a_book(r, 3).pairs(r, 3)),
        _ => loop {
            let what = r.pick(&spread_wrongs());
            if let Some(spreads) = wrong_spreads(r, what, book, pairs) {
                return spreads;
            }
        },
    }
}

// The bodies in another order: the header still passes, and lookup goes by halving all the same.
pub fn shuffled_list(r: &mut Random, list: &[u8]) -> Vec<u8> {
    shuffled_file(r, list, KEY)
}

pub fn shuffled_file(r: &mut Random, list: &[u8], key: usize) -> Vec<u8> {
    let contents = contents_of(list);
    let mut bodies: Vec<&[u8]> = list[contents..].chunks(key).collect();
    for i in (1..bodies.len()).rev() {
        bodies.swap(i, r.below(i as u64 + 1) as usize);
    }
    [&list[..contents], &bodies.concat()].concat()
}

// ---- texts

fn digits(r: &mut Random, number: u64) -> String {
    (0..number).map(|_| char::from(b'0' + if r.one_in(5) { 0 } else { r.below(10) as u8 })).collect()
}

// Texts at the edges of what is in range, in fields of either width.
const GOOD_PRICES: [&str; 12] = [
    "99999999999.99999", "0", "0.0000001", "0000000.0000001", "99999999999", "123456789.1234567", "00000099999999999", "9999999999", "99.9999999",
    "99999999.9", "0000000000", "000.000000",
];
const GOOD_QUANTITIES: [&str; 6] = ["999999999999", "0", "000000000001", "1", "99999999999", "00000000000"];
const GOOD_TURNOVERS: [&str; 7] = [
    "9999999999999999.99", "0", "0.01", "0000009999999999999999.99", "0.00", "9999999999999999", "0000000000000000000000.10",
];

// One that the width holds.
fn a_fitting<'a>(r: &mut Random, texts: &[&'a str], width: usize) -> &'a str {
    let fitting: Vec<&str> = texts.iter().copied().filter(|text| text.len() <= width).collect();
    r.pick(&fitting)
}

// A text that denotes an amount in range, not always the shortest one.
pub fn a_text(r: &mut Random, kind: Kind, width: usize) -> Vec<u8> {
    let edges: &[&str] = match kind {
        PRICE => &GOOD_PRICES,
        QUANTITY => &GOOD_QUANTITIES,
        _ => &GOOD_TURNOVERS,
    };
    let mut text = match r.below(12) {
        0 => String::new(),
        1 => a_fitting(r, edges, width).to_string(),
        _ => {
            let most = if kind == PRICE { 11 } else { 12 };
            let whole = 1 + r.below(most.min(width as u64));
            let mut text = digits(r, whole);
            if kind.places > 0 && r.below(3) > 0 {
                let room = (width - text.len()).saturating_sub(1).min(kind.places) as u64;
                if room > 0 {
                    let places = 1 + r.below(room);
                    text = format!("{text}.{}", digits(r, places));
                }
            }
            text
        }
    };
    let behind = if r.one_in(6) { r.below((width - text.len()) as u64 + 1) as usize } else { 0 };
    text.push_str(&" ".repeat(behind));
    format!("{text:>width$}").into_bytes()
}

// Differences at the edges: minus zero, zeros in front, and the largest of each side that the width holds.
const DIFFERENCES: [&str; 12] = [
    "-0", "-0.00", "-007.5", "-0.0000001", "-99999999999.9999", "99999999999.99999", "-99999999999", "-00000.0000000", "-1",
    "-123456789.12345", "-000000000000005", "-0.5",
];

// A difference in range: blank, a price, or one below zero.
pub fn a_difference(r: &mut Random, width: usize) -> Vec<u8> {
    if r.one_in(8) {
        return format!("{:>width$}", r.pick(&DIFFERENCES)).into_bytes();
    }
    let mut text = a_text(r, PRICE, width);
    if let (Some(first @ 1..), true) = (text.iter().position(|&b| b != b' '), r.one_in(2)) {
        text[first - 1] = b'-';
    }
    text
}

// No number of any kind.
const SHAPES: [&str; 19] =
    ["100.", ".5", "-1", "+1", "1 2", "1. 5", "1 .5", "1..5", "1.5.5", "1,5", ".", "1e5", "x", "\u{0}", "5\u{0}", "\u{b}1", "1\u{9}", "/", ":"];

// Too large or too fine for the kind, and some of these malformed besides.
const PRICES: [&str; 10] = [
    "100000000000", "1.00000000", "0.00000000", "99999999999999999", "100000000000.0", "00000000.00000000", "100000000000.0x", "1.00000000x",
    "1.00000000 1", "1.00000000.",
];
const SIGNS: [&str; 18] = [
    "- 5", "--5", "-", "-.5", "5-", "+5", "-5-", "1-5", "-+5", "-1.", "-x", "-100000000000", "-1.00000000", "-0.00000000", "-9999999999999999",
    "-100000000000.0", "-100000000000x", "-1.00000000x",
];
const QUANTITIES: [&str; 6] = ["1.0", "1.", "0.5", "12345678901.", "-1", "-0"];
const TURNOVERS: [&str; 9] = [
    "10000000000000000", "1.000", "0.001", "9999999999999999999999999", "10000000000000000.00", "18446744073709551616", "184467440737095516.16",
    "1.000x", "1.000 1",
];

// A text that is no number of its kind, or none in its range.
pub fn a_wrong_text(r: &mut Random, kind: Kind, width: usize) -> Vec<u8> {
    let of_kind: &[&str] = match kind {
        PRICE => &PRICES,
        QUANTITY => &QUANTITIES,
        _ => &TURNOVERS,
    };
    a_wrong_one(r, of_kind, width)
}

// Some of them are no difference only by what is done to them here.
pub fn a_wrong_difference(r: &mut Random, width: usize) -> Vec<u8> {
    let of_kind: &[&str] = if r.one_in(4) { &PRICES } else { &SIGNS };
    a_wrong_one(r, of_kind, width)
}

fn a_wrong_one(r: &mut Random, of_kind: &[&str], width: usize) -> Vec<u8> {
    let text = if r.one_in(2) { a_fitting(r, of_kind, width) } else { r.pick(&SHAPES) };
    let mut text = format!("{text:>width$}").into_bytes();
    let spaces = text.iter().take_while(|&&b| b == b' ').count();
    if r.one_in(3) {
        text.rotate_left(r.below(spaces as u64 + 1) as usize);
    }
    if r.one_in(8) {
        let at = r.below(width as u64) as usize;
        text[at] = r.pick(b" .-\x00\x80\xff");
    }
    text
}

// Of most updates N, where others may stand.
fn a_market_type(r: &mut Random, form: &Form) -> u8 {
    if !form.is_pair() && r.one_in(4) { r.pick(form.market_types) } else { b'N' }
}

fn a_field(r: &mut Random, market_type: u8, row: Row, width: usize) -> Vec<u8> {
    match row {
        Row::Text | Row::Unsent => vec![],
        Row::MarketType => vec![market_type],
        Row::Status => vec![r.pick(b"S ")],
        Row::Number(kind) => a_text(r, kind, width),
        Row::Difference => a_difference(r, width),
    }
}

// ---- messages

// With nothing in the trailer: so heartbeats are, and so a message is that was sent by half.
pub fn unsealed(code: [u8; 2], number: u32, data: &[u8]) -> Vec<u8> {
    let mut message = code.to_vec();
    message.extend((data.len() as u16 + 11).to_be_bytes());
    message.extend(number.to_be_bytes());
    message.extend(data);
    message.extend([0, 0, 13]);
    message
}

pub fn sealed(code: [u8; 2], number: u32, data: &[u8]) -> Vec<u8> {
    let mut message = unsealed(code, number, data);
    if code[1] != b'H' {
        seal(&mut message);
    }
    message
}

fn seal(message: &mut [u8]) {
    let end = message.len() - 3;
    let sum = reference::sum_by_bits(&message[..end]);
    message[end..end + 2].copy_from_slice(&sum);
}

// A code of a segment: where 002 prints one of the pre-open session beside F's, either.
fn a_code(r: &mut Random, letter: u8, second: u8) -> [u8; 2] {
    let pre_open = letter == b'F' && b"NOC".contains(&second) && r.one_in(2);
    [if pre_open { b'P' } else { letter }, second]
}

// With that code; a pair's has no market type.
pub fn update_of(r: &mut Random, form: &Form, code: [u8; 2], market_type: u8, number: u32, key: &[u8]) -> Vec<u8> {
    let mut data = key.to_vec();
    for &(row, width) in form.told() {
        data.extend(a_field(r, market_type, row, width));
    }
    sealed(code, number, &data)
}

pub fn an_update(r: &mut Random, form: &Form, letter: u8, number: u32, key: &[u8]) -> Vec<u8> {
    let (code, market_type) = (a_code(r, letter, form.code), a_market_type(r, form));
    update_of(r, form, code, market_type, number, key)
}

// One whose rows behind the key are blank. The letter is a segment's, or P.
pub fn a_blank_update(form: &Form, letter: u8, number: u32, key: &[u8]) -> Vec<u8> {
    let mut data = key.to_vec();
    for &(row, width) in form.told() {
        data.extend(vec![if row == Row::MarketType { b'N' } else { b' ' }; width]);
    }
    sealed([letter, form.code], number, &data)
}

// The second bytes of a segment's messages that are passed over: those which may carry zero (000, 002 and 003, 4.2 and 4.11; 002 4.10), and
// the rest, to which F's messages of pairs belong.
pub fn unsummed(letter: u8) -> &'static [u8] {
    if letter == b'F' { b"CEOZ" } else { b"CEO" }
}

pub fn summed(letter: u8) -> &'static [u8] {
    if letter == b'F' { b"ABDFGIJKLMPQRSTUVWXY" } else { b"ABDFGIJKLMQRSTUVWXYZ" }
}

fn passed_over(r: &mut Random, letter: u8, number: u32, seconds: &[u8]) -> Vec<u8> {
    let second = r.pick(seconds);
    let length = if r.one_in(6) { r.pick(&[LENGTHS, SPREAD_LENGTHS, FUTURES_LENGTHS].concat()) as u64 - 11 } else { r.below(60) };
    let data: Vec<u8> = (0..length).map(|_| r.next() as u8).collect();
    let zero = unsummed(letter).contains(&second) && r.one_in(2);
    (if zero { unsealed } else { sealed })(a_code(r, letter, second), number, &data)
}

// A sound message. A heartbeat looks at no number; pairs have updates where there are any.
pub fn a_message(r: &mut Random, book: &Book, letter: u8, number: u32) -> Vec<u8> {
    let level = 1 + r.below(5) as usize / 3;
    match r.below(10) {
        0 => sealed([letter, b'H'], 0, &[]),
        1 => passed_over(r, letter, number, unsummed(letter)),
        2 => passed_over(r, letter, number, summed(letter)),
        3..=5 if letter != b'F' && !book.listed_pairs(letter).is_empty() => {
            let pair = book.a_pair(r, letter);
            an_update(r, reference::of_pair(level), letter, number, &pair)
        }
        _ => {
            let key = book.a_key(r, letter);
            an_update(r, reference::of_contract(letter, level), letter, number, &key)
        }
    }
}

// The form of an update of a segment: of a pair now and then, where such messages have one.
pub fn a_form(r: &mut Random, letter: u8, level: usize) -> &'static Form {
    if letter != b'F' && r.one_in(3) { reference::of_pair(level) } else { reference::of_contract(letter, level) }
}

// Where the field of what is told in the k-th place begins in a message, and its width.
fn field_of(form: &Form, k: usize) -> (usize, usize) {
    let before: usize = form.told()[..k].iter().map(|&(_, width)| width).sum();
    (8 + form.key + before, form.told()[k].1)
}

// The places of what is told that a field is sent for and that pass a test.
fn places(form: &Form, test: impl Fn(Row) -> bool) -> Vec<usize> {
    (0..form.told().len()).filter(|&k| form.told()[k].0 != Row::Unsent && test(form.told()[k].0)).collect()
}

// Makes a wrong row in an update, so that 11 or 12 is due.
fn damage_row(r: &mut Random, form: &Form, message: &mut [u8]) {
    let all = places(form, |_| true);
    let any = r.pick(&all);
    let k = match r.below(8) {
        0 => all[0],
        1 => places(form, |row| row == Row::Status).first().copied().unwrap_or(any),
        2 => all[all.len() - 1],
        3 => all[1],
        _ => any,
    };
    let (at, width) = field_of(form, k);
    let field = &mut message[at..at + width];
    match form.told()[k].0 {
        Row::Number(kind) => field.copy_from_slice(&a_wrong_text(r, kind, width)),
        Row::Difference => field.copy_from_slice(&a_wrong_difference(r, width)),
        _ => field[0] = r.pick(b"nXBosa`OSA \x00\xff"),
    }
}

// A number that is only too large or too fine, so that 12 is due. No quantity of its width is either.
fn damage_range(r: &mut Random, form: &Form, message: &mut [u8]) {
    let numbers = places(form, |row| row == Row::Difference || matches!(row, Row::Number(kind) if kind != QUANTITY));
    let k = r.pick(&numbers);
    let (at, width) = field_of(form, k);
    let texts: &[&str] = match form.told()[k].0 {
        Row::Difference => &["-100000000000", "-1.00000000", "-0.00000000", "-9999999999999999", "100000000000", "1.00000000"],
        Row::Number(PRICE) => &["100000000000", "1.00000000", "0.00000000", "99999999999999999", "0.12345678"],
        _ => &["10000000000000000", "1.000", "18446744073709551616", "9999999999999999999999999"],
    };
    let text = a_fitting(r, texts, width);
    message[at..at + width].copy_from_slice(format!("{text:>width$}").as_bytes());
}

// A sum that a careless box would take: not lowered, high byte first, zero, one bit off.
fn damage_sum(r: &mut Random, message: &mut [u8]) {
    let end = message.len() - 3;
    let mut plain = 0u16;
    for &byte in &message[..end] {
        plain ^= (byte as u16) << 8;
        for _ in 0..8 {
            plain = (plain << 1) ^ if plain & 0x8000 != 0 { 0x1021 } else { 0 };
        }
    }
    match r.below(5) {
        0 => message[end..end + 2].copy_from_slice(&plain.to_le_bytes()),
        1 => message.swap(end, end + 1),
        2 => message[end..end + 2].fill(0),
        3 => message[end] ^= 1 << r.below(8),
        _ => message[end + 1] ^= 1 << r.below(8),
    }
}

// An update whose sum has a byte that is lowered, made by trying contents.
fn a_lowered_update(r: &mut Random, book: &Book, letter: u8, number: u32) -> Vec<u8> {
    let form = a_form(r, letter, 1);
    let key = book.a_key_for(r, form, letter);
    loop {
        let message = an_update(r, form, letter, number, &key);
        let sum = &message[message.len() - 3..message.len() - 1];
        if sum.iter().any(|b| matches!(b, 9 | 12 | 16 | 18)) {
            return message;
        }
    }
}

// The form of an update that stands; anything else is made into one first.
fn as_update(r: &mut Random, book: &Book, letter: u8, number: u32, message: &mut Vec<u8>) -> &'static Form {
    if let Some(form) = reference::form_of([message[0], message[1]], message.len()) {
        return form;
    }
    let level = 1 + r.below(2) as usize;
    let form = a_form(r, letter, level);
    let key = book.a_key_for(r, form, letter);
    *message = an_update(r, form, letter, number, &key);
    form
}

// With the right sum again, as a rule: now and then it stays the old one, and a second rule is broken.
fn reseal(r: &mut Random, message: &mut [u8]) {
    if !r.one_in(5) {
        seal(message);
    }
}

// Damages a message so that a rule 5 to 13 is broken; `number` is what a number of it may be.
pub fn damage(r: &mut Random, rule: u8, book: &Book, letter: u8, number: u32, message: &mut Vec<u8>) {
    match rule {
        5 => {
            let length = message.len() as u16;
            let length = r.pick(&[0, 1, 8, 10, length + 1, length - 1, 32_767, 32_768, 65_535, length + 600]);
            message[2..4].copy_from_slice(&length.to_be_bytes());
        }
        6 => {
            match r.below(5) {
                0 | 1 => message[0] = r.pick(b"DDTTFFPdtfp\x00\xff"),
                2 => message[1] = r.pick(b"@[an`{\x00\xff1 h"),
                // Codes with P that no segment has, and those that are F's and so of no other batch.
                3 => message[..2].copy_from_slice(&[b'P', r.pick(b"ABDEFGHIJKLMPQRSTUVWXYZ")]),
                _ => message[..2].copy_from_slice(&[b'P', r.pick(b"NOC")]),
            }
            reseal(r, message);
        }
        7 => *message.last_mut().unwrap() = r.pick(&[0, 10, 12, 14, 141, 255]),
        8 => damage_length(r, book, letter, number, message),
        9 => {
            match r.below(6) {
                0 => *message = sealed([letter, b'H'], 0, &[]),
                1 => *message = a_lowered_update(r, book, letter, number),
                2 => *message = passed_over(r, letter, number, summed(letter)),
                3 => *message = passed_over(r, letter, number, unsummed(letter)),
                _ => {}
            }
            damage_sum(r, message);
        }
        10 if message[1] == b'H' || r.one_in(8) => *message = sealed([letter, b'H'], 1 + r.below(9) as u32, &[]),
        10 => {
            message[4..8].fill(0);
            reseal(r, message);
        }
        11 => {
            let form = as_update(r, book, letter, number, message);
            (0..1 + r.below(3)).for_each(|_| damage_row(r, form, message));
            reseal(r, message);
        }
        12 => {
            let form = as_update(r, book, letter, number, message);
            damage_range(r, form, message);
            if r.one_in(4) {
                damage_row(r, form, message);
            }
            reseal(r, message);
        }
        _ => {
            let form = as_update(r, book, letter, number, message);
            if form.is_pair() {
                message[8..8 + PAIR].copy_from_slice(&book.a_pair_beside(r, letter));
            } else {
                message[8 + r.below(KEY as u64) as usize] = r.pick(b"\x00\x1f!~\x7f\xff Z");
            }
            reseal(r, message);
        }
    }
}

// A length that is none of its code's, with all else as it should be: other codes' lengths too, and those that 002's messages once had.
fn damage_length(r: &mut Random, book: &Book, letter: u8, number: u32, message: &mut Vec<u8>) {
    let form = as_update(r, book, letter, number, message);
    if r.one_in(4) {
        message[1] = b'H';
    }
    let near = form.length as u64 - 1 + 2 * r.below(2);
    let code = [message[0], form.code];
    let all = [LENGTHS, SPREAD_LENGTHS, FUTURES_LENGTHS].concat();
    let others: Vec<usize> = all.into_iter().filter(|&length| reference::form_of(code, length).is_none()).collect();
    let other = r.pick(&others);
    let length = r.pick(&[11, 12, near as usize, near as usize, other, other, other, other, 193, 260]);
    message.resize(length, b' ');
    message[2..4].copy_from_slice(&(length as u16).to_be_bytes());
    *message.last_mut().unwrap() = 13;
    reseal(r, message);
}

// ---- batches

pub fn batch(messages: &[Vec<u8>]) -> Vec<u8> {
    let data = messages.concat();
    let mut batch = vec![1];
    batch.extend((data.len() as u16).to_be_bytes());
    batch.extend((messages.len() as u16).to_be_bytes());
    batch.extend(data);
    batch
}

// Breaks a rule of the batch itself: 1 to 4, or 5 by its count.
pub fn damage_batch(r: &mut Random, batch: &mut Vec<u8>) {
    let two = |batch: &[u8], at: usize| u16::from_be_bytes([batch[at], batch[at + 1]]);
    let (size, count) = (two(batch, 1), two(batch, 3));
    match r.below(10) {
        0 => batch[0] = 0,
        1 => batch[0] = r.pick(&[2, 49, 255]),
        2 => batch.truncate(r.below(6) as usize),
        3 => batch.truncate(r.below(batch.len() as u64) as usize),
        4 => batch.push(r.pick(&[0, 13, 68])),
        5 => batch[1..3].copy_from_slice(&r.pick(&[0, size + 1, size.wrapping_sub(1), 32_767, 32_768, 65_535]).to_be_bytes()),
        6 => {
            let (a, b) = (size.to_be_bytes(), count.to_be_bytes());
            batch[1..5].copy_from_slice(&[b[0], b[1], a[0], a[1]]);
        }
        7 => {
            let extra = r.pick(&[1, 7, 8, 10, 11, 30]) as usize;
            batch.extend(vec![13; extra]);
            let size = (batch.len() - 5) as u16;
            batch[1..3].copy_from_slice(&size.to_be_bytes());
        }
        8 => batch[3..5].copy_from_slice(&r.pick(&[0, count - 1, count + 1, 65_535]).to_be_bytes()),
        _ => {
            let cut = 1 + r.below((batch.len() - 5) as u64) as usize;
            batch.truncate(batch.len() - cut);
            let size = (batch.len() - 5) as u16;
            batch[1..3].copy_from_slice(&size.to_be_bytes());
        }
    }
}

// How the numbers of a feed come.
#[derive(Clone, Copy, PartialEq)]
pub enum Pace {
    Smooth,
    Mixed,
    Holes,
    Far,
}

// The next number after what a gap row holds; any number where the row is not sound.
pub fn a_number(r: &mut Random, pace: Pace, row: &[u32]) -> u32 {
    if !reference::row_sound(row) {
        return 1 + r.below(10) as u32;
    }
    let (start, highest) = (row[0] as u64, row[1] as u64);
    let runs = reference::runs(row);
    let next = highest + 1;
    let hole = next + 1 + r.below(3);
    let old = start.saturating_sub(2) + r.below(highest + 3 - start.min(highest + 2));
    let missing = match runs.len() as u64 {
        0 => next,
        n => {
            let (first, last) = runs[r.below(n) as usize];
            let within = first as u64 + r.below((last - first) as u64 + 1);
            r.pick(&[first as u64, last as u64, within])
        }
    };
    let last = u32::MAX as u64;
    let far = match r.below(3) {
        0 => next + r.below(last),
        1 => last - r.below(130),
        _ => last,
    };
    let number = match (pace, r.below(16)) {
        (Pace::Smooth, 0..=12) => next,
        (Pace::Holes, 0..=11) => next + 1,
        (Pace::Mixed, 0..=6) => next,
        (Pace::Mixed, 7..=10) => hole,
        (Pace::Far, 0..=3) => next,
        (Pace::Far, 4..=7) => far,
        (_, 13) => old,
        (_, 14) => hole,
        _ => missing,
    };
    number.clamp(1, u32::MAX as u64) as u32
}

pub fn a_sound_batch(r: &mut Random, book: &Book, letter: u8, pace: Pace, row: &[u32]) -> Vec<Vec<u8>> {
    let number = match r.below(12) {
        0 => 20 + r.below(60),
        1..=3 => 1,
        _ => 1 + r.below(6),
    };
    let mut row = row.to_vec();
    let mut messages: Vec<Vec<u8>> = vec![];
    let mut size = 0;
    for _ in 0..number {
        let number = a_number(r, pace, &row);
        let message = a_message(r, book, letter, number);
        size += message.len();
        if size > 32_767 {
            break;
        }
        if message[1] != b'H' && reference::row_sound(&row) {
            reference::take_number(&mut row, number);
        }
        messages.push(message);
    }
    messages
}

// A batch for a segment, sound or with up to two things wrong, each at the first, a middle or the last message.
pub fn a_batch(r: &mut Random, book: &Book, letter: u8, pace: Pace, row: &[u32]) -> Vec<u8> {
    let mut messages = a_sound_batch(r, book, letter, pace, row);
    let wrong = r.pick(&[0, 0, 0, 1, 1, 2, 2]);
    // The last rules first, since one message may be damaged twice.
    let mut rules: Vec<u8> = (0..wrong).map(|_| 5 + r.below(9) as u8).collect();
    rules.sort_by(|a, b| b.cmp(a));
    let mut at = 0;
    for (k, rule) in rules.into_iter().enumerate() {
        if k == 0 || r.one_in(2) {
            at = match r.below(3) {
                0 => 0,
                1 => messages.len() - 1,
                _ => r.below(messages.len() as u64) as usize,
            };
        }
        let number = a_number(r, pace, row);
        damage(r, rule, book, letter, number, &mut messages[at]);
    }
    if messages.concat().len() > 32_767 {
        messages.truncate(40);
    }
    let mut batch = batch(&messages);
    if r.one_in(9) {
        damage_batch(r, &mut batch);
    }
    batch
}

// ---- quotes for the writer: the rows behind the key

// An amount whose shortest text fits the width.
pub fn an_amount(r: &mut Random, kind: Kind, width: usize) -> u64 {
    loop {
        let amount = match r.below(8) {
            0 => r.below(10),
            1 => kind.largest - r.below(3),
            2 => 10u64.pow(r.below(18) as u32) * (1 + r.below(9)),
            3 => 10u64.pow(r.below(18) as u32) - 1,
            4 => r.below(kind.largest) / 10u64.pow(r.below(9) as u32) * 10u64.pow(r.below(8) as u32),
            _ => r.below(kind.largest) / 10u64.pow(r.below(18) as u32),
        };
        if reference::write_number(kind, amount, width).is_some() {
            return amount;
        }
    }
}

// On either side of zero; now and then minus zero.
fn a_signed_amount(r: &mut Random, width: usize) -> u64 {
    if r.one_in(2) {
        return an_amount(r, PRICE, width);
    }
    MINUS | if r.one_in(12) { 0 } else { an_amount(r, PRICE, width - 1) }
}

pub fn values_of(r: &mut Random, form: &Form) -> Vec<u64> {
    let values = form.told().iter().map(|&(row, width)| match row {
        Row::MarketType => a_market_type(r, form) as u64,
        Row::Unsent => r.next(), // which is not looked at
        Row::Status => r.pick(b"S ") as u64,
        Row::Number(_) | Row::Difference if r.one_in(5) => NONE,
        Row::Number(kind) => an_amount(r, kind, width),
        Row::Difference => a_signed_amount(r, width),
        Row::Text => unreachable!("texts stand in the key"),
    });
    values.collect()
}

pub fn damage_quote(r: &mut Random, values: &mut [u64]) {
    let at = r.below(values.len() as u64 + 6);
    let at = if at < values.len() as u64 { at as usize } else { r.pick(&[0, 1, 8, 24]).min(values.len() - 1) };
    let value = r.pick(&[
        0, 32, 65, 78, 79, 83, 88, 255, 256, 78 + 256, 83 + 256, 999_999_999_999, 1_000_000_000_000, 99_999_999_999_999_999, 999_999_999_999_999_999,
        1_000_000_000_000_000_000, NONE - 1, NONE, 999_999_999_999_999_990, 999_999_999_999_999_900, 999_999_999_999_999_000, 1_234_567_891_234_567,
        12_345_678_912_345_678, 123_456_789_123_456_789, 12_345_678_912_345_670, 99_999_999_999, 100_000_000_000, 99_999_999_990_000_000,
        100_000_000_000_000_000, 12_345_678_910_000, 123_456_789_100_000,
    ]);
    values[at] = value | if r.one_in(3) { MINUS } else { 0 };
}

pub fn live_cells(row: &[u32]) -> usize {
    RUNS + 2 * (row[2] as usize).min(reference::MOST_RUNS)
}
