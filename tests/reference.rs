// The box by document 01 and requests M-100 to M-102 and M-104, written from the papers and from nothing else of this project: what each call
// answers and leaves in lent memory. The tests hold the compiled programs against it, and the benchmark the compiled library's time against its own.
#![allow(dead_code)] // each test uses a part

use std::cmp::Ordering;
use std::ops::RangeInclusive;

pub const KEY: usize = 39;
pub const PAIR: usize = 2 * KEY;
pub const GAP_ROW: usize = 132;
pub const RUNS: usize = 4; // where a gap row's runs begin
pub const MOST_RUNS: usize = 64;
pub const RECORD: usize = 52;
pub const LEVEL1_CELLS: usize = 17;
pub const SPREAD_RECORD: usize = 38;
pub const SPREAD_LEVEL1_CELLS: usize = 10;
pub const NONE: u64 = u64::MAX; // as a cell: no amount
pub const MINUS: u64 = 1 << 63; // beside the amount, in the cell of a difference
pub const MOST_SEGMENTS: usize = 3;

// Which session an update came from, as its record says.
pub const NORMAL: u64 = 0;
pub const PRE_OPEN: u64 = 1;

#[derive(Clone, Copy, Debug, PartialEq)]
pub struct Refusal {
    pub number: u8,
    pub message: usize,
    pub row: usize,
    pub cells: usize,
    pub compared: u64, // keys, by the lookups of a batch until it was refused; 0 where there is no batch
}

impl Refusal {
    pub fn plain(number: u8) -> Refusal {
        Refusal { number, message: 0, row: 0, cells: 0, compared: 0 }
    }

    pub fn memory(cells: usize) -> Refusal {
        Refusal { cells, ..Refusal::plain(15) }
    }

    // What a host is told: the number returned, and the four of the answer.
    pub fn told(&self) -> (u32, [u64; 4]) {
        (self.number as u32, [self.message as u64, self.row as u64, self.cells as u64, self.compared])
    }
}

// ---- the checksum, as the two bytes sent

pub type Sum = fn(&[u8]) -> [u8; 2];

fn sent(accum: u16) -> [u8; 2] {
    let lowered = |b: u8| if matches!(b, 10 | 13 | 17 | 19) { b - 1 } else { b };
    [lowered(accum as u8), lowered((accum >> 8) as u8)]
}

const fn on_byte(mut accum: u16, byte: u8) -> u16 {
    let mut data = (byte as u16) << 8;
    let mut k = 0;
    while k < 8 {
        let differs = (data ^ accum) & 0x8000 != 0;
        accum = (accum << 1) ^ if differs { 0x1021 } else { 0 };
        data <<= 1;
        k += 1;
    }
    accum
}

// The routine that the exchange's papers print.
pub fn sum_by_bits(text: &[u8]) -> [u8; 2] {
    sent(text.iter().fold(0, |accum, &byte| on_byte(accum, byte)))
}

// AHEAD[k][b]: what the byte b leaves after k zero bytes behind it. The routine is linear, so sixteen bytes go in one step.
static AHEAD: [[u16; 256]; 16] = {
    let mut ahead = [[0; 256]; 16];
    let mut b = 0;
    while b < 256 {
        let mut accum = on_byte(0, b as u8);
        let mut k = 0;
        while k < 16 {
            ahead[k][b] = accum;
            accum = on_byte(accum, 0);
            k += 1;
        }
        b += 1;
    }
    ahead
};

fn bytes_in_turn(accum: u16, text: &[u8]) -> u16 {
    text.iter().fold(accum, |accum, &byte| accum << 8 ^ AHEAD[0][((accum >> 8) as u8 ^ byte) as usize])
}

pub fn sum_by_bytes(text: &[u8]) -> [u8; 2] {
    sent(bytes_in_turn(0, text))
}

pub fn sum_by_sixteens(text: &[u8]) -> [u8; 2] {
    let mut accum = 0u16;
    let mut steps = text.chunks_exact(16);
    for step in &mut steps {
        let step: &[u8; 16] = step.try_into().unwrap();
        let mut next = AHEAD[15][(step[0] ^ (accum >> 8) as u8) as usize] ^ AHEAD[14][(step[1] ^ accum as u8) as usize];
        for k in 2..16 {
            next ^= AHEAD[15 - k][step[k] as usize];
        }
        accum = next;
    }
    sent(bytes_in_turn(accum, steps.remainder()))
}

// ---- numbers in text

#[derive(Clone, Copy, PartialEq, Eq)]
pub struct Kind {
    pub places: usize,
    pub largest: u64,
}

pub const PRICE: Kind = Kind { places: 7, largest: 999_999_999_999_999_999 };
pub const QUANTITY: Kind = Kind { places: 0, largest: 999_999_999_999 };
pub const TURNOVER: Kind = Kind { places: 2, largest: 999_999_999_999_999_999 };

const TENS: [u64; 8] = [1, 10, 100, 1_000, 10_000, 100_000, 1_000_000, 10_000_000];
const MOST_DIGITS: usize = 18; // more than these, without the zeros in front, are above every largest amount

const FIELD: u8 = 11;
const RANGE: u8 = 12;

fn past(text: &[u8], mut at: usize, what: u8) -> usize {
    while at < text.len() && text[at] == what {
        at += 1;
    }
    at
}

fn past_digits(text: &[u8], mut at: usize, units: &mut u64) -> usize {
    while at < text.len() && text[at].is_ascii_digit() {
        *units = units.wrapping_mul(10).wrapping_add((text[at] - b'0') as u64);
        at += 1;
    }
    at
}

// The amount, NONE where the text is blank; else 11 or 12. Inline, or rows are read slower for its being called in two places.
#[inline(always)]
pub fn read_number(kind: Kind, text: &[u8]) -> Result<u64, u8> {
    let first = past(text, 0, b' ');
    if first == text.len() {
        return Ok(NONE);
    }
    let significant = past(text, first, b'0');
    let mut units = 0;
    let point = past_digits(text, significant, &mut units);
    let mut end = point;
    let mut places = 0;
    if point < text.len() && text[point] == b'.' && kind.places > 0 {
        end = past_digits(text, point + 1, &mut units);
        places = end - point - 1;
        if places == 0 {
            return Err(FIELD);
        }
    }
    if point == first || past(text, end, b' ') < text.len() {
        return Err(FIELD);
    }
    if places > kind.places || point - significant + places > MOST_DIGITS {
        return Err(RANGE);
    }
    let scale = TENS[kind.places - places];
    if units > kind.largest / scale { Err(RANGE) } else { Ok(units * scale) }
}

// The shortest text with spaces in front; none where the amount is too large or its text too long.
pub fn write_number(kind: Kind, units: u64, width: usize) -> Option<String> {
    if units > kind.largest {
        return None;
    }
    let one = TENS[kind.places];
    let mut text = format!("{}", units / one);
    if units % one != 0 {
        let fraction = format!("{:01$}", units % one, kind.places);
        text = format!("{text}.{}", fraction.trim_end_matches('0'));
    }
    if text.len() > width { None } else { Some(format!("{text:>width$}")) }
}

// A difference is a price that one minus may stand before, directly before its first digit: whether it is below zero, and the
// amount; none where the text is blank. Minus zero is zero.
pub fn read_difference(text: &[u8]) -> Result<Option<(bool, u64)>, u8> {
    let first = past(text, 0, b' ');
    let minus = text.get(first) == Some(&b'-');
    if minus && !text.get(first + 1).map_or(false, u8::is_ascii_digit) {
        return Err(FIELD);
    }
    let units = read_number(PRICE, &text[first + minus as usize..])?;
    Ok(if units == NONE { None } else { Some((minus && units > 0, units)) })
}

// As a price, with the minus directly before the digits.
pub fn write_difference(below: bool, units: u64, width: usize) -> Option<String> {
    let bare = write_number(PRICE, units, MOST_DIGITS + 1)?;
    let text = format!("{}{}", if below && units > 0 { "-" } else { "" }, bare.trim_start());
    if text.len() > width { None } else { Some(format!("{text:>width$}")) }
}

// ---- the rows of an update

#[derive(Clone, Copy, PartialEq)]
pub enum Row {
    Text,
    MarketType,
    Status,
    Number(Kind),
    Difference,
    Unsent, // no row: another segment's messages have a field for it, and in this one's records it is always none
}

pub const MARKET_TYPE_ROW: usize = 5;
pub const LENGTHS: [usize; 2] = [249, 505];
pub const SPREAD_LENGTHS: [usize; 2] = [227, 483];
pub const FUTURES_LENGTHS: [usize; 2] = [204, 404];
pub const MOST_CELLS: usize = 33; // what a contract's level 2 has behind the key, which no other form passes

const P: (Row, usize) = (Row::Number(PRICE), 17);
const NARROW: (Row, usize) = (Row::Number(PRICE), 10);
const STAMP: (Row, usize) = (Row::Number(QUANTITY), 11);
const NO_STAMP: (Row, usize) = (Row::Unsent, 0);
const Q: (Row, usize) = (Row::Number(QUANTITY), 12);
const T: (Row, usize) = (Row::Number(TURNOVER), 25);
const D: (Row, usize) = (Row::Difference, 17);
const S: (Row, usize) = (Row::Status, 1);
const M: (Row, usize) = (Row::MarketType, 1);
const fn text(width: usize) -> (Row, usize) {
    (Row::Text, width)
}

#[rustfmt::skip]
static LEVEL1: [(Row, usize); 20] = [
    text(6), text(10), text(11), text(10), text(2), M, NO_STAMP,
    P, Q, P, Q,
    P, Q, S, P, P, P, P, P, T,
];

#[rustfmt::skip]
static LEVEL2: [(Row, usize); 38] = [
    text(6), text(10), text(11), text(10), text(2), M, NO_STAMP,
    P, Q, P, Q, P, Q, P, Q, P, Q,
    P, Q, P, Q, P, Q, P, Q, P, Q,
    P, Q, S, P, P, P, P, P, Q, Q, T,
];

// 002 4.4: a time stamp behind the market type, and prices 10 wide.
#[rustfmt::skip]
static FUTURES1: [(Row, usize); 20] = [
    text(6), text(10), text(11), text(10), text(2), M, STAMP,
    NARROW, Q, NARROW, Q,
    NARROW, Q, S, NARROW, NARROW, NARROW, NARROW, NARROW, T,
];

// 002 4.5.
#[rustfmt::skip]
static FUTURES2: [(Row, usize); 38] = [
    text(6), text(10), text(11), text(10), text(2), M, STAMP,
    NARROW, Q, NARROW, Q, NARROW, Q, NARROW, Q, NARROW, Q,
    NARROW, Q, NARROW, Q, NARROW, Q, NARROW, Q, NARROW, Q,
    NARROW, Q, S, NARROW, NARROW, NARROW, NARROW, NARROW, Q, Q, T,
];

// 000 4.6, 003 4.3: both contracts' keys, and no market type, status, close, average or turnover.
#[rustfmt::skip]
static SPREAD1: [(Row, usize); 19] = [
    text(6), text(10), text(11), text(10), text(2), text(6), text(10), text(11), text(10), text(2),
    D, Q, D, Q,
    D, Q, D, D, D,
];

// 000 4.7, 003 4.4.
#[rustfmt::skip]
static SPREAD2: [(Row, usize); 37] = [
    text(6), text(10), text(11), text(10), text(2), text(6), text(10), text(11), text(10), text(2),
    D, Q, D, Q, D, Q, D, Q, D, Q,
    D, Q, D, Q, D, Q, D, Q, D, Q,
    D, Q, D, D, D, Q, Q,
];

// A message with rows: an update of a contract or of a pair, at a level.
#[derive(PartialEq)]
pub struct Form {
    pub code: u8, // behind the first letter
    pub level: usize,
    pub key: usize, // the bytes of the key, which come first
    pub key_rows: usize,
    pub rows: &'static [(Row, usize)],
    pub length: usize,
    pub market_types: &'static [u8], // that a row of it may hold
}

// Of D and T, whose papers have one market type.
static CONTRACTS: [Form; 2] = [
    Form { code: b'N', level: 1, key: KEY, key_rows: MARKET_TYPE_ROW, rows: &LEVEL1, length: LENGTHS[0], market_types: b"N" },
    Form { code: b'N', level: 2, key: KEY, key_rows: MARKET_TYPE_ROW, rows: &LEVEL2, length: LENGTHS[1], market_types: b"N" },
];

// Of F: FN and PN alike.
static FUTURES: [Form; 2] = [
    Form { code: b'N', level: 1, key: KEY, key_rows: MARKET_TYPE_ROW, rows: &FUTURES1, length: FUTURES_LENGTHS[0], market_types: b"NOSA" },
    Form { code: b'N', level: 2, key: KEY, key_rows: MARKET_TYPE_ROW, rows: &FUTURES2, length: FUTURES_LENGTHS[1], market_types: b"NOSA" },
];

static PAIRS: [Form; 2] = [
    Form { code: b'P', level: 1, key: PAIR, key_rows: 2 * MARKET_TYPE_ROW, rows: &SPREAD1, length: SPREAD_LENGTHS[0], market_types: b"" },
    Form { code: b'P', level: 2, key: PAIR, key_rows: 2 * MARKET_TYPE_ROW, rows: &SPREAD2, length: SPREAD_LENGTHS[1], market_types: b"" },
];

// The letter of the segment that a code belongs to: of the codes of the pre-open session those that 002 prints, which are F's. Whether the
// segment is listed is another matter, and for other letters so is the second byte.
pub fn segment_of(code: [u8; 2]) -> Option<u8> {
    match code {
        [letter @ (b'D' | b'F' | b'T'), _] => Some(letter),
        [b'P', b'N' | b'O' | b'C'] => Some(b'F'),
        _ => None,
    }
}

fn session_of(code: [u8; 2]) -> u64 {
    if code[0] == b'P' { PRE_OPEN } else { NORMAL }
}

// By the letter of a segment or the first of a code.
fn contract_forms(letter: u8) -> &'static [Form; 2] {
    if matches!(letter, b'F' | b'P') { &FUTURES } else { &CONTRACTS }
}

pub fn of_contract(letter: u8, level: usize) -> &'static Form {
    &contract_forms(letter)[level - 1]
}

pub fn of_pair(level: usize) -> &'static Form {
    &PAIRS[level - 1]
}

// The forms of a code; none where it is a heartbeat's or passed over, as F's messages of pairs are.
pub fn forms_of(code: [u8; 2]) -> Option<&'static [Form; 2]> {
    match code {
        [letter, b'N'] => Some(contract_forms(letter)),
        [b'D' | b'T', b'P'] => Some(&PAIRS),
        _ => None,
    }
}

// By code and length; the length tells the levels apart.
pub fn form_of(code: [u8; 2], length: usize) -> Option<&'static Form> {
    forms_of(code)?.iter().find(|form| form.length == length)
}

impl Form {
    // What is told of an update besides its key: one value each.
    pub fn told(&self) -> &'static [(Row, usize)] {
        &self.rows[self.key_rows..]
    }

    pub fn is_pair(&self) -> bool {
        self.key == PAIR
    }

    // The cells in front of these in a record: the number, and of a contract the session.
    pub fn front(&self) -> usize {
        if self.is_pair() { 1 } else { 2 }
    }

    // The row of what is told in the k-th place: what is unsent is no row. Only a refusal asks for it.
    #[cold]
    pub fn row(&self, k: usize) -> usize {
        self.key_rows + self.told()[..k].iter().filter(|(row, _)| *row != Row::Unsent).count()
    }
}

// Of a difference; a minus beside 0 is none.
pub fn difference_cell(below: bool, units: u64) -> u64 {
    if below && units > 0 { MINUS | units } else { units }
}

fn read_difference_cell(field: &[u8]) -> Result<u64, u8> {
    Ok(read_difference(field)?.map_or(NONE, |(below, units)| difference_cell(below, units)))
}

// The cells of what is told; else 11 or 12 and the row.
pub fn read_cells(form: &Form, data: &[u8], cells: &mut [u64; MOST_CELLS]) -> Result<(), (u8, usize)> {
    let mut rest = &data[form.key..];
    for (k, &(row, width)) in form.told().iter().enumerate() {
        let (field, after) = rest.split_at(width);
        rest = after;
        let read = match row {
            Row::Number(kind) => read_number(kind, field),
            Row::Difference => read_difference_cell(field),
            Row::MarketType if form.market_types.contains(&field[0]) => Ok(field[0] as u64),
            Row::Status if field[0] == b'S' || field[0] == b' ' => Ok(field[0] as u64),
            Row::Unsent => Ok(NONE),
            _ => Err(FIELD),
        };
        match read {
            Ok(cell) => cells[k] = cell,
            Err(number) => return Err((number, form.row(k))),
        }
    }
    Ok(())
}

// What any cells of what is told stand for: a market type or status is a byte's number, above 255 as 0; of a difference minus zero is zero.
pub fn readings(form: &Form, cells: &[u64]) -> Vec<u64> {
    let reading = |(&cell, &(row, _)): (&u64, &(Row, usize))| match row {
        Row::Number(_) => cell,
        Row::Difference if cell == MINUS => 0,
        Row::Difference => cell,
        Row::Unsent => NONE,
        _ if cell > 255 => 0,
        _ => cell,
    };
    cells.iter().zip(form.told()).map(reading).collect()
}

fn write_key(form: &Form, key: &[u8]) -> Result<Vec<u8>, (u8, usize)> {
    let mut data = vec![];
    for (row, &(_, width)) in form.rows[..form.key_rows].iter().enumerate() {
        let part = &key[data.len()..data.len() + width];
        if part.iter().any(|b| !(32..=126).contains(b)) {
            return Err((FIELD, row));
        }
        data.extend(part);
    }
    Ok(data)
}

// The data of a message, by the values of what is told; else 11 or 12 and the row.
pub fn write_data(form: &Form, key: &[u8], values: &[u64]) -> Result<Vec<u8>, (u8, usize)> {
    let mut data = write_key(form, key)?;
    for (k, (&(row, width), &value)) in form.told().iter().zip(values).enumerate() {
        let wrong = |number| (number, form.row(k));
        let is_one_of = |letters: &[u8]| letters.iter().any(|&letter| letter as u64 == value);
        match row {
            Row::MarketType if is_one_of(form.market_types) => data.push(value as u8),
            Row::Status if is_one_of(b"S ") => data.push(value as u8),
            Row::MarketType | Row::Status => return Err(wrong(FIELD)),
            Row::Number(_) | Row::Difference if value == NONE => data.extend(vec![b' '; width]),
            Row::Number(kind) => data.extend(write_number(kind, value, width).ok_or(wrong(RANGE))?.bytes()),
            Row::Difference => data.extend(write_difference(value & MINUS != 0, value & !MINUS, width).ok_or(wrong(RANGE))?.bytes()),
            Row::Text | Row::Unsent => {}
        }
    }
    Ok(data)
}

// ---- the contract list

#[derive(Clone, Copy)]
pub struct Segment {
    pub letter: u8,
    pub count: usize,
    pub offset: usize,
}

pub struct Header {
    number: usize,
    all: [Segment; MOST_SEGMENTS],
}

impl Header {
    pub fn segments(&self) -> &[Segment] {
        &self.all[..self.number]
    }

    pub fn place(&self, letter: u8) -> Option<usize> {
        self.segments().iter().position(|s| s.letter == letter)
    }

    pub fn keys(&self) -> usize {
        self.segments().iter().map(|s| s.count).sum()
    }

    // Keys in front of a segment's.
    fn before(&self, place: usize) -> usize {
        self.segments()[..place].iter().map(|s| s.count).sum()
    }
}

fn two(bytes: &[u8], at: usize) -> usize {
    u16::from_be_bytes([bytes[at], bytes[at + 1]]) as usize
}

fn four(bytes: &[u8], at: usize) -> u32 {
    u32::from_be_bytes([bytes[at], bytes[at + 1], bytes[at + 2], bytes[at + 3]])
}

// A house file but its bodies: keys of so many bytes, and so many of them a segment.
#[inline(always)]
fn contents(file: &[u8], key: usize, counts: RangeInclusive<usize>) -> Option<Header> {
    if file.len() < 2 {
        return None;
    }
    let number = two(file, 0);
    let mut next = 2 + 8 * number;
    if !(1..=MOST_SEGMENTS).contains(&number) || file.len() < next {
        return None;
    }
    let mut all = [Segment { letter: 0, count: 0, offset: 0 }; MOST_SEGMENTS];
    for i in 0..number {
        let at = 2 + 8 * i;
        let (letter, zero, count, offset) = (file[at], file[at + 1], two(file, at + 2), four(file, at + 4) as usize);
        let ascends = i == 0 || letter > all[i - 1].letter;
        if !matches!(letter, b'D' | b'F' | b'T') || !ascends || zero != 0 || !counts.contains(&count) || offset != next {
            return None;
        }
        all[i] = Segment { letter, count, offset };
        next += key * count;
    }
    if file.len() == next { Some(Header { number, all }) } else { None }
}

// All of the list but its bodies, which are not looked at after start.
pub fn header(list: &[u8]) -> Option<Header> {
    contents(list, KEY, 1..=4096)
}

fn body<'a>(file: &'a [u8], segment: &Segment, key: usize) -> &'a [u8] {
    &file[segment.offset..segment.offset + key * segment.count]
}

fn sound_keys(body: &[u8], key: usize) -> bool {
    let keys: Vec<&[u8]> = body.chunks(key).collect();
    keys.iter().all(|key| key.iter().all(|b| (32..=126).contains(b))) && keys.windows(2).all(|w| w[0] < w[1])
}

pub fn bodies_sound(list: &[u8], header: &Header) -> bool {
    header.segments().iter().all(|segment| sound_keys(body(list, segment, KEY), KEY))
}

// All of the spread list but its pairs, beside a contract list.
pub fn spread_header(list: &Header, spreads: &[u8]) -> Option<Header> {
    let same = |h: &Header| h.number == list.number && h.segments().iter().zip(list.segments()).all(|(a, b)| a.letter == b.letter);
    contents(spreads, PAIR, 0..=1024).filter(same)
}

// The pairs of a spread list whose header is sound: each half is a key of its segment.
pub fn pairs_sound(list: &[u8], header: &Header, spreads: &[u8], spread_header: &Header) -> bool {
    spread_header.segments().iter().zip(header.segments()).all(|(pairs, contracts)| {
        let all = body(spreads, pairs, PAIR);
        let listed: Vec<&[u8]> = body(list, contracts, KEY).chunks(KEY).collect();
        sound_keys(all, PAIR) && all.chunks(KEY).all(|half| listed.contains(&half))
    })
}

// Where a key stands, and how many keys were compared until that was known.
#[derive(Clone, Copy, Debug, PartialEq)]
pub struct Sought {
    pub place: Option<usize>,
    pub compared: u64,
}

// By halving, whatever the bodies hold: of n keys left the one with (n - 1) / 2 below it is compared.
pub fn find<const N: usize>(keys: &[u8], key: &[u8]) -> Sought {
    let (mut low, mut left, mut compared) = (0, keys.len() / N, 0);
    while left > 0 {
        let below = (left - 1) / 2;
        let at = low + below;
        compared += 1;
        match key.cmp(&keys[N * at..N * (at + 1)]) {
            Ordering::Equal => return Sought { place: Some(at), compared },
            Ordering::Less => left = below,
            Ordering::Greater => {
                low = at + 1;
                left -= below + 1;
            }
        }
    }
    Sought { place: None, compared }
}

// Both lists, their headers sound.
pub struct Lists<'a> {
    list: &'a [u8],
    spreads: &'a [u8],
    contracts: Header,
    pairs: Header,
}

impl Lists<'_> {
    pub fn of<'a>(list: &'a [u8], spreads: &'a [u8]) -> Option<Lists<'a>> {
        let contracts = header(list)?;
        let pairs = spread_header(&contracts, spreads)?;
        Some(Lists { list, spreads, contracts, pairs })
    }

    fn sound(&self) -> bool {
        bodies_sound(self.list, &self.contracts) && pairs_sound(self.list, &self.contracts, self.spreads, &self.pairs)
    }

    pub fn row_cells(&self) -> usize {
        GAP_ROW * self.contracts.number
    }

    pub fn record_cells(&self) -> usize {
        RECORD * self.contracts.keys() + SPREAD_RECORD * self.pairs.keys()
    }

    // A contract or pair in its segment. A pair is looked up whole, its halves are not.
    fn find(&self, segment: usize, form: &Form, key: &[u8]) -> Sought {
        if form.is_pair() {
            find::<PAIR>(body(self.spreads, &self.pairs.segments()[segment], PAIR), key)
        } else {
            find::<KEY>(body(self.list, &self.contracts.segments()[segment], KEY), key)
        }
    }

    // Where a record begins: all contracts' in list order, then all pairs', at each level 1 first.
    fn record(&self, segment: usize, form: &Form, place: usize) -> usize {
        if form.is_pair() {
            let pair = self.pairs.before(segment) + place;
            RECORD * self.contracts.keys() + SPREAD_RECORD * pair + SPREAD_LEVEL1_CELLS * (form.level - 1)
        } else {
            RECORD * (self.contracts.before(segment) + place) + LEVEL1_CELLS * (form.level - 1)
        }
    }
}

// ---- a segment's gap row: start, highest, number of runs, a zero, then the runs

pub fn runs(row: &[u32]) -> Vec<(u32, u32)> {
    (0..row[2] as usize).map(|k| (row[RUNS + 2 * k], row[RUNS + 1 + 2 * k])).collect()
}

pub fn row_sound(row: &[u32]) -> bool {
    let (start, highest, number) = (row[0] as u64, row[1] as u64, row[2] as usize);
    if start == 0 || highest + 1 < start || number > MOST_RUNS {
        return false;
    }
    let mut least = start; // where the next run may begin
    for run in row[RUNS..RUNS + 2 * number].chunks_exact(2) {
        let (first, last) = (run[0] as u64, run[1] as u64);
        if first < least || first > last || last > highest {
            return false;
        }
        least = last + 2;
    }
    true
}

pub enum Taking {
    Taken,
    Old,
    Full,
}

fn take_above(row: &mut [u32], number: u32) -> Taking {
    let (highest, runs) = (row[1], row[2] as usize);
    if number - highest > 1 {
        let end = RUNS + 2 * runs;
        if runs > 0 && row[end - 1] == highest {
            row[end - 1] = number - 1;
        } else if runs == MOST_RUNS {
            return Taking::Full;
        } else {
            row[end] = highest + 1;
            row[end + 1] = number - 1;
            row[2] += 1;
        }
    }
    row[1] = number;
    Taking::Taken
}

pub fn take_number(row: &mut [u32], number: u32) -> Taking {
    if number > row[1] {
        return take_above(row, number);
    }
    let runs = row[2] as usize;
    let end = RUNS + 2 * runs;
    let at = match row[RUNS..end].chunks_exact(2).position(|run| number <= run[1]) {
        Some(k) if row[RUNS + 2 * k] <= number => RUNS + 2 * k,
        _ => return Taking::Old,
    };
    let (first, last) = (row[at], row[at + 1]);
    if first == last {
        row.copy_within(at + 2..end, at);
        row[2] -= 1;
    } else if number == first {
        row[at] += 1;
    } else if number == last {
        row[at + 1] -= 1;
    } else if runs == MOST_RUNS {
        return Taking::Full;
    } else {
        row.copy_within(at..end, at + 2);
        row[at + 1] = number - 1;
        row[at + 2] = number + 1;
        row[2] += 1;
    }
    Taking::Taken
}

// ---- one message, a part of the batch

enum Told {
    Heartbeat,
    PassedOver,
    Update { form: &'static Form, place: usize, session: u64 },
}

// Refusal 5.
fn framed(rest: &[u8]) -> Result<&[u8], (u8, usize)> {
    if rest.len() < 8 {
        return Err((5, 0));
    }
    let length = two(rest, 2);
    if length < 11 || length > rest.len() { Err((5, 0)) } else { Ok(&rest[..length]) }
}

// Whether the trailer has what it should. Zero may stand where the code's section says that the sum isn't calculated: 000, 002 and 003, 3.1
// (H), 4.2 (O and C) and 4.11 (E), and 002 4.10 (FZ).
fn sum_right(sum: Sum, code: [u8; 2], message: &[u8]) -> bool {
    let (summed, trailer) = message[..message.len() - 1].split_at(message.len() - 3);
    let zero = trailer == [0, 0];
    match code {
        [_, b'H'] => zero,
        [_, b'C' | b'E' | b'O'] | [b'F', b'Z'] => zero || trailer == sum(summed),
        _ => trailer == sum(summed),
    }
}

// Refusals 6 to 13, in order, of a framed message in a batch of one segment; an update leaves its cells, and adds the keys that its lookup
// compared, found or not. One of another market type than N is none, and not looked up.
#[rustfmt::skip]
fn checked(
    sum: Sum, lists: &Lists, segment: Option<(usize, u8)>, message: &[u8], cells: &mut [u64; MOST_CELLS], compared: &mut u64,
) -> Result<Told, (u8, usize)> {
    let (code, length) = ([message[0], message[1]], message.len());
    let segment = match segment {
        Some((place, letter)) if segment_of(code) == Some(letter) && code[1].is_ascii_uppercase() => place,
        _ => return Err((6, 0)),
    };
    if message[length - 1] != 13 {
        return Err((7, 0));
    }
    let beats = code[1] == b'H';
    let form = form_of(code, length);
    if (forms_of(code).is_some() && form.is_none()) || (beats && length != 11) {
        return Err((8, 0));
    }
    if !sum_right(sum, code, message) {
        return Err((9, 0));
    }
    if (four(message, 4) == 0) != beats {
        return Err((10, 0));
    }
    let form = match form {
        Some(form) => form,
        None if beats => return Ok(Told::Heartbeat),
        None => return Ok(Told::PassedOver),
    };
    let data = &message[8..length - 3];
    read_cells(form, data, cells)?;
    if !form.is_pair() && cells[0] != b'N' as u64 {
        return Ok(Told::PassedOver);
    }
    let sought = lists.find(segment, form, &data[..form.key]);
    *compared += sought.compared;
    let place = sought.place.ok_or((13, 0))?;
    Ok(Told::Update { form, place, session: session_of(code) })
}

// ---- the calls

#[derive(Clone, Copy, Debug, Default, PartialEq)]
pub struct Counts {
    pub taken: u64,
    pub old: u64,
    pub heartbeats: u64,
    pub compared: u64, // keys, by all lookups of the batch
}

impl Counts {
    // What a host is told of an accepted batch.
    pub fn told(&self) -> (u32, [u64; 4]) {
        (0, [self.taken, self.old, self.heartbeats, self.compared])
    }
}

// The same of any batch.
pub fn told(judged: Result<Counts, Refusal>) -> (u32, [u64; 4]) {
    judged.map_or_else(|refusal| refusal.told(), |counts| counts.told())
}

// An update taken: where its record begins, its number and session, and what is told of it.
struct Update {
    at: usize,
    form: &'static Form,
    number: u64,
    session: u64,
    cells: [u64; MOST_CELLS],
}

impl Update {
    // An older one than the record's leaves it.
    fn store(&self, records: &mut [u64]) {
        let record = &mut records[self.at..];
        if self.number <= record[0] {
            return;
        }
        record[0] = self.number;
        let (front, cells) = (self.form.front(), self.form.told().len());
        record[1..front].fill(self.session);
        record[front..front + cells].copy_from_slice(&self.cells[..cells]);
    }
}

// What a batch does, found before anything lent is written.
struct Outcome {
    counts: Counts,
    segment: usize,
    row: [u32; GAP_ROW],
    updates: Vec<Update>,
}

fn wanted(lists: &Lists, rows: &[u32], records: &[u64]) -> Result<(), Refusal> {
    if rows.len() < lists.row_cells() {
        return Err(Refusal::memory(lists.row_cells()));
    }
    if records.len() < lists.record_cells() { Err(Refusal::memory(lists.record_cells())) } else { Ok(()) }
}

// What every call after start, the writers apart, refuses first: 16 for either list, 15, 18.
fn handed_back<'a>(list: &'a [u8], spreads: &'a [u8], rows: &[u32], records: &[u64]) -> Result<Lists<'a>, Refusal> {
    let lists = Lists::of(list, spreads).ok_or(Refusal::plain(16))?;
    wanted(&lists, rows, records)?;
    let sound = rows[..lists.row_cells()].chunks_exact(GAP_ROW).all(row_sound);
    if sound { Ok(lists) } else { Err(Refusal::plain(18)) }
}

pub fn start(list: &[u8], spreads: &[u8], starts: &[u32], rows: &mut [u32], records: &mut [u64]) -> Result<(), Refusal> {
    let lists = Lists::of(list, spreads).filter(Lists::sound).ok_or(Refusal::plain(16))?;
    let starts: Vec<u32> = (0..lists.contracts.number).map(|i| starts.get(i).copied().unwrap_or(0)).collect();
    if starts.contains(&0) {
        return Err(Refusal::plain(10));
    }
    wanted(&lists, rows, records)?;
    rows[..lists.row_cells()].fill(0);
    records[..lists.record_cells()].fill(0);
    for (row, start) in rows.chunks_exact_mut(GAP_ROW).zip(starts) {
        row[0] = start;
        row[1] = start - 1;
    }
    Ok(())
}

// The spread list without pairs for a contract list's segments.
pub fn no_spreads(list: &[u8], room: usize) -> Result<Vec<u8>, Refusal> {
    let header = header(list).ok_or(Refusal::plain(16))?;
    let length = 2 + 8 * header.number;
    if room < length {
        return Err(Refusal::memory(length));
    }
    let mut spreads = (header.number as u16).to_be_bytes().to_vec();
    for segment in header.segments() {
        spreads.extend([segment.letter, 0, 0, 0]);
        spreads.extend((length as u32).to_be_bytes());
    }
    Ok(spreads)
}

// The batch before its messages: 1 to 4 in the order of the paper. Answers the number of messages.
fn opened(batch: &[u8]) -> Result<usize, Refusal> {
    if batch.len() < 5 {
        return Err(Refusal::plain(1));
    }
    match batch[0] {
        0 => return Err(Refusal::plain(2)),
        1 => {}
        _ => return Err(Refusal::plain(3)),
    }
    let size = two(batch, 1);
    if size > 32_767 || batch.len() != size + 5 {
        return Err(Refusal::plain(1));
    }
    let count = two(batch, 3);
    if count == 0 { Err(Refusal::plain(4)) } else { Ok(count) }
}

fn outcome(sum: Sum, lists: &Lists, rows: &[u32], batch: &[u8], keep: bool) -> Result<Outcome, Refusal> {
    let count = opened(batch)?;
    let mut rest = &batch[5..];
    let letter = rest.get(..2).and_then(|code| segment_of([code[0], code[1]]));
    let segment = letter.and_then(|letter| Some((lists.contracts.place(letter)?, letter)));
    let mut out = Outcome { counts: Counts::default(), segment: segment.map_or(0, |s| s.0), row: [0; GAP_ROW], updates: vec![] };
    out.row.copy_from_slice(&rows[GAP_ROW * out.segment..GAP_ROW * (out.segment + 1)]);
    let mut cells = [0; MOST_CELLS];
    for index in 0..count {
        let refused = |(number, row), compared| Refusal { number, message: index, row, cells: 0, compared };
        let message = framed(rest).map_err(|why| refused(why, out.counts.compared))?;
        rest = &rest[message.len()..];
        let told = checked(sum, lists, segment, message, &mut cells, &mut out.counts.compared).map_err(|why| refused(why, out.counts.compared))?;
        if let Told::Heartbeat = told {
            out.counts.heartbeats += 1;
            continue;
        }
        let number = four(message, 4);
        match take_number(&mut out.row, number) {
            Taking::Full => return Err(refused((14, 0), out.counts.compared)),
            Taking::Old => out.counts.old += 1,
            Taking::Taken => {
                out.counts.taken += 1;
                if let (Told::Update { form, place, session }, true) = (told, keep) {
                    let at = lists.record(out.segment, form, place);
                    out.updates.push(Update { at, form, number: number as u64, session, cells });
                }
            }
        }
    }
    if rest.is_empty() { Ok(out) } else { Err(Refusal { compared: out.counts.compared, ..Refusal::plain(4) }) }
}

pub fn judge(sum: Sum, list: &[u8], spreads: &[u8], rows: &[u32], records: &[u64], batch: &[u8]) -> Result<Counts, Refusal> {
    let lists = handed_back(list, spreads, rows, records)?;
    Ok(outcome(sum, &lists, rows, batch, false)?.counts)
}

pub fn take(sum: Sum, list: &[u8], spreads: &[u8], rows: &mut [u32], records: &mut [u64], batch: &[u8]) -> Result<Counts, Refusal> {
    let lists = handed_back(list, spreads, rows, records)?;
    let out = outcome(sum, &lists, rows, batch, true)?;
    rows[GAP_ROW * out.segment..GAP_ROW * (out.segment + 1)].copy_from_slice(&out.row);
    out.updates.iter().for_each(|update| update.store(records));
    Ok(out.counts)
}

// Highest, and the runs for which there must be room.
pub fn list_gaps(list: &[u8], spreads: &[u8], rows: &[u32], records: &[u64], letter: u8, room: usize) -> Result<(u32, Vec<(u32, u32)>), Refusal> {
    let lists = handed_back(list, spreads, rows, records)?;
    let place = segment(&lists, letter)?;
    let row = &rows[GAP_ROW * place..];
    let runs = runs(row);
    if room < 2 * runs.len() { Err(Refusal::memory(2 * runs.len())) } else { Ok((row[1], runs)) }
}

pub fn write_off(list: &[u8], spreads: &[u8], rows: &mut [u32], records: &[u64], letter: u8) -> Result<(u32, u32), Refusal> {
    let lists = handed_back(list, spreads, rows, records)?;
    let place = segment(&lists, letter)?;
    let row = &mut rows[GAP_ROW * place..GAP_ROW * (place + 1)];
    if row[2] == 0 {
        return Err(Refusal::plain(17));
    }
    let lowest = (row[RUNS], row[RUNS + 1]);
    row.copy_within(RUNS + 2..RUNS + 2 * row[2] as usize, RUNS);
    row[2] -= 1;
    Ok(lowest)
}

// The update's number, of a contract's also its session, and what is told of it; or no record.
fn read_form(lists: Lists, form: &Form, records: &[u64], segment: usize, key: &[u8]) -> Result<Option<Vec<u64>>, Refusal> {
    let place = lists.find(segment, form, key).place.ok_or(Refusal::plain(13))?;
    let (front, cells) = records[lists.record(segment, form, place)..].split_at(form.front());
    // A session cell of anything but 1 is the normal market's.
    let session = front[1..].iter().map(|&cell| if cell == PRE_OPEN { PRE_OPEN } else { NORMAL });
    let values = [front[0]].into_iter().chain(session).chain(readings(form, cells)).collect();
    Ok(if front[0] == 0 { None } else { Some(values) })
}

fn segment(lists: &Lists, letter: u8) -> Result<usize, Refusal> {
    lists.contracts.place(letter).ok_or(Refusal::plain(6))
}

#[rustfmt::skip]
pub fn read_record(
    list: &[u8], spreads: &[u8], rows: &[u32], records: &[u64], letter: u8, key: &[u8; KEY], level: usize,
) -> Result<Option<Vec<u64>>, Refusal> {
    let lists = handed_back(list, spreads, rows, records)?;
    let segment = segment(&lists, letter)?;
    read_form(lists, of_contract(letter, level), records, segment, key)
}

#[rustfmt::skip]
pub fn read_spread(
    list: &[u8], spreads: &[u8], rows: &[u32], records: &[u64], letter: u8, pair: &[u8; PAIR], level: usize,
) -> Result<Option<Vec<u64>>, Refusal> {
    let lists = handed_back(list, spreads, rows, records)?;
    let segment = segment(&lists, letter)?;
    read_form(lists, of_pair(level), records, segment, pair)
}

// A message of a form, or a heartbeat; `values` are what is told behind the key.
fn write_form(code: [u8; 2], form: Option<&Form>, number: u32, key: &[u8], values: &[u64], room: usize) -> Result<Vec<u8>, Refusal> {
    if (number == 0) != form.is_none() {
        return Err(Refusal::plain(10));
    }
    let data = form.map_or(Ok(vec![]), |form| write_data(form, key, values));
    let data = data.map_err(|(number, row)| Refusal { row, ..Refusal::plain(number) })?;
    let length = data.len() + 11;
    if room < length {
        return Err(Refusal::memory(length));
    }
    let mut message = code.to_vec();
    message.extend((length as u16).to_be_bytes());
    message.extend(number.to_be_bytes());
    message.extend(data);
    let trailer = if form.is_none() { [0, 0] } else { sum_by_bits(&message) };
    message.extend(trailer);
    message.push(13);
    Ok(message)
}

// An update of a contract or a heartbeat.
pub fn write_message(code: [u8; 2], level: usize, number: u32, key: &[u8; KEY], values: &[u64], room: usize) -> Result<Vec<u8>, Refusal> {
    let form = match code {
        [b'D' | b'F' | b'T', b'H'] => None,
        [letter @ (b'D' | b'F' | b'P' | b'T'), b'N'] => Some(of_contract(letter, level)),
        _ => return Err(Refusal::plain(6)),
    };
    write_form(code, form, number, key, values, room)
}

pub fn write_spread(code: [u8; 2], level: usize, number: u32, pair: &[u8; PAIR], values: &[u64], room: usize) -> Result<Vec<u8>, Refusal> {
    match code {
        [b'D' | b'T', b'P'] => write_form(code, Some(of_pair(level)), number, pair, values, room),
        _ => Err(Refusal::plain(6)),
    }
}
