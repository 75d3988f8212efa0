// The program `gaps`, held line by line against the reference over lists and streams of batches that look random.
//   gaps PROGRAM... [--seed N] [--times N] [--keep FOLDER]
mod feed;
mod program;
mod random;
mod reference;

use feed::{Book, Pace};
use program::{Contracts, Held, Options};
use random::Random;
use reference::{GAP_ROW, MOST_SEGMENTS, RECORD};
use std::collections::BTreeMap;

const MOST_KEYS: usize = 64;
const LARGEST_FILE: usize = 16_384;
const LARGEST_SIZE: usize = 32_767;

struct Reader {
    list: Vec<u8>,
    spreads: Vec<u8>, // none
    rows: Vec<u32>,
    records: Vec<u64>,
    batches: usize,
    lines: Vec<String>,
}

impl Reader {
    fn start(contracts: Option<&[u8]>) -> Result<Reader, u8> {
        let list = contracts.unwrap_or(&[]).to_vec();
        if list.len() > LARGEST_FILE {
            return Err(15);
        }
        let spreads = reference::no_spreads(&list, usize::MAX).unwrap_or_default();
        let (rows, records) = (vec![0; MOST_SEGMENTS * GAP_ROW], vec![0; MOST_SEGMENTS * 4096 * RECORD]);
        let mut reader = Reader { list, spreads, rows, records, batches: 0, lines: vec![] };
        reference::start(&reader.list, &reader.spreads, &[1; MOST_SEGMENTS], &mut reader.rows, &mut reader.records).map_err(|refusal| refusal.number)?;
        let header = reference::header(&reader.list).unwrap();
        if header.segments().iter().any(|s| s.count > MOST_KEYS) { Err(15) } else { Ok(reader) }
    }

    // Takes the batch at the front of what is left; answers its length, or None where the reading ends with it.
    fn read(&mut self, left: &[u8]) -> Option<usize> {
        let size = if left.len() < 5 { 0 } else { u16::from_be_bytes([left[1], left[2]]) as usize };
        let whole = left.len() >= 5 && size <= LARGEST_SIZE && left.len() >= size + 5;
        let batch = if whole { &left[..size + 5] } else { left };
        if let Err(refusal) = reference::take(reference::sum_by_sixteens, &self.list, &self.spreads, &mut self.rows, &mut self.records, batch) {
            self.lines.push(format!("batch {} refused {} message {}", self.batches, refusal.number, refusal.message));
        }
        self.batches += 1;
        whole.then_some(batch.len())
    }

    fn list(mut self) -> Vec<String> {
        self.lines.push("segment highest missing".into());
        let header = reference::header(&self.list).unwrap();
        for (segment, row) in header.segments().iter().zip(self.rows.chunks(GAP_ROW)) {
            let (letter, runs) = (segment.letter as char, reference::runs(row));
            let missing: u64 = runs.iter().map(|(first, last)| (last - first) as u64 + 1).sum();
            self.lines.push(format!("{letter} {} {missing}", row[1]));
            self.lines.extend(runs.iter().map(|(first, last)| format!("{letter} gap {first}-{last}")));
        }
        self.lines.push("end".into());
        self.lines
    }
}

fn printed(contracts: Option<&[u8]>, input: &[u8]) -> Vec<String> {
    let mut reader = match Reader::start(contracts) {
        Ok(reader) => reader,
        Err(number) => return vec![format!("start refused {number}")],
    };
    let mut at = 0;
    while at < input.len() {
        match reader.read(&input[at..]) {
            Some(length) => at += length,
            None => break,
        }
    }
    reader.list()
}

// A stream for a book: batches whose sizes are true, so that the next one is found, and then one of the ends.
fn a_stream(r: &mut Random, book: &Book, batches: u64) -> Vec<u8> {
    let mut input = vec![];
    let list = book.bytes();
    let mut reader = Reader::start(Some(&list)).ok();
    let pace = r.pick(&[Pace::Smooth, Pace::Mixed, Pace::Holes, Pace::Holes, Pace::Far]);
    for _ in 0..batches {
        let letter = if r.one_in(15) { r.pick(b"DTFP") } else { r.pick(&book.letters()) };
        let place = book.letters().iter().position(|&l| l == letter).unwrap_or(0);
        let row = reader.as_ref().map_or(vec![0; GAP_ROW], |reader| reader.rows[GAP_ROW * place..GAP_ROW * (place + 1)].to_vec());
        let mut batch = feed::a_batch(r, book, letter, pace, &row);
        if batch.len() < 5 || r.one_in(20) {
            batch = vec![r.pick(&[0, 1, 2]), 0, 0, 0, r.below(2) as u8];
        }
        let size = (batch.len() - 5).min(LARGEST_SIZE) as u16;
        batch[1..3].copy_from_slice(&size.to_be_bytes());
        if let Some(reader) = &mut reader {
            reader.read(&batch);
        }
        input.extend(batch);
    }
    let (flag, high) = (r.pick(&[0, 1, 1, 2, 255]), r.pick(&[128, 255]));
    let end: Vec<u8> = match r.below(4) {
        0 => vec![],
        1 => vec![flag, 0, 11, 0][..1 + r.below(4) as usize].to_vec(),
        2 => [&[flag, 0, 200, 0, 1][..], &vec![b'D'; r.below(200) as usize]].concat(),
        _ => [&[flag, high, 0, 0, 1][..], &vec![1; r.below(9) as usize * 10_000]].concat(),
    };
    input.extend(end);
    input
}

const EXAMPLE: &str = "01000B000154 45000B000000010000 0D 01000B00015445000B000000040000 0D";

// Document 01's own example, with its lines written out.
fn example(options: &Options, held: &mut Held) {
    let digits: Vec<u8> = EXAMPLE.bytes().filter(|b| *b != b' ').collect();
    let input: Vec<u8> = digits.chunks(2).map(|d| u8::from_str_radix(std::str::from_utf8(d).unwrap(), 16).unwrap()).collect();
    let list = Book::of(vec![(b'T', vec![*b"FUTCOMGOLD      05-APR-2026          XX"])]).bytes();
    held.hold(list.len() == 49, || "gaps: one T contract does not make 49 bytes".into());
    let lines: Vec<String> = ["segment highest missing", "T 4 2", "T gap 2-3", "end"].map(String::from).to_vec();
    held.hold(printed(Some(&list), &input) == lines, || "reference: the example of `gaps`".into());
    let said = options.run(Contracts::File(&list), &input);
    held.lines(&lines, &said, |line| format!("gaps: the example, line {line}"));
    held.notices(&lines, &said);
    for piece in [1, 3, 16] {
        held.lines(&lines, &options.run_dripping(Contracts::File(&list), &input, piece), |line| format!("gaps: the example, {piece} bytes at a time, line {line}"));
    }
}

// A start with no spreads: a sound message of a pair is 13, and its other rules come first.
fn spreads(options: &Options, held: &mut Held) {
    const NEAR: feed::Key = *b"FUTCURUSDINR    27-MAR-2026          XX";
    const FAR: feed::Key = *b"FUTCURUSDINR    28-APR-2026          XX";
    let list = Book::of(vec![(b'D', vec![NEAR, FAR])]).bytes();
    let data = [&NEAR[..], &FAR, &[b' '; 138]].concat();
    let message = |data: &[u8]| feed::sealed(*b"DP", 2, data);
    let mut zero = message(&data);
    zero[224..226].fill(0);
    let mut strange = data.clone();
    strange[78 + 16] = b'-';
    let messages = [message(&data), message(&data[1..]), zero, message(&strange), feed::sealed(*b"DS", 2, &data)];
    let input: Vec<u8> = messages.into_iter().flat_map(|message| feed::batch(&[message])).collect();
    let refused = [13, 8, 9, 11].iter().enumerate().map(|(batch, number)| format!("batch {batch} refused {number} message 0"));
    let lines: Vec<String> = refused.chain(["segment highest missing", "D 2 1", "D gap 1-1", "end"].map(String::from)).collect();
    held.hold(printed(Some(&list), &input) == lines, || "reference: pairs in `gaps`".into());
    held.lines(&lines, &options.run(Contracts::File(&list), &input), |line| format!("gaps: pairs, line {line}"));
}

// Three segments and a line for each, F's with what the pre-open session sent: FN and PN share its numbers.
fn futures(options: &Options, held: &mut Held) {
    const NIFTY: feed::Key = *b"FUTIDXNIFTY     30-DEC-2025          XX";
    let list = Book::of(b"DFT".iter().map(|&letter| (letter, vec![NIFTY])).collect()).bytes();
    let update = |code: &[u8; 2], number, market_type: &[u8]| feed::sealed(*code, number, &[&NIFTY[..], market_type, &[b' '; 153]].concat());
    let batches = [
        vec![feed::sealed(*b"FH", 0, &[]), feed::unsealed(*b"PO", 1, b"N"), update(b"PN", 2, b"N"), feed::unsealed(*b"FO", 5, b"N")],
        vec![update(b"FN", 4, b"O"), feed::sealed(*b"PP", 3, b"N")],
        vec![update(b"FN", 8, b"N"), update(b"PN", 4, b"A")],
        vec![feed::unsealed(*b"DO", 2, b"N"), update(b"PN", 9, b"N")],
        vec![update(b"FN", 9, b"X")],
    ];
    let input: Vec<u8> = batches.into_iter().flat_map(|messages| feed::batch(&messages)).collect();
    let lines = [
        "batch 1 refused 6 message 1",
        "batch 3 refused 6 message 1",
        "batch 4 refused 11 message 0",
        "segment highest missing",
        "D 0 0",
        "F 8 3",
        "F gap 3-3",
        "F gap 6-7",
        "T 0 0",
        "end",
    ];
    let lines = lines.map(String::from).to_vec();
    held.hold(printed(Some(&list), &input) == lines, || "reference: futures in `gaps`".into());
    held.lines(&lines, &options.run(Contracts::File(&list), &input), |line| format!("gaps: futures, line {line}"));
}

// Files that are refused, and the largest that are not.
fn files(options: &Options, held: &mut Held) {
    let mut r = Random::new(options.seed);
    let mut book = |counts: &[usize]| {
        let letters = if counts.len() == MOST_SEGMENTS { "DFT" } else { "DT" };
        Book::of(letters.bytes().zip(counts).map(|(letter, &n)| (letter, feed::keys(&mut r, n))).collect()).bytes()
    };
    let mut lists = vec![book(&[64, 64]), book(&[64]), book(&[65]), book(&[1, 65]), book(&[65, 1]), book(&[419]), book(&[420]), book(&[4096])];
    lists.extend([book(&[64, 64, 64]), book(&[1, 65, 1]), book(&[64, 64, 65])]);
    lists.extend([vec![], vec![0; LARGEST_FILE], vec![0; LARGEST_FILE + 1]]);
    let mut swapped = book(&[65, 2]);
    swapped[19] = 7; // over 64 keys and not sound: 16 comes first
    lists.push(swapped);
    let all = lists.iter().map(|list| Contracts::File(list)).chain([Contracts::Missing, Contracts::Folder]);
    for (i, contracts) in all.enumerate() {
        let input = [1, 0, 11, 0, 1, b'D', b'E', 0, 11, 0, 0, 0, 3, 0, 0, 13];
        let expected = printed(contracts.bytes(), &input);
        held.lines(&expected, &options.run(contracts, &input), |line| format!("gaps: file {i}, line {line}"));
    }
}

const STREAMS: u64 = 150;

fn streams(options: &Options, held: &mut Held) {
    let mut seen: BTreeMap<String, u64> = BTreeMap::new();
    let mut batches = 0;
    for number in 0..STREAMS * options.times {
        let mut r = Random::new(options.seed.wrapping_mul(1_000_003).wrapping_add(number));
        let most = r.pick(&[1, 3, 64]);
        // The program knows no pairs: in one of eight streams there are messages of some.
        let pairs = if r.one_in(8) { 6 } else { 0 };
        let book = feed::a_book(&mut r, most).with_pairs(&mut r, pairs);
        let length = r.pick(&[0, 1, 10, 40]);
        let input = a_stream(&mut r, &book, length);
        let list = if r.one_in(12) { feed::damaged_list(&mut r, &book.bytes()) } else { book.bytes() };
        let expected = printed(Some(&list), &input);
        batches += length;
        for line in &expected {
            let words: Vec<&str> = line.split(' ').collect();
            if words.len() == 6 || words[0] == "start" {
                *seen.entry(format!("{} {}", words[0], words[words.len().min(4) - 1])).or_default() += 1;
            }
        }
        let said = options.run(Contracts::File(&list), &input);
        held.lines(&expected, &said, |line| format!("gaps: seed {} stream {number} line {line}", options.seed));
        if number % 50 == 1 && input.len() < 20_000 {
            let said = options.run_dripping(Contracts::File(&list), &input, 100);
            held.lines(&expected, &said, |line| format!("gaps: seed {} stream {number} dripping, line {line}", options.seed));
        }
    }
    for refusal in 1..=14 {
        held.hold(seen.contains_key(&format!("batch {refusal}")), || format!("gaps: seed {}: no batch refused {refusal}", options.seed));
    }
    held.hold(seen.contains_key("start 16"), || format!("gaps: seed {}: no start refused", options.seed));
    println!("gaps: {} streams, {batches} batches", STREAMS * options.times);
}

fn main() {
    let options = Options::read();
    let mut held = Held { passed: 0, failed: 0 };
    example(&options, &mut held);
    spreads(&options, &mut held);
    futures(&options, &mut held);
    files(&options, &mut held);
    streams(&options, &mut held);
    held.end();
}
