// The library that hosts link, called directly on histories as `calls` is told them: the number returned, the whole answer, all that
// is lent for what is answered, and every gap row and record.
//   host [--seed N] [--times N]
mod asks;
mod feed;
mod halving;
mod history;
mod library;
mod program;
mod random;
mod reference;

use asks::{Ask, Bench, Said};
use feed::Book;
use halving::{Place, MOST_CONTRACTS, MOST_PAIRS};
use history::{History, Seen};
use library::{Answer, Lists, Values};
use program::{Held, Options};
use random::Random;
use reference::{of_contract, of_pair, Form, Refusal, GAP_ROW, LEVEL1_CELLS, MINUS, NONE, PRICE, RECORD, SPREAD_LEVEL1_CELLS, SPREAD_RECORD};
use std::fmt::Debug;

const UNTOUCHED: u64 = 0x5AFE_5AFE_5AFE_5AFE;
const UNREAD: Values = [UNTOUCHED; 35];

// What a host sees of a call but its gap rows and records: `lent` is what it lends for cells, values or bytes.
struct Told {
    number: u32,
    answer: Answer,
    lent: Vec<u64>,
}

// By the header, from what the reference answers: 0 in every number that is not said, nothing written past the answer.
fn expected(ask: &Ask, said: &Result<Said, Refusal>) -> Told {
    let ((number, answer), written): (_, Vec<u64>) = match said {
        Err(refusal) => (refusal.told(), vec![]),
        Ok(Said::Started) => ((0, [0; 4]), vec![]),
        Ok(Said::Judged(counts)) => (counts.told(), vec![]),
        Ok(Said::Listed { highest, runs }) => {
            let cells = runs.iter().flat_map(|&(first, last)| [first as u64, last as u64]);
            ((0, [*highest as u64, runs.len() as u64, 0, 0]), cells.collect())
        }
        Ok(Said::WrittenOff { first, last }) => ((0, [*first as u64, *last as u64, 0, 0]), vec![]),
        Ok(Said::Record(_, None)) => ((0, [0; 4]), vec![]),
        Ok(Said::Record(_, Some(values))) => ((0, [1, 0, 0, 0]), values.clone()),
        Ok(Said::Written(message)) => ((0, [message.len() as u64, 0, 0, 0]), message.iter().map(|&b| b as u64).collect()),
    };
    let mut lent = match ask {
        Ask::Gaps { cells, .. } => vec![UNTOUCHED as u32 as u64; *cells as usize + 1],
        Ask::Record { .. } | Ask::Spread { .. } => UNREAD.to_vec(),
        Ask::Write { room, .. } | Ask::WriteSpread { room, .. } => vec![UNTOUCHED as u8 as u64; *room as usize + 1],
        _ => vec![],
    };
    lent[..written.len()].copy_from_slice(&written);
    Told { number, answer, lent }
}

// The writer looks neither at the values in front of the rows, a contract's number and session or a pair's number, nor at those past its
// level's.
fn to_write(front: usize, rows: &[u64]) -> Values {
    let mut values = UNREAD;
    values[front..front + rows.len()].copy_from_slice(rows);
    values
}

// The library's call. Of cells and bytes one more stands in memory than is lent.
fn called(bench: &mut Bench, ask: &Ask) -> Told {
    let lists = Lists { list: &bench.list, spreads: &bench.spreads };
    let (rows, records) = (&mut bench.rows[..bench.lent_rows], &mut bench.records[..bench.lent_records]);
    let mut lent = vec![];
    let mut written = |room: u16, write: &dyn Fn(&mut [u8]) -> (u32, Answer)| {
        let mut out = vec![UNTOUCHED as u8; room as usize + 1];
        let told = write(&mut out[..room as usize]);
        lent.extend(out.iter().map(|&b| b as u64));
        told
    };
    let (number, answer) = match ask {
        Ask::Start(starts) => lists.start(starts, rows, records),
        Ask::Judge(batch) => lists.judge(rows, records, batch),
        Ask::Take(batch) => lists.take(rows, records, batch),
        Ask::Off { letter } => lists.write_off(rows, records, *letter),
        Ask::Gaps { letter, cells: room } => {
            let mut cells = vec![UNTOUCHED as u32; *room as usize + 1];
            let told = lists.list_gaps(rows, records, *letter, &mut cells[..*room as usize]);
            lent.extend(cells.iter().map(|&c| c as u64));
            told
        }
        Ask::Record { letter, level, key } => {
            let mut values = UNREAD;
            let told = lists.read(*level, rows, records, *letter, key, &mut values);
            lent.extend(values);
            told
        }
        Ask::Spread { letter, level, pair } => {
            let mut values = UNREAD;
            let told = lists.read_spread(*level, rows, records, *letter, pair, &mut values);
            lent.extend(values);
            told
        }
        Ask::Write { code, level, number, key, room, values } => {
            written(*room, &|out| library::write(*level, *code, *number, key, &to_write(2, values), out))
        }
        Ask::WriteSpread { code, level, number, pair, room, values } => {
            written(*room, &|out| library::write_spread(*level, *code, *number, pair, &to_write(1, values), out))
        }
        Ask::Lend { .. } | Ask::List(_) | Ask::Poke { .. } | Ask::Spreads(_) => unreachable!("these make no call"),
    };
    Told { number, answer, lent }
}

// The spread list without pairs, with as many bytes lent as are wanted, one fewer and more.
fn no_spreads(held: &mut Held, list: &[u8], origin: impl Fn() -> String) {
    for room in [0, 1, 9, 10, 11, 17, 18, 19, 25, 26, 27, 64] {
        let mut out = vec![UNTOUCHED as u8; room + 1];
        let told = library::no_spreads(list, &mut out[..room]);
        let mut right = vec![UNTOUCHED as u8; room + 1];
        let expected = match reference::no_spreads(list, room) {
            Err(refusal) => refusal.told(),
            Ok(spreads) => {
                right[..spreads.len()].copy_from_slice(&spreads);
                (0, [spreads.len() as u64, 0, 0, 0])
            }
        };
        let otherwise = || format!("host: {}: no spreads in {room} bytes: {told:?} {out:02x?}, expected {expected:?}", origin());
        held.hold(told == expected && out == right, otherwise);
    }
}

// The place of the gap row that a call changed.
fn changed_row(ask: &Ask, said: &Result<Said, Refusal>, list: &[u8]) -> Option<usize> {
    let letter = match (ask, said) {
        (Ask::Take(batch), Ok(Said::Judged(counts))) if counts.taken > 0 => reference::segment_of([batch[5], batch[6]])?,
        (Ask::Off { letter }, Ok(_)) => *letter,
        _ => return None,
    };
    reference::header(list)?.place(letter)
}

fn difference<T: PartialEq + Debug>(what: &str, right: &[T], got: &[T]) -> Option<String> {
    let at = right.iter().zip(got).position(|(right, got)| right != got)?;
    Some(format!("\n  {what} at {at}: expected {:?}, got {:?}", right[at], got[at]))
}

// Makes a call on the bench's memory; answers what is wrong with it, or None for a command that makes no call.
fn wrong(bench: &mut Bench, ask: &Ask) -> Option<String> {
    let mut after = bench.clone();
    let said = match after.answer(ask).transpose() {
        Some(said) => said,
        None => {
            *bench = after;
            return None;
        }
    };
    let (right, got) = (expected(ask, &said), called(bench, ask));
    if let Some(place) = changed_row(ask, &said, &after.list) {
        // What a changed row holds behind its runs is the one thing that the papers leave open.
        let live = GAP_ROW * place + feed::live_cells(&after.rows[GAP_ROW * place..]);
        let open = live..GAP_ROW * (place + 1);
        after.rows[open.clone()].copy_from_slice(&bench.rows[open]);
    }
    let differences = [
        difference("the number returned", &[right.number], &[got.number]),
        difference("answer", &right.answer, &got.answer),
        difference("what is lent for the answer", &right.lent, &got.lent),
        difference("gap rows", &after.rows, &bench.rows),
        difference("records", &after.records, &bench.records),
    ];
    Some(differences.into_iter().flatten().collect())
}

fn hold(held: &mut Held, bench: &mut Bench, ask: &Ask, origin: impl Fn() -> String) {
    if let Some(wrong) = wrong(bench, ask) {
        held.hold(wrong.is_empty(), || format!("host: {} {:02x?}:{wrong}", origin(), ask.bytes()));
    }
}

// ---- records handed back as no call leaves them

const NUMBER: u32 = 7;
const NUMBERS: [u64; 10] = [0, 1, 6, 7, 8, 1 << 32, (1 << 32) + 6, (1 << 32) + 8, NONE - 1, NONE];
#[rustfmt::skip]
const CELLS: [u64; 18] = [
    0, 1, 2, b'N' as u64, b'S' as u64, 255, 256, 256 + b'N' as u64, 1 << 32, PRICE.largest + 1, NONE - 1, NONE,
    MINUS, MINUS + 1, MINUS - 1, MINUS | PRICE.largest, MINUS | (PRICE.largest + 1), MINUS | (1 << 60),
];

// A record with any number and any cells is read, meets an update, and is read again: of a contract and of a pair, at both levels, in each
// segment and session.
fn damaged_records(held: &mut Held) {
    let mut r = Random::new(1);
    let key = feed::a_key(&mut r);
    let pair = feed::pair(&key, &key);
    for (code, level) in [b"DN", b"FN", b"PN", b"TN", b"DP", b"TP"].into_iter().flat_map(|code| [(code, 1), (code, 2)]) {
        let letter = if code[0] == b'P' { b'F' } else { code[0] };
        let book = Book { segments: vec![(letter, vec![key])], spreads: vec![(letter, vec![pair])] };
        let form = if code[1] == b'P' { of_pair(level) } else { of_contract(letter, level) };
        let batch = feed::batch(&[feed::update_of(&mut r, form, *code, b'N', NUMBER, &pair[..form.key])]);
        let read = if form.is_pair() { Ask::Spread { letter, level, pair } } else { Ask::Record { letter, level, key } };
        let at = if form.is_pair() { RECORD + SPREAD_LEVEL1_CELLS * (level - 1) } else { LEVEL1_CELLS * (level - 1) };
        for (number, cell) in NUMBERS.iter().flat_map(|&number| CELLS.map(|cell| (number, cell))) {
            let mut bench = Bench::new(Some(&book.bytes()));
            let origin = || format!("{code:?} of level {level} on a record numbered {number} of cells {cell}");
            let mut hold = |bench: &mut Bench, ask: &Ask| hold(held, bench, ask, &origin);
            hold(&mut bench, &Ask::Spreads(book.spread_bytes()));
            hold(&mut bench, &Ask::Start(vec![1]));
            bench.records.fill(cell);
            bench.records[at] = number;
            for ask in [read.clone(), Ask::Judge(batch.clone()), Ask::Take(batch.clone()), read.clone()] {
                hold(&mut bench, &ask);
            }
        }
    }
}

// The most pairs a segment, 1,024, and one more: a file that the test bench has no room for.
fn most_pairs(held: &mut Held) {
    let mut r = Random::new(2);
    let keys = feed::keys(&mut r, 33);
    let mut pairs: Vec<feed::Pair> = keys.iter().flat_map(|a| keys.iter().map(move |b| feed::pair(a, b))).collect();
    pairs.truncate(1_025);
    for number in [1_023, 1_024, 1_025] {
        for letters in [b"DT", b"TD"] {
            // The pairs in the first segment or in the second; what else there is has one contract and no pairs.
            let mut book = Book::of(vec![(letters[0], keys.clone()), (letters[1], vec![keys[0]])]);
            book.spreads[0].1 = pairs[..number].to_vec();
            book.segments.sort_by_key(|s| s.0);
            book.spreads.sort_by_key(|s| s.0);
            let wanted = RECORD * 34 + SPREAD_RECORD * number;
            let (list, spreads) = (book.bytes(), book.spread_bytes());
            let (rows, records) = (vec![0; 2 * GAP_ROW], vec![UNTOUCHED; wanted + 1]);
            let mut bench = Bench { list, spreads, rows, records, lent_rows: 2 * GAP_ROW, lent_records: wanted };
            let mut asked = vec![Ask::Start(vec![1, 1])];
            for (k, pair) in [pairs[0], pairs[511], pairs[number - 1]].into_iter().enumerate() {
                for level in 1..=2 {
                    let update = feed::an_update(&mut r, of_pair(level), letters[0], (2 * k + level) as u32, &pair);
                    asked.extend([Ask::Take(feed::batch(&[update])), Ask::Spread { letter: letters[0], level, pair }]);
                }
            }
            for ask in &asked {
                hold(held, &mut bench, ask, || format!("{number} pairs"));
            }
            held.hold((bench.rows[0] == 1) == (number <= 1_024), || format!("host: a start with {number} pairs"));
            bench.lent_records -= 1;
            hold(held, &mut bench, &asked[0], || format!("{number} pairs, a cell too few"));
        }
    }
}

// ---- lookups in segments of every size

// The largest segments that there are: for a smaller one the first of their contracts, or of their pairs.
struct Largest {
    contracts: Vec<feed::Key>,
    pairs: Vec<feed::Pair>,
    rows: Vec<u32>, // as a start at 1 leaves them
    records: Vec<u64>,
}

impl Largest {
    fn new() -> Largest {
        let (contracts, pairs) = (halving::listed(MOST_CONTRACTS, halving::contract), halving::listed(MOST_PAIRS, halving::pair));
        let mut rows = vec![0; GAP_ROW];
        rows[0] = 1;
        Largest { contracts, pairs, rows, records: vec![0; RECORD * MOST_CONTRACTS + SPREAD_RECORD * MOST_PAIRS] }
    }

    fn lists(&self, letter: u8, contracts: usize, pairs: usize) -> (Vec<u8>, Vec<u8>) {
        (feed::file(&[(letter, self.contracts[..contracts].to_vec())]), feed::file(&[(letter, self.pairs[..pairs].to_vec())]))
    }

    // Each place is judged in a batch of its own: the library and the reference answer what the rule on numbers says.
    fn hold(&self, held: &mut Held, letter: u8, form: &Form, keys: usize, places: impl IntoIterator<Item = Place>) {
        let (list, spreads) = if form.is_pair() { self.lists(letter, 1, keys) } else { self.lists(letter, keys, 0) };
        let lists = Lists { list: &list, spreads: &spreads };
        for place in places {
            let batch = feed::batch(&[halving::update(form, letter, 1, place.number())]);
            let got = lists.judge(&self.rows, &self.records, &batch);
            let by_reference = reference::told(reference::judge(reference::sum_by_sixteens, &list, &spreads, &self.rows, &self.records, &batch));
            let compared = halving::compared(keys, place);
            let right = if place.listed { (0, [1, 0, 0, compared]) } else { (13, [0, 0, 0, compared]) };
            let otherwise = || format!("host: {place:?} of {keys} keys of {} bytes: {got:?}, by the reference {by_reference:?}", form.key);
            held.hold(got == right && by_reference == right && compared <= halving::binary_digits(keys), otherwise);
        }
    }
}

// Every size; at every place where a segment is small, or as large as its number of binary digits changes.
fn lookups(held: &mut Held) {
    let largest = Largest::new();
    for (form, sizes) in [(of_contract(b'T', 1), 1..=MOST_CONTRACTS), (of_pair(1), 0..=MOST_PAIRS)] {
        for keys in halving::sizes(*sizes.end()).filter(|keys| sizes.contains(keys)) {
            largest.hold(held, b'T', form, keys, halving::everywhere(keys));
        }
        for keys in sizes {
            largest.hold(held, b'T', form, keys, halving::here_and_there(keys));
        }
    }
    for keys in halving::sizes(MOST_CONTRACTS).skip(1) {
        largest.hold(held, b'F', of_contract(b'F', 1), keys, halving::here_and_there(keys));
    }
    worst_batches(held, &largest, b'T', &[(131, 0, 1_703), (0, 144, 1_584), (127, 5, 1_706)]);
    worst_batches(held, &largest, b'F', &[(160, 0, 2_080)]);
}

// As many updates of the last contract as a batch has room for, at 13 keys each, or of the last pair, at 11; and both, so that no batch has
// more. F's are shortest, and it has none of pairs.
fn worst_batches(held: &mut Held, largest: &Largest, letter: u8, batches: &[(u32, u32, u64)]) {
    let (list, spreads) = largest.lists(letter, MOST_CONTRACTS, MOST_PAIRS);
    let (rows, records) = (largest.rows.clone(), largest.records.clone());
    let (lent_rows, lent_records) = (rows.len(), records.len());
    let mut bench = Bench { list, spreads, rows, records, lent_rows, lent_records };
    hold(held, &mut bench, &Ask::Start(vec![1]), || "a start with the largest segments".into());
    let last = |form, keys: usize| move |sequence| halving::update(form, letter, sequence, Place { below: keys - 1, listed: true }.number());
    let (contract, pair) = (last(of_contract(letter, 1), MOST_CONTRACTS), last(of_pair(1), MOST_PAIRS));
    for &(contracts, pairs, compared) in batches {
        let messages: Vec<Vec<u8>> = (1..=contracts).map(contract).chain((contracts + 1..=contracts + pairs).map(pair)).collect();
        let batch = feed::batch(&messages);
        let lists = Lists { list: &bench.list, spreads: &bench.spreads };
        let (number, answer) = lists.judge(&bench.rows, &bench.records, &batch);
        let otherwise = || format!("host: {contracts} updates of the last contract, {pairs} of the last pair: {number} {answer:?}");
        held.hold(number == 0 && answer[3] == compared, otherwise);
        hold(held, &mut bench, &Ask::Take(batch), || format!("{contracts} updates of the last contract, {pairs} of the last pair"));
    }
}

// Some of the cells, or all, with numbers about those that the feed has come to.
fn damage_records(r: &mut Random, bench: &mut Bench) {
    let one_in = r.pick(&[1, 4, 40]);
    for cell in &mut bench.records {
        if r.one_in(one_in) {
            let near = r.pick(&[bench.rows[1], bench.rows[GAP_ROW + 1], bench.rows[2 * GAP_ROW + 1]]) as u64 + r.below(6);
            let any = [r.next(), r.next() >> 32, r.pick(&CELLS), r.pick(&NUMBERS), near, near + (1 << 32)];
            *cell = r.pick(&any);
        }
    }
}

const HISTORIES: u64 = 40;

// Every second one has its records damaged now and then.
fn histories(options: &Options, held: &mut Held) {
    let mut seen = Seen::new();
    for number in 0..HISTORIES * options.times {
        let h = History::held(options.seed.wrapping_add(1_000), number, &mut seen);
        let mut bench = Bench::new(h.contracts.as_deref());
        let mut r = Random::new(options.seed.wrapping_add(number));
        for (command, ask) in h.asked.iter().enumerate() {
            if number % 2 == 1 && r.one_in(6) {
                damage_records(&mut r, &mut bench);
            }
            hold(held, &mut bench, ask, || format!("seed {} history {number} command {command}", options.seed));
            if let Ask::List(list) = ask {
                no_spreads(held, list, || format!("seed {} history {number} command {command}", options.seed));
            }
        }
        no_spreads(held, &h.contracts.unwrap_or_default(), || format!("seed {} history {number}, its file", options.seed));
    }
    println!("host: {} histories", HISTORIES * options.times);
}

fn main() {
    let options = Options::read();
    let mut held = Held { passed: 0, failed: 0 };
    damaged_records(&mut held);
    most_pairs(&mut held);
    lookups(&mut held);
    histories(&options, &mut held);
    held.end();
}
