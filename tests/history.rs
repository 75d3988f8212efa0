// Histories of calls that look random, each with the lines that the reference answers: both lists and memory as they should be and
// otherwise, rows handed back unsound, batches and quotes of every kind, of contracts and of pairs, in one to three segments.
#![allow(dead_code)] // each test uses a part

use crate::asks::{Ask, Bench, LARGEST_BATCH, LARGEST_LIST};
use crate::feed::{self, Book, Pace, WRONG_CONTENTS};
use crate::random::Random;
use crate::reference::{
    self, of_contract, of_pair, Form, FUTURES_LENGTHS, GAP_ROW, KEY, LENGTHS, MOST_RUNS, MOST_SEGMENTS, PAIR, RECORD, RUNS, SPREAD_LENGTHS, SPREAD_RECORD,
};
use std::collections::BTreeMap;

const STEPS: u64 = 220;

// What was met, so that a kind of input that the generator no longer makes is noticed.
pub type Seen = BTreeMap<String, u64>;

const PLACES: [&str; 3] = ["first", "a middle", "the last"];

const UNSOUND: [&str; 10] = [
    "start 0",
    "highest under start - 1",
    "65 runs",
    "very many runs",
    "a run's first above its last",
    "runs not ascending",
    "runs that touch",
    "runs that overlap",
    "a run before start",
    "a run past highest",
];

pub struct History {
    r: Random,
    book: Book,
    bench: Bench,
    pace: Pace,
    pub contracts: Option<Vec<u8>>,
    pub asked: Vec<Ask>,
    pub lines: Vec<(usize, String)>, // with the place of its command
    pub input: Vec<u8>,
    pub ending: &'static str,
}

fn refusal_of(line: &str) -> Option<(u8, usize)> {
    let mut words = line.split(' ').skip_while(|w| *w != "refused").skip(1);
    Some((words.next()?.parse().ok()?, words.next()?.parse().ok()?))
}

impl History {
    fn new(seed: u64, number: u64) -> History {
        let mut r = Random::new(seed.wrapping_mul(1_000_003).wrapping_add(number));
        let letters = feed::some_letters(&mut r);
        // The bench has memory for all of them: 128 contracts and 64 pairs, or few contracts and 180 pairs.
        let share = |all: u64| all / letters.len() as u64;
        let most = r.pick(&[1, 4, 12, share(128)]);
        let pairs = r.pick(&[0, 1, 6, share(64), share(if most > 12 { 64 } else { 180 })]);
        let book = feed::book_of(&mut r, letters, most).with_pairs(&mut r, pairs);
        let contracts = match r.below(8) {
            0 => None,
            1 => Some(feed::damaged_list(&mut r, &book.bytes())),
            _ => Some(book.bytes()),
        };
        let bench = Bench::new(contracts.as_deref());
        let pace = r.pick(&[Pace::Smooth, Pace::Mixed, Pace::Mixed, Pace::Holes, Pace::Far]);
        History { r, book, bench, pace, contracts, asked: vec![], lines: vec![], input: vec![], ending: "nothing" }
    }

    // One whole history. Its file is sometimes missing or damaged, and then replaced after a few calls.
    pub fn held(seed: u64, number: u64, seen: &mut Seen) -> History {
        let mut h = History::new(seed, number);
        if h.bench.list != h.book.bytes() {
            h.few_calls(seen);
            let list = h.book.bytes();
            h.ask(Ask::List(list), seen);
        }
        h.few_calls(seen);
        h.hand_spreads(seen);
        h.few_calls(seen);
        h.begin(seen);
        for _ in 0..STEPS {
            h.step(seen);
        }
        h.finish();
        h
    }

    pub fn batches(&self) -> usize {
        self.asked.iter().filter(|ask| ask.is_batch()).count()
    }

    // Where a line comes from.
    pub fn origin(&self, line: usize) -> String {
        match self.lines.get(line) {
            Some(&(command, _)) => format!("command {command} {:02x?}", self.asked[command].bytes()),
            None => format!("ended by {}", self.ending),
        }
    }

    fn ask(&mut self, ask: Ask, seen: &mut Seen) -> Option<String> {
        self.input.extend(ask.bytes());
        let rows = self.bench.rows.clone();
        let line = self.bench.line(&ask);
        if let Some(line) = &line {
            self.lines.push((self.asked.len(), line.clone()));
            note(&ask, line, seen);
            if let (Ask::Take(batch), None) = (&ask, refusal_of(line)) {
                let place = self.place(segment_of(&batch[5..]));
                note_taken(batch, &self.book, &mut rows[GAP_ROW * place..GAP_ROW * (place + 1)].to_vec(), seen);
            }
        }
        self.asked.push(ask);
        line
    }

    // A letter that is mostly listed.
    fn letter(&mut self) -> u8 {
        let listed = self.book.letters();
        if self.r.one_in(12) { self.r.pick(b"DTFPPHN\x00d") } else { self.r.pick(&listed) }
    }

    fn place(&self, letter: u8) -> usize {
        self.book.letters().iter().position(|&l| l == letter).unwrap_or(0)
    }

    fn row(&self, letter: u8) -> &[u32] {
        let place = self.place(letter);
        &self.bench.rows[GAP_ROW * place..GAP_ROW * (place + 1)]
    }

    fn begin(&mut self, seen: &mut Seen) {
        let far = 4_294_967_295 - self.r.below(300) as u32;
        let any = 1 + self.r.below(4_294_967_295) as u32;
        let starts = (0..self.book.segments.len() as u64 + self.r.below(2)).map(|_| self.r.pick(&[1, 1, 1, 2, 1000, far, any])).collect();
        let line = self.ask(Ask::Start(starts), seen);
        if line.as_deref() == Some("start ok") && self.book.segments.len() == MOST_SEGMENTS {
            *seen.entry("a start with three segments".into()).or_default() += 1;
        }
    }

    fn begin_wrongly(&mut self, seen: &mut Seen) {
        let mut starts = vec![self.r.pick(&[0, 1, 7]); self.r.pick(&[0, 1, 2, 3, 4, 255])];
        if let (Some(last), true) = (starts.last_mut(), self.r.one_in(2)) {
            *last = 0;
        }
        self.ask(Ask::Start(starts), seen);
    }

    fn send(&mut self, seen: &mut Seen) {
        let letter = self.letter();
        let row = self.row(letter).to_vec();
        let batch = feed::a_batch(&mut self.r, &self.book, letter, self.pace, &row);
        match self.r.below(4) {
            0 => {
                self.ask(Ask::Judge(batch), seen);
            }
            1 => {
                let judged = self.ask(Ask::Judge(batch.clone()), seen);
                let taken = self.ask(Ask::Take(batch), seen);
                assert_eq!(judged.map(|l| l.replace("judge", "take")), taken);
            }
            _ => {
                self.ask(Ask::Take(batch), seen);
            }
        }
    }

    // The largest batch there may be, and ones that are larger: heartbeats, and one long message that is passed over.
    fn send_large(&mut self, seen: &mut Seen) {
        let letter = self.r.pick(&self.book.letters());
        let row = self.row(letter).to_vec();
        let number = feed::a_number(&mut self.r, self.pace, &row);
        let mut messages = vec![feed::sealed([letter, b'H'], 0, &[]); self.r.pick(&[0, 1, 100, 2_900])];
        let size = self.r.pick(&[32_767, 32_767, 32_768, 32_766, LARGEST_BATCH - 5]);
        let data = vec![b' '; size - 11 - 11 * messages.len()];
        let at = self.r.below(messages.len() as u64 + 1) as usize;
        messages.insert(at, feed::sealed([letter, b'B'], number, &data));
        self.ask(Ask::Take(feed::batch(&messages)), seen);
    }

    // More than 64 runs, at a chosen message of a batch.
    fn overfill(&mut self, seen: &mut Seen) {
        let letter = self.r.pick(&self.book.letters());
        let place = self.r.below(3) as usize;
        let mut row = self.row(letter).to_vec();
        if !reference::row_sound(&row) || row[1] > u32::MAX - 300 {
            return;
        }
        let mut messages = vec![];
        let update = |h: &mut History, number| {
            let form = if h.book.listed_pairs(letter).is_empty() { of_contract(letter, 1) } else { feed::a_form(&mut h.r, letter, 1) };
            let key = h.book.a_key_for(&mut h.r, form, letter);
            feed::an_update(&mut h.r, form, letter, number, &key)
        };
        while (row[2] as usize) < MOST_RUNS && messages.len() < 120 {
            let number = row[1] + 2;
            messages.push(update(self, number));
            reference::take_number(&mut row, number);
        }
        for chunk in messages.chunks(60) {
            self.ask(Ask::Take(feed::batch(chunk)), seen);
        }
        let next = row[1] + 1;
        let run = reference::runs(&row).into_iter().find(|run| run.1 - run.0 > 1);
        let splits = run.map(|run| run.0 + 1).filter(|_| self.r.one_in(2));
        let mut numbers = vec![next, next + 1, next];
        numbers.insert([0, 2, 3][place], splits.unwrap_or(next + 3));
        let messages: Vec<Vec<u8>> = numbers.into_iter().map(|n| update(self, n)).collect();
        self.ask(Ask::Judge(feed::batch(&messages)), seen);
        self.ask(Ask::Take(feed::batch(&messages)), seen);
        self.ask(Ask::Gaps { letter, cells: 2 * MOST_RUNS as u16 }, seen);
    }

    fn list_gaps(&mut self, seen: &mut Seen) {
        let letter = self.letter();
        let exact = 2 * self.row(letter)[2].min(MOST_RUNS as u32) as u16;
        let cells = self.r.pick(&[128, 128, 65_535, exact, exact.saturating_sub(1), 0]);
        self.ask(Ask::Gaps { letter, cells }, seen);
    }

    fn read(&mut self, seen: &mut Seen) {
        let letter = self.letter();
        let level = 1 + self.r.below(2) as usize;
        let mut key = self.book.a_key(&mut self.r, letter);
        if self.r.one_in(10) {
            let at = self.r.below(KEY as u64) as usize;
            key[at] = self.r.next() as u8;
        }
        self.ask(Ask::Record { letter, level, key }, seen);
    }

    fn read_spread(&mut self, seen: &mut Seen) {
        let letter = self.letter();
        let level = 1 + self.r.below(2) as usize;
        let mut pair = self.book.a_pair(&mut self.r, letter);
        match self.r.below(20) {
            0 => pair[self.r.below(PAIR as u64) as usize] = self.r.next() as u8,
            1 => pair.rotate_left(KEY),
            _ => {}
        }
        self.ask(Ask::Spread { letter, level, pair }, seen);
    }

    fn write(&mut self, seen: &mut Seen) {
        let level = 1 + self.r.below(2) as usize;
        let mut code = *self.r.pick(&[b"DN", b"TN", b"FN", b"FN", b"PN", b"PN", b"DH", b"FH", b"TH"]);
        if self.r.one_in(12) {
            code[self.r.below(2) as usize] = self.r.pick(b"AFHNOPDThn\x00");
        }
        let mut number = if code[1] == b'H' { 0 } else { 1 + self.r.below(4_294_967_295) as u32 };
        if self.r.one_in(12) {
            number = self.r.pick(&[0, 1, 4_294_967_295]);
        }
        let mut key = feed::a_key(&mut self.r);
        if self.r.one_in(12) {
            let at = self.r.below(KEY as u64) as usize;
            key[at] = self.r.pick(&[0, 31, 127, 255, 32, 126]);
        }
        let form = of_contract(code[0], level);
        let mut values = feed::values_of(&mut self.r, form);
        for _ in 0..self.r.pick(&[0, 0, 0, 1, 2]) {
            feed::damage_quote(&mut self.r, &mut values);
        }
        let exact = if code[1] == b'H' { 11 } else { form.length as u16 };
        let room = self.r.pick(&[1_024, 65_535, exact, exact, exact - 1, 0, 1_025]);
        self.ask(Ask::Write { code, level, number, key, room, values }, seen);
    }

    fn write_spread(&mut self, seen: &mut Seen) {
        let level = 1 + self.r.below(2) as usize;
        let mut code = [self.r.pick(b"DT"), b'P'];
        if self.r.one_in(10) {
            code[self.r.below(2) as usize] = self.r.pick(b"AFHNPDTpt\x00");
        }
        let any = 1 + self.r.below(4_294_967_295) as u32;
        let number = if self.r.one_in(10) { self.r.pick(&[0, 0, 1, 4_294_967_295]) } else { any };
        let mut pair = feed::pair(&feed::a_key(&mut self.r), &feed::a_key(&mut self.r));
        if self.r.one_in(10) {
            let at = self.r.below(PAIR as u64) as usize;
            pair[at] = self.r.pick(&[0, 31, 127, 255, 32, 126]);
        }
        let mut values = feed::values_of(&mut self.r, of_pair(level));
        for _ in 0..self.r.pick(&[0, 0, 0, 1, 2]) {
            feed::damage_quote(&mut self.r, &mut values);
        }
        let exact = SPREAD_LENGTHS[level - 1] as u16;
        let room = self.r.pick(&[1_024, 65_535, exact, exact, exact - 1, 0, 1_025]);
        self.ask(Ask::WriteSpread { code, level, number, pair, room, values }, seen);
    }

    fn any_call(&mut self, seen: &mut Seen) {
        match self.r.below(24) {
            0..=9 => self.send(seen),
            10..=12 => self.read(seen),
            13 | 14 => self.list_gaps(seen),
            15 => {
                let letter = self.letter();
                self.ask(Ask::Off { letter }, seen);
            }
            16 | 17 => self.read_spread(seen),
            18 | 19 => self.write_spread(seen),
            _ => self.write(seen),
        }
    }

    fn few_calls(&mut self, seen: &mut Seen) {
        for _ in 0..2 + self.r.below(6) {
            self.any_call(seen);
        }
        match self.r.below(4) {
            0 => self.begin(seen),
            1 => self.begin_wrongly(seen),
            _ => {}
        }
        self.any_call(seen);
    }

    fn lend_less(&mut self, seen: &mut Seen) {
        let (all_rows, contracts) = ((GAP_ROW * self.book.segments.len()) as u32, (RECORD * self.book.contracts()) as u32);
        let all_records = contracts + (SPREAD_RECORD * self.book.number_of_pairs()) as u32;
        let rows = self.r.pick(&[all_rows, all_rows - 1, all_rows, 0, u32::MAX]);
        let records = self.r.pick(&[all_records, all_records - 1, all_records, contracts, contracts - 1, 0, u32::MAX]);
        self.ask(Ask::Lend { rows, records }, seen);
        if rows >= all_rows && (contracts..all_records).contains(&records) {
            self.begin(seen);
            *seen.entry("15 for the pairs' records alone".into()).or_default() += 1;
        }
        if self.r.one_in(6) {
            self.hand_other_spreads(seen);
        }
        self.few_calls(seen);
        self.ask(Ask::Lend { rows: u32::MAX, records: u32::MAX }, seen);
    }

    fn hand_other_list(&mut self, seen: &mut Seen) {
        let list = self.book.bytes();
        let other = match self.r.below(6) {
            0 => feed::a_book(&mut self.r, 64).bytes(),
            1 | 2 => feed::shuffled_list(&mut self.r, &list),
            3 => vec![0; self.r.below(20) as usize],
            4 => Book::of(vec![(b'T', feed::keys(&mut self.r, 175))]).bytes(),
            _ => feed::damaged_list(&mut self.r, &list),
        };
        self.ask(Ask::List(other), seen);
        if self.r.one_in(3) {
            let spreads = self.book.spread_bytes();
            self.ask(Ask::Spreads(spreads), seen);
        }
        self.few_calls(seen);
        self.ask(Ask::List(list), seen);
        if self.r.one_in(2) {
            self.few_calls(seen);
        }
        self.hand_spreads(seen);
    }

    // The book's own pairs, from here on.
    fn hand_spreads(&mut self, seen: &mut Seen) {
        let spreads = self.book.spread_bytes();
        self.ask(Ask::Spreads(spreads), seen);
    }

    // Bad in one way: start refuses it, and so does a call after start where it looks at what is bad.
    fn hand_wrong_spreads(&mut self, seen: &mut Seen) {
        let wrong = self.r.pick(&feed::spread_wrongs());
        let spreads = match feed::wrong_spreads(&mut self.r, wrong, &self.book, &self.book.spreads) {
            Some(spreads) => spreads,
            None => return,
        };
        self.ask(Ask::Spreads(spreads), seen);
        let letter = self.r.pick(&self.book.letters());
        let line = self.ask(Ask::Gaps { letter, cells: 128 }, seen);
        let looked = line.as_deref() == Some("gaps refused 16 0 0 0");
        assert_eq!(looked, WRONG_CONTENTS.contains(&wrong), "{wrong}");
        let line = self.ask(Ask::Start(vec![1; MOST_SEGMENTS]), seen);
        assert_eq!(line.as_deref(), Some("start refused 16 0 0 0"), "{wrong}");
        *seen.entry(format!("16 for {wrong}")).or_default() += 1;
    }

    // Other pairs, more or fewer of them, in another order, or none; then those of the book again.
    fn hand_other_spreads(&mut self, seen: &mut Seen) {
        let right = self.book.spread_bytes();
        match self.r.below(6) {
            0..=2 => self.hand_wrong_spreads(seen),
            3 => {
                let spreads = feed::shuffled_file(&mut self.r, &right, PAIR);
                self.ask(Ask::Spreads(spreads), seen);
            }
            4 => {
                let most = self.r.pick(&[0, 1, 40]);
                let spreads = feed::file(&self.book.pairs(&mut self.r, most));
                self.ask(Ask::Spreads(spreads), seen);
            }
            _ => {
                let spreads = feed::damaged_spreads(&mut self.r, &self.book, &self.book.spreads);
                self.ask(Ask::Spreads(spreads), seen);
            }
        }
        self.few_calls(seen);
        self.hand_spreads(seen);
    }

    // Writes a gap row: its start, highest, number of runs and those runs' cells.
    fn poke_row(&mut self, place: usize, cells: &[u32], seen: &mut Seen) {
        for (k, &value) in cells.iter().enumerate() {
            self.ask(Ask::Poke { cell: (GAP_ROW * place + k) as u32, value }, seen);
        }
    }

    fn a_sound_row(&mut self) -> Vec<u32> {
        let start = 1 + self.r.below(40) as u32;
        let number = self.r.pick(&[2, 2, 3, 10, 63, 64]);
        let mut cells = vec![start, 0, number, self.r.below(2) as u32];
        let mut at = start;
        for _ in 0..number {
            let first = at + self.r.below(3) as u32;
            let last = first + self.r.below(4) as u32;
            cells.extend([first, last]);
            at = last + 2;
        }
        cells[1] = at - 2 + self.r.pick(&[0, 0, 1, 5]);
        cells
    }

    fn unsound(&mut self, way: usize) -> Vec<u32> {
        let mut cells = self.a_sound_row();
        let run = RUNS + 2 * self.r.below(cells[2] as u64 - 1) as usize;
        match way {
            0 => cells[0] = 0,
            1 => cells = vec![self.r.pick(&[9, 4_294_967_295]), self.r.pick(&[0, 7]), 0, 0],
            2 => cells[2] = 65,
            3 => cells[2] = self.r.pick(&[66, 100, 1 << 31, u32::MAX]),
            4 => cells[run] = cells[run + 1] + 1,
            5 => cells.copy_within(run..run + 2, run + 2),
            6 => cells[run + 2] = cells[run + 1] + 1,
            7 => cells[run + 2] = cells[run + 1],
            8 => cells[RUNS] = cells[0] - 1,
            _ => {
                let end = cells.len() - 1;
                cells[end] = cells[1] + 1 + self.r.pick(&[0, 7]);
            }
        }
        cells
    }

    fn hand_back_unsound(&mut self, seen: &mut Seen) {
        let place = self.r.below(self.book.segments.len() as u64) as usize;
        let row = &self.bench.rows[GAP_ROW * place..GAP_ROW * (place + 1)];
        let before = row[..feed::live_cells(row)].to_vec();
        let way = self.r.below(UNSOUND.len() as u64) as usize;
        let cells = self.unsound(way);
        self.poke_row(place, &cells, seen);
        let letter = self.r.pick(&self.book.letters());
        let line = self.ask(Ask::Gaps { letter, cells: 128 }, seen);
        if line.as_deref() == Some("gaps refused 18 0 0 0") {
            *seen.entry(format!("18 for {}", UNSOUND[way])).or_default() += 1;
        }
        for _ in 0..1 + self.r.below(4) {
            self.any_call(seen);
        }
        let repaired = if self.r.one_in(2) { before } else { self.a_sound_row() };
        self.poke_row(place, &repaired, seen);
    }

    fn hand_back_sound(&mut self, seen: &mut Seen) {
        let place = self.r.below(MOST_SEGMENTS as u64) as usize;
        let cells = self.a_sound_row();
        self.poke_row(place, &cells, seen);
        if let Some(&letter) = self.book.letters().get(place) {
            if cells.last() == Some(&cells[1]) {
                let number = cells[1] + 2 + self.r.below(3) as u32;
                let message = feed::a_message(&mut self.r, &self.book, letter, number);
                self.ask(Ask::Take(feed::batch(&[message])), seen);
                *seen.entry("a hole joined to the run that ends at highest".into()).or_default() += 1;
            }
            self.ask(Ask::Gaps { letter, cells: 128 }, seen);
        }
    }

    fn step(&mut self, seen: &mut Seen) {
        match self.r.below(60) {
            0 => self.begin(seen),
            1 => self.begin_wrongly(seen),
            2 | 3 => self.lend_less(seen),
            4 | 5 => self.hand_other_list(seen),
            6 | 7 => self.hand_back_unsound(seen),
            8 => self.hand_back_sound(seen),
            9 => self.overfill(seen),
            10 => {
                let cell = self.r.pick(&[396, 397, 10_000, u32::MAX]);
                self.ask(Ask::Poke { cell, value: 5 }, seen);
            }
            11 => self.send_large(seen),
            12..=14 => self.hand_other_spreads(seen),
            _ => self.any_call(seen),
        }
    }

    // What ends the reading: nothing more, or something that is no whole command; what follows it is not read.
    fn finish(&mut self) {
        let key = feed::a_key(&mut self.r);
        let contract = Ask::Record { letter: b'D', level: 1, key }.bytes();
        let spread = Ask::Spread { letter: b'D', level: 1, pair: feed::pair(&key, &key) }.bytes();
        let written = Ask::WriteSpread { code: *b"DP", level: 1, number: 1, pair: feed::pair(&key, &key), room: 227, values: vec![0; 9] }.bytes();
        let whole = match self.r.below(3) {
            0 => contract,
            1 => spread,
            _ => written,
        };
        let level = if whole[0] == b'V' { 3 } else { 2 };
        let too_large = |command: u8, most: usize| [&[command], &(most as u32 + 1).to_be_bytes()[..], &vec![0; most + 1]].concat();
        let (tail, ending): (Vec<u8>, &str) = match self.r.below(10) {
            0 => (vec![], "nothing"),
            1 => (vec![self.r.pick(b"Y\x00sxqvZ\xff"), b'O', b'D'], "an unknown command"),
            2 => (whole[..self.r.below(whole.len() as u64 - 1) as usize + 1].to_vec(), "a cut command"),
            3 => {
                let mut other = whole;
                other[level] = self.r.pick(b"03\x01\x02 ");
                (other, "another level")
            }
            4 => (too_large(b'J', LARGEST_BATCH), "too large a batch"),
            5 => (too_large(b'L', LARGEST_LIST), "too large a list"),
            6 => (too_large(b'X', LARGEST_LIST), "too large a spread list"),
            7 => (vec![b'X', 0, 0, 0, 10, 0, 1], "a cut spread list"),
            8 => (vec![b'K', 0, 0, 0, 9, 1], "a cut batch"),
            _ => (vec![b'S', 2, 0, 0, 0, 1, 0, 0], "cut start numbers"),
        };
        if self.r.one_in(2) && !tail.is_empty() && !ending.contains("cut") {
            self.input.extend(tail);
            self.input.extend(b"ODOT");
        } else {
            self.input.extend(tail);
        }
        self.ending = ending;
    }
}

// The messages of a batch, as far as they are framed.
fn messages(batch: &[u8]) -> Vec<&[u8]> {
    let mut all = vec![];
    let mut rest = batch.get(5..).unwrap_or(&[]);
    while rest.len() >= 11 {
        let length = u16::from_be_bytes([rest[2], rest[3]]) as usize;
        if length < 11 || length > rest.len() {
            break;
        }
        all.push(&rest[..length]);
        rest = &rest[length..];
    }
    all
}

fn form_of(message: &[u8]) -> Option<&'static Form> {
    reference::form_of([message[0], message[1]], message.len())
}

// The letter of the segment that a message counts to; of one that counts to none, its own.
fn segment_of(message: &[u8]) -> u8 {
    message.get(..2).map_or(0, |code| reference::segment_of([code[0], code[1]]).unwrap_or(code[0]))
}

fn may_carry_zero(message: &[u8]) -> bool {
    feed::unsummed(segment_of(message)).contains(&message[1])
}

fn carries_zero(message: &[u8]) -> bool {
    message[message.len() - 3..message.len() - 1] == [0, 0]
}

fn code_text(message: &[u8]) -> String {
    message[..2].iter().map(|&b| b as char).collect()
}

// What a refused message with P is beside: nothing, where it is the first, or a batch's segment.
fn refused_p(all: &[&[u8]], message: usize) -> String {
    let code = if reference::segment_of([b'P', all[message][1]]).is_some() { code_text(all[message]) } else { "another code with P".into() };
    match (message, segment_of(all[0])) {
        (0, _) => format!("6 for {code}, the first"),
        (_, b'F') => format!("6 for {code} beside F"),
        _ => format!("6 for {code} beside D or T"),
    }
}

// What messages of an accepted batch stand beside each other.
fn note_mixed(all: &[&[u8]], seen: &mut Seen) {
    let mut met = |what: &str| *seen.entry(what.into()).or_default() += 1;
    let has = |pair: bool| all.iter().any(|m| form_of(m).map_or(false, |form| form.is_pair() == pair));
    if has(true) && has(false) {
        met("contracts and pairs in one batch");
    }
    let letters = |letter: u8| all.iter().any(|m| m[0] == letter);
    if letters(b'F') && letters(b'P') {
        met(if all[0][0] == b'F' { "F and P in one batch, F first" } else { "F and P in one batch, P first" });
    }
}

// How messages of an accepted batch stand to what came before them, by the gap row of before.
fn note_taken(batch: &[u8], book: &Book, row: &mut [u32], seen: &mut Seen) {
    let all = messages(batch);
    note_mixed(&all, seen);
    for message in all.iter().filter(|m| m[1] != b'H') {
        let (number, before) = (u32::from_be_bytes(message[4..8].try_into().unwrap()), row[1]);
        let taken = matches!(reference::take_number(row, number), reference::Taking::Taken);
        let mut met = |what: &str| *seen.entry(what.into()).or_default() += 1;
        if may_carry_zero(message) {
            met(if carries_zero(message) { "market status or end of feed with zero" } else { "market status or end of feed with its sum" });
        }
        if let Some(form) = form_of(message).filter(|form| form.is_pair()) {
            met(match (taken, number > before) {
                (false, _) => "a pair's update old",
                (true, false) => "a pair's update late",
                (true, true) if number - before > 1 => "a pair's update behind a hole",
                (true, true) => "a pair's update in turn",
            });
            met(&format!("{}P of level {} taken", message[0] as char, form.level));
        }
        if taken && segment_of(message) == b'F' {
            note_future(message, book, seen);
        }
    }
}

// A message of F that was taken, by what it is.
fn note_future(message: &[u8], book: &Book, seen: &mut Seen) {
    let mut met = |what: String| *seen.entry(what).or_default() += 1;
    let code = code_text(message);
    let form = match form_of(message) {
        Some(form) => form,
        None => return met(format!("{code} taken")),
    };
    let market_type = message[8 + KEY];
    met(format!("{code} of level {} and market type {} taken", form.level, market_type as char));
    let listed = book.segments.iter().any(|(letter, keys)| *letter == b'F' && keys.iter().any(|key| key[..] == message[8..8 + KEY]));
    if market_type != b'N' && !listed {
        met("another market type of what is not listed".into());
    }
}

fn note_refused(number: u8, message: usize, batch: &[u8], seen: &mut Seen) {
    let mut met = |what: String| *seen.entry(what).or_default() += 1;
    let count = u16::from_be_bytes([batch[3], batch[4]]) as usize;
    let place = if message == 0 { 0 } else if message + 1 == count { 2 } else { 1 };
    met(format!("{number} at {} message", PLACES[place]));
    let all = messages(batch);
    let refused = match all.get(message) {
        Some(&refused) => refused,
        None => return,
    };
    let (length, zero) = (refused.len(), carries_zero(refused));
    if matches!(&refused[..2], b"DP" | b"TP") {
        met(format!("{number} for a pair's message"));
        if number == 9 && zero {
            met("9 for a pair's message with zero for its sum".into());
        }
    }
    if segment_of(refused) == b'F' {
        met(format!("{number} for a message of F"));
    }
    if number == 6 && refused[0] == b'P' {
        met(refused_p(&all, message));
    }
    if number == 9 && feed::summed(segment_of(refused)).contains(&refused[1]) {
        met(format!("9 for what is passed over, {}", if zero { "zero" } else { "wrong" }));
    }
    if number == 9 && may_carry_zero(refused) {
        met("9 for market status or end of feed".into());
    }
    if number == 8 {
        let of = if segment_of(refused) == b'F' { " of F" } else { "" };
        met(format!("8 for {}{of} of {length} bytes", refused[1] as char));
    }
}

// Whether the lookups of a batch compared any key: the last number of its line.
fn note_compared(line: &str, seen: &mut Seen) {
    let batch = refusal_of(line).map_or("a batch accepted".into(), |(number, _)| format!("{number}"));
    let compared = if line.ends_with(" 0") { "no key" } else { "keys" };
    *seen.entry(format!("{batch} with {compared} compared")).or_default() += 1;
}

fn note(ask: &Ask, line: &str, seen: &mut Seen) {
    if ask.is_batch() {
        note_compared(line, seen);
    }
    let mut met = |what: String| *seen.entry(what).or_default() += 1;
    match (refusal_of(line), ask) {
        (None, Ask::Write { code, .. }) if code[1] == b'H' => met(format!("{} written", code_text(code))),
        (None, Ask::Write { code, level, .. }) => met(format!("{} of level {level} written", code_text(code))),
        (None, Ask::WriteSpread { level, .. }) => met(format!("a spread's message of level {level} written")),
        (None, Ask::Record { letter, level, .. }) if line != "record none" => {
            let words: Vec<&str> = line.split(' ').collect();
            met(format!("a record of {} of level {level} and session {} read", *letter as char, words[3]));
            if words[5] != "-" {
                met(format!("a time stamp of {} of level {level} read", *letter as char));
            }
        }
        (None, Ask::Spread { letter: b'F', .. }) if line == "spread none" => met("no record of a pair of F".into()),
        (None, Ask::Spread { level, .. }) if line != "spread none" => {
            met(format!("a spread's record of level {level} read"));
            if line.split(' ').any(|word| word.len() > 1 && word.starts_with('-')) {
                met(format!("a negative difference of level {level} read"));
            }
        }
        (None, Ask::Gaps { .. }) => {
            let words: Vec<&str> = line.split(' ').collect();
            if words[2] == "4294967295" {
                met("the highest number of all".into());
            }
            if words[3] == "64" {
                met("64 runs".into());
            }
        }
        (None, Ask::Take(_)) => met("a batch taken".into()),
        (Some((number, message)), Ask::Judge(batch) | Ask::Take(batch)) if (5..=14).contains(&number) => note_refused(number, message, batch, seen),
        (Some((number, _)), Ask::WriteSpread { .. }) => met(format!("write of a spread refused {number}")),
        (Some((number, _)), Ask::Write { code: [b'F' | b'P', _], .. }) => {
            met(format!("write refused {number}"));
            met(format!("write for F refused {number}"));
        }
        (Some((number, _)), _) => met(format!("{} refused {number}", ask.name())),
        _ => {}
    }
}

// The same of F alone.
fn futures_wanted() -> Vec<String> {
    let mut all: Vec<String> = (6..=14).map(|number| format!("{number} for a message of F")).collect();
    all.extend(["DH", "FH", "TH"].map(|code| format!("{code} written")));
    all.extend([&[193][..], &LENGTHS, &SPREAD_LENGTHS].concat().iter().map(|length| format!("8 for N of F of {length} bytes")));
    all.extend(["PO", "PC", "FO", "FC", "FE", "FZ", "FP", "FS"].map(|code| format!("{code} taken")));
    for place in [", the first", " beside D or T"] {
        all.extend(["PN", "PO", "PC", "another code with P"].map(|code| format!("6 for {code}{place}")));
    }
    for what in [
        "6 for another code with P beside F",
        "F and P in one batch, F first",
        "F and P in one batch, P first",
        "another market type of what is not listed",
        "no record of a pair of F",
        "a start with three segments",
    ] {
        all.push(what.into());
    }
    all
}

// What one usual run must meet.
pub fn wanted() -> Vec<String> {
    let mut all: Vec<String> = UNSOUND.iter().map(|way| format!("18 for {way}")).collect();
    for number in 5..=14 {
        all.extend(PLACES.iter().map(|place| format!("{number} at {place} message")));
    }
    all.extend((4..=14).flat_map(|number| ["no key", "keys"].map(|compared| format!("{number} with {compared} compared"))));
    for name in ["judge", "take"] {
        all.extend([1, 2, 3, 4, 15, 16, 18].map(|number| format!("{name} refused {number}")));
    }
    let calls = [
        ("start", vec![10, 15, 16]),
        ("gaps", vec![6, 15, 16, 18]),
        ("off", vec![6, 15, 16, 17, 18]),
        ("record", vec![6, 13, 15, 16, 18]),
        ("spread", vec![6, 13, 15, 16, 18]),
        ("write", vec![6, 10, 11, 12, 15]),
        ("write for F", vec![6, 10, 11, 12, 15]),
        ("write of a spread", vec![6, 10, 11, 12, 15]),
    ];
    for (name, numbers) in calls {
        all.extend(numbers.into_iter().map(|number| format!("{name} refused {number}")));
    }
    all.extend([6, 7, 8, 9, 10, 11, 12, 13, 14].map(|number| format!("{number} for a pair's message")));
    all.extend(feed::spread_wrongs().iter().map(|wrong| format!("16 for {wrong}")));
    all.extend([LENGTHS, FUTURES_LENGTHS].concat().iter().map(|length| format!("8 for P of {length} bytes")));
    all.extend([SPREAD_LENGTHS, FUTURES_LENGTHS].concat().iter().map(|length| format!("8 for N of {length} bytes")));
    for level in 1..=2 {
        all.push(format!("a spread's message of level {level} written"));
        all.extend(["a spread's record of", "a negative difference of"].map(|what| format!("{what} level {level} read")));
        all.extend(["DP", "TP"].map(|code| format!("{code} of level {level} taken")));
        all.extend(["DN", "FN", "PN", "TN"].map(|code| format!("{code} of level {level} written")));
        all.extend(["D", "T", "F"].map(|letter| format!("a record of {letter} of level {level} and session 0 read")));
        all.push(format!("a record of F of level {level} and session 1 read"));
        all.push(format!("a time stamp of F of level {level} read"));
        all.extend(["FN", "PN"].into_iter().flat_map(|code| ["N", "O", "S", "A"].map(|of| format!("{code} of level {level} and market type {of} taken"))));
    }
    all.extend(futures_wanted());
    for what in [
        "64 runs",
        "the highest number of all",
        "a hole joined to the run that ends at highest",
        "a batch taken",
        "a batch accepted with no key compared",
        "a batch accepted with keys compared",
        "contracts and pairs in one batch",
        "a pair's update in turn",
        "a pair's update behind a hole",
        "a pair's update late",
        "a pair's update old",
        "9 for a pair's message with zero for its sum",
        "9 for what is passed over, zero",
        "9 for what is passed over, wrong",
        "9 for market status or end of feed",
        "market status or end of feed with zero",
        "market status or end of feed with its sum",
        "15 for the pairs' records alone",
    ] {
        all.push(what.into());
    }
    all
}
