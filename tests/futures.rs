// Request M-104 worked by hand: messages of segment F laid out by the widths of paper 002, both lists as bytes, and the lines that the calls
// answer, written out. Nothing here is computed by the reference but the checksums.
use crate::asks::{lines, Ask, Case};
use crate::feed::{self, Key, Pair};
use crate::reference::NONE;

const DOLLAR: Key = *b"FUTCURUSDINR    29-DEC-2025          XX";
const NIFTY: Key = *b"FUTIDXNIFTY     30-DEC-2025          XX";
const FAR_NIFTY: Key = *b"FUTIDXNIFTY     27-JAN-2026          XX";
const GOLD: Key = *b"FUTCOMGOLD      05-FEB-2026          XX";
const UNLISTED: Key = *b"OPTIDXNIFTY     30-DEC-2025  26000.00CE";

// ---- lists: one contract of D, two of F, one of T; F has a pair. F's far contract sorts first, so that a lookup compares one key for it and
// two for the near one.

fn contracts() -> Vec<u8> {
    let head = [0, 3, b'D', 0, 0, 1, 0, 0, 0, 26, b'F', 0, 0, 2, 0, 0, 0, 65, b'T', 0, 0, 1, 0, 0, 0, 143];
    [&head[..], &DOLLAR, &FAR_NIFTY, &NIFTY, &GOLD].concat()
}

fn pairs() -> Vec<u8> {
    let head = [0, 3, b'D', 0, 0, 0, 0, 0, 0, 26, b'F', 0, 0, 1, 0, 0, 0, 26, b'T', 0, 0, 0, 0, 0, 0, 104];
    [&head[..], &roll()].concat()
}

fn roll() -> Pair {
    feed::pair(&NIFTY, &FAR_NIFTY)
}

// The same without F: D and T.
fn without_futures() -> Vec<u8> {
    let head = [0, 2, b'D', 0, 0, 1, 0, 0, 0, 18, b'T', 0, 0, 1, 0, 0, 0, 57];
    [&head[..], &DOLLAR, &GOLD].concat()
}

// ---- messages: the offsets of 002 4.4 and 4.5

const LEVELS: [usize; 2] = [1, 2];
const CODES: [&[u8; 2]; 2] = [b"FN", b"PN"];
const DATA: [usize; 2] = [193, 393];

// Where each row from the time stamp on, row 6, begins in the data, and its width: the stamp is 11 wide, prices 10, quantities 12, the
// status 1 and turnover 25.
fn fields(level: usize) -> Vec<(usize, usize)> {
    let orders = |begin: usize| (0..5).flat_map(move |k| [(begin + 22 * k, 10), (begin + 22 * k + 10, 12)]);
    let mut all = vec![(40, 11)];
    if level == 1 {
        all.extend([(51, 10), (61, 12), (73, 10), (83, 12), (95, 10), (105, 12), (117, 1)]);
        all.extend([(118, 10), (128, 10), (138, 10), (148, 10), (158, 10), (168, 25)]);
    } else {
        all.extend(orders(51).chain(orders(161)));
        all.extend([(271, 10), (281, 12), (293, 1)]);
        all.extend([(294, 10), (304, 10), (314, 10), (324, 10), (334, 10), (344, 12), (356, 12), (368, 25)]);
    }
    all
}

const STAMP: usize = 6;
const BUY: usize = 7; // the best buyer's price, at both levels
const STATUS: [usize; 2] = [13, 29];

fn rows_of(level: usize, wanted: usize) -> Vec<usize> {
    fields(level).iter().enumerate().filter(|(_, (_, width))| *width == wanted).map(|(k, _)| STAMP + k).collect()
}

// All rows blank but these, counted from 0 with the key's five and the market type first.
fn data(level: usize, key: &Key, market_type: u8, rows: &[(usize, &str)]) -> Vec<u8> {
    let mut data = [&key[..], &[market_type], &vec![b' '; DATA[level - 1] - 40]].concat();
    for &(row, text) in rows {
        let (at, width) = fields(level)[row - STAMP];
        data[at..at + width].copy_from_slice(format!("{text:>width$}").as_bytes());
    }
    data
}

fn update(code: &[u8; 2], level: usize, number: u32, key: &Key, rows: &[(usize, &str)]) -> Vec<u8> {
    of_type(b'N', code, level, number, key, rows)
}

fn of_type(market_type: u8, code: &[u8; 2], level: usize, number: u32, key: &Key, rows: &[(usize, &str)]) -> Vec<u8> {
    feed::sealed(*code, number, &data(level, key, market_type, rows))
}

fn heartbeat(code: &[u8; 2]) -> Vec<u8> {
    feed::unsealed(*code, 0, &[])
}

fn status(code: &[u8; 2], number: u32) -> Vec<u8> {
    feed::unsealed(*code, number, b"N")
}

// Blank updates of D and T, by 000 4.4 and 003 4.5.
fn other_segment(code: &[u8; 2], number: u32, key: &Key, last: &str) -> Vec<u8> {
    let text = format!("{}N{:58}{last:>17}{:12} {:110}", String::from_utf8_lossy(key), "", "", "");
    feed::sealed(*code, number, text.as_bytes())
}

// The line of a record in which all rows are none but these, and the status is blank.
fn record(level: usize, number: u32, session: u64, rows: &[(usize, &str)]) -> String {
    let mut words = vec!["-"; fields(level).len()];
    words[STATUS[level - 1] - STAMP] = "32";
    rows.iter().for_each(|&(row, word)| words[row - STAMP] = word);
    format!("record ok {number} {session} 78 {}", words.join(" "))
}

// ---- what is asked, and what is said to it

struct Story {
    asked: Vec<Ask>,
    said: Vec<String>,
}

impl Story {
    fn begun() -> Story {
        Story { asked: vec![Ask::Spreads(pairs()), Ask::Start(vec![1, 1, 1])], said: lines(&["start ok"]) }
    }

    fn ask(&mut self, ask: Ask, line: impl Into<String>) {
        self.asked.push(ask);
        self.said.push(line.into());
    }

    fn judge(&mut self, messages: &[Vec<u8>], answer: &str) {
        self.ask(Ask::Judge(feed::batch(messages)), format!("judge {answer}"));
    }

    fn take(&mut self, messages: &[Vec<u8>], answer: &str) {
        self.ask(Ask::Take(feed::batch(messages)), format!("take {answer}"));
    }

    fn read(&mut self, letter: u8, level: usize, key: &Key, line: impl Into<String>) {
        self.ask(Ask::Record { letter, level, key: *key }, line);
    }

    fn gaps(&mut self, letter: u8, answer: &str) {
        self.ask(Ask::Gaps { letter, cells: 128 }, format!("gaps {answer}"));
    }

    fn told(self, name: &str) -> Case {
        (name.into(), contracts(), self.asked, self.said)
    }
}

// ---- codes

// A message of every code, good but for the code: an update where the second byte says so.
fn coded(code: [u8; 2], number: u32) -> Vec<u8> {
    match code[1] {
        b'N' => update(&code, 1, number, &FAR_NIFTY, &[]),
        _ => feed::sealed(code, number, b"N"),
    }
}

// Where F is listed PN, PO and PC are its own, and no other code with P is any segment's.
fn p_codes() -> Case {
    let mut story = Story::begun();
    for second in b'A'..=b'Z' {
        let answer = match second {
            b'N' => "ok 1 0 0 1",
            b'O' | b'C' => "ok 1 0 0 0",
            _ => "refused 6 0 0 0 0",
        };
        story.judge(&[coded([b'P', second], 1)], answer);
    }
    story.judge(&[heartbeat(b"PH")], "refused 6 0 0 0 0");
    for second in b"@[no\x00\xffc" {
        story.judge(&[coded([b'P', *second], 1)], "refused 6 0 0 0 0");
    }
    // A code comes before the last byte, the length and the sum.
    let mut bad = coded(*b"PP", 0);
    *bad.last_mut().unwrap() = 10;
    story.judge(&[bad], "refused 6 0 0 0 0");
    story.told("codes with P where F is listed")
}

// Where it is not, none is: neither F's nor P's, first or behind another segment's.
fn no_futures() -> Case {
    let mut story = Story { asked: vec![Ask::Start(vec![1, 1])], said: lines(&["start ok"]) };
    for letter in [b'P', b'F'] {
        for second in b'A'..=b'Z' {
            story.judge(&[coded([letter, second], 1)], "refused 6 0 0 0 0");
            story.judge(&[status(b"DO", 1), coded([letter, second], 2)], "refused 6 1 0 0 0");
        }
        story.judge(&[heartbeat(&[letter, b'H'])], "refused 6 0 0 0 0");
        story.gaps(letter, "refused 6 0 0 0");
    }
    ("codes with F and P where F is not listed".into(), without_futures(), story.asked, story.said)
}

// Of F's own codes three have a meaning; the others are passed over at any length.
fn f_codes() -> Case {
    let mut story = Story::begun();
    for second in (b'A'..=b'Z').filter(|second| !b"HN".contains(second)) {
        for length in [0, 1, 63, 185, 193, 216, 373, 393, 472, 1_053] {
            story.judge(&[feed::sealed([b'F', second], 1, &vec![b'N'; length])], "ok 1 0 0 0");
        }
        story.judge(&[feed::sealed([b'F', second], 0, b"N")], "refused 10 0 0 0 0");
    }
    for second in b"@[hn\x00\xff" {
        story.judge(&[feed::sealed([b'F', *second], 1, b"N")], "refused 6 0 0 0 0");
    }
    story.judge(&[heartbeat(b"FH")], "ok 0 0 1 0");
    story.judge(&[feed::unsealed(*b"FH", 1, &[])], "refused 10 0 0 0 0");
    story.judge(&[feed::unsealed(*b"FH", 0, b"N")], "refused 8 0 0 0 0");
    story.told("codes of F")
}

// P is no segment's letter.
fn letters() -> Case {
    let mut story = Story::begun();
    story.gaps(b'P', "refused 6 0 0 0");
    story.ask(Ask::Off { letter: b'P' }, "off refused 6 0 0 0");
    story.ask(Ask::Spread { letter: b'P', level: 1, pair: roll() }, "spread refused 6 0 0 0");
    for level in LEVELS {
        story.read(b'P', level, &NIFTY, "record refused 6 0 0 0");
    }
    // Nor does what the pre-open session sent make it one.
    story.take(&[update(b"PN", 1, 2, &NIFTY, &[])], "ok 1 0 0 2");
    story.read(b'P', 1, &NIFTY, "record refused 6 0 0 0");
    story.gaps(b'P', "refused 6 0 0 0");
    story.gaps(b'F', "ok 2 1 1-1");
    story.ask(Ask::Off { letter: b'F' }, "off ok 1 1");
    story.told("P is no letter of a call")
}

// What a list's segments may be.
fn lists() -> Case {
    let one = |letter: u8| [&[0, 1, letter, 0, 0, 1, 0, 0, 0, 10][..], &NIFTY].concat();
    let three = |letters: &[u8; 3]| {
        let mut list = contracts();
        letters.iter().enumerate().for_each(|(k, &letter)| list[2 + 8 * k] = letter);
        list
    };
    let four = [0, 4, b'D', 0, 0, 1, 0, 0, 0, 34, b'F', 0, 0, 1, 0, 0, 0, 73, b'T', 0, 0, 1, 0, 0, 0, 112, b'U', 0, 0, 1, 0, 0, 0, 151];
    let mut story = Story { asked: vec![], said: vec![] };
    let mut start = |list: Vec<u8>, starts: usize, answer: &str| {
        story.asked.push(Ask::List(list));
        story.ask(Ask::Start(vec![1; starts]), format!("start {answer}"));
    };
    start(one(b'F'), 1, "ok");
    start(one(b'P'), 1, "refused 16 0 0 0");
    start(one(b'E'), 1, "refused 16 0 0 0");
    start(three(b"DFT"), 3, "ok");
    start(three(b"DFT"), 2, "refused 10 0 0 0");
    for letters in [b"DTF", b"FDT", b"TFD", b"DFF", b"FFT", b"DPT", b"DFP", b"PFT", b"DFU", b"DET"] {
        start(three(letters), 3, "refused 16 0 0 0");
    }
    start([&four[..], &DOLLAR, &NIFTY, &GOLD, &GOLD].concat(), 4, "refused 16 0 0 0");
    start([&[0, 0][..], &NIFTY].concat(), 1, "refused 16 0 0 0");
    ("lists of one to three segments".into(), contracts(), story.asked, story.said)
}

// Four contracts want 208 cells and a pair 38; three segments 396 numbers.
fn memory() -> Case {
    let mut story = Story { asked: vec![Ask::Spreads(pairs())], said: vec![] };
    let starts = || Ask::Start(vec![1, 1, 1]);
    story.asked.push(Ask::Lend { rows: 395, records: 245 });
    story.ask(starts(), "start refused 15 0 0 396");
    story.asked.push(Ask::Lend { rows: 396, records: 245 });
    story.ask(starts(), "start refused 15 0 0 246");
    story.asked.push(Ask::Lend { rows: 396, records: 246 });
    story.ask(starts(), "start ok");
    story.take(&[update(b"FN", 2, 1, &NIFTY, &[])], "ok 1 0 0 2");
    story.asked.push(Ask::Lend { rows: 396, records: 245 });
    story.take(&[update(b"PN", 2, 2, &NIFTY, &[])], "refused 15 0 0 246 0");
    story.asked.push(Ask::Lend { rows: 264, records: 246 });
    story.gaps(b'D', "refused 15 0 0 396");
    // A row of F that is not sound is 18 for every segment.
    story.asked.extend([Ask::Lend { rows: 396, records: 246 }, Ask::Poke { cell: 132, value: 0 }]);
    story.gaps(b'T', "refused 18 0 0 0");
    story.asked.push(Ask::Poke { cell: 132, value: 1 });
    story.gaps(b'T', "ok 0 0");
    story.told("the cells that three segments want")
}

// ---- one batch

fn mixed() -> Case {
    let near = |code: &[u8; 2], number| update(code, 1, number, &NIFTY, &[]);
    let far = |code: &[u8; 2], number| update(code, 2, number, &FAR_NIFTY, &[]);
    let dollar = |number| other_segment(b"DN", number, &DOLLAR, "");
    let gold = |number| other_segment(b"TN", number, &GOLD, "");
    let mut story = Story::begun();
    // Of F and P codes any stand beside each other, whichever comes first.
    story.judge(&[near(b"FN", 1), far(b"PN", 2), status(b"FO", 3), status(b"PC", 4), heartbeat(b"FH")], "ok 4 0 1 3");
    story.judge(&[far(b"PN", 1), near(b"FN", 2), status(b"PO", 3), status(b"FC", 4)], "ok 4 0 0 3");
    story.judge(&[heartbeat(b"FH"), near(b"PN", 1)], "ok 1 0 1 2");
    story.judge(&[status(b"PO", 1), heartbeat(b"FH"), heartbeat(b"FH")], "ok 1 0 2 0");
    story.judge(&[status(b"PC", 1), coded(*b"FS", 2), near(b"PN", 1)], "ok 2 1 0 2");
    // No other segment's stand beside either, and no other code with P.
    for first in [near(b"FN", 1), near(b"PN", 1)] {
        for other in [dollar(2), gold(2), status(b"DO", 2), heartbeat(b"TH"), coded(*b"PP", 2), coded(*b"PT", 2), heartbeat(b"PH")] {
            story.judge(&[first.clone(), other.clone(), far(b"FN", 3)], "refused 6 1 0 0 2");
            story.judge(&[first.clone(), far(b"PN", 3), other], "refused 6 2 0 0 3");
        }
    }
    for (first, compared) in [(dollar(1), 1), (gold(1), 1), (status(b"TO", 1), 0), (heartbeat(b"DH"), 0)] {
        for other in [near(b"PN", 2), near(b"FN", 2), status(b"PO", 2), status(b"PC", 2), heartbeat(b"FH")] {
            story.judge(&[first.clone(), other], &format!("refused 6 1 0 0 {compared}"));
        }
    }
    // A refused batch leaves nothing of F or P behind.
    story.take(&[near(b"PN", 1), far(b"FN", 2), dollar(3)], "refused 6 2 0 0 3");
    story.read(b'F', 1, &NIFTY, "record none");
    story.gaps(b'F', "ok 0 0");
    story.told("F and P in one batch")
}

// ---- market types

const OTHERS: &[u8; 3] = b"OSA";

// Every byte in the place of the market type, in each code and level.
fn market_types() -> Case {
    let mut story = Story::begun();
    for (code, level) in CODES.into_iter().flat_map(|code| LEVELS.map(|level| (code, level))) {
        for market_type in 0..=255 {
            let answer = match market_type {
                b'N' => "ok 1 0 0 2",
                b'O' | b'S' | b'A' => "ok 1 0 0 0",
                _ => "refused 11 0 5 0 0",
            };
            story.judge(&[of_type(market_type, code, level, 1, &NIFTY, &[])], answer);
        }
    }
    // D and T know one.
    for market_type in *OTHERS {
        for (code, key) in [(b"DN", &DOLLAR), (b"TN", &GOLD)] {
            for length in [238, 494] {
                let data = [&key[..], &[market_type], &vec![b' '; length - 40]].concat();
                story.judge(&[feed::sealed(*code, 1, &data)], "refused 11 0 5 0 0");
            }
        }
    }
    story.told("market types")
}

// Of another market type than N an update is counted, and neither looked up nor kept.
fn other_markets() -> Case {
    let mut story = Story::begun();
    for (code, level) in CODES.into_iter().flat_map(|code| LEVELS.map(|level| (code, level))) {
        story.judge(&[of_type(b'N', code, level, 1, &UNLISTED, &[])], "refused 13 0 0 0 2");
        for market_type in *OTHERS {
            let message = |number, key, rows: &[(usize, &str)]| of_type(market_type, code, level, number, key, rows);
            story.judge(&[message(1, &UNLISTED, &[])], "ok 1 0 0 0");
            story.judge(&[message(1, &[0; 39], &[])], "ok 1 0 0 0");
            // Every check but that of the key is made.
            story.judge(&[message(0, &UNLISTED, &[])], "refused 10 0 0 0 0");
            story.judge(&[message(1, &UNLISTED, &[(STAMP, "1.5")])], "refused 11 0 6 0 0");
            story.judge(&[message(1, &UNLISTED, &[(BUY, "1.00000000")])], "refused 12 0 7 0 0");
            story.judge(&[message(1, &UNLISTED, &[(STATUS[level - 1], "X")])], &format!("refused 11 0 {} 0 0", STATUS[level - 1]));
            let mut damaged = message(1, &NIFTY, &[]);
            damaged[100] ^= 1;
            story.judge(&[damaged], "refused 9 0 0 0 0");
        }
    }
    story.told("other market types are not looked up")
}

fn other_markets_kept() -> Case {
    let mut story = Story::begun();
    let near = |market_type, code, number, buy: &str| of_type(market_type, code, 1, number, &NIFTY, &[(BUY, buy)]);
    // Taken, behind a hole, late and old, as any message.
    story.take(&[near(b'O', b"FN", 1, "1"), near(b'S', b"PN", 2, "2"), near(b'A', b"FN", 5, "5")], "ok 3 0 0 0");
    story.read(b'F', 1, &NIFTY, "record none");
    story.gaps(b'F', "ok 5 1 3-4");
    story.take(&[near(b'N', b"FN", 3, "3"), near(b'O', b"PN", 3, "30"), near(b'O', b"FN", 4, "4")], "ok 2 1 0 2");
    story.read(b'F', 1, &NIFTY, record(1, 3, 0, &[(BUY, "30000000")]));
    // A number that one of them took is taken for an update too, and a higher one keeps no update out.
    story.take(&[near(b'N', b"PN", 5, "50"), near(b'A', b"FN", 9, "9"), near(b'N', b"PN", 8, "8")], "ok 2 1 0 4");
    story.read(b'F', 1, &NIFTY, record(1, 8, 1, &[(BUY, "80000000")]));
    story.gaps(b'F', "ok 9 1 6-7");
    story.read(b'F', 2, &NIFTY, "record none");
    // More than 64 runs are refused by them as well.
    let even: Vec<Vec<u8>> = (6..=67).map(|k| status(b"FO", 2 * k)).collect();
    story.take(&even, "ok 62 0 0 0");
    story.take(&[near(b'S', b"PN", 136, "1")], "ok 1 0 0 0");
    story.take(&[near(b'N', b"PN", 137, "1"), near(b'S', b"PN", 139, "1")], "refused 14 1 0 0 2");
    story.told("other market types are counted")
}

// ---- rows

// Lengths that are none of FN's and PN's: what older papers have among them, and D's and T's.
fn lengths() -> Case {
    let mut story = Story::begun();
    let whole = data(2, &NIFTY, b'N', &[]);
    for code in CODES {
        for length in [11, 12, 50, 185, 193, 203, 205, 227, 249, 403, 405, 483, 505, 1_064] {
            let data = [&whole[..], &[b' '; 700]].concat()[..length - 11].to_vec();
            story.judge(&[feed::sealed(*code, 1, &data)], "refused 8 0 0 0 0");
        }
        story.judge(&[feed::sealed(*code, 1, &whole[..193])], "ok 1 0 0 2");
        story.judge(&[feed::sealed(*code, 1, &whole)], "ok 1 0 0 2");
    }
    // Nor are F's any of D's and T's.
    for (code, key) in [(b"DN", &DOLLAR), (b"TN", &GOLD), (b"DP", &DOLLAR), (b"TP", &GOLD)] {
        for level in LEVELS {
            story.judge(&[update(code, level, 1, key, &[])], "refused 8 0 0 0 0");
        }
    }
    story.told("lengths of FN and PN")
}

// A text in a row, and what it reads as or the refusal's number.
type Text = (&'static str, Result<&'static str, u8>);

const STAMPS: [Text; 17] = [
    ("", Ok("-")),
    ("0", Ok("0")),
    ("1766979900", Ok("1766979900")),
    ("99999999999", Ok("99999999999")),
    ("00000000000", Ok("0")),
    ("00000000007", Ok("7")),
    ("1766979900 ", Ok("1766979900")),
    ("7          ", Ok("7")),
    ("1766979900.", Err(11)),
    ("176697990.5", Err(11)),
    (".5", Err(11)),
    ("1.0", Err(11)),
    ("-1", Err(11)),
    ("+1", Err(11)),
    ("1 2", Err(11)),
    ("09:15:00", Err(11)),
    ("x", Err(11)),
];

const PRICES: [Text; 20] = [
    ("", Ok("-")),
    ("0", Ok("0")),
    ("0.00", Ok("0")),
    ("26150.05", Ok("261500500000")),
    ("9999999999", Ok("99999999990000000")),
    ("0000000001", Ok("10000000")),
    ("99.9999999", Ok("999999999")),
    ("0.0000001", Ok("1")),
    ("99999999.9", Ok("999999999000000")),
    ("1234567.8 ", Ok("12345678000000")),
    ("1.00000000", Err(12)),
    ("0.12345678", Err(12)),
    ("0.00000000", Err(12)),
    ("-0.01", Err(11)),
    ("-1", Err(11)),
    ("100.", Err(11)),
    (".5", Err(11)),
    ("1 2", Err(11)),
    ("1.0000000x", Err(11)), // malformed and too fine by half: 11 comes first
    ("26,150.05", Err(11)),
];

const QUANTITIES: [Text; 6] =
    [("", Ok("-")), ("999999999999", Ok("999999999999")), ("000000000075", Ok("75")), ("75.0", Err(11)), ("-75", Err(11)), ("75x", Err(11))];

const TURNOVERS: [Text; 6] = [
    ("", Ok("-")),
    ("9999999999999999.99", Ok("999999999999999999")),
    ("1961253.7", Ok("196125370")),
    ("10000000000000000", Err(12)),
    ("1.000", Err(12)),
    ("-1", Err(11)),
];

// Each text in each row of its width, of each code, taken and read back.
fn texts(code: &'static [u8; 2], level: usize) -> Case {
    let mut story = Story::begun();
    let session = (code == b"PN") as u64;
    let mut number = 1;
    let kinds: [(usize, &[Text]); 4] = [(11, &STAMPS), (10, &PRICES), (12, &QUANTITIES), (25, &TURNOVERS)];
    for (row, texts) in kinds.into_iter().flat_map(|(width, texts)| rows_of(level, width).into_iter().map(move |row| (row, texts))) {
        for &(text, meaning) in texts {
            let message = update(code, level, number, &FAR_NIFTY, &[(row, text)]);
            match meaning {
                Err(refusal) => story.take(&[message], &format!("refused {refusal} 0 {row} 0 0")),
                Ok(units) => {
                    story.take(&[message], "ok 1 0 0 1");
                    story.read(b'F', level, &FAR_NIFTY, record(level, number, session, &[(row, units)]));
                    number += 1;
                }
            }
        }
    }
    story.told(&format!("texts of {} at level {level}", String::from_utf8_lossy(code)))
}

// What stands in each row of a whole update, as sent and as read, from the time stamp on.
const WHOLE1: [(&str, &str); 14] = [
    ("1766979900", "1766979900"),
    ("26150.05", "261500500000"),
    ("75", "75"),
    ("26151", "261510000000"),
    ("150", "150"),
    ("26150.5", "261505000000"),
    ("98765", "98765"),
    ("S", "83"),
    ("26100", "261000000000"),
    ("26199.95", "261999500000"),
    ("26050.1", "260501000000"),
    ("26099", "260990000000"),
    ("26148.3712", "261483712000"),
    ("2582544385.05", "258254438505"),
];

fn whole2() -> Vec<(String, String)> {
    let order = |side: usize, k: usize| {
        let (price, quantity) = (26_150 + 10 * side + k, 75 * (1 + 5 * side + k));
        [(format!("{price}.05"), format!("{price}0500000")), (quantity.to_string(), quantity.to_string())]
    };
    let text = |&(sent, read): &(&str, &str)| (sent.to_string(), read.to_string());
    let depth = [0, 1].into_iter().flat_map(|side| (0..5).flat_map(move |k| order(side, k)));
    let (last, totals) = (WHOLE1[5..13].iter().map(text), ["4200", "3975"].map(|total| text(&(total, total))));
    [text(&WHOLE1[0])].into_iter().chain(depth).chain(last).chain(totals).chain([text(&WHOLE1[13])]).collect()
}

fn whole(level: usize) -> Vec<(String, String)> {
    if level == 1 { WHOLE1.map(|(sent, read)| (sent.to_string(), read.to_string())).to_vec() } else { whole2() }
}

fn numbered(texts: &[String]) -> Vec<(usize, &str)> {
    texts.iter().enumerate().map(|(k, text)| (STAMP + k, text.as_str())).collect()
}

// Each field is read from its own place: no two hold the same.
fn whole_updates() -> Case {
    let mut story = Story::begun();
    for (code, session) in [(b"FN", 0), (b"PN", 1)] {
        for level in LEVELS {
            let number = 1 + 2 * session as u32 + level as u32;
            let (sent, read): (Vec<String>, Vec<String>) = whole(level).into_iter().unzip();
            story.take(&[update(code, level, number, &NIFTY, &numbered(&sent))], "ok 1 0 0 2");
            story.read(b'F', level, &NIFTY, record(level, number, session, &numbered(&read)));
        }
    }
    story.told("whole updates of F")
}

// ---- sums

// Zero where a section of 002 says that the sum isn't calculated; of a heartbeat nothing else.
fn sums() -> Case {
    let mut story = Story::begun();
    for code in [b"FO", b"FC", b"PO", b"PC", b"FE", b"FZ"] {
        for data in [&b""[..], b"N", b"FT      1234"] {
            story.judge(&[feed::unsealed(*code, 1, data)], "ok 1 0 0 0");
            story.judge(&[feed::sealed(*code, 1, data)], "ok 1 0 0 0");
        }
    }
    for second in b"SPAMDTIBGJKLQRUVWXY" {
        story.judge(&[feed::unsealed([b'F', *second], 1, b"N")], "refused 9 0 0 0 0");
        story.judge(&[feed::sealed([b'F', *second], 1, b"N")], "ok 1 0 0 0");
    }
    for (code, level) in CODES.into_iter().flat_map(|code| LEVELS.map(|level| (code, level))) {
        story.judge(&[feed::unsealed(*code, 1, &data(level, &NIFTY, b'N', &[]))], "refused 9 0 0 0 0");
        story.judge(&[feed::unsealed(*code, 1, &data(level, &NIFTY, b'O', &[]))], "refused 9 0 0 0 0");
    }
    story.judge(&[heartbeat(b"FH")], "ok 0 0 1 0");
    let mut summed = heartbeat(b"FH");
    let sum = crate::reference::sum_by_bits(&summed[..8]);
    summed[8..10].copy_from_slice(&sum);
    story.judge(&[summed], "refused 9 0 0 0 0");
    // Where a letter is D's or T's, Z carries its sum.
    story.judge(&[feed::unsealed(*b"TZ", 1, b"N")], "refused 9 0 0 0 0");
    story.told("sums of F")
}

// ---- records

fn permutations(of: &[u32]) -> Vec<Vec<u32>> {
    if of.is_empty() {
        return vec![vec![]];
    }
    let begun_with = |&first: &u32| {
        let rest: Vec<u32> = of.iter().copied().filter(|&other| other != first).collect();
        permutations(&rest).into_iter().map(move |rest| [vec![first], rest].concat())
    };
    of.iter().flat_map(begun_with).collect()
}

// Four updates of one contract: 1 and 3 of level 1, 2 and 4 of level 2. Which of them the pre-open session sent, a bit each says.
struct Race {
    pre_open: u32,
}

impl Race {
    fn session(&self, number: u32) -> u64 {
        (self.pre_open >> (number - 1) & 1) as u64
    }

    fn level(number: u32) -> usize {
        if number % 2 == 1 { 1 } else { 2 }
    }

    fn update(&self, number: u32) -> Vec<u8> {
        let (stamp, price) = (format!("{}", 1_766_979_900 + number), format!("2615{number}.5"));
        let code = CODES[self.session(number) as usize];
        update(code, Race::level(number), number, &FAR_NIFTY, &[(STAMP, &stamp), (BUY, &price)])
    }

    // What is read at a level when these have come: the highest of its own.
    fn line(&self, level: usize, come: &[u32]) -> String {
        let newest = come.iter().copied().filter(|&number| Race::level(number) == level).max();
        newest.map_or("record none".into(), |number| {
            let (stamp, price) = (format!("{}", 1_766_979_900 + number), format!("2615{number}5000000"));
            record(level, number, self.session(number), &[(STAMP, &stamp), (BUY, &price)])
        })
    }

    fn read(&self, story: &mut Story, come: &[u32]) {
        LEVELS.into_iter().for_each(|level| story.read(b'F', level, &FAR_NIFTY, self.line(level, come)));
    }
}

// FN and PN race for a contract's records in every order of arrival, each in a batch of its own and all in one.
fn races() -> Case {
    let mut story = Story::begun();
    for race in (0..16).map(|pre_open| Race { pre_open }) {
        for order in permutations(&[1, 2, 3, 4]) {
            story.ask(Ask::Start(vec![1, 1, 1]), "start ok");
            for (k, &number) in order.iter().enumerate() {
                story.take(&[race.update(number)], "ok 1 0 0 1");
                race.read(&mut story, &order[..=k]);
            }
            story.ask(Ask::Start(vec![1, 1, 1]), "start ok");
            let all: Vec<Vec<u8>> = order.iter().map(|&number| race.update(number)).collect();
            story.take(&all, "ok 4 0 0 4");
            story.take(&all, "ok 0 4 0 4");
            race.read(&mut story, &order);
        }
    }
    story.told("FN and PN in every order of arrival")
}

// One number: whichever session sends it first has it.
fn one_number() -> Case {
    let mut story = Story::begun();
    for (first, second, session) in [(b"FN", b"PN", 0), (b"PN", b"FN", 1)] {
        let near = |code, buy| update(code, 1, 7, &NIFTY, &[(BUY, buy)]);
        story.ask(Ask::Start(vec![1, 1, 1]), "start ok");
        story.take(&[near(first, "1"), near(second, "2")], "ok 1 1 0 4");
        story.take(&[near(second, "3")], "ok 0 1 0 2");
        story.read(b'F', 1, &NIFTY, record(1, 7, session, &[(BUY, "10000000")]));
        story.gaps(b'F', "ok 7 1 1-6");
    }
    story.told("one number of FN and PN")
}

// D's and T's records stand beside F's as they did: no time stamp, the normal session, and nothing of F's calls.
fn beside() -> Case {
    let mut story = Story::begun();
    let line = |number, last| format!("record ok {number} 0 78 - - - - - {last} - 32 - - - - - -");
    story.take(&[other_segment(b"DN", 1, &DOLLAR, "89.95")], "ok 1 0 0 1");
    story.take(&[other_segment(b"TN", 2, &GOLD, "131415")], "ok 1 0 0 1");
    let future = |code, level| update(code, level, 5, &NIFTY, &[(STAMP, "1766979900"), (BUY, "26150")]);
    for (code, level) in CODES.into_iter().flat_map(|code| LEVELS.map(|level| (code, level))) {
        story.take(&[future(code, level)], if (code, level) == (b"FN", 1) { "ok 1 0 0 2" } else { "ok 0 1 0 2" });
        story.read(b'D', 1, &DOLLAR, line(1, "899500000"));
        story.read(b'D', 2, &DOLLAR, "record none");
        story.read(b'T', 1, &GOLD, line(2, "1314150000000"));
        story.read(b'T', 2, &GOLD, "record none");
        story.read(b'F', 1, &FAR_NIFTY, "record none");
    }
    story.take(&[other_segment(b"TN", 3, &GOLD, "131416")], "ok 1 0 0 1");
    story.read(b'F', 1, &NIFTY, record(1, 5, 0, &[(STAMP, "1766979900"), (BUY, "261500000000")]));
    story.gaps(b'D', "ok 1 0");
    story.gaps(b'F', "ok 5 1 1-4");
    story.gaps(b'T', "ok 3 1 1-1");
    // A key is looked up in its own segment, and asked for there.
    story.read(b'D', 1, &NIFTY, "record refused 13 0 0 0");
    story.read(b'F', 1, &GOLD, "record refused 13 0 0 0");
    story.judge(&[update(b"FN", 1, 6, &DOLLAR, &[])], "refused 13 0 0 0 1");
    story.judge(&[update(b"PN", 2, 6, &GOLD, &[])], "refused 13 0 0 0 1");
    story.told("D and T beside F")
}

// F's messages of pairs are passed over at any length, also at the 196 and 384 bytes that 002's sections 4.6 and 4.7 come to and at D's and
// T's, and a listed pair's record is never written.
fn spreads() -> Case {
    let mut story = Story::begun();
    let read = |level, pair| Ask::Spread { letter: b'F', level, pair };
    for (number, length) in (1..).zip([78, 174, 185, 216, 373, 472, 0]) {
        let message = feed::sealed(*b"FP", number, &[&roll()[..], &vec![b' '; 472]].concat()[..length]);
        story.take(&[message], "ok 1 0 0 0");
    }
    for level in LEVELS {
        story.ask(read(level, roll()), "spread none");
        story.ask(read(level, feed::pair(&FAR_NIFTY, &NIFTY)), "spread refused 13 0 0 0");
    }
    // An update of a half is not the pair's.
    story.take(&[update(b"FN", 1, 8, &NIFTY, &[]), update(b"PN", 2, 9, &FAR_NIFTY, &[])], "ok 2 0 0 3");
    story.ask(read(1, roll()), "spread none");
    let values = vec![NONE; 9];
    for code in [b"FP", b"PP"] {
        story.ask(Ask::WriteSpread { code: *code, level: 1, number: 1, pair: roll(), room: 483, values: values.clone() }, "write refused 6 0 0 0");
    }
    story.told("pairs of F")
}

// ---- the writer

fn hex(bytes: &[u8]) -> String {
    bytes.iter().map(|b| format!("{b:02x}")).collect()
}

// From the market type on, all none but these; the status is blank.
fn values(level: usize, market_type: u64, rows: &[(usize, u64)]) -> Vec<u64> {
    let mut values = [vec![market_type], vec![NONE; fields(level).len()]].concat();
    values[STATUS[level - 1] - 5] = b' ' as u64;
    rows.iter().for_each(|&(row, value)| values[row - 5] = value);
    values
}

fn writing(code: &[u8; 2], level: usize, number: u32, room: u16, values: Vec<u64>) -> Ask {
    Ask::Write { code: *code, level, number, key: NIFTY, room, values }
}

// A whole update of each code and level is written as 002 lays it out; taken, it reads back the same.
fn written() -> Case {
    let mut story = Story::begun();
    story.ask(writing(b"FH", 1, 0, 11, values(1, NONE, &[])), "write ok 11 4648000b0000000000000d");
    story.take(&[heartbeat(b"FH")], "ok 0 0 1 0");
    for (number, (code, level)) in (1..).zip(CODES.into_iter().flat_map(|code| LEVELS.map(|level| (code, level)))) {
        let (sent, read): (Vec<String>, Vec<String>) = whole(level).into_iter().unzip();
        let amounts: Vec<(usize, u64)> = read.iter().enumerate().map(|(k, value)| (STAMP + k, value.parse().unwrap())).collect();
        for (market_type, kept) in [(b'O', false), (b'S', false), (b'A', false), (b'N', true)] {
            let message = of_type(market_type, code, level, number, &NIFTY, &numbered(&sent));
            let line = format!("write ok {} {}", DATA[level - 1] + 11, hex(&message));
            story.ask(writing(code, level, number, 404, values(level, market_type as u64, &amounts)), line);
            story.judge(&[message.clone()], if kept { "ok 1 0 0 2" } else { "ok 1 0 0 0" });
            if kept {
                story.take(&[message], "ok 1 0 0 2");
            }
        }
        story.read(b'F', level, &NIFTY, record(level, number, (code == b"PN") as u64, &numbered(&read)));
    }
    story.told("messages of F written and read back")
}

// An amount in a row, and its shortest text or the refusal's number.
type Amount = (u64, Result<&'static str, u8>);

const WRITTEN_STAMPS: [Amount; 7] = [
    (NONE, Ok("")),
    (0, Ok("0")),
    (1_766_979_900, Ok("1766979900")),
    (99_999_999_999, Ok("99999999999")),
    (100_000_000_000, Err(12)), // 12 digits
    (999_999_999_999, Err(12)),
    (1_000_000_000_000, Err(12)),
];

const WRITTEN_PRICES: [Amount; 12] = [
    (NONE, Ok("")),
    (0, Ok("0")),
    (1, Ok("0.0000001")),
    (261_500_500_000, Ok("26150.05")),
    (999_999_999, Ok("99.9999999")),
    (999_999_999_000_000, Ok("99999999.9")),
    (99_999_999_990_000_000, Ok("9999999999")),
    (1_000_000_001, Err(12)), // 100.0000001 is 11 wide
    (99_999_999_991_000_000, Err(12)),
    (100_000_000_000_000_000, Err(12)), // 10,000,000,000
    (999_999_999_999_999_999, Err(12)),
    (1_000_000_000_000_000_000, Err(12)),
];

fn writer_rows() -> Case {
    let mut story = Story::begun();
    for (code, level) in CODES.into_iter().flat_map(|code| LEVELS.map(|level| (code, level))) {
        let kinds: [(usize, &[Amount]); 2] = [(11, &WRITTEN_STAMPS), (10, &WRITTEN_PRICES)];
        for (row, amounts) in kinds.into_iter().flat_map(|(width, amounts)| rows_of(level, width).into_iter().map(move |row| (row, amounts))) {
            for &(amount, meaning) in amounts {
                let line = match meaning {
                    Err(refusal) => format!("write refused {refusal} 0 {row} 0"),
                    Ok(text) => format!("write ok {} {}", DATA[level - 1] + 11, hex(&update(code, level, 7, &NIFTY, &[(row, text)]))),
                };
                story.ask(writing(code, level, 7, 1_024, values(level, b'N' as u64, &[(row, amount)])), line);
            }
        }
        // The best buyer's quantity, and turnover.
        for (row, amount) in [(8, 1_000_000_000_000), (fields(level).len() + 5, 1_000_000_000_000_000_000)] {
            let ask = writing(code, level, 7, 1_024, values(level, b'N' as u64, &[(row, amount)]));
            story.ask(ask, format!("write refused 12 0 {row} 0"));
        }
    }
    story.told("rows of F written")
}

fn writer_refusals() -> Case {
    let mut story = Story::begun();
    for level in LEVELS {
        let good = || values(level, b'N' as u64, &[]);
        let length = DATA[level - 1] as u16 + 11;
        for code in [b"PO", b"PC", b"PH", b"FP", b"PP", b"FX", b"PX", b"FO", b"FC", b"FI", b"FE", b"FZ", b"fN", b"Fn", b"NF", b"NP"] {
            story.ask(writing(code, level, 7, 1_024, good()), "write refused 6 0 0 0");
        }
        for code in CODES {
            for market_type in (0..=256).chain([256 + 78, NONE]).filter(|other| !b"NOSA".contains(&(*other as u8)) || *other > 255) {
                story.ask(writing(code, level, 7, 1_024, values(level, market_type, &[])), "write refused 11 0 5 0");
            }
            let status = STATUS[level - 1];
            story.ask(writing(code, level, 7, 1_024, values(level, b'N' as u64, &[(status, b'N' as u64)])), format!("write refused 11 0 {status} 0"));
            story.ask(writing(code, level, 0, 0, good()), "write refused 10 0 0 0");
            story.ask(writing(code, level, 7, length - 1, good()), format!("write refused 15 0 0 {length}"));
            let line = format!("write ok {length} {}", hex(&update(code, level, 7, &NIFTY, &[])));
            story.ask(writing(code, level, 7, length, good()), line);
        }
        // A market type is D's and T's row as well, and the time stamp is none of theirs: it is not looked at.
        for (code, key) in [(b"DN", DOLLAR), (b"TN", GOLD)] {
            let length = [249, 505][level - 1];
            let write = |values| Ask::Write { code: *code, level, number: 7, key, room: 505, values };
            for other in *OTHERS {
                story.ask(write(values(level, other as u64, &[])), "write refused 11 0 5 0");
            }
            let message = feed::sealed(*code, 7, &[&key[..], b"N", &vec![b' '; length - 51]].concat());
            for stamp in [NONE, 0, 100_000_000_000, NONE - 1] {
                story.ask(write(values(level, b'N' as u64, &[(STAMP, stamp)])), format!("write ok {length} {}", hex(&message)));
            }
        }
    }
    story.ask(writing(b"FH", 1, 1, 11, values(1, NONE, &[])), "write refused 10 0 0 0");
    story.ask(writing(b"FH", 2, 0, 10, values(2, NONE, &[])), "write refused 15 0 0 11");
    story.told("what the writer of F refuses")
}

pub fn cases() -> Vec<Case> {
    let mut all = vec![p_codes(), no_futures(), f_codes(), letters(), lists(), memory(), mixed()];
    all.extend([market_types(), other_markets(), other_markets_kept(), lengths(), whole_updates(), sums()]);
    all.extend(CODES.into_iter().flat_map(|code| LEVELS.map(|level| texts(code, level))));
    all.extend([races(), one_number(), beside(), spreads(), written(), writer_rows(), writer_refusals()]);
    all
}
