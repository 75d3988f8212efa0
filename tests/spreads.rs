// Request M-100 worked by hand: messages of pairs laid out by the papers' widths, the lists as bytes, and the lines that the calls
// answer, written out. Nothing here is computed by the reference but the checksums.
use crate::asks::{lines, Ask, Case};
use crate::feed::{self, Key, Pair};
use crate::reference::{MINUS, NONE};

const NEAR: Key = *b"FUTCURUSDINR    27-MAR-2026          XX";
const FAR: Key = *b"FUTCURUSDINR    28-APR-2026          XX";
const GOLD: Key = *b"FUTCOMGOLD      05-APR-2026          XX";

fn pair(first: &Key, second: &Key) -> Pair {
    feed::pair(first, second)
}

// ---- lists: D with two contracts, T with one; pairs in both

fn contracts() -> Vec<u8> {
    let head: [u8; 18] = [0, 2, b'D', 0, 0, 2, 0, 0, 0, 18, b'T', 0, 0, 1, 0, 0, 0, 96];
    [&head[..], &NEAR, &FAR, &GOLD].concat()
}

// Near to far and back, and gold with itself: three pairs.
fn pairs() -> Vec<u8> {
    let head: [u8; 18] = [0, 2, b'D', 0, 0, 2, 0, 0, 0, 18, b'T', 0, 0, 1, 0, 0, 0, 174];
    [&head[..], &NEAR, &FAR, &FAR, &NEAR, &GOLD, &GOLD].concat()
}

const NO_PAIRS: [u8; 18] = [0, 2, b'D', 0, 0, 0, 0, 0, 0, 18, b'T', 0, 0, 0, 0, 0, 0, 18];

// ---- messages: the offsets of 000 4.6 and 4.7, 003 4.3 and 4.4

// Where each row behind the key begins in the data, and its width: prices are 17 wide, quantities 12.
fn offsets(level: usize) -> Vec<(usize, usize)> {
    if level == 1 {
        return vec![(78, 17), (95, 12), (107, 17), (124, 12), (136, 17), (153, 12), (165, 17), (182, 17), (199, 17)];
    }
    let order = |begin: usize| move |k: usize| [(begin + 29 * k, 17), (begin + 29 * k + 17, 12)];
    let mut all: Vec<(usize, usize)> = (0..5).flat_map(order(78)).chain((0..5).flat_map(order(223))).collect();
    all.extend([(368, 17), (385, 12), (397, 17), (414, 17), (431, 17), (448, 12), (460, 12)]);
    all
}

const DATA: [usize; 2] = [216, 472];

// All rows blank but these, counted from 0 with the key's ten first.
fn data(level: usize, of: &Pair, rows: &[(usize, &str)]) -> Vec<u8> {
    let mut data = [&of[..], &vec![b' '; DATA[level - 1] - 78]].concat();
    for &(row, text) in rows {
        let (at, width) = offsets(level)[row - 10];
        data[at..at + width].copy_from_slice(format!("{text:>width$}").as_bytes());
    }
    data
}

fn message(letter: u8, level: usize, number: u32, of: &Pair, rows: &[(usize, &str)]) -> Vec<u8> {
    feed::sealed([letter, b'P'], number, &data(level, of, rows))
}

fn take(messages: &[Vec<u8>]) -> Ask {
    Ask::Take(feed::batch(messages))
}

fn read(letter: u8, level: usize, of: Pair) -> Ask {
    Ask::Spread { letter, level, pair: of }
}

// The line of a record in which all rows are none but these.
fn record(level: usize, number: u32, rows: &[(usize, &str)]) -> String {
    let mut words = vec!["-"; offsets(level).len()];
    rows.iter().for_each(|&(row, word)| words[row - 10] = word);
    format!("spread ok {number} {}", words.join(" "))
}

// ---- signs

// A text, and what it reads as in ten-millionths or the refusal's number.
const TEXTS: [(&str, Result<&str, u8>); 33] = [
    ("", Ok("-")),
    ("0", Ok("0")),
    ("-0", Ok("0")),
    ("-0.00", Ok("0")),
    ("-0000000000000.00", Ok("0")),
    ("-007.5", Ok("-75000000")),
    ("-1", Ok("-10000000")),
    ("-12.5", Ok("-125000000")),
    ("12.5", Ok("125000000")),
    ("-12.5    ", Ok("-125000000")),
    ("-0.0000001", Ok("-1")),
    ("99999999999.99999", Ok("999999999999999900")),
    ("-99999999999.9999", Ok("-999999999999999000")),
    ("-99999999999", Ok("-999999999990000000")),
    ("100000000000", Err(12)),
    ("-100000000000", Err(12)),
    ("-1.00000000", Err(12)),
    ("-0.00000000", Err(12)),
    ("-9999999999999999", Err(12)),
    ("- 5", Err(11)),
    ("--5", Err(11)),
    ("-", Err(11)),
    ("-   ", Err(11)),
    ("-.5", Err(11)),
    ("5-", Err(11)),
    ("+5", Err(11)),
    ("-5-", Err(11)),
    ("-1.", Err(11)),
    ("1-5", Err(11)),
    ("-5 -5", Err(11)),
    ("-+5", Err(11)),
    ("-100000000000x", Err(11)), // malformed and too large: 11 comes first
    ("-1.00000000.", Err(11)),
];

// Each text in each row, in which it has the sign of a price or, in a quantity, may have none. D's pair is its second of two and T's its
// only one; a row that is refused comes before the lookup.
fn signs(letter: u8, level: usize) -> Case {
    let (of, compared) = if letter == b'D' { (pair(&FAR, &NEAR), 2) } else { (pair(&GOLD, &GOLD), 1) };
    let mut asked = vec![Ask::Spreads(pairs()), Ask::Start(vec![1, 1])];
    let mut said = lines(&["start ok"]);
    let mut number = 1;
    for (k, (_, width)) in offsets(level).into_iter().enumerate() {
        let row = 10 + k;
        let texts = TEXTS.iter().filter(|(text, _)| width == 17 || (text.len() <= width && !text.contains('.') && text.contains('-')));
        for &(text, meaning) in texts {
            asked.push(take(&[message(letter, level, number, &of, &[(row, text)])]));
            match if width == 12 { Err(11) } else { meaning } {
                Err(refusal) => said.push(format!("take refused {refusal} 0 {row} 0 0")),
                Ok(units) => {
                    asked.push(read(letter, level, of));
                    said.extend([format!("take ok 1 0 0 {compared}"), record(level, number, &[(row, units)])]);
                    number += 1;
                }
            }
        }
    }
    (format!("signs of {}P at level {level}", letter as char), contracts(), asked, said)
}

// ---- lists and memory

fn lists() -> Vec<Case> {
    let start = || Ask::Start(vec![1, 1]);
    let gaps = || Ask::Gaps { letter: b'T', cells: 0 };
    let one = [&[0, 1, b'D', 0, 0, 1, 0, 0, 0, 10][..], &NEAR].concat();
    let none: [u8; 10] = [0, 1, b'D', 0, 0, 0, 0, 0, 0, 10];
    let itself = [&[0, 1, b'D', 0, 0, 1, 0, 0, 0, 10][..], &NEAR, &NEAR].concat();
    let strange = [&[0, 1, b'D', 0, 0, 1, 0, 0, 0, 10][..], &NEAR, &FAR].concat();
    let changed = |at: usize, byte: u8| {
        let mut spreads = pairs();
        spreads[at] = byte;
        Ask::Spreads(spreads)
    };
    let (bad, unlooked) = (["gaps refused 16 0 0 0", "start refused 16 0 0 0"], ["gaps ok 0 0", "start refused 16 0 0 0"]);
    let headers: [(&str, Ask); 9] = [
        ("an empty file", Ask::Spreads(vec![])),
        ("one segment of two", Ask::Spreads(none.to_vec())),
        ("three segments", changed(1, 3)),
        ("a letter", changed(2, b'T')),
        ("the zero byte", changed(3, 1)),
        ("a count of 1,025", Ask::Spreads([&[0, 2, b'D', 0, 4, 1], &pairs()[6..]].concat())),
        ("a count that is off", changed(13, 2)),
        ("an offset", changed(17, 175)),
        ("a byte too many", Ask::Spreads([&pairs()[..], b" "].concat())),
    ];
    let bodies: [(&str, Ask); 5] = [
        ("a byte of 31", changed(18 + 77, 31)),
        ("a byte of 127", changed(18, 127)),
        ("pairs not ascending", Ask::Spreads([&pairs()[..18], &FAR, &NEAR, &NEAR, &FAR, &GOLD, &GOLD].concat())),
        ("a pair twice", Ask::Spreads([&pairs()[..18], &NEAR, &FAR, &NEAR, &FAR, &GOLD, &GOLD].concat())),
        ("a half of the other segment", Ask::Spreads([&pairs()[..18], &NEAR, &FAR, &FAR, &NEAR, &GOLD, &NEAR].concat())),
    ];
    let with = |(name, asked): (&str, Ask), said: [&str; 2]| {
        let all = vec![Ask::Spreads(pairs()), start(), asked, gaps(), start(), Ask::Spreads(pairs()), gaps()];
        (format!("a spread list: {name}"), contracts(), all, lines(&["start ok", said[0], said[1], "gaps ok 0 0"]))
    };
    let mut all: Vec<Case> = headers.into_iter().map(|h| with(h, bad)).chain(bodies.into_iter().map(|b| with(b, unlooked))).collect();
    all.push(("no pairs of one segment".into(), one.clone(), vec![start(), Ask::Spreads(none.to_vec()), start()], lines(&["start ok", "start ok"])));
    all.push((
        "no pairs of two segments".into(),
        contracts(),
        vec![start(), Ask::Spreads(NO_PAIRS.to_vec()), start()],
        lines(&["start ok", "start ok"]),
    ));
    all.push((
        "a contract with itself, and one that is not listed".into(),
        one.clone(),
        vec![Ask::Spreads(itself), start(), Ask::Spreads(strange), start()],
        lines(&["start ok", "start refused 16 0 0 0"]),
    ));
    // A list that is handed over has no pairs; one that is not sound has none either, and is refused itself.
    all.push((
        "a list anew".into(),
        contracts(),
        vec![
            Ask::Spreads(pairs()),
            start(),
            Ask::List(one),
            start(),
            Ask::List(vec![0, 1]),
            start(),
            Ask::List(contracts()),
            start(),
            read(b'D', 1, pair(&NEAR, &FAR)),
        ],
        lines(&["start ok", "start ok", "start refused 16 0 0 0", "start ok", "spread refused 13 0 0 0"]),
    ));
    all
}

// Three contracts want 156 cells and three pairs 114.
fn memory() -> Case {
    let start = || Ask::Start(vec![1, 1]);
    let lend = |rows, records| Ask::Lend { rows, records };
    let asked = vec![
        Ask::Spreads(pairs()),
        lend(263, 269),
        start(),
        lend(264, 269),
        start(),
        Ask::Start(vec![1]),
        lend(264, 156),
        start(),
        lend(264, 270),
        start(),
        lend(264, 269),
        read(b'T', 2, pair(&GOLD, &GOLD)),
        Ask::Take(vec![]),
        lend(263, 269),
        Ask::Off { letter: b'D' },
        Ask::Spreads(NO_PAIRS.to_vec()),
        lend(264, 156),
        Ask::Off { letter: b'D' },
        lend(264, 155),
        Ask::Off { letter: b'D' },
    ];
    let short = |name: &str, cells: usize| format!("{name} refused 15 0 0 {cells}");
    let said = vec![
        short("start", 264),
        short("start", 270),
        "start refused 10 0 0 0".into(),
        short("start", 270),
        "start ok".into(),
        short("spread", 270),
        format!("{} 0", short("take", 270)),
        short("off", 264),
        "off refused 17 0 0 0".into(),
        short("off", 156),
    ];
    ("the cells wanted".into(), contracts(), asked, said)
}

// ---- messages and records

// An update of a contract's level 1 with a last price.
fn contract(number: u32, last: &str) -> Vec<u8> {
    let text = format!("{}N{:58}{last:>17}{:12} {:110}", String::from_utf8_lossy(&NEAR), "", "", "");
    feed::sealed(*b"DN", number, text.as_bytes())
}

fn records() -> Vec<Case> {
    let (out, back, gold) = (pair(&NEAR, &FAR), pair(&FAR, &NEAR), pair(&GOLD, &GOLD));
    let start = || vec![Ask::Spreads(pairs()), Ask::Start(vec![1, 1])];
    let near = Ask::Record { letter: b'D', level: 1, key: NEAR };
    let seen = |asked: Vec<Ask>| [start(), asked].concat();
    vec![
        (
            "a pair's record is its own, at its level".into(),
            contracts(),
            seen(vec![
                take(&[
                    message(b'D', 1, 1, &out, &[(10, "-12.5"), (11, "7"), (18, "-13")]),
                    contract(2, "83.5"),
                    message(b'D', 2, 3, &back, &[(28, "-0.25"), (36, "9")]),
                ]),
                read(b'D', 1, out),
                read(b'D', 2, out),
                read(b'D', 1, back),
                read(b'D', 2, back),
                read(b'T', 1, gold),
                near.clone(),
            ]),
            vec![
                "start ok".into(),
                "take ok 3 0 0 4".into(), // the first pair, the first contract, the second pair
                record(1, 1, &[(10, "-125000000"), (11, "7"), (18, "-130000000")]),
                "spread none".into(),
                "spread none".into(),
                record(2, 3, &[(28, "-2500000"), (36, "9")]),
                "spread none".into(),
                "record ok 2 0 78 - - - - - 835000000 - 32 - - - - - -".into(),
            ],
        ),
        (
            "pairs late, double and missing".into(),
            contracts(),
            seen(vec![
                take(&[message(b'T', 2, 5, &gold, &[(30, "-5")])]),
                take(&[
                    message(b'T', 2, 3, &gold, &[(30, "-3")]),
                    message(b'T', 2, 3, &gold, &[(30, "-2")]),
                    message(b'T', 1, 2, &gold, &[(14, "-2")]),
                ]),
                read(b'T', 2, gold),
                read(b'T', 1, gold),
                Ask::Gaps { letter: b'T', cells: 4 },
            ]),
            vec![
                "start ok".into(),
                "take ok 1 0 0 1".into(),
                "take ok 2 1 0 3".into(),
                record(2, 5, &[(30, "-50000000")]),
                record(1, 2, &[(14, "-20000000")]),
                "gaps ok 5 2 1-1 4-4".into(),
            ],
        ),
    ]
}

fn with_length(mut message: Vec<u8>, length: usize) -> Vec<u8> {
    message.truncate(8);
    message[2..4].copy_from_slice(&(length as u16).to_be_bytes());
    message.resize(length - 3, b' ');
    let sum = crate::reference::sum_by_bits(&message);
    message.extend([sum[0], sum[1], 13]);
    message
}

fn refusals() -> Case {
    let (out, gold) = (pair(&NEAR, &FAR), pair(&GOLD, &GOLD));
    let good = message(b'D', 1, 1, &out, &[]);
    let mut zero = good.clone();
    zero[224..226].fill(0);
    let mut wrong = good.clone();
    wrong[100] ^= 1;
    let mut end = good.clone();
    end[226] = 10;
    let judged = |message: Vec<u8>| Ask::Judge(feed::batch(&[message]));
    let mut asked = vec![Ask::Spreads(pairs()), Ask::Start(vec![1, 1])];
    let mut said = lines(&["start ok"]);
    for length in [11, 226, 228, 249, 482, 484, 505] {
        asked.push(judged(with_length(good.clone(), length)));
        said.push("judge refused 8 0 0 0 0".into());
    }
    let unlisted = [pair(&NEAR, &NEAR), gold, pair(&FAR, &GOLD)];
    // With the keys compared: what sorts behind D's first pair is compared with its second too.
    let others = [
        (end, 7, 0),
        (zero, 9, 0),
        (wrong, 9, 0),
        (message(b'D', 2, 0, &out, &[]), 10, 0),
        (message(b'D', 1, 1, &unlisted[0], &[]), 13, 1),
        (message(b'D', 2, 1, &unlisted[1], &[]), 13, 1),
        (message(b'D', 2, 1, &unlisted[2], &[]), 13, 2),
        (message(b'T', 1, 1, &out, &[]), 13, 1),
    ];
    for (message, number, compared) in others {
        asked.push(judged(message));
        said.push(format!("judge refused {number} 0 0 0 {compared}"));
    }
    // Rows come before the pair, and a row before the next.
    asked.push(judged(message(b'D', 1, 1, &unlisted[0], &[(13, "x"), (12, "-100000000000")])));
    asked.push(judged(message(b'D', 1, 1, &unlisted[0], &[(15, "1000000000000"[..12].into()), (17, "-")])));
    asked.extend([
        judged(good.clone()),
        judged(message(b'D', 2, 1, &out, &[])),
        judged(message(b'T', 1, 1, &gold, &[])),
        judged(message(b'T', 2, 1, &gold, &[])),
    ]);
    said.extend(lines(&["judge refused 12 0 12 0 0", "judge refused 11 0 17 0 0"]));
    said.extend(vec!["judge ok 1 0 0 1".to_string(); 4]);
    asked.extend([read(b'F', 1, out), read(b'T', 1, out), read(b'D', 2, gold), Ask::Spreads(NO_PAIRS.to_vec()), judged(good), read(b'D', 1, out)]);
    said.extend(lines(&[
        "spread refused 6 0 0 0",
        "spread refused 13 0 0 0",
        "spread refused 13 0 0 0",
        "judge refused 13 0 0 0 0",
        "spread refused 13 0 0 0",
    ]));
    ("refusals of pairs".into(), contracts(), asked, said)
}

// ---- the writer

fn hex(bytes: &[u8]) -> String {
    bytes.iter().map(|b| format!("{b:02x}")).collect()
}

fn writing(code: &[u8; 2], level: usize, number: u32, of: &Pair, room: u16, rows: &[(usize, u64)]) -> Ask {
    let mut values = vec![NONE; offsets(level).len()];
    rows.iter().for_each(|&(row, value)| values[row - 10] = value);
    Ask::WriteSpread { code: *code, level, number, pair: *of, room, values }
}

fn writer() -> Case {
    const BELOW: u64 = MINUS; // beside an amount
    let of = pair(&FAR, &NEAR);
    let texts: [(u64, Result<&str, u8>); 15] = [
        (BELOW | 125_000_000, Ok("-12.5")),
        (125_000_000, Ok("12.5")),
        (BELOW, Ok("0")),
        (0, Ok("0")),
        (BELOW | 1, Ok("-0.0000001")),
        (BELOW | 10_000_000, Ok("-1")),
        (999_999_999_999_999_900, Ok("99999999999.99999")),
        (BELOW | 999_999_999_999_999_900, Err(12)), // needs 18 characters
        (BELOW | 999_999_999_999_999_000, Ok("-99999999999.9999")),
        (999_999_999_999_999_999, Err(12)),
        (BELOW | 999_999_999_999_999_999, Err(12)),
        (1_000_000_000_000_000_000, Err(12)),
        (BELOW | 1_000_000_000_000_000_000, Err(12)),
        (NONE - 1, Err(12)),
        (BELOW - 1, Err(12)),
    ];
    let (mut asked, mut said) = (vec![], vec![]);
    for (level, code) in [(1, b"DP"), (2, b"TP")] {
        let length = DATA[level - 1] + 11;
        for (k, (_, width)) in offsets(level).into_iter().enumerate().filter(|(_, (_, width))| *width == 17) {
            for (value, meaning) in texts {
                asked.push(writing(code, level, 7, &of, length as u16, &[(10 + k, value)]));
                said.push(match meaning {
                    Err(number) => format!("write refused {number} 0 {} 0", 10 + k),
                    Ok(text) => {
                        assert!(text.len() <= width);
                        format!("write ok {length} {}", hex(&feed::sealed(*code, 7, &data(level, &of, &[(10 + k, text)]))))
                    }
                });
            }
        }
        // A quantity has no sign: the top bit makes it too large.
        asked.extend([11, 13].map(|row| writing(code, level, 7, &of, 1_024, &[(row, BELOW | 5)])));
        said.extend([11, 13].map(|row| format!("write refused 12 0 {row} 0")));
        asked.extend([
            writing(code, level, 7, &of, length as u16 - 1, &[]),
            writing(code, level, 0, &of, 0, &[]),
            writing(b"DP", level, 4_294_967_295, &of, 1_024, &[]),
        ]);
        said.extend([format!("write refused 15 0 0 {length}"), "write refused 10 0 0 0".into()]);
        said.push(format!("write ok {length} {}", hex(&feed::sealed(*b"DP", 4_294_967_295, &data(level, &of, &[])))));
        for code in [b"DN", b"TN", b"DH", b"TH", b"FN", b"PN", b"FP", b"PP", b"DE", b"dP", b"Dp", b"PD", b"\x00\x00"] {
            asked.push(writing(code, level, 0, &of, 0, &[]));
            said.push("write refused 6 0 0 0".into());
        }
        // The first byte of each of the key's ten rows, and the last.
        for (row, [first, last]) in [[0, 5], [6, 15], [16, 26], [27, 36], [37, 38]].into_iter().cycle().take(10).enumerate() {
            for (at, byte) in [(first, 31), (last, 127)] {
                let mut strange = of;
                strange[at + 39 * (row / 5)] = byte;
                asked.push(writing(b"DP", level, 7, &strange, 0, &[(10, NONE - 1)]));
                said.push(format!("write refused 11 0 {row} 0"));
            }
        }
    }
    // A contract's writer writes no pair.
    for code in [b"DP", b"TP"] {
        asked.push(Ask::Write { code: *code, level: 1, number: 1, key: NEAR, room: 1_024, values: vec![NONE; 15] });
        said.push("write refused 6 0 0 0".into());
    }
    ("the writer of pairs".into(), contracts(), asked, said)
}

pub fn cases() -> Vec<Case> {
    let mut all: Vec<Case> = [(b'D', 1), (b'D', 2), (b'T', 1), (b'T', 2)].into_iter().map(|(letter, level)| signs(letter, level)).collect();
    all.extend(lists());
    all.extend(records());
    all.extend([memory(), refusals(), writer()]);
    all
}
