// Request M-101 worked by hand, with M-104's codes: what the trailer of each code may carry, and the lines that the calls answer, written out. Nothing here is
// computed by the reference but the true sums.
use crate::asks::{Ask, Case};
use crate::feed::{self, Book, Key};
use crate::reference;

const NEAR: Key = *b"FUTCURUSDINR    27-MAR-2026          XX";
const NOTHING: [u8; 2] = [0, 0];

// Whether the code's message may carry zero, and whether its true sum: sections 3.1, 4.2 and 4.11 of papers 000, 002 and 003 and 4.10 of 002
// say that theirs is not calculated, and of these a heartbeat carries zero.
fn may_carry(code: &[u8; 2]) -> (bool, bool) {
    match code {
        b"DH" | b"TH" | b"FH" => (true, false),
        b"DO" | b"DC" | b"DE" | b"TO" | b"TC" | b"TE" => (true, true),
        b"FO" | b"FC" | b"PO" | b"PC" | b"FE" | b"FZ" => (true, true),
        _ => (false, true),
    }
}

// Good but for the trailer. What is passed over is good at any length.
fn datas(code: &[u8; 2]) -> Vec<Vec<u8>> {
    let blank = |front: &[u8], length: usize| [front, &vec![b' '; length - front.len()]].concat();
    let (contract, pair) = ([&NEAR[..], b"N"].concat(), feed::pair(&NEAR, &NEAR));
    match code {
        [_, b'H'] => vec![vec![]],
        b"FN" | b"PN" => [193, 393].map(|length| blank(&contract, length)).to_vec(),
        [_, b'N'] => [238, 494].map(|length| blank(&contract, length)).to_vec(),
        b"DP" | b"TP" => [216, 472].map(|length| blank(&pair, length)).to_vec(),
        _ => [0, 1, 50, 63, 193, 216, 238, 393, 472, 494, 1053].map(|length| vec![b'N'; length]).to_vec(),
    }
}

fn carrying(code: [u8; 2], number: u32, data: &[u8], sum: impl Fn([u8; 2]) -> [u8; 2]) -> Vec<u8> {
    let mut message = feed::unsealed(code, number, data);
    let end = message.len() - 3;
    let sent = sum(reference::sum_by_bits(&message[..end]));
    message[end..end + 2].copy_from_slice(&sent);
    message
}

// The true sum, zero, one byte of the two left out, the other byte first, and each bit off.
fn trailers(right: [u8; 2]) -> Vec<[u8; 2]> {
    let off = |of: [u8; 2]| (0..16).map(move |bit| (u16::from_be_bytes(of) ^ 1 << bit).to_be_bytes());
    let mut all = vec![right, NOTHING, [right[0], 0], [0, right[1]], [right[1], right[0]]];
    all.extend(off(right).chain(off(NOTHING)));
    all
}

fn one_code(code: [u8; 2], list: &[u8], pairs: &[u8]) -> Case {
    let ((zero, right), beats) = (may_carry(&code), code[1] == b'H');
    let (mut asked, mut said) = (vec![Ask::Spreads(pairs.to_vec()), Ask::Start(vec![1; 3])], vec!["start ok".to_string()]);
    let number = |n: u32| if beats { 0 } else { n };
    // One contract and one pair stand in a segment, so that an update's lookup compares one key; no other message has a lookup.
    let compared = (code[1] == b'N' || matches!(&code, b"DP" | b"TP")) as u64;
    for data in datas(&code) {
        let message = carrying(code, number(1), &data, |sum| sum);
        let sum = reference::sum_by_bits(&message[..message.len() - 3]);
        for sent in trailers(sum) {
            asked.push(Ask::Judge(feed::batch(&[carrying(code, number(1), &data, |_| sent)])));
            let taken = (sent == NOTHING && zero) || (sent == sum && right);
            said.push(match (taken, beats) {
                (false, _) => "judge refused 9 0 0 0 0".into(),
                (true, true) => "judge ok 0 0 1 0".into(),
                (true, false) => format!("judge ok 1 0 0 {compared}"),
            });
        }
    }
    // Behind one with its true sum, one with nothing in its trailer: both are taken, or neither.
    let data = &datas(&code)[0];
    asked.push(Ask::Take(feed::batch(&[carrying(code, number(1), data, |sum| sum), carrying(code, number(2), data, |_| NOTHING)])));
    asked.push(Ask::Gaps { letter: if code[0] == b'P' { b'F' } else { code[0] }, cells: 0 });
    let (answer, highest) = match (zero, right) {
        (true, true) => ("ok 2 0 0 0".into(), 2),
        (true, false) => ("refused 9 0 0 0 0".into(), 0),
        _ => (format!("refused 9 1 0 0 {compared}"), 0),
    };
    said.extend([format!("take {answer}"), format!("gaps ok {highest} 0")]);
    (format!("the sum of {}{}", code[0] as char, code[1] as char), list.to_vec(), asked, said)
}

// Zero is taken where it is the true sum: here of a code that no section prints.
fn true_zero(letter: u8, list: &[u8], pairs: &[u8]) -> Case {
    let code = [letter, b'X'];
    let fits = |end: &u16| reference::sum_by_bits(&carrying(code, 1, &[b"N", &end.to_be_bytes()[..]].concat(), |sum| sum)[..11]) == NOTHING;
    let end = (0..=u16::MAX).find(fits).expect("two bytes lead to every sum");
    let data = [b"N", &end.to_be_bytes()[..]].concat();
    let mut asked = vec![Ask::Spreads(pairs.to_vec()), Ask::Start(vec![1; 3])];
    asked.extend([NOTHING, [0, 1], [1, 0]].map(|sent| Ask::Judge(feed::batch(&[carrying(code, 1, &data, |_| sent)]))));
    let said = ["start ok", "judge ok 1 0 0 0", "judge refused 9 0 0 0 0", "judge refused 9 0 0 0 0"];
    (format!("a true sum of zero in {}", letter as char), list.to_vec(), asked, said.map(String::from).to_vec())
}

pub fn cases() -> Vec<Case> {
    let mut book = Book::of(b"DFT".iter().map(|&letter| (letter, vec![NEAR])).collect());
    book.spreads.iter_mut().for_each(|segment| segment.1.push(feed::pair(&NEAR, &NEAR)));
    let (list, pairs) = (book.bytes(), book.spread_bytes());
    let codes = b"DFT".iter().flat_map(|&letter| (b'A'..=b'Z').map(move |second| [letter, second])).chain([*b"PN", *b"PO", *b"PC"]);
    codes.map(|code| one_code(code, &list, &pairs)).chain(b"DFT".map(|letter| true_zero(letter, &list, &pairs))).collect()
}
