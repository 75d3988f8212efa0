// Request M-102 worked by hand: how many keys the lookups of a batch compare, and the lines that the calls answer, written out. Nothing in the
// cases is computed by the reference but the checksums.
use crate::asks::{lines, Ask, Case};
use crate::feed::{self, Book};
use crate::halving::{self, contract, listed, pair, update, MOST_CONTRACTS};
use crate::program::Held;
use crate::reference::{self, of_contract, of_pair, Form, Sought, KEY};

// For segments of 0 keys on, the keys compared for each place: below all, the first, between the first and the second, the second and so on,
// and last above all. Of 4 keys the second is compared first, then the first or the third, and after the third the fourth.
const COMPARED: [&[u64]; 9] = [
    &[0],
    &[1, 1, 1],
    &[1, 1, 2, 2, 2],
    &[2, 2, 2, 1, 2, 2, 2],
    &[2, 2, 2, 1, 2, 2, 3, 3, 3],
    &[2, 2, 3, 3, 3, 1, 2, 2, 3, 3, 3],
    &[2, 2, 3, 3, 3, 1, 3, 3, 3, 2, 3, 3, 3],
    &[3, 3, 3, 2, 3, 3, 3, 1, 3, 3, 3, 2, 3, 3, 3],
    &[3, 3, 3, 2, 3, 3, 3, 1, 3, 3, 3, 2, 3, 3, 4, 4, 4],
];

// So many contracts and pairs, in D and in T.
fn book(contracts: [usize; 2], pairs: [usize; 2]) -> Book {
    let segments = b"DT".iter().zip(contracts).map(|(&letter, keys)| (letter, listed(keys, contract)));
    let spreads = b"DT".iter().zip(pairs).map(|(&letter, keys)| (letter, listed(keys, pair)));
    Book { segments: segments.collect(), spreads: spreads.collect() }
}

fn begun(book: &Book) -> Vec<Ask> {
    vec![Ask::Spreads(book.spread_bytes()), Ask::Start(vec![1, 1])]
}

// ---- one lookup

// Every place of a segment with so many keys: judged alone; then all that are listed in one batch, and again, when they are old.
fn places(form: &'static Form, letter: u8, keys: usize, asked: &mut Vec<Ask>, said: &mut Vec<String>) {
    for (place, compared) in COMPARED[keys].iter().enumerate() {
        asked.push(Ask::Judge(feed::batch(&[update(form, letter, 1, place)])));
        let answer = if place % 2 == 1 { "ok 1 0 0" } else { "refused 13 0 0 0" };
        said.push(format!("judge {answer} {compared}"));
    }
    let all: Vec<Vec<u8>> = (0..keys).map(|k| update(form, letter, 1 + k as u32, 2 * k + 1)).collect();
    let sum: u64 = COMPARED[keys].iter().skip(1).step_by(2).sum();
    if keys > 0 {
        asked.extend([Ask::Take(feed::batch(&all)), Ask::Take(feed::batch(&all))]);
        said.extend([format!("take ok {keys} 0 0 {sum}"), format!("take ok 0 {keys} 0 {sum}")]);
    }
}

// The two segments have eight keys together, and each is looked up in its own.
fn small_segments(forms: [&'static Form; 2]) -> Vec<Case> {
    let name = if forms[0].is_pair() { "pairs" } else { "contracts" };
    let case = |keys: usize| {
        let others = 8 - keys;
        // Pairs want contracts that their halves are; contracts, at least one.
        let book = if forms[0].is_pair() { book([20, 20], [keys, others]) } else { book([keys, others], [0, 0]) };
        let (mut asked, mut said) = (begun(&book), lines(&["start ok"]));
        places(forms[0], b'D', keys, &mut asked, &mut said);
        places(forms[1], b'T', others, &mut asked, &mut said);
        (format!("lookups among {keys} and {others} {name}"), book.bytes(), asked, said)
    };
    (0..=8).filter(|keys| forms[0].is_pair() || (1..8).contains(keys)).map(case).collect()
}

fn one_segment_of_eight() -> Case {
    let book = Book::of(vec![(b'T', listed(8, contract))]);
    let (mut asked, mut said) = (begun(&book), lines(&["start ok"]));
    places(of_contract(b'T', 2), b'T', 8, &mut asked, &mut said);
    ("lookups among 8 contracts".into(), book.bytes(), asked, said)
}

// ---- the sum over a batch: D has four contracts and two pairs, T one contract and no pair

fn small_book() -> Book {
    book([4, 1], [2, 0])
}

// By what stands above: of D's contracts the fourth takes 3 comparisons, the second 1, the first and the third 2; of its pairs the first 1, the
// second 2.
fn fourth(number: u32) -> Vec<u8> {
    update(of_contract(b'D', 1), b'D', number, 7)
}

fn second_pair(number: u32) -> Vec<u8> {
    update(of_pair(1), b'D', number, 3)
}

fn heartbeat() -> Vec<u8> {
    feed::sealed(*b"DH", 0, &[])
}

fn sums() -> Case {
    let mixed = feed::batch(&[
        heartbeat(),
        fourth(1),
        feed::sealed(*b"DO", 2, b"N"),
        second_pair(3),
        update(of_contract(b'D', 2), b'D', 4, 1),
        feed::sealed(*b"DI", 5, &[&contract(1)[..], b"      4210N"].concat()),
        update(of_pair(2), b'D', 5, 1), // old, as the next is
        update(of_contract(b'D', 1), b'D', 1, 3),
    ]);
    // Passed over, though they have a listed pair or contract where an update has it, and an update's length.
    let passed_over = [
        feed::sealed(*b"DS", 6, &[&pair(1)[..], &[b' '; 138]].concat()),
        feed::sealed(*b"DB", 7, &[&contract(1)[..], b"N", &[b' '; 198]].concat()),
        heartbeat(),
    ];
    let asked = [Ask::Judge(mixed.clone()), Ask::Take(mixed.clone()), Ask::Take(mixed), Ask::Take(feed::batch(&passed_over))];
    let book = small_book();
    let said = ["start ok", "judge ok 5 2 1 9", "take ok 5 2 1 9", "take ok 0 7 1 9", "take ok 2 0 1 0"];
    ("the sum of a batch's lookups".into(), book.bytes(), [begun(&book), asked.to_vec()].concat(), lines(&said))
}

// ---- refusals, each behind two lookups of 3 and 2 comparisons and before one that is not reached

fn behind(bad: Vec<u8>) -> Vec<u8> {
    feed::batch(&[fourth(2), heartbeat(), second_pair(4), bad, fourth(5)])
}

fn with(mut message: Vec<u8>, at: usize, bytes: &[u8]) -> Vec<u8> {
    message[at..at + bytes.len()].copy_from_slice(bytes);
    message
}

// As above, with the sum that is then right.
fn resealed(message: Vec<u8>, at: usize, bytes: &[u8]) -> Vec<u8> {
    let message = with(message, at, bytes);
    let sum = reference::sum_by_bits(&message[..message.len() - 3]);
    let end = message.len() - 3;
    with(message, end, &sum)
}

const PRICE_AT: usize = 8 + KEY + 1; // row 6, the first behind the market type

// Up to 12 the message's own key is not looked up; at 13 and 14 it is.
fn refusals() -> Case {
    let (good, spread) = (fourth(6), second_pair(6));
    let (last, wrong_sum) = (good.len() - 1, good[good.len() - 2] ^ 1);
    let unlisted = |place| update(of_contract(b'D', 1), b'D', 6, place);
    let unlisted_pair = |place| update(of_pair(2), b'D', 6, place);
    let long = feed::sealed(*b"DN", 6, &[&contract(7)[..], b"N", &[b' '; 199]].concat());
    let bad = [
        (with(good.clone(), 2, &[0, 10]), "5 3 0 0 5"),
        (with(good.clone(), 2, &[127, 255]), "5 3 0 0 5"),
        (resealed(good.clone(), 0, b"T"), "6 3 0 0 5"),
        (resealed(good.clone(), 1, b"n"), "6 3 0 0 5"),
        (with(good.clone(), last, &[10]), "7 3 0 0 5"),
        (long, "8 3 0 0 5"),
        (with(good.clone(), last - 1, &[wrong_sum]), "9 3 0 0 5"),
        (resealed(good.clone(), 4, &[0; 4]), "10 3 0 0 5"),
        (resealed(good.clone(), PRICE_AT, b"x"), "11 3 6 0 5"),
        (resealed(good.clone(), PRICE_AT, b"100000000000"), "12 3 6 0 5"),
        (resealed(unlisted(6), PRICE_AT, b"x"), "11 3 6 0 5"),
        (resealed(unlisted(6), PRICE_AT, b"1.00000000"), "12 3 6 0 5"),
        (resealed(spread.clone(), 8 + 78, b"--5"), "11 3 10 0 5"),
        (resealed(spread.clone(), 8 + 78, b"-100000000000"), "12 3 10 0 5"),
        (unlisted(0), "13 3 0 0 7"),
        (unlisted(2), "13 3 0 0 7"),
        (unlisted(6), "13 3 0 0 8"),
        (unlisted(8), "13 3 0 0 8"),
        (unlisted_pair(0), "13 3 0 0 6"),
        (unlisted_pair(2), "13 3 0 0 7"),
        (unlisted_pair(4), "13 3 0 0 7"),
    ];
    let book = small_book();
    let (mut asked, mut said) = (begun(&book), lines(&["start ok"]));
    for (message, answer) in bad {
        asked.push(Ask::Take(behind(message)));
        said.push(format!("take refused {answer}"));
    }
    // T has no pair to be compared: only the lookup before it counts.
    asked.push(Ask::Take(feed::batch(&[update(of_contract(b'T', 2), b'T', 1, 1), update(of_pair(1), b'T', 2, 1)])));
    said.push("take refused 13 1 0 0 1".into());
    ("a refused batch's lookups".into(), book.bytes(), asked, said)
}

// 64 runs stand, and numbers 2 and 4 are old: one more hole is 14, by an update of a contract, one of a pair and what is passed over.
fn full() -> Case {
    let book = small_book();
    let even: Vec<Vec<u8>> = (2..=128).step_by(2).map(|number| feed::sealed(*b"DE", number, &[])).collect();
    let mut asked = begun(&book);
    asked.push(Ask::Take(feed::batch(&even)));
    asked.extend([fourth(130), second_pair(130), feed::sealed(*b"DE", 130, &[]), fourth(129)].map(|last| Ask::Take(behind(last))));
    let said = [
        "start ok",
        "take ok 64 0 0 0",
        "take refused 14 3 0 0 8",
        "take refused 14 3 0 0 7",
        "take refused 14 3 0 0 5",
        // 129 makes no hole and 5 ends one: both are taken.
        "take ok 2 2 1 11",
    ];
    ("lookups of a batch that is 14".into(), book.bytes(), asked, lines(&said))
}

// Whole messages or single bytes behind the last that is counted: all lookups but theirs. One message too few: all that there are.
fn left_over() -> Case {
    let book = small_book();
    let all = feed::batch(&[fourth(1), heartbeat(), second_pair(2), fourth(3)]);
    let counted = |count: u8| with(all.clone(), 4, &[count]);
    let mut longer = [&all[..], &[13]].concat();
    let size = longer.len() as u16 - 5;
    longer[1..3].copy_from_slice(&size.to_be_bytes());
    let batches = [counted(1), counted(2), counted(3), longer, counted(5), all];
    let said = [
        "start ok",
        "take refused 4 0 0 0 3",
        "take refused 4 0 0 0 3",
        "take refused 4 0 0 0 5",
        "take refused 4 0 0 0 8",
        "take refused 5 4 0 0 8",
        "take ok 3 0 1 8",
    ];
    ("lookups before bytes left over".into(), book.bytes(), [begun(&book), batches.map(Ask::Take).to_vec()].concat(), lines(&said))
}

// What is refused before the first message has no lookups, whatever messages there are.
fn in_front() -> Case {
    let book = small_book();
    let good = feed::batch(&[fourth(1), second_pair(2)]);
    let (cut, cut_last) = (good[..4].to_vec(), good[..good.len() - 1].to_vec());
    let batches = [cut, with(good.clone(), 0, &[0]), with(good.clone(), 0, &[2]), cut_last, with(good.clone(), 4, &[0])];
    let mut asked = begun(&book);
    asked.extend(batches.map(Ask::Judge));
    asked.extend([Ask::Poke { cell: 0, value: 0 }, Ask::Judge(good.clone()), Ask::Poke { cell: 0, value: 1 }]);
    asked.extend([Ask::Lend { rows: 263, records: 9_999 }, Ask::Judge(good.clone())]);
    asked.extend([Ask::Lend { rows: 264, records: 335 }, Ask::Judge(good.clone()), Ask::Lend { rows: 264, records: 336 }]);
    asked.extend([Ask::Spreads(vec![]), Ask::Take(good.clone()), Ask::List(vec![0, 1]), Ask::Take(good.clone())]);
    asked.extend([Ask::List(book.bytes()), Ask::Spreads(book.spread_bytes()), Ask::Take(good)]);
    let said = [
        "start ok",
        "judge refused 1 0 0 0 0",
        "judge refused 2 0 0 0 0",
        "judge refused 3 0 0 0 0",
        "judge refused 1 0 0 0 0",
        "judge refused 4 0 0 0 0",
        "judge refused 18 0 0 0 0",
        "judge refused 15 0 0 264 0",
        "judge refused 15 0 0 336 0",
        "take refused 16 0 0 0 0",
        "take refused 16 0 0 0 0",
        "take ok 2 0 0 5",
    ];
    ("no lookup before the messages".into(), book.bytes(), asked, lines(&said))
}

// ---- lists handed anew

// The rule goes by the list that the call is handed, in whatever order its keys stand: of three the middle one is compared first.
fn other_lists() -> Case {
    let book = small_book();
    let judged = |place: usize| Ask::Judge(feed::batch(&[update(of_contract(b'T', 1), b'T', 1, place)]));
    let keys = |places: &[usize]| Ask::List(Book::of(vec![(b'T', places.iter().map(|&place| contract(place)).collect())]).bytes());
    let pairs = |places: &[usize]| Ask::Spreads(feed::file(&[(b'T', places.iter().map(|&place| pair(place)).collect())]));
    let judged_pair = |place: usize| Ask::Judge(feed::batch(&[update(of_pair(1), b'T', 1, place)]));
    let mut asked = begun(&book);
    asked.extend([judged(1), keys(&[1, 3, 5, 7, 9]), judged(1), judged(3), judged(5), judged(9)]);
    asked.extend([keys(&[5, 1, 3]), judged(1), judged(3), judged(5), judged(0), keys(&[3, 3]), judged(3), judged(5)]);
    asked.extend([pairs(&[5, 1, 3]), judged_pair(1), judged_pair(3), judged_pair(5)]);
    let said = [
        "start ok",
        "judge ok 1 0 0 1",
        "judge ok 1 0 0 2",
        "judge ok 1 0 0 3",
        "judge ok 1 0 0 1",
        "judge ok 1 0 0 3",
        "judge ok 1 0 0 1",
        "judge ok 1 0 0 2",
        "judge refused 13 0 0 0 2", // it stands first, and is looked for behind the middle one
        "judge refused 13 0 0 0 2",
        "judge ok 1 0 0 1",
        "judge refused 13 0 0 0 2",
        "judge ok 1 0 0 1",
        "judge ok 1 0 0 2",
        "judge refused 13 0 0 0 2",
    ];
    ("lookups in another list".into(), book.bytes(), asked, lines(&said))
}

// ---- the rule

// The rule on numbers says what is worked out above, and the binary digits of the number of keys are the most that it comes to; the reference
// compares as many.
pub fn rule(held: &mut Held) {
    for (keys, all) in COMPARED.iter().enumerate() {
        let by_rule: Vec<u64> = halving::everywhere(keys).map(|place| halving::compared(keys, place)).collect();
        held.hold(by_rule == *all, || format!("halving: among {keys} keys: {by_rule:?}"));
    }
    for (keys, digits) in [(0, 0), (1, 1), (2, 2), (3, 2), (4, 3), (1_023, 10), (1_024, 11), (4_095, 12), (4_096, 13)] {
        held.hold(halving::binary_digits(keys) == digits, || format!("halving: the binary digits of {keys}"));
    }
    for keys in halving::sizes(MOST_CONTRACTS) {
        let body = listed(keys, contract).concat();
        let mut most = 0;
        for place in halving::everywhere(keys) {
            let right = Sought { place: place.listed.then_some(place.below), compared: halving::compared(keys, place) };
            let sought = reference::find::<KEY>(&body, &contract(place.number()));
            held.hold(sought == right, || format!("reference: {place:?} of {keys} keys: {sought:?}"));
            most = most.max(right.compared);
        }
        held.hold(most == halving::binary_digits(keys), || format!("halving: at most {most} among {keys} keys"));
    }
}

pub fn cases() -> Vec<Case> {
    let mut all = small_segments([of_contract(b'D', 1), of_contract(b'T', 2)]);
    all.extend(small_segments([of_pair(1), of_pair(2)]));
    all.extend([one_segment_of_eight(), sums(), refusals(), full(), left_over(), in_front(), other_lists()]);
    all
}
