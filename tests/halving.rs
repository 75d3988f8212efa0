// The halving rule of request M-102 on numbers alone, without a key's bytes: of so many keys how many are compared, by where the key that is
// looked up belongs among them. And keys and pairs that ascend by a number, so that one is told by its number where it belongs.
#![allow(dead_code)] // each test uses a part

use crate::feed::{self, Key, Pair};
use crate::reference::Form;

// The most keys that a segment may have, and the most pairs.
pub const MOST_CONTRACTS: usize = 4_096;
pub const MOST_PAIRS: usize = 1_024;

// Where a key belongs: how many keys stand below it, and whether it is one of them itself.
#[derive(Clone, Copy, Debug)]
pub struct Place {
    pub below: usize,
    pub listed: bool,
}

// Of n keys left the one with (n - 1) / 2 below it is compared: a match ends it, else it goes on in the half where the key belongs.
pub fn compared(left: usize, place: Place) -> u64 {
    if left == 0 {
        return 0;
    }
    let middle = (left - 1) / 2;
    let Place { below, listed } = place;
    1 + if below > middle {
        compared(left - middle - 1, Place { below: below - middle - 1, listed })
    } else if below == middle && listed {
        0
    } else {
        compared(middle, place)
    }
}

pub fn binary_digits(keys: usize) -> u64 {
    (usize::BITS - keys.leading_zeros()) as u64
}

// A segment has the odd numbers from 1 on, so that each even one stands for a key between two, below all or above all.
impl Place {
    pub fn of(number: usize) -> Place {
        Place { below: number / 2, listed: number % 2 == 1 }
    }

    pub fn number(self) -> usize {
        2 * self.below + self.listed as usize
    }
}

pub fn listed<const N: usize>(keys: usize, numbered: fn(usize) -> [u8; N]) -> Vec<[u8; N]> {
    (0..keys).map(|below| numbered(Place { below, listed: true }.number())).collect()
}

pub fn contract(number: usize) -> Key {
    format!("FUTCURUSDINR    27-MAR-2026{number:>10}XX").into_bytes().try_into().unwrap()
}

const SECONDS: usize = 64;

// Of the first contracts of a segment: as many as there are second halves are enough for the most pairs.
pub fn pair(number: usize) -> Pair {
    let half = |below| contract(Place { below, listed: true }.number());
    feed::pair(&half(number / SECONDS), &half(number % SECONDS))
}

// An update of the contract or pair that has a number, its rows blank.
pub fn update(form: &Form, letter: u8, sequence: u32, number: usize) -> Vec<u8> {
    let key = if form.is_pair() { pair(number).to_vec() } else { contract(number).to_vec() };
    feed::a_blank_update(form, letter, sequence, &key)
}

// Every place in a segment of so many keys, listed and not.
pub fn everywhere(keys: usize) -> impl Iterator<Item = Place> {
    (0..=2 * keys).map(Place::of)
}

// First, last and amid, listed and not; below all and above all.
pub fn here_and_there(keys: usize) -> Vec<Place> {
    let amid = [keys / 3, keys / 2, keys - keys / 4];
    let places = [0, keys.saturating_sub(1), keys].into_iter().chain(amid).flat_map(|below| [true, false].map(|listed| Place { below, listed }));
    places.filter(|place| place.below < keys || !place.listed).collect()
}

// The small sizes, and each at which the number of binary digits changes, with the sizes beside it.
pub fn sizes(most: usize) -> impl Iterator<Item = usize> {
    let powers = (7..).map(|digits| 1 << digits).take_while(move |&power| power <= most);
    (0..=70).chain(powers.flat_map(|power: usize| [power - 1, power, power + 1])).filter(move |&keys| keys <= most)
}
