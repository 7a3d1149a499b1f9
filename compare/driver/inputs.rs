//! The inputs. Each run makes the same ones in the same order: nothing here depends on the time or
//! the machine.

use crate::kinds::Kind;
use std::collections::HashSet;

/// A text is at most this many bytes long, and never holds byte 10, which ends a line.
const LONGEST: usize = 200;
const RANDOM_OF_ALL: usize = 500_000;
const RANDOM_OF_SAMPLE: usize = 500;

/// Every input of a kind for the comparison. Some texts come more than once.
pub fn all(kind: &Kind, each: &mut dyn FnMut(&[u8])) {
    each(&[]);
    for first in any_byte() {
        each(&[first]);
        any_byte().for_each(|second| each(&[first, second]));
    }
    for pattern in kind.fields.iter().chain(kind.grown) {
        for cut in 0..=pattern.len() {
            fill(
                &pattern.as_bytes()[..cut],
                kind.alphabet,
                &mut Vec::new(),
                each,
            );
        }
    }
    for spelling in kind.spellings {
        edit(spelling.as_bytes(), each);
    }
    let mut random = Random(1);
    for _ in 0..RANDOM_OF_ALL {
        each(&spliced(kind, &mut random));
    }
}

/// A small part of them, no text twice: every spelling and its beginnings, every field across its
/// limits, and random picks.
pub fn sample(kind: &Kind) -> Vec<Vec<u8>> {
    let mut texts = Vec::new();
    for spelling in kind.spellings.iter().map(|spelling| spelling.as_bytes()) {
        (0..=spelling.len()).for_each(|cut| texts.push(spelling[..cut].to_vec()));
    }
    for pattern in kind.fields {
        let each = &mut |text: &[u8]| texts.push(text.to_vec());
        fill(pattern.as_bytes(), kind.alphabet, &mut Vec::new(), each);
    }
    let mut random = Random(2);
    (0..RANDOM_OF_SAMPLE).for_each(|_| texts.push(spliced(kind, &mut random)));
    let mut seen = HashSet::new();
    texts.retain(|text| seen.insert(text.clone()));
    texts
}

fn any_byte() -> impl Iterator<Item = u8> {
    (0..=255).filter(|byte| *byte != b'\n')
}

/// Every text that a pattern stands for: `#` is each digit, `*` each byte of the alphabet, and any
/// other byte itself. `text` is what has been filled in so far.
fn fill(pattern: &[u8], alphabet: &[u8], text: &mut Vec<u8>, each: &mut dyn FnMut(&[u8])) {
    let Some((first, rest)) = pattern.split_first() else {
        return each(text);
    };
    let choices = match first {
        b'#' => b"0123456789",
        b'*' => alphabet,
        _ => std::slice::from_ref(first),
    };
    for byte in choices {
        text.push(*byte);
        fill(rest, alphabet, text, each);
        text.pop();
    }
}

/// Every text that has, at one place of a spelling, another byte, no byte, or its byte again and
/// again as far as the longest text allows. The last gives the long digit runs, leading zeros and
/// long fractions.
fn edit(spelling: &[u8], each: &mut dyn FnMut(&[u8])) {
    each(spelling);
    for at in 0..spelling.len() {
        let (before, after) = (&spelling[..at], &spelling[at + 1..]);
        let mut put = |middle: &[u8]| each(&[before, middle, after].concat());
        put(&[]);
        any_byte().for_each(|byte| put(&[byte]));
        (2..=LONGEST - spelling.len() + 1).for_each(|times| put(&vec![spelling[at]; times]));
    }
}

/// A beginning of a spelling, random bytes, and the rest of that spelling or of another; now and
/// then the random bytes alone.
fn spliced(kind: &Kind, random: &mut Random) -> Vec<u8> {
    let one = random.pick(kind.spellings).as_bytes();
    let cut = random.below(one.len() + 1);
    let (head, tail) = match random.below(8) {
        0 => (&one[..0], &one[..0]),
        1 | 2 => {
            let other = random.pick(kind.spellings).as_bytes();
            (&one[..cut], &other[random.below(other.len() + 1)..])
        }
        _ => (&one[..cut], &one[one.len().min(cut + random.below(3))..]),
    };
    let longest = if random.below(16) == 0 { LONGEST } else { 8 };
    let length = random.below(longest);
    let source = random.below(4);
    let middle: Vec<u8> = (0..length)
        .map(|_| match source {
            0 => random.below(256) as u8,
            1 => *random.pick(b"0123456789"),
            _ => *random.pick(kind.alphabet),
        })
        .filter(|byte| *byte != b'\n')
        .collect();
    let mut text = [head, &middle, tail].concat();
    text.truncate(LONGEST);
    text
}

/// The generator splitmix64: small, and the same everywhere.
struct Random(u64);

impl Random {
    fn below(&mut self, limit: usize) -> usize {
        self.0 = self.0.wrapping_add(0x9e37_79b9_7f4a_7c15);
        let mixed = (self.0 ^ (self.0 >> 30)).wrapping_mul(0xbf58_476d_1ce4_e5b9);
        let mixed = (mixed ^ (mixed >> 27)).wrapping_mul(0x94d0_49bb_1331_11eb);
        ((mixed ^ (mixed >> 31)) % limit as u64) as usize
    }

    fn pick<'a, T>(&mut self, from: &'a [T]) -> &'a T {
        &from[self.below(from.len())]
    }
}
