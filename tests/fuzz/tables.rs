//! Tables of 256 bytes, for images and for Format: good ones, such as lack a byte, and such as have another length.
use crate::model::buffer::Buffer;
use crate::model::image::*;
use crate::model::rule::*;
use crate::random::Random;

/// Each byte once: ours, every byte in its own place, or in any sequence.
pub fn good(random: &mut Random) -> Vec<u8> {
    let mut table: Vec<u8> = (0..=255).collect();
    match random.below(6) {
        0 => return our_table(),
        1 => return table,
        _ => (1..TABLE_BYTES).for_each(|last| table.swap(last, random.below(last as u64 + 1) as usize)),
    }
    table
}

/// Some byte is not there: one is there twice, at an end of the table more often, or two or more are, or all are the same.
pub fn lacking(random: &mut Random) -> Vec<u8> {
    let mut table = good(random);
    match random.below(8) {
        0 => table.fill(random.pick(&[0, 0, 255, 13])),
        1 => (0..40).for_each(|_| double(random, &mut table)),
        2 | 3 => exchange(random, &mut table),
        _ => double(random, &mut table),
    }
    table
}

/// A bit that one entry has and another lacks goes from the one to the other: the sum stays, and the bytes taken together by xor.
fn exchange(random: &mut Random, table: &mut [u8]) {
    let bit = 1 << random.below(8);
    let (mut from, mut to) = (0, 0);
    while from == to || table[from] & bit == 0 || table[to] & bit != 0 || table[from] == table[to] | bit {
        (from, to) = (random.below(256) as usize, random.below(256) as usize);
    }
    table[from] ^= bit;
    table[to] ^= bit;
}

/// One entry is made like another.
fn double(random: &mut Random, table: &mut [u8]) {
    let any = random.below(256) as usize;
    let to = random.pick(&[0, 255, any, any]);
    table[to] = table[(to + random.between(1, 255) as usize) % 256];
}

/// What Format is given: nothing, no bytes, a good table, one that lacks a byte, or one of another length.
pub fn given(random: &mut Random) -> Option<Buffer<u8>> {
    match random.below(8) {
        0 | 1 => None,
        2 => Some(Buffer::of([])),
        3..=5 => Some(Buffer::of(good(random))),
        6 => Some(Buffer::of(lacking(random))),
        _ => Some(Buffer::of(of_another_length(random))),
    }
}

/// A good table cut short, or begun again behind its end.
fn of_another_length(random: &mut Random) -> Vec<u8> {
    let (less, more) = (random.between(1, 255), random.between(257, 700));
    let length = random.pick(&[1, 255, 255, 257, 257, 512, 512, less, more]) as usize;
    good(random).into_iter().cycle().take(length).collect()
}

fn store(words: &mut [u64], table: &[u8]) {
    words[TABLE_AT..][..TABLE_WORDS].copy_from_slice(&packed(table));
}

/// Word 3 and words 8 to 39 of an image that goes by this rule. Where it does not read them they may be those of a table, good or
/// not.
pub fn write(random: &mut Random, words: &mut [u64], rule: Rule) {
    match random.below(4) {
        _ if rule == OWN => store(words, &good(random)),
        0 => store(words, &good(random)),
        1 => store(words, &lacking(random)),
        _ => (),
    }
    words[OWN_AT] = match rule {
        OWN => 1,
        SECOND => 0,
        _ => random.pick(&[0, 1, 1, 2, words[OWN_AT]]),
    };
}

/// Another rule for the whole image: its edition, its word 3, and a good table if it needs one and has none.
pub fn change_rule(random: &mut Random, words: &mut [u64]) {
    let rules: Vec<Rule> = RULES.into_iter().filter(|&rule| Rule::of(words) != Some(rule)).collect();
    let rule = random.pick(&rules);
    words[0] = rule.edition();
    words[OWN_AT] = u64::from(rule.own);
    if rule.own && lacks(&stored_table(words)) > 0 {
        store(words, &good(random));
    }
}

/// Word 3 above 1, or an own table that lacks a byte. In edition 1 it does no harm.
pub fn make_bad(random: &mut Random, words: &mut [u64]) {
    let (high, above) = (1 << random.between(2, 63), random.between(3, u64::MAX));
    match random.below(8) {
        0..=3 => words[OWN_AT] = random.pick(&[2, 2, 2, 1 << 63, high, high | 1, (1 << 32) + 1, above]),
        4..=5 => {
            let mut table = stored_table(words);
            double(random, &mut table);
            store(words, &table);
            words[OWN_AT] = 1;
        }
        _ => {
            store(words, &lacking(random));
            words[OWN_AT] = 1;
        }
    }
}
