//! Convert: a sound image written in the other edition, into a second image of the same length.
use super::call::Lent;
use super::ending::*;
use super::fault::Fault;
use super::image::*;
use super::node::*;
use super::operations::*;
use super::rule::{lacks, stored_table, Rule, FIRST, SECOND};
use std::collections::HashSet;
use std::ops::Range;

/// The image is only read, and nothing is written to the second one before the last refusal.
pub fn convert(lent: &mut Lent, fault: Fault) -> Ended {
    let image = check_lent(&lent.image, &lent.copy, &lent.scratch, fault)?;
    lent.scratch.fill(0);
    if fault == Fault::CopyClearedFirst {
        lent.copy.fill(0);
    }
    let sound = if fault == Fault::ConvertChecksAsList { walked(image) } else { image.sound() };
    let (unsound, own) = (sound.as_ref().err().copied(), if is_own(image) { Some(OWN_TABLE) } else { None });
    let refusal = if fault == Fault::OwnBeforeUnsound { own.or(unsound) } else { unsound.or(own) };
    let reached = sound.unwrap_or_default();
    let marks = match fault {
        Fault::MarksLeft => refusal.is_none(),
        Fault::MarksLeftFor17 => refusal == Some(OWN_TABLE),
        _ => false,
    };
    if marks {
        reached.iter().for_each(|&number| mark_used(&mut lent.scratch, number));
    }
    refusal.map_or(Ok(()), Err)?;
    let words = converted(image, &reached);
    // By a fault the second image has another length.
    let length = words.len().min(lent.copy.len());
    lent.copy[..length].copy_from_slice(&words[..length]);
    Ok((DONE, 0))
}

/// Refusals 1, 2 and 3: the second image's length is under 1, after the first one's, and the scratch map's under 3.
fn check_lent<'a>(words: &'a [u64], copy: &[u64], scratch: &[u64], fault: Fault) -> Result<Image<'a>, Ending> {
    let image = Image::read(words, fault)?;
    let (copy, of_image) = (copy.len(), words.len());
    let copied = match fault {
        Fault::CopyUnchecked => Ok(()),
        Fault::LongCopyTaken if copy > of_image => Ok(()),
        _ => check(copy >= of_image, COPY_SHORT).and(check(copy <= of_image, COPY_LONG)),
    };
    let late = fault == Fault::CopyAfterScratch;
    if !late {
        copied?;
    }
    check_image(words, fault)?;
    check_scratch(scratch, image.nodes)?;
    if late {
        copied?;
    }
    Ok(image)
}

/// Refusal 17, after 4: an own table can't go to edition 1.
fn is_own(image: Image) -> bool {
    match image.fault {
        Fault::OwnConverted => false,
        Fault::OwnOfEdition1 => image.words[OWN_AT] == 1,
        Fault::UnmarkedIsOwn => image.edition() == EDITION && lacks(&stored_table(image.words)) == 0,
        _ => image.rule().own,
    }
}

/// A fault: 4 as in List, each reel's tree taken alone.
fn walked(image: Image) -> Result<Vec<u64>, Ending> {
    image.check_table()?;
    let mut numbers = Vec::new();
    for slot in image.filled_slots() {
        let walk = image.walk(image.root(slot), &mut HashSet::new())?;
        numbers.extend(walk.iter().map(|reached| reached.node.number));
    }
    Ok(numbers)
}

/// What a converted image has in words 0 to 63.
pub fn converted_header(edition: u64, slots: u64, nodes: u64) -> [u64; HEADER_WORDS as usize] {
    let other = if edition == FIRST_EDITION { EDITION } else { FIRST_EDITION };
    let mut words = [0; HEADER_WORDS as usize];
    words[..3].copy_from_slice(&[other, slots, nodes]);
    words
}

/// Slot for slot and place for place. What is not written here is 0: both words of an empty slot, the 80 words of a node that
/// isn't reached.
fn converted(image: Image, reached: &[u64]) -> Vec<u64> {
    let mut words = vec![0; image.words.len()];
    words[..HEADER_WORDS as usize].copy_from_slice(&converted_header(image.edition(), image.slots, image.nodes));
    for (number, slot) in (0..).zip(image.filled_slots()) {
        let to = if image.fault == Fault::SlotsPacked { number } else { slot };
        words[slot_index(to) as usize..][..2].copy_from_slice(&[image.reel(slot), image.root(slot)]);
    }
    let rule = match image.edition() {
        _ if image.fault == Fault::OldRuleKept => image.rule(),
        FIRST_EDITION => SECOND,
        _ => FIRST,
    };
    for &number in reached {
        convert_node(Node::of(image, number), rule, &mut words);
    }
    keep(image, reached, &mut words);
    words
}

/// Words 5 to 7 are 0, and so are frame and fingerprint of a place that is not held.
fn convert_node(node: Node, rule: Rule, words: &mut [u64]) {
    let mut put = |word: u64, value: u64| words[node.at(word) as usize] = value;
    for word in [NEXT, LEVEL_AT, SIZE_AT] {
        put(word, node.word(word));
    }
    let claims = if node.image.fault == Fault::ClaimsHeld { node.word(LOCATE) } else { 0 };
    let is_held = |place: &u64| (node.word(SET) | claims) >> place & 1 == 1;
    let (mut set, mut prints) = (0, [0; 8]);
    for (number, place) in (0..).zip((0..PLACES).filter(is_held)) {
        let to = if node.image.fault == Fault::PlacesPacked { number } else { place };
        let (frame, bytes) = (node.frame(place), &mut prints[(to / 8) as usize]);
        *bytes = with_byte(*bytes, to % 8, node.image.fingerprint_by(rule, frame));
        put(FRAMES + to, frame);
        set |= 1 << to;
    }
    (FINGERPRINTS..).zip(prints).for_each(|(word, bytes)| put(word, bytes));
    put(SET, set);
    put(LOCATE, set);
}

/// The faults that keep what is to go.
fn keep(image: Image, reached: &[u64], words: &mut [u64]) {
    let mut keep = |indices: Range<u64>| indices.for_each(|index| words[index as usize] = image.word(index));
    let nodes = || reached.iter().map(|&number| image.node_index(number));
    match image.fault {
        Fault::EditionKept => keep(0..1),
        Fault::HeaderKept => keep(3..HEADER_WORDS),
        Fault::EmptySlotKept => (0..image.slots).for_each(|slot| keep(slot_index(slot)..slot_index(slot) + 1)),
        Fault::UnreachedKept => {
            let unreached = (0..image.nodes).filter(|number| !reached.contains(number)).map(|number| image.node_index(number));
            unreached.for_each(|at| keep(at..at + NODE_WORDS));
        }
        Fault::LocateKept => nodes().for_each(|at| keep(at + LOCATE..at + SET)),
        Fault::UnreadKept => nodes().for_each(|at| keep(at + SIZE_AT + 1..at + FINGERPRINTS)),
        Fault::StaleFramesKept => nodes().for_each(|at| keep(at + FRAMES..at + NODE_WORDS)),
        Fault::StalePrintsKept => reached.iter().for_each(|&number| keep_prints(Node::of(image, number), words)),
        _ => (),
    }
}

/// The fingerprints of places that are not held.
fn keep_prints(node: Node, words: &mut [u64]) {
    for place in (0..PLACES).filter(|place| node.word(SET) >> place & 1 == 0) {
        let bytes = &mut words[node.at(FINGERPRINTS + place / 8) as usize];
        *bytes = with_byte(*bytes, place % 8, node.fingerprint(place));
    }
}
