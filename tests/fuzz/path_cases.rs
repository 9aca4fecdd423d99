//! The cases of how far a lookup goes, with their numbers.
use crate::book::*;
use crate::cases::{reel_7, to_level_31, with_frames};
use crate::crash::Crash;
use crate::model::call::Function::*;
use crate::model::image::*;
use crate::model::node::{LEVEL_AT, NEXT};
use crate::model::rule::*;
use crate::subject::Subject;
use std::collections::BTreeSet;

/// Answer, yes or no, and nodes of a lookup in reel 7.
fn lookup(book: &mut Book, frame: u64) -> (u64, u64, u64) {
    let (answer, _, yes) = book.call(Has, 7, frame);
    (answer, yes, book.path_nodes)
}

/// One node with no frame, with frames 0 to 63, and with the 64th claimed. With the 65th claimed two for every frame: one in the
/// root, one claimed, one that is not there. They stay when the claim is given back and when every frame has gone. Opened anew
/// the reel has one again.
fn one_node_or_two(subject: Subject, rule: Rule) -> bool {
    let mut book = with_frames(Book::of_rule(subject, rule, 1, 3), 0);
    let none = [0, 1, u64::MAX].map(|frame| lookup(&mut book, frame)) == [(0, 0, 1); 3];
    let added = (0..63).all(|frame| book.add(7, frame).0 == 0 && lookup(&mut book, frame) == (0, 1, 1));
    let mut last = vec![(book.claims(&[(0, 63)])[0], lookup(&mut book, 63))];
    last.push((book.call(Fill, 0, 0).0, lookup(&mut book, 63)));
    last.push((book.call(Commit, 0, 0).0, lookup(&mut book, 63)));
    let full = last == [(0, (0, 0, 1)), (0, (0, 0, 1)), (0, (0, 1, 1))] && lookup(&mut book, 1 << 40) == (0, 0, 1);
    let claimed = book.claims(&[(1, 64)]) == [0];
    let two = |book: &mut Book| [0, 1, 64, 65].map(|frame| lookup(book, frame));
    let over = claimed && two(&mut book) == [(0, 1, 2), (0, 1, 2), (0, 0, 2), (0, 0, 2)];
    book.call_with(1, Abandon, 0, 0);
    let given_back = two(&mut book) == [(0, 1, 2), (0, 1, 2), (0, 0, 2), (0, 0, 2)];
    let gone = (0..64).all(|frame| book.call(Remove, 7, frame).0 == 0) && two(&mut book) == [(0, 0, 2); 4];
    let anew = (book.call(Retire, 7, 0).0, book.call(Open, 7, 0).0, two(&mut book)) == (0, 0, [(0, 0, 1); 4]);
    none && added && full && over && given_back && gone && anew
}

/// Frames that leave the path of zeros at each level: 1, 2 and 4 from levels 0, 1 and 2, then two bits from each further one.
/// Whoever leaves it at level k is then in a node of level k + 1. Those with 59 zeros go down to level 31.
fn down_to_level_31(subject: Subject) -> bool {
    let (mut book, _) = to_level_31(subject);
    let mut nodes = |bit: u64| lookup(&mut book, 1 << bit).2;
    let upper = (nodes(0), nodes(1), nodes(2)) == (2, 3, 4);
    let lower = (3..=30).all(|level| (nodes(2 * level - 3), nodes(2 * level - 2)) == (level + 2, level + 2));
    let last = (59..64).all(|bit| nodes(bit) == 32);
    // Held at level 31, in the root, and nowhere.
    let found = [1 << 57, 1 << 51, 5 << 57].map(|frame| lookup(&mut book, frame));
    upper && lower && last && found == [(0, 1, 32), (0, 1, 29), (0, 0, 32)]
}

/// 0 for every refusal, over junk: reel, level on the path and not off it, table, edition, length.
fn refused_lookups(subject: Subject) -> bool {
    let mut book = reel_7(subject, 1, 3, 65);
    let no_reel = (book.call(Has, 8, 64), book.path_nodes) == ((5, 0, 0), 0);
    let lookups = |book: &mut Book| [64, 65].map(|frame| lookup(book, frame));
    let sound = lookups(&mut book) == [(0, 1, 2), (0, 0, 2)];
    let mut with = |index: u64, value: u64| {
        let before = std::mem::replace(&mut book.lent.image[index as usize], value);
        let lookups = lookups(&mut book);
        book.lent.image[index as usize] = before;
        lookups
    };
    let child = with(node_index(1, 1) + LEVEL_AT, 0) == [(4, 0, 0), (0, 0, 2)];
    let others = [(node_index(1, 0) + LEVEL_AT, 1, 4), (node_index(1, 0) + NEXT, 3, 4), (3, 2, 4), (0, 3, 2), (1, 0, 1)];
    let refused = others.iter().all(|&(index, value, answer)| with(index, value) == [(answer, 0, 0); 2]);
    book.lent.image.resize(63, || JUNK);
    no_reel && sound && child && refused && lookups(&mut book) == [(1, 0, 0); 2]
}

/// The numbers that lookups in reel 7 tell after every crash in the claim of this frame, cut after each number of entries.
fn after_crashes(subject: Subject, rule: Rule, frame: u64) -> Vec<BTreeSet<u64>> {
    let mut book = with_frames(Book::of_rule(subject, rule, 1, 3), frame);
    let image = book.lent.image.clone();
    let (_, _, entries) = book.hold(0, Claim, 7, frame);
    let mut told = |crash: &Crash, number: u64| {
        book.lent.image = crash.mixture(number);
        book.lent.heads.fill(JUNK);
        let recovered = book.call(Recover, 0, 0).0 == 0;
        [0, 1, frame].map(|frame| if recovered { lookup(&mut book, frame).2 } else { 0 })
    };
    let crashes = (0..=entries.len()).map(|cut| Crash::after(&image, &entries[..cut]));
    crashes.map(|crash| (0..crash.mixtures()).flat_map(|number| told(&crash, number)).collect()).collect()
}

/// The 64th claim, of two entries, leaves one node wherever it is cut. That of the 65th has ten stores to the children and a
/// barrier, then the link: from there on one or two, and with the barrier two.
fn claims_cut_short(subject: Subject, rule: Rule) -> bool {
    let (one, either, two) = (BTreeSet::from([1]), BTreeSet::from([1, 2]), BTreeSet::from([2]));
    let over = [vec![one.clone(); 12], vec![either], vec![two; 3]].concat();
    after_crashes(subject, rule, 63) == vec![one; 3] && after_crashes(subject, rule, 64) == over
}

/// Which of them come out as specified.
pub fn path_cases(subject: Subject) -> [(&'static str, bool); 8] {
    [
        ("lookups down to level 31", down_to_level_31(subject)),
        ("nodes of a refused lookup", refused_lookups(subject)),
        ("lookups of one node and of two on edition 1", one_node_or_two(subject, FIRST)),
        ("lookups of one node and of two on edition 2", one_node_or_two(subject, SECOND)),
        ("lookups of one node and of two on an own table", one_node_or_two(subject, OWN)),
        ("lookups after a claim cut short on edition 1", claims_cut_short(subject, FIRST)),
        ("lookups after a claim cut short on edition 2", claims_cut_short(subject, SECOND)),
        ("lookups after a claim cut short on an own table", claims_cut_short(subject, OWN)),
    ]
}
