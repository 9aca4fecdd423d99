//! The specification's own cases, with its numbers, so that library and model do not merely agree with each other.
use crate::book::*;
use crate::convert_cases::convert_cases;
use crate::crash::Crash;
use crate::model::buffer::Buffer;
use crate::model::call::{Function, Function::*};
use crate::model::image::*;
use crate::model::node::{FINGERPRINTS, LOCATE, SET, SIZE_AT};
use crate::model::rule::*;
use crate::model::script;
use crate::path_cases::path_cases;
use crate::subject::Subject;
use crate::table_cases::table_cases;
use crate::tidy_cases::tidy_cases;
use crate::translate_cases::translate_cases;

/// A reel of frames that agree in their low bits: each node of one path is full, down to the level named; then some frames.
fn below_full_path(subject: Subject, nodes: u64, full: impl Iterator<Item = u64>, frames: &[u64]) -> (Book, Vec<Claimed>) {
    let mut book = Book::formatted(subject, 1, nodes);
    book.call(Open, 7, 0);
    for frame in full {
        book.add(7, frame);
    }
    let claimed = frames.iter().map(|&frame| book.add(7, frame)).collect();
    (book, claimed)
}

/// Frames 8, 16 and 24 go to children 1, 2 and 3 of level 3. Its node is 5, and the next run of four free nodes begins at 7.
fn children_of_level_3(subject: Subject) -> bool {
    let full = (1..=4 * 64).map(|number| 32 * number);
    below_full_path(subject, 11, full, &[8, 16, 24]).1 == [(0, 8, 0), (0, 9, 0), (0, 10, 0)]
}

/// Frames 2^57 and 2^58 below a full path to level 30.
pub fn to_level_31(subject: Subject) -> (Book, Vec<Claimed>) {
    let frames = |low: u64, bits: u64, count: u64| (0..count).map(move |high| low << (bits - 2) | high << bits);
    let down_to_27 = frames(1, 53, 28 * 64);
    let levels_28_and_29 = frames(1, 55, 64).chain(frames(1, 57, 64));
    let level_30 = frames(3, 59, 32).chain(frames(0, 59, 32));
    let full = down_to_27.chain(levels_28_and_29).chain(level_30);
    below_full_path(subject, 119, full, &[1 << 57, 1 << 58])
}

/// They go to children 1 and 2 of level 30. Its node is 111, the last of 31 on a path, and its children follow.
fn children_of_level_30(subject: Subject) -> bool {
    to_level_31(subject).1 == [(0, 116, 0), (0, 117, 0)]
}

/// Bytes 0 to 3 of the root's first fingerprint word, the others as they were. In edition 1 frames that agree in their low four
/// bytes share one; in edition 2 that of 0 is 32, and the others follow by its rule. Over the own table the last byte of 2^56
/// meets what seven zeros have made, 7, and 6 is turned to 7.
fn fingerprints(subject: Subject, rule: Rule) -> bool {
    let mut book = Book::of_rule(subject, rule, 1, 1);
    book.call(Open, 7, 0);
    for frame in [0, 1, 1 << 32, 1 << 56] {
        book.add(7, frame);
    }
    let prints = match rule {
        FIRST => [144, 113, 144, 144],
        SECOND => [32, 225, 1, 121],
        _ => [8, 9, 9, 7],
    };
    book.node_word(0, FINGERPRINTS) == JUNK >> 32 << 32 | u64::from(u32::from_le_bytes(prints))
}

/// Format writes edition 2, over junk and over a book of edition 1, which is then empty.
fn format_writes_2(subject: Subject) -> bool {
    let over_junk = Book::formatted(subject, 1, 1);
    let mut book = Book::of_rule(subject, FIRST, 1, 1);
    book.call(Open, 7, 0);
    let before = (book.lent.image[0], book.add(7, 0).0);
    let answer = book.format(1, 1, None);
    let after = (book.lent.image[0], book.call(Has, 7, 0).0);
    over_junk.lent.image[0] == 2 && before == (1, 0) && answer == 0 && after == (2, 5)
}

/// Every operation but Format refuses other editions with 2; Carry out reads none.
fn other_editions(subject: Subject) -> bool {
    let book = Book::formatted(subject, 1, 1);
    let answer = |edition: u64, function: Function| {
        let mut book = book.clone();
        book.lent.image[0] = edition;
        book.hold(0, function, 7, 0).0
    };
    let refused = |edition: u64| OPERATIONS.iter().all(|&function| answer(edition, function) == 2);
    let taken = |edition: u64| OPERATIONS.iter().all(|&function| answer(edition, function) != 2);
    let others = [0, 3, 4, 1 << 32 | 1, 1 << 32 | 2, 1 << 63, u64::MAX];
    others.iter().all(|&edition| refused(edition) && answer(edition, Apply) == 3) && taken(1) && taken(2)
}

/// Frames 0 and 2^32 with the fingerprints of a rule that the book does not go by: not found, and not sound.
fn fingerprints_of_another(subject: Subject, rule: Rule, other: Rule) -> bool {
    let mut book = Book::of_rule(subject, rule, 1, 1);
    book.call(Open, 7, 0);
    let added = [0, 1 << 32].map(|frame| book.add(7, frame).0);
    let found = |book: &mut Book| [0, 1 << 32].map(|frame| book.call(Has, 7, frame).2);
    let before = (found(&mut book), book.call(Recover, 0, 0).0);
    let header = Book::of_rule(subject, other, 1, 1).lent.image[..64].to_vec();
    book.lent.image[..64].copy_from_slice(&header);
    added == [0, 0] && before == ([1, 1], 0) && (found(&mut book), book.call(Recover, 0, 0).0) == ([0, 0], 4)
}

/// On an image of edition 1 that another had: two frames and a claim cut short. A recovery that is refused for its map, and one
/// that ends; then the book goes on, of edition 1.
fn start_on_edition_1(subject: Subject) -> bool {
    let mut book = Book::of_rule(subject, FIRST, 2, 2);
    book.call(Open, 7, 0);
    let added = [book.add(7, 12).0, book.add(7, 1 << 40).0, book.claims(&[(0, 13)])[0]];
    book.lent.heads.fill(JUNK);
    let map = std::mem::replace(&mut book.lent.map, Buffer::of([JUNK, JUNK]));
    let refused = book.call(Recover, 0, 0).0;
    book.lent.map = map;
    let recovered = (book.call(Recover, 0, 0).0, book.node_word(0, LOCATE), book.frames(7), book.lent.image[0]);
    let (third, second) = (book.add(7, 13), book.call(Remove, 7, 1 << 40).0);
    let goes_on = (third, second, book.call(Recover, 0, 0).0, book.frames(7), book.lent.image[0]);
    added == [0, 0, 0]
        && refused == 3
        && recovered == (0, 3, [12, 1 << 40].into(), 1)
        && goes_on == ((0, 0, 2), 0, 0, [12, 13].into(), 1)
}

/// Sizes and places of the 16th, 17th and 33rd frame; the 65th in child 0, or refused where there is one node.
fn growth(subject: Subject, nodes: u64) -> bool {
    let mut book = Book::formatted(subject, 1, nodes);
    book.call(Open, 7, 0);
    let mut places = Vec::new();
    for frame in 0..64 {
        let (answer, node, place) = book.add(7, frame);
        places.push((answer, node, place, book.node_word(0, SIZE_AT)));
    }
    let last = book.add(7, 64);
    let grown = places[15] == (0, 0, 15, 16) && places[16] == (0, 0, 16, 32) && places[32] == (0, 0, 32, 64);
    grown && if nodes == 1 { last.0 == 8 } else { last == (0, 1, 0) }
}

/// Four nodes, of which two are free that are not adjacent.
fn no_run(subject: Subject) -> bool {
    let mut book = Book::formatted(subject, 4, 4);
    for reel in 7..=10 {
        book.call(Open, reel, 0);
    }
    book.call(Retire, 7, 0);
    book.call(Retire, 9, 0);
    let held = (0..64).all(|frame| book.add(8, frame).0 == 0);
    let free = (0..4).filter(|&node| !is_used(&book.lent.map, node)).count();
    held && book.call(Claim, 8, 64) == (8, 0, 0) && free == 2
}

/// Heads 0 to 3 claim, each in a reel of its own, and 4 is none. Then power fails: recovered, all 20 head words are 0.
fn four_heads(subject: Subject) -> bool {
    let mut book = Book::formatted(subject, 6, 6);
    let heads = [0, 1, 2, 3, 4, u64::MAX];
    for head in heads {
        book.call(Open, head, 0);
    }
    let answers: Vec<_> = heads.iter().map(|&head| book.call_with(head, Claim, head, 12).0).collect();
    let locates = |book: &Book| (0..6).map(|node| book.node_word(node, LOCATE)).collect::<Vec<_>>();
    let open = locates(&book) == [1, 1, 1, 1, 0, 0];
    book.lent.heads.fill(JUNK);
    let recovered = book.call(Recover, 0, 0).0 == 0 && book.lent.heads[..] == [0; 20];
    answers == [0, 0, 0, 0, 11, 11] && open && recovered && locates(&book) == [0; 6]
}

/// Reel 7 with frames from 0 on.
pub fn reel_7(subject: Subject, slots: u64, nodes: u64, frames: u64) -> Book {
    with_frames(Book::formatted(subject, slots, nodes), frames)
}

pub fn with_frames(mut book: Book, frames: u64) -> Book {
    book.call(Open, 7, 0);
    for frame in 0..frames {
        book.add(7, frame);
    }
    book
}

/// The root is full. Head 0 branches out, head 1 is in the other child. Head 2 finds the node of 66 taken, and the frame 64; that
/// 9 is held comes first. Remove and Retire wait until no claim is open.
fn heads_in_one_reel(subject: Subject) -> bool {
    let mut book = reel_7(subject, 1, 3, 64);
    let claims = book.claims(&[(0, 64), (1, 65), (2, 66), (2, 64), (2, 9)]) == [0, 0, 13, 13, 9];
    let records = [[1, 0, 1, 0, 64], [1, 0, 2, 0, 65], [0; 5], [0; 5]].concat() == book.lent.heads[..];
    let mut taken_out = Vec::new();
    for head in 0..3 {
        taken_out.push((book.call(Remove, 7, 9).0, book.call(Retire, 7, 0).0));
        book.call_with(head, Abandon, 0, 0);
    }
    claims && records && taken_out == [(13, 13), (13, 13), (0, 0)]
}

/// Head 0 is at the root, claimed or filled, with places left there or before a scale-up: another frame is held (9), the same one
/// (13), or in its node (13).
fn heads_at_the_root(subject: Subject) -> bool {
    let mut small = reel_7(subject, 1, 1, 1);
    let mut doubled = reel_7(subject, 1, 1, 15);
    let first = (small.claims(&[(0, 1)]), doubled.claims(&[(0, 15)]));
    small.call_with(0, Fill, 0, 0);
    let second = (small.claims(&[(1, 0), (1, 1), (1, 2)]), doubled.claims(&[(1, 14), (1, 15), (1, 16)]));
    first == (vec![0], vec![0]) && second == (vec![9, 13, 13], vec![9, 13, 13])
}

/// 63 frames are held and head 0 has the last place of the root, which does not hinder a branch-out below it. Without a run a
/// claim uses no node.
fn below_a_claim(subject: Subject) -> bool {
    let mut large = reel_7(subject, 1, 3, 63);
    let mut small = reel_7(subject, 1, 1, 63);
    let answers = (large.claims(&[(0, 63), (1, 63), (1, 64)]), small.claims(&[(0, 63), (1, 64), (1, 63)]));
    answers == (vec![0, 13, 0], vec![0, 8, 13]) && Head::read(&large.lent.heads, 1).node == 1
}

/// The places left after a claim in reel 7 by head 0, which is given back.
fn left_after(book: &mut Book, frame: u64) -> u64 {
    book.claims(&[(0, frame)]);
    let left = book.left;
    book.call(Abandon, 0, 0);
    left
}

/// Frames 0 to 64: the root of 16, 32 and 64 places has one less with each, then a child has 63. Places given back are left
/// again, wherever they are.
fn places_left(subject: Subject) -> bool {
    let mut book = reel_7(subject, 1, 3, 0);
    let mut falls = |frame: u64, size: u64| left_after(&mut book, frame) == size - 1 - frame && book.add(7, frame).0 == 0;
    let falling = [0..16, 16..32, 32..64].iter().all(|frames| frames.clone().all(|frame| falls(frame, frames.end)));
    let child = left_after(&mut book, 64);
    for frame in [3, 40] {
        book.call(Remove, 7, frame);
    }
    let between = left_after(&mut book, 64);
    book.add(7, 64);
    falling && (child, between, left_after(&mut book, 65)) == (63, 1, 0)
}

/// A refused claim hands back 0, whatever was there.
fn no_places_left(subject: Subject) -> bool {
    let mut book = reel_7(subject, 2, 2, 63);
    book.call(Open, 8, 0);
    let mut claimed = |(head, reel, frame): (u64, u64, u64)| (book.call_with(head, Claim, reel, frame).0, book.left);
    let claims = [(0, 7, 63), (4, 7, 64), (0, 8, 1), (1, 9, 64), (1, 7, 2), (1, 7, 63), (1, 7, 64), (1, 8, 1), (2, 8, 2)];
    claims.map(|claim| claimed(claim)) == [(0, 0), (11, 0), (12, 0), (5, 0), (9, 0), (13, 0), (8, 0), (0, 15), (13, 0)]
}

/// Two claims in reel 7 and two elsewhere: every crash in a branch-out below a claim, in a fill, in a commit, in an abandon.
fn crashes_with_two_in_one_reel(subject: Subject, rule: Rule) -> bool {
    let mut book = with_frames(Book::of_rule(subject, rule, 3, 5), 63);
    let opened = [8, 9].iter().all(|&reel| book.call(Open, reel, 0).0 == 0);
    let claims = [(0, 7, 63), (2, 8, 12), (3, 9, 13)];
    let claimed = claims.iter().all(|&(head, reel, frame)| book.call_with(head, Claim, reel, frame).0 == 0);
    let calls = [(1, Claim, 64), (0, Fill, 0), (1, Fill, 0), (0, Commit, 0), (1, Abandon, 0)];
    let crashed = calls.iter().all(|&(head, function, frame)| every_crash(&mut book, head, function, frame));
    opened && claimed && crashed && book.frames(7) == (0..64).collect()
}

/// Makes a call in reel 7. True if after every crash in its script the frames are those of before, or those of after; no head is
/// at work, no place claimed.
fn every_crash(book: &mut Book, head: u64, function: Function, frame: u64) -> bool {
    let mut before = book.clone();
    let (answer, _, entries) = book.hold(head, function, 7, frame);
    script::carry_out(&mut book.lent.image, &entries);
    let contents = |book: &mut Book| [7, 8, 9].map(|reel| book.frames(reel));
    let allowed = [contents(&mut before), contents(&mut book.clone())];
    let is_recovered = |image: Buffer, passed: bool| {
        let mut crashed = before.clone();
        crashed.lent.image = image;
        crashed.lent.map.fill(JUNK);
        crashed.lent.heads.fill(JUNK);
        let recovered = crashed.call(Recover, 0, 0).0 == 0 && crashed.lent.heads[..] == [0; 20];
        let listed = allowed[usize::from(passed)..].contains(&contents(&mut crashed));
        let used = |&node: &u64| is_used(&crashed.lent.map, node);
        let clear = |node: u64| crashed.node_word(node, LOCATE) == crashed.node_word(node, SET);
        recovered && listed && (0..crashed.lent.image[2]).filter(used).all(clear)
    };
    let crash_after = |cut: usize| {
        let crash = Crash::after(&before.lent.image, &entries[..cut]);
        (0..crash.mixtures()).all(|number| is_recovered(crash.mixture(number), cut == entries.len()))
    };
    answer == 0 && (0..=entries.len()).all(crash_after)
}

fn case_a(subject: Subject, rule: Rule) -> bool {
    let mut book = Book::of_rule(subject, rule, 4, 16);
    let calls = [(Open, 7, 0), (Claim, 7, 12), (Fill, 0, 0), (Commit, 0, 0), (List, 7, 0), (Has, 7, 13), (Retire, 8, 0)];
    let results: Vec<_> = calls.iter().map(|&(function, reel, frame)| book.call(function, reel, frame)).collect();
    results == [(0, 7, 0), (0, 1, 0), (0, 2, 0), (0, 1, 0), (0, 0, 1), (0, 0, 0), (5, 0, 0)] && book.lent.list[0] == 12
}

/// True if the subject gives the specification's results. Prints those that it does not.
pub fn check(name: &str, subject: Subject) -> bool {
    let results = [
        ("children of level 3", children_of_level_3(subject)),
        ("children of level 30", children_of_level_30(subject)),
        ("fingerprints of edition 1", fingerprints(subject, FIRST)),
        ("fingerprints of edition 2", fingerprints(subject, SECOND)),
        ("fingerprints of an own table", fingerprints(subject, OWN)),
        ("fingerprints of edition 2 in edition 1", fingerprints_of_another(subject, SECOND, FIRST)),
        ("fingerprints of edition 1 in edition 2", fingerprints_of_another(subject, FIRST, SECOND)),
        ("fingerprints of an own table in edition 2", fingerprints_of_another(subject, OWN, SECOND)),
        ("fingerprints of edition 2 on an own table", fingerprints_of_another(subject, SECOND, OWN)),
        ("format writes edition 2", format_writes_2(subject)),
        ("other editions", other_editions(subject)),
        ("a start on edition 1", start_on_edition_1(subject)),
        ("growth in a pool of one node", growth(subject, 1)),
        ("growth in a pool of three", growth(subject, 3)),
        ("two free nodes but no run", no_run(subject)),
        ("four heads", four_heads(subject)),
        ("several heads in one reel", heads_in_one_reel(subject)),
        ("several heads at the root", heads_at_the_root(subject)),
        ("a branch-out below a claim", below_a_claim(subject)),
        ("crashes with two claims in one reel of edition 1", crashes_with_two_in_one_reel(subject, FIRST)),
        ("crashes with two claims in one reel of edition 2", crashes_with_two_in_one_reel(subject, SECOND)),
        ("crashes with two claims in one reel on an own table", crashes_with_two_in_one_reel(subject, OWN)),
        ("places left", places_left(subject)),
        ("no places left of a refused claim", no_places_left(subject)),
        ("case A on edition 1", case_a(subject, FIRST)),
        ("case A on edition 2", case_a(subject, SECOND)),
        ("case A on an own table", case_a(subject, OWN)),
    ];
    let others: [&[_]; 5] =
        [&table_cases(subject), &convert_cases(subject), &path_cases(subject), &tidy_cases(subject), &translate_cases(subject)];
    let results = [&results[..], &others.concat()].concat();
    for (case, _) in results.iter().filter(|(_, right)| !right) {
        println!("{}: not as specified: {}", name, case);
    }
    results.iter().all(|&(_, right)| right)
}
