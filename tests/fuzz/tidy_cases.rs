//! The cases of groups that are given back, with their numbers. With one slot the words of node n begin at 66 + 80 n.
use crate::book::*;
use crate::cases::{reel_7, with_frames};
use crate::crash::Crash;
use crate::model::buffer::Buffer;
use crate::model::call::{Function, Function::*, Lent};
use crate::model::image::*;
use crate::model::node::*;
use crate::model::rule::*;
use crate::model::script::{self, SCRIPT_WORDS};
use crate::subject::Subject;
use std::collections::BTreeSet;

/// Answer, words of script, and the first word of the image that it stores to, of a tidy of reel 7; and the map after it. The
/// script is carried out; it stores 0.
fn tidy(book: &mut Book) -> (u64, u64, u64, u64) {
    let (answer, used, entries) = book.hold(0, Tidy, 7, 0);
    script::carry_out(&mut book.lent.image, &entries);
    let stored = match entries[..] {
        [(index, 0), (u64::MAX, 0)] => index,
        _ => 0,
    };
    (answer, used, stored, book.lent.map[0])
}

/// No child, with no frame and with 64; a child that holds the 65th, or has it claimed.
fn nothing_to_give_back(subject: Subject) -> bool {
    let mut book = reel_7(subject, 1, 3, 0);
    let empty = tidy(&mut book);
    let full = tidy(&mut reel_7(subject, 1, 3, 64));
    let mut book = reel_7(subject, 1, 3, 65);
    let held = tidy(&mut book);
    let claimed = (book.claims(&[(1, 65)]), tidy(&mut book));
    let no_reel = book.call(Tidy, 8, 0);
    empty == (18, 0, 0, 1)
        && full == (18, 0, 0, 1)
        && held == (18, 0, 0, 7)
        && claimed == (vec![0], (13, 0, 0, 7))
        && no_reel == (5, 0, 0)
}

/// The 65th frame has gone, or its claim is given back: the root's children go, and come again with the next.
fn a_group_given_back(subject: Subject, rule: Rule) -> bool {
    let mut book = with_frames(Book::of_rule(subject, rule, 1, 3), 65);
    let removed = (book.call(Remove, 7, 64).0, tidy(&mut book), book.frames(7).len(), tidy(&mut book));
    let lookup = (book.call(Has, 7, 63), book.path_nodes);
    let claimed = (book.claims(&[(0, 65)]), book.call(Abandon, 0, 0).0, tidy(&mut book));
    let added = (book.add(7, 65), tidy(&mut book));
    removed == (0, (0, 4, 66, 1), 64, (18, 0, 0, 1))
        && lookup == ((0, 0, 1), 1)
        && claimed == (vec![0], 0, (0, 4, 66, 1))
        && added == ((0, 2, 0), (18, 0, 0, 7))
}

/// Frames 8 to 8 * 193 fill nodes 0, 1 and 3, and the last is in node 5; 65 odd ones fill node 2, and the last is in node 7. In
/// the order of List node 3, of level 2, comes before node 2, of level 1.
fn in_the_order_of_list(subject: Subject) -> bool {
    let mut book = Book::formatted(subject, 1, 9);
    book.call(Open, 7, 0);
    let frames = (1..=193).map(|number| 8 * number).chain((0..65).map(|number| 8 * number + 1));
    let nodes: Vec<_> = frames.map(|frame| book.add(7, frame)).collect();
    let grown = nodes[192] == (0, 5, 0) && nodes[193] == (0, 2, 0) && nodes[257] == (0, 7, 0) && book.lent.map[0] == 0x1ff;
    let before = tidy(&mut book);
    let removed = [8 * 193, 8 * 64 + 1].map(|frame| book.call(Remove, 7, frame).0);
    let given = [(); 3].map(|_| tidy(&mut book));
    let left = book.frames(7).len();
    // Node 3 is emptied too, and then node 1: its children go, then those of the root stay, since node 2 holds frames.
    let frames: Vec<u64> = (65..=192).map(|number| 8 * number).collect();
    let gone = frames.iter().all(|&frame| book.call(Remove, 7, frame).0 == 0);
    let again = [(); 2].map(|_| tidy(&mut book));
    grown
        && before == (18, 0, 0, 0x1ff)
        && removed == [0, 0]
        && given == [(0, 4, 66 + 240, 0x19f), (0, 4, 66 + 160, 0x1f), (18, 0, 0, 0x1f)]
        && left == 256
        && gone
        && again == [(0, 4, 66 + 80, 7), (18, 0, 0, 7)]
}

/// Nested groups with nothing in them: the lower one first, one for each call.
fn nested_groups(subject: Subject) -> bool {
    let mut book = reel_7(subject, 1, 5, 64);
    let even: Vec<u64> = (32..=96).map(|number| 2 * number).collect();
    let added = even.iter().all(|&frame| book.add(7, frame).0 == 0) && book.lent.map[0] == 31;
    let gone = even.iter().all(|&frame| book.call(Remove, 7, frame).0 == 0);
    let given = [(); 3].map(|_| tidy(&mut book));
    added && gone && given == [(0, 4, 146, 7), (0, 4, 66, 1), (18, 0, 0, 1)] && book.frames(7) == (0..64).collect()
}

/// Level 3 has four children: nodes 7 to 10 below node 5. While one of them holds a frame, none goes.
fn a_group_of_four(subject: Subject) -> bool {
    let mut book = Book::formatted(subject, 1, 11);
    book.call(Open, 7, 0);
    let held = (1..=256).map(|number| 32 * number).chain([0, 8, 16, 24]).all(|frame| book.add(7, frame).0 == 0);
    let mut tidied = Vec::new();
    for frame in [8, 0, 24, 16] {
        tidied.push(tidy(&mut book));
        book.call(Remove, 7, frame);
    }
    let given = (tidy(&mut book), book.frames(7).len());
    held && tidied == [(18, 0, 0, 0x7ff); 4] && given == ((0, 4, 66 + 400, 0x7f), 256)
}

/// One word of one child that is not 0: nothing is given back, or what that child has.
fn one_word_of_a_child(subject: Subject) -> bool {
    let mut book = reel_7(subject, 1, 7, 65);
    book.call(Remove, 7, 64);
    for node in 3..7 {
        let words = [(NEXT, 0), (LOCATE, 0), (SET, 0), (LEVEL_AT, 2), (SIZE_AT, 64)];
        words.iter().for_each(|&(word, value)| book.lent.image[(node_index(1, node) + word) as usize] = value);
    }
    let with = |node: u64, word: u64, value: u64| {
        let mut book = book.clone();
        book.lent.image[(node_index(1, node) + word) as usize] = value;
        tidy(&mut book)
    };
    let is_kept = |node: u64, word: u64| with(node, word, 1).0 == 18 && with(node, word, 1 << 63).0 == 18;
    let bits = [1, 2].iter().all(|&node| is_kept(node, LOCATE) && is_kept(node, SET));
    let links = [with(1, NEXT, 4), with(2, NEXT, 4), with(2, NEXT, 6), with(2, NEXT, 7), with(2, NEXT, 3)];
    let answers = links.map(|(answer, _, stored, _)| (answer, stored));
    bits && with(1, SET, 0) == (0, 4, 66, 1) && answers == [(0, 146), (0, 226), (0, 226), (4, 0), (4, 0)]
}

/// A node of level 1, and a level that is not its own.
const LEVEL_OF_NODE_2: usize = 66 + 160 + LEVEL_AT as usize;

/// Reel 7 with 65 frames, and all wrong that can be.
fn all_wrong(subject: Subject) -> Book {
    let mut book = with_frames(Book::with_table(subject, 1, 3, Some(&turned())), 65);
    book.lent.image.resize(305, || JUNK);
    (book.lent.image[0], book.lent.image[OWN_AT], book.lent.image[LEVEL_OF_NODE_2]) = (3, 2, 2);
    write_head(&mut book.lent.heads, 3, [2, 0, JUNK, JUNK, JUNK]);
    book.lent.map = Buffer::of([7, 7]);
    book.lent.scratch.resize(2, || JUNK);
    book.lent.script = Buffer::of([JUNK; SCRIPT_WORDS - 1]);
    book
}

/// One thing after the other is put right. Script and map are never written, the scratch map from 4 on.
fn sequence_of_refusals(subject: Subject) -> bool {
    let mut book = all_wrong(subject);
    let mut is_refused = |answer: u64, reel: u64, put_right: fn(&mut Lent)| {
        book.lent.scratch.fill(JUNK);
        let handed = book.hold(0, Tidy, reel, 0);
        let scratch = if answer <= 3 { JUNK } else { 0 };
        let kept = book.lent.map[0] == 7 && book.lent.script.iter().all(|&word| word == JUNK);
        let cleared = book.lent.scratch.iter().all(|&word| word == scratch);
        put_right(&mut book.lent);
        handed == (answer, 0, Vec::new()) && kept && cleared
    };
    let refused = is_refused(1, 8, |lent| lent.image.resize(306, || JUNK))
        && is_refused(2, 8, |lent| lent.image[0] = 2)
        && is_refused(3, 8, |lent| lent.map.resize(1, || JUNK))
        && is_refused(3, 8, |lent| lent.scratch.resize(1, || JUNK))
        && is_refused(3, 8, |lent| lent.script.resize(SCRIPT_WORDS, || JUNK))
        && is_refused(4, 8, |lent| lent.image[OWN_AT] = 1)
        && is_refused(5, 8, |_| ())
        && is_refused(13, 7, |lent| write_head(&mut lent.heads, 3, [2, 1, JUNK, JUNK, JUNK]))
        && is_refused(4, 7, |lent| lent.image[LEVEL_OF_NODE_2] = 1)
        && is_refused(18, 7, |_| ());
    let given = (book.call(Remove, 7, 64).0, tidy(&mut book));
    refused && given == (0, (0, 4, 66, 1))
}

/// The maps after every crash in a call on reel 7, cut after each number of entries; the reel has frames 0 to 63 then.
fn maps_after_crashes(book: &mut Book, function: Function, frame: u64) -> Vec<BTreeSet<u64>> {
    let image = book.lent.image.clone();
    let (_, _, entries) = book.hold(0, function, 7, frame);
    let mut map = |crash: &Crash, number: u64| {
        book.lent.image = crash.mixture(number);
        book.lent.map.fill(JUNK);
        book.lent.heads.fill(JUNK);
        let recovered = book.call(Recover, 0, 0).0 == 0 && book.lent.heads[..] == [0; 20];
        if recovered && book.frames(7) == (0..64).collect() {
            book.lent.map[0]
        } else {
            JUNK
        }
    };
    let crashes = (0..=entries.len()).map(|cut| Crash::after(&image, &entries[..cut]));
    crashes.map(|crash| (0..crash.mixtures()).map(|number| map(&crash, number)).collect()).collect()
}

/// Power fails in a tidy: the group is there, or it is not. It fails in the claim that branches out, which has 12 entries to the
/// link: a tidy then gives the group back that is left.
fn cut_short(subject: Subject, rule: Rule) -> bool {
    let (before, either, after) = (BTreeSet::from([7]), BTreeSet::from([1, 7]), BTreeSet::from([1]));
    let mut book = with_frames(Book::of_rule(subject, rule, 1, 3), 65);
    book.call(Remove, 7, 64);
    let tidied = maps_after_crashes(&mut book, Tidy, 0) == [before.clone(), either.clone(), after.clone()];
    let mut book = with_frames(Book::of_rule(subject, rule, 1, 3), 64);
    let claimed = [vec![after; 12], vec![either], vec![before; 3]].concat();
    let cut = maps_after_crashes(&mut book, Claim, 64) == claimed;
    let given = tidy(&mut book);
    tidied && cut && given == (0, 4, 66, 1) && (book.call(Has, 7, 63), book.path_nodes) == ((0, 0, 1), 1)
}

/// Four nodes: reel 7 has three of them, and reel 8 the last, with 64 frames. The 65th is refused, until the two children of the
/// other reel are given back. A group of two is no room for four.
fn room_for_a_claim(subject: Subject, rule: Rule) -> bool {
    let mut book = with_frames(Book::of_rule(subject, rule, 2, 4), 65);
    book.call(Open, 8, 0);
    let full = (0..64).all(|frame| book.add(8, frame).0 == 0);
    let claim = |book: &mut Book| (book.call(Claim, 8, 65).0, Head::read(&book.lent.heads, 0).node);
    let mut answers = vec![claim(&mut book)];
    book.call(Tidy, 7, 0);
    answers.push(claim(&mut book));
    book.call(Remove, 7, 64);
    answers.push(claim(&mut book));
    let given = book.call(Tidy, 7, 0);
    answers.push(claim(&mut book));
    let mut deep = Book::of_rule(subject, rule, 2, 10);
    deep.call(Open, 7, 0);
    deep.call(Open, 8, 0);
    let filled = (0..65).all(|frame| deep.add(8, frame).0 == 0) && (1..=256).all(|number| deep.add(7, 32 * number).0 == 0);
    let refused = (deep.call(Claim, 7, 8).0, deep.call(Remove, 8, 64).0, deep.call(Tidy, 8, 0), deep.call(Claim, 7, 8).0);
    full && answers == [(8, 0), (8, 0), (8, 0), (0, 2)] && given == (0, 1, 0) && filled && refused == (8, 0, (0, 1, 0), 8)
}

/// Which of them come out as specified.
pub fn tidy_cases(subject: Subject) -> [(&'static str, bool); 15] {
    [
        ("nothing to give back", nothing_to_give_back(subject)),
        ("a group given back on edition 1", a_group_given_back(subject, FIRST)),
        ("a group given back on edition 2", a_group_given_back(subject, SECOND)),
        ("a group given back on an own table", a_group_given_back(subject, OWN)),
        ("groups given back in the order of list", in_the_order_of_list(subject)),
        ("nested groups", nested_groups(subject)),
        ("a group of four", a_group_of_four(subject)),
        ("one word of a child", one_word_of_a_child(subject)),
        ("the sequence of tidy's refusals", sequence_of_refusals(subject)),
        ("power fails in tidy on edition 1", cut_short(subject, FIRST)),
        ("power fails in tidy on edition 2", cut_short(subject, SECOND)),
        ("power fails in tidy on an own table", cut_short(subject, OWN)),
        ("room for a claim on edition 1", room_for_a_claim(subject, FIRST)),
        ("room for a claim on edition 2", room_for_a_claim(subject, SECOND)),
        ("room for a claim on an own table", room_for_a_claim(subject, OWN)),
    ]
}
