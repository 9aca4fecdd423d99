//! The cases of scripts for the module with line flushes, with their numbers: word 8 begins line 1, word 64 line 8.
use crate::book::*;
use crate::lines::Lines;
use crate::model::call::Function::*;
use crate::model::fault::Fault;
use crate::model::module::contents;
use crate::model::script::{Entry, BARRIER, FLUSH};
use crate::random::Random;
use crate::subject::Subject;
use crate::translating::{call, Translating};

/// Answer, words used, and the buffer, of which every word was the same before.
fn translated(subject: Subject, script: &[u64], room: usize, image_words: u64) -> (u64, u64, Vec<u64>) {
    let mut translating = Translating::new();
    translating.lend(script, room, &mut Random::new(1));
    translating.lent.module.fill(JUNK);
    let handed = subject.perform(&call(image_words), &mut translating.lent, JUNK);
    let kept = translating.lent.script[..] == *script;
    (handed.answer, if kept { handed.count } else { JUNK }, translating.lent.module.to_vec())
}

fn words(entries: &[Entry]) -> Vec<u64> {
    entries.iter().flat_map(|entry| [entry.0, entry.1]).collect()
}

/// True if it is translated to these entries, and the buffer's other words stay.
fn becomes(subject: Subject, script: &[Entry], room: usize, image_words: u64, module: &[Entry]) -> bool {
    let mut expected = words(module);
    let used = expected.len() as u64;
    expected.resize(room, JUNK);
    translated(subject, &words(script), room, image_words) == (0, used, expected)
}

/// Lines 0 and 2 before the first barrier, in the order in which they were first stored to; line 2 again before the second.
fn lines_of_a_script(subject: Subject) -> bool {
    let script = [(3, 5), (17, 6), (4, 7), BARRIER, (16, 8), BARRIER];
    let module = [(3, 5), (17, 6), (4, 7), (FLUSH, 0), (FLUSH, 2), BARRIER, (16, 8), (FLUSH, 2), BARRIER];
    let falling = [(17, 6), (3, 5), (17, 7), BARRIER, BARRIER];
    let of_falling = [(17, 6), (3, 5), (17, 7), (FLUSH, 2), (FLUSH, 0), BARRIER, BARRIER];
    becomes(subject, &script, 98, 18, &module)
        && becomes(subject, &script, 120, u64::MAX, &module)
        && becomes(subject, &falling, 99, 18, &of_falling)
}

/// No entry; no store; 24 stores to as many lines, which fill the buffer, and to one word.
fn shortest_and_longest(subject: Subject) -> bool {
    let stores = |apart: u64| (0..24).map(move |number| (apart * number, number));
    let script = |apart: u64| stores(apart).chain([BARRIER]).collect::<Vec<_>>();
    let whole: Vec<Entry> = stores(8).chain((0..24).map(|line| (FLUSH, line))).chain([BARRIER]).collect();
    let one: Vec<Entry> = stores(0).chain([(FLUSH, 0), BARRIER]).collect();
    becomes(subject, &[], 98, 0, &[])
        && becomes(subject, &[BARRIER], 98, 0, &[BARRIER])
        && whole.len() == 49
        && becomes(subject, &script(8), 98, 185, &whole)
        && becomes(subject, &script(0), 98, 1, &one)
}

/// Each reason by itself: answer 3, no word used, the buffer as it was.
fn refusals(subject: Subject) -> bool {
    let good = [(3, 5), BARRIER];
    let long: Vec<Entry> = (0..25).map(|number| (number, 0)).chain([BARRIER]).collect();
    let odd = [words(&good), vec![0]].concat();
    let cases: [(Vec<u64>, usize, u64); 16] = [
        (words(&good), 97, 4),
        (words(&good), 0, 4),
        (Vec::new(), 97, 4),
        (odd, 98, 4),
        (vec![3], 98, 4),
        (words(&long), 120, 26),
        (words(&good), 98, 3),
        (words(&good), 98, 0),
        (words(&[(3, 5), (u64::MAX, 1), BARRIER]), 98, u64::MAX),
        (words(&[(3, 5), (u64::MAX, 1)]), 98, 4),
        (words(&[(FLUSH, 0), BARRIER]), 98, 4),
        (words(&[(3, 5), (FLUSH, 0), BARRIER]), 98, u64::MAX),
        (words(&[(3, 5)]), 98, 4),
        (words(&[BARRIER, (3, 5)]), 98, 4),
        (words(&[(3, 5), BARRIER, (FLUSH, 0)]), 98, 4),
        (words(&[(1 << 63, 5), BARRIER]), 98, 1 << 63),
    ];
    let is_refused = |(script, room, image_words): &(Vec<u64>, usize, u64)| {
        translated(subject, script, *room, *image_words) == (3, 0, vec![JUNK; *room])
    };
    becomes(subject, &good, 98, 4, &[(3, 5), (FLUSH, 0), BARRIER]) && cases.iter().all(is_refused)
}

/// With four slots node 0 begins at word 72, in line 9; slot 0 is in line 8.
fn of_case_a(subject: Subject) -> bool {
    let mut book = Book::formatted(subject, 4, 16);
    let (_, _, open) = book.hold(0, Open, 7, 0);
    let node = [(72, 0), (73, 0), (74, 0), (75, 0), (76, 16)];
    let slot = [(64, 7), (FLUSH, 9), (FLUSH, 8), BARRIER, (65, 1), (FLUSH, 8), BARRIER];
    becomes(subject, &open, 98, 64 + 8 + 80 * 16, &[&node[..], &slot].concat())
}

/// Carry out skips flushes, whatever line they name, and refuses a script for its other entries alone.
fn flushes_carried_out(subject: Subject) -> bool {
    let book = Book::formatted(subject, 1, 1);
    let apply = |entries: &[Entry]| {
        let mut book = book.clone();
        book.lent.script.resize(2 * entries.len(), || 0);
        book.lent.script.copy_from_slice(&words(entries));
        (book.hold(0, Apply, 0, 0).0, book.lent.image)
    };
    let mut stored = book.lent.image.clone();
    stored[65] = 9;
    let lines = [0, 8, 18, 19, 64, 1 << 61, FLUSH, u64::MAX];
    let flushes: Vec<Entry> = lines.iter().map(|&line| (FLUSH, line)).collect();
    apply(&flushes) == (0, book.lent.image.clone())
        && apply(&[&flushes[..], &[(65, 9), BARRIER]].concat()) == (0, stored.clone())
        && apply(&[&[(65, 9)], &flushes[..]].concat()) == (0, stored)
        && apply(&[&flushes[..], &[(146, 9)]].concat()) == (3, book.lent.image.clone())
}

/// What word 3 may hold, which held 1, by the request and by the module that takes entry after entry.
fn what_lasts() -> bool {
    let (image, flush, other) = ([1; 16], (FLUSH, 0), (FLUSH, 1));
    let holds = |entries: &[Entry], expected: &[u64]| {
        contents(&image, entries, 3) == expected && Lines::after(&image, entries, Fault::None).contents(3) == expected
    };
    holds(&[], &[1])
        && holds(&[(3, 5)], &[1, 5])
        && holds(&[(3, 5), BARRIER, BARRIER], &[1, 5])
        && holds(&[(3, 5), flush], &[1, 5])
        && holds(&[(3, 5), flush, BARRIER], &[5])
        && holds(&[flush, (3, 5), BARRIER], &[1, 5])
        && holds(&[(3, 5), BARRIER, flush], &[1, 5])
        && holds(&[(3, 5), BARRIER, flush, BARRIER], &[5])
        && holds(&[(3, 5), other, BARRIER], &[1, 5])
        && holds(&[(4, 5), flush, BARRIER], &[1])
        && holds(&[(3, 5), (3, 6), (3, 7)], &[1, 5, 6, 7])
        && holds(&[(3, 5), flush, (3, 6), BARRIER], &[5, 6])
        && holds(&[(3, 5), (3, 6), flush, BARRIER, (3, 7)], &[6, 7])
        && holds(&[(3, 5), flush, BARRIER, (3, 6), BARRIER, (3, 7), flush], &[5, 6, 7])
}

/// Which of them come out as specified.
pub fn translate_cases(subject: Subject) -> [(&'static str, bool); 6] {
    [
        ("the lines of a script", lines_of_a_script(subject)),
        ("the shortest and the longest script translated", shortest_and_longest(subject)),
        ("translate's refusals", refusals(subject)),
        ("an open of case A translated", of_case_a(subject)),
        ("flushes carried out", flushes_carried_out(subject)),
        ("what lasts on the module", what_lasts()),
    ]
}
