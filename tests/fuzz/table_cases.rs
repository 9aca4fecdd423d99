//! The cases of a table that Format is given, of one that is bad, and of one that is not read.
use crate::book::*;
use crate::model::buffer::Buffer;
use crate::model::call::{Function, Function::*};
use crate::model::image::*;
use crate::model::node::FINGERPRINTS;
use crate::model::rule::*;
use crate::model::script::SCRIPT_WORDS;
use crate::subject::Subject;

/// Words 0 to 63 of a format in which entry i of the table is 255 - i, and of one over it without a table. One that equals ours
/// is an own one too.
fn format_stores_a_table(subject: Subject) -> bool {
    let falling: Vec<u8> = (0..=255).rev().collect();
    let mut book = Book::with_table(subject, 1, 1, Some(&falling));
    let stored = book.lent.image[..64].to_vec();
    let step = 0x0808_0808_0808_0808;
    let words: Vec<u64> = (0..32).map(|word| 0xf8f9_fafb_fcfd_feff - word * step).collect();
    let own = [&[2, 1, 1, 1, 0, 0, 0, 0], &words[..], &[0; 24]].concat();
    let without = |book: &Book| book.lent.image[..3] == [2, 1, 1] && book.lent.image[3..64] == [0; 61];
    let answers = (book.format(1, 1, None), without(&book), book.format(1, 1, Some(&our_table())));
    // Entries 0 to 7 of ours are 13, 180, 91, 2, 169, 80, 247, 158.
    stored == own && answers == (0, true, 0) && (book.lent.image[3], book.lent.image[8]) == (1, 0x9ef7_50a9_025b_b40d)
}

/// Of 256 bytes and each of them, or none at all; refused after 1 and 3, with nothing written.
fn given_tables(subject: Subject) -> bool {
    let good = turned();
    let twice = [&good[..], &good[..]].concat();
    let (mut first, mut last) = (good.clone(), good.clone());
    (first[0], last[255]) = (good[1], good[100]);
    let bad: [&[u8]; 8] = [&good[..1], &good[..255], &twice[..257], &twice[..], &[0; 256], &[7; 255], &first, &last];
    let mut book = Book::with_table(subject, 1, 1, Some(&good));
    book.lent.map.fill(JUNK);
    let before = book.lent.image.clone();
    let is_refused = |book: &mut Book, table: &[u8]| {
        let answers = [book.format(1, 2, Some(table)), book.format(1, 1, Some(table))];
        let map = std::mem::replace(&mut book.lent.map, Buffer::of([JUNK, JUNK]));
        let answer = book.format(1, 1, Some(table));
        book.lent.map = map;
        (answers, answer) == ([1, 16], 3) && book.lent.image == before && book.lent.map[0] == JUNK
    };
    let refused = bad.iter().all(|table| is_refused(&mut book, table));
    let taken = [None, Some(&[][..]), Some(&good[..])].map(|table| (book.format(1, 1, table), book.lent.image[3]));
    refused && taken == [(0, 0), (0, 0), (0, 1)]
}

/// The book of a reel without a frame, its word 3 and its table.
fn with_table_words(subject: Subject, edition: u64, own: u64, table: &[u8]) -> Book {
    let mut book = Book::formatted(subject, 1, 1);
    book.call(Open, 7, 0);
    (book.lent.image[0], book.lent.image[OWN_AT]) = (edition, own);
    book.lent.image[TABLE_AT..][..TABLE_WORDS].copy_from_slice(&packed(table));
    book
}

/// In edition 2 word 3 above 1, or a table that lacks a byte where it is 1: every operation but Format answers 4, just after 3.
/// Recover's map and the scratch maps are 0 then. Carry out reads no table.
fn bad_tables(subject: Subject) -> bool {
    let good = turned();
    let (mut first, mut last) = (good.clone(), good.clone());
    (first[0], last[255]) = (good[1], good[100]);
    let (above, lacking) = ([2, 3, 1 << 32, 1 << 32 | 1, 1 << 63, u64::MAX], [&first[..], &last[..], &[0; 256]]);
    let bad = above.iter().map(|&own| (own, &good[..])).chain(lacking.iter().map(|&table| (1, table)));
    bad.into_iter().all(|(own, table)| is_refused(&with_table_words(subject, 2, own, table)))
}

fn is_refused(bad: &Book) -> bool {
    // Reel 8 is not there and reel 7 is; heads 0 and 1 are idle and claimed, outside; 4 is none.
    let refuses = |&function: &Function| {
        [(0, 7), (1, 8), (4, 9)].iter().all(|&(head, reel)| {
            let mut book = bad.clone();
            book.lent.heads.fill(0);
            write_head(&mut book.lent.heads, 1, [1, 0, JUNK, JUNK, JUNK]);
            book.lent.map.fill(JUNK);
            let before = book.lent.clone();
            let handed = book.hold(head, function, reel, 0);
            let cleared = match function {
                Recover => &mut book.lent.map,
                _ => &mut book.lent.scratch,
            };
            let clear = !matches!(function, Recover | List | Retire | Tidy | Convert) || cleared[..] == [0];
            cleared.fill(JUNK);
            handed == (4, 0, Vec::new()) && clear && book.left == 0 && book.lent == before
        })
    };
    let buffers = |&function: &Function| {
        let mut book = bad.clone();
        book.lent.map.resize(2, || JUNK);
        book.lent.scratch.resize(2, || JUNK);
        book.lent.script.resize(SCRIPT_WORDS - 1, || JUNK);
        let before = book.lent.clone();
        book.hold(0, function, 8, 0).0 == if function == Has { 4 } else { 3 } && book.lent == before
    };
    let mut book = bad.clone();
    book.lent.script = Buffer::of([u64::MAX, 0]);
    let applied = book.call(Apply, 0, 0).0;
    OPERATIONS.iter().all(|function| refuses(function) && buffers(function)) && applied == 0 && book.format(1, 1, None) == 0
}

/// Edition 1 reads neither word 3 nor a table, edition 2 no table where word 3 is 0: all goes as over ours.
fn unread_tables(subject: Subject) -> bool {
    let (good, lacking) = (turned(), [0; 256]);
    let unread = [(1, 1, &good[..]), (1, 1, &lacking), (1, 2, &good), (1, u64::MAX, &lacking), (2, 0, &good), (2, 0, &lacking)];
    unread.iter().all(|&(edition, own, table)| {
        let mut book = with_table_words(subject, edition, own, table);
        let header = book.lent.image[..64].to_vec();
        let added = (book.add(7, 0).0, book.call(Recover, 0, 0).0, book.call(Has, 7, 0).2, book.frames(7));
        let print = book.node_word(0, FINGERPRINTS) & 255;
        let gone = (book.call(Remove, 7, 0).0, book.call(Retire, 7, 0).0);
        let done = added == (0, 0, 1, [0].into()) && gone == (0, 0);
        done && print == if edition == 1 { 144 } else { 32 } && book.lent.image[..64] == header
    })
}

/// Which of them come out as specified.
pub fn table_cases(subject: Subject) -> [(&'static str, bool); 4] {
    [
        ("format stores a table", format_stores_a_table(subject)),
        ("tables given to format", given_tables(subject)),
        ("bad tables", bad_tables(subject)),
        ("tables that are not read", unread_tables(subject)),
    ]
}
