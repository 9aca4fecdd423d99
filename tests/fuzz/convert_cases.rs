//! The cases of an image that is converted: the words of the copy, the refusals, and a book that goes on with it.
use crate::book::*;
use crate::model::buffer::Buffer;
use crate::model::call::Function::*;
use crate::model::image::*;
use crate::model::rule::*;
use crate::subject::Subject;

/// Two slots and three nodes of edition 1, in memory full of junk. Slot 0 is empty; reel 7 has its root in node 2. Frames 0, 1
/// and 2^32 are held there, the last one not located; place 3 is filled with 2^56, and place 4 is claimed.
fn image_of_edition_1(subject: Subject) -> Book {
    let mut book = Book::formatted(subject, 2, 3);
    book.lent.image.fill(JUNK);
    book.lent.copy.fill(JUNK);
    let mut put = |at: usize, words: &[u64]| book.lent.image[at..][..words.len()].copy_from_slice(words);
    put(0, &[1, 2, 3]);
    put(65, &[0, 7, 3]);
    put(228, &[0, 0b11011, 0b00111, 0, 16]);
    put(236, &[JUNK >> 32 << 32 | 0x90_90_71_90]);
    put(244, &[0, 1, 1 << 32, 1 << 56]);
    book
}

/// What is not 0 in the copy: the words of the node from 228 on, and before them those of the header and the slot. The
/// fingerprints of 0, 1 and 2^32 are 32, 225 and 1 in edition 2, and 144, 113 and 144 in edition 1.
fn copy_of_edition(edition: u64) -> Vec<u64> {
    let mut words = vec![0; 308];
    words[..3].copy_from_slice(&[edition, 2, 3]);
    words[66..68].copy_from_slice(&[7, 3]);
    words[228..233].copy_from_slice(&[0, 0b00111, 0b00111, 0, 16]);
    words[236] = if edition == 2 { 0x01_e1_20 } else { 0x90_71_90 };
    words[244..247].copy_from_slice(&[0, 1, 1 << 32]);
    words
}

/// There and back, word by word; the image is left as it was, and the scratch map is clear.
fn words_of_a_copy(subject: Subject) -> bool {
    let mut book = image_of_edition_1(subject);
    let before = book.lent.image.clone();
    let there = (book.call(Convert, 0, 0).0, book.lent.scratch[0]) == (0, 0);
    let copied = book.lent.copy[..] == copy_of_edition(2) && book.lent.image == before;
    std::mem::swap(&mut book.lent.image, &mut book.lent.copy);
    let back = book.call(Convert, 0, 0).0 == 0 && book.lent.copy[..] == copy_of_edition(1);
    there && copied && back && book.lent.image[..] == copy_of_edition(2)
}

/// All is wrong at once, and then one after the other is put right: the image's length, the second one's, which is too short and
/// then too long, the edition, the scratch map, a level. The second image is never written, the scratch map from 4 on.
fn sequence_of_refusals(subject: Subject) -> bool {
    let mut book = Book::with_table(subject, 2, 3, Some(&turned()));
    book.call(Open, 7, 0);
    let image = book.lent.image.clone();
    let node = node_index(2, 0) as usize;
    book.lent.image.resize(307, || JUNK);
    book.lent.copy.resize(307, || JUNK);
    book.lent.scratch.resize(2, || JUNK);
    (book.lent.image[0], book.lent.image[node + 3]) = (3, 1);
    let mut answers = vec![book.call(Convert, 0, 0).0];
    book.lent.image.resize(308, || JUNK);
    answers.push(book.call(Convert, 0, 0).0);
    book.lent.copy.resize(309, || JUNK);
    answers.push(book.call(Convert, 0, 0).0);
    book.lent.copy.resize(308, || JUNK);
    answers.push(book.call(Convert, 0, 0).0);
    book.lent.image[0] = 2;
    answers.push(book.call(Convert, 0, 0).0);
    let kept = book.lent.scratch[..] == [JUNK, JUNK];
    book.lent.scratch.resize(1, || JUNK);
    answers.push(book.call(Convert, 0, 0).0);
    let cleared = std::mem::replace(&mut book.lent.scratch, Buffer::of([JUNK]))[0];
    book.lent.image[node + 3] = 0;
    answers.push(book.call(Convert, 0, 0).0);
    let clear = kept && (cleared, book.lent.scratch[0]) == (0, 0);
    let unwritten = book.lent.copy.iter().all(|&word| word == JUNK) && book.lent.image[..307] == image[..307];
    answers == [1, 1, 1, 2, 3, 4, 17] && clear && unwritten
}

/// A table that is not read goes, from either edition. One that equals ours is an own one too.
fn tables_converted(subject: Subject) -> bool {
    let answer = |edition: u64, own: u64, table: &[u8]| {
        let mut book = Book::formatted(subject, 1, 1);
        (book.lent.image[0], book.lent.image[OWN_AT]) = (edition, own);
        book.lent.image[TABLE_AT..][..TABLE_WORDS].copy_from_slice(&packed(table));
        let answer = book.call(Convert, 0, 0).0;
        (answer, book.lent.copy[0], book.lent.copy[3..].iter().all(|&word| word == 0))
    };
    let (ours, lacking) = (our_table(), [7; 256]);
    let converted = [(1, 1, &ours[..]), (1, 2, &lacking), (1, u64::MAX, &ours), (2, 0, &ours), (2, 0, &lacking)];
    let refused = [(1, &ours[..], 17), (1, &turned(), 17), (1, &lacking, 4), (2, &ours, 4), (1 << 32, &ours, 4)];
    converted.iter().all(|&(edition, own, table)| answer(edition, own, table) == (0, 3 - edition, true))
        && refused.iter().all(|&(own, table, number)| answer(2, own, table) == (number, JUNK, false))
}

/// Frames 12 and 2^40, a claim and a filled one in other reels. Recover takes the copy as it is, and it goes on in its edition:
/// the frames are found, the claims are lost, a frame comes and one goes, and a format makes it edition 2.
fn copy_goes_on(subject: Subject, rule: Rule) -> bool {
    let mut book = Book::of_rule(subject, rule, 3, 3);
    let opened = [7, 8, 9].map(|reel| book.call(Open, reel, 0).0) == [0; 3];
    let added = [book.add(7, 12).0, book.add(7, 1 << 40).0, book.call_with(0, Claim, 8, 12).0, book.call_with(1, Claim, 9, 13).0];
    book.call_with(1, Fill, 0, 0);
    book.lent.copy.fill(JUNK);
    let converted = book.call(Convert, 0, 0).0;
    std::mem::swap(&mut book.lent.image, &mut book.lent.copy);
    book.lent.heads.fill(JUNK);
    book.lent.map.fill(JUNK);
    let copy = book.lent.image.clone();
    let recovered = (book.call(Recover, 0, 0).0, book.lent.map[0], book.lent.image[0]);
    let taken = book.lent.image == copy && book.lent.heads[..] == [0; 20];
    let frames = [7, 8, 9].map(|reel| book.frames(reel)) == [[12, 1 << 40].into(), [].into(), [].into()];
    let found = [12, 1 << 40, 13].map(|frame| book.call(Has, 7, frame).2);
    let goes_on = (book.add(7, 13), book.call(Remove, 7, 1 << 40).0, book.call(Recover, 0, 0).0, book.frames(7));
    let formatted = (book.format(3, 3, None), book.lent.image[0]);
    opened
        && (added, converted) == ([0; 4], 0)
        && recovered == (0, 7, 3 - rule.edition())
        && taken
        && frames
        && found == [1, 1, 0]
        && goes_on == ((0, 0, 2), 0, 0, [12, 13].into())
        && formatted == (0, 2)
}

/// Which of them come out as specified.
pub fn convert_cases(subject: Subject) -> [(&'static str, bool); 5] {
    [
        ("an image converted word by word", words_of_a_copy(subject)),
        ("the sequence of convert's refusals", sequence_of_refusals(subject)),
        ("images with a table converted", tables_converted(subject)),
        ("a book goes on with its copy of edition 2", copy_goes_on(subject, FIRST)),
        ("a book goes on with its copy of edition 1", copy_goes_on(subject, SECOND)),
    ]
}
