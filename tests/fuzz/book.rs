//! A book with its buffers, for the specification's own cases: each call lends them, and its script is carried out.
use crate::model::buffer::Buffer;
use crate::model::call::{Call, Function, Function::*, Handed, Lent};
use crate::model::image::*;
use crate::model::rule::Rule;
use crate::model::script::{self, Entry, SCRIPT_WORDS};
use crate::model::translate::MODULE_WORDS;
use crate::subject::Subject;
use std::collections::BTreeSet;

/// Every operation but Format.
pub const OPERATIONS: [Function; 12] = [Recover, Open, Claim, Fill, Commit, Abandon, Remove, Has, List, Retire, Tidy, Convert];

/// What every word holds before it is written, so that no result is there already.
pub const JUNK: u64 = 0x5a5a_5a5a_5a5a_5a5a;

/// Answer, node and place of a claim.
pub type Claimed = (u64, u64, u64);

#[derive(Clone)]
pub struct Book {
    pub subject: Subject,
    pub lent: Lent,
    /// The places left that the last call handed back, and the nodes on the path.
    pub left: u64,
    pub path_nodes: u64,
}

impl Book {
    pub fn formatted(subject: Subject, slots: u64, nodes: u64) -> Book {
        Book::with_table(subject, slots, nodes, None)
    }

    pub fn with_table(subject: Subject, slots: u64, nodes: u64, table: Option<&[u8]>) -> Book {
        let junk = |words: u64| Buffer::of((0..words).map(|_| JUNK));
        let lent = Lent {
            image: junk(image_words(slots, nodes)),
            copy: junk(image_words(slots, nodes)),
            map: junk(map_words(nodes)),
            heads: junk(HEADS * HEAD_WORDS as u64),
            script: junk(SCRIPT_WORDS as u64),
            scratch: junk(map_words(nodes)),
            list: junk(1024),
            module: junk(MODULE_WORDS as u64 + 2),
            table: None,
        };
        let mut book = Book { subject, lent, left: 0, path_nodes: 0 };
        book.format(slots, nodes, table);
        book
    }

    /// An empty book. Edition 1 is no longer what Format writes, but what Recover takes.
    pub fn of_rule(subject: Subject, rule: Rule, slots: u64, nodes: u64) -> Book {
        let table = turned();
        let mut book = Book::with_table(subject, slots, nodes, if rule.own { Some(&table) } else { None });
        book.lent.image[0] = rule.edition();
        book.call(Recover, 0, 0);
        book
    }

    pub fn format(&mut self, slots: u64, nodes: u64, table: Option<&[u8]>) -> u64 {
        let format = Call { function: Format, slots, nodes, head: 0, reel: 0, frame: 0, words: 0 };
        self.lent.table = table.map(|table| Buffer::of(table.iter().copied()));
        self.subject.perform(&format, &mut self.lent, JUNK).answer
    }

    /// Answer, stores and value, as the bench program prints them; a refusal's value is the count that it handed back.
    pub fn call(&mut self, function: Function, reel: u64, frame: u64) -> (u64, u64, u64) {
        self.call_with(0, function, reel, frame)
    }

    pub fn call_with(&mut self, head: u64, function: Function, reel: u64, frame: u64) -> (u64, u64, u64) {
        let (answer, count, entries) = self.hold(head, function, reel, frame);
        if answer != 0 || matches!(function, Has | List) {
            return (answer, 0, count);
        }
        script::carry_out(&mut self.lent.image, &entries);
        (answer, script::stores(&entries), 0)
    }

    /// Answer, count, and the entries handed out, which are not carried out.
    pub fn hold(&mut self, head: u64, function: Function, reel: u64, frame: u64) -> (u64, u64, Vec<Entry>) {
        let call = Call { function, slots: 0, nodes: 0, head, reel, frame, words: 0 };
        let Handed { answer, count, left, path_nodes } = self.subject.perform(&call, &mut self.lent, JUNK);
        (self.left, self.path_nodes) = (left, path_nodes);
        let scripted = answer == 0 && !matches!(function, Has | List | Recover);
        let used = if scripted { (count as usize).min(SCRIPT_WORDS) } else { 0 };
        (answer, count, script::read(&self.lent.script[..used]))
    }

    /// The answers of claims in reel 7, by head and frame.
    pub fn claims(&mut self, claims: &[(u64, u64)]) -> Vec<u64> {
        claims.iter().map(|&(head, frame)| self.call_with(head, Claim, 7, frame).0).collect()
    }

    pub fn frames(&mut self, reel: u64) -> BTreeSet<u64> {
        let (_, _, count) = self.call(List, reel, 0);
        self.lent.list.iter().copied().take(count as usize).collect()
    }

    pub fn add(&mut self, reel: u64, frame: u64) -> Claimed {
        let (answer, _, _) = self.call(Claim, reel, frame);
        let head = Head::read(&self.lent.heads, 0);
        self.call(Fill, 0, 0);
        self.call(Commit, 0, 0);
        (answer, head.node, head.place)
    }

    pub fn node_word(&self, node: u64, word: u64) -> u64 {
        self.lent.image[(node_index(self.lent.image[1], node) + word) as usize]
    }
}

/// An own table in which entry i is i + 1: folding n zeros gives n.
pub fn turned() -> Vec<u8> {
    (0..=255u8).map(|index| index.wrapping_add(1)).collect()
}
