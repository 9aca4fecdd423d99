//! Histories, with crashes, held against the plain table: every answer, what Has and List read, and at any time the book as a
//! whole.
use crate::coverage::{Claims, Coverage};
use crate::model::buffer::Buffer;
use crate::model::call::{Call, Function, Handed, Lent};
use crate::model::claim::node_used;
use crate::model::fault::Fault;
use crate::model::format::header;
use crate::model::image::*;
use crate::model::left::Claimed;
use crate::model::loads::Loads;
use crate::model::rule::*;
use crate::model::script::{self, Entry, BARRIER};
use crate::model::table::{Fed, Reply, Table, Value};
use crate::plan::Plan;
use crate::random::Random;
use crate::recovery::deepest;
use crate::report::describe;
use crate::start::start;
use crate::subject::Subject;
use crate::tables;
use crate::translating::Translating;

pub struct History<'a> {
    pub random: Random,
    pub subject: Subject,
    pub coverage: &'a mut Coverage,
    pub lent: Lent,
    pub table: Table,
    /// How full the reels have been that were opened in the run.
    pub loads: Loads,
    pub plan: Plan,
    /// The header that the image is to have: as it was found, or as the last format has to write it.
    pub header: [u64; HEADER_WORDS as usize],
    /// It is a copy, with which the history went on.
    pub copied: bool,
    /// Power fails on the module with line flushes, and not on the present one.
    pub on_lines: bool,
    pub translating: Translating,
    /// The last script that was handed out, as the module gets it.
    pub translated: Vec<Entry>,
}

pub fn case(seed: u64, subject: Subject, coverage: &mut Coverage) -> Result<(), String> {
    let mut history = start(Random::new(seed), subject, coverage)?;
    if history.plan.brim {
        history.fill_to_the_brim().map_err(|text| format!("to the brim: {}", text))?;
    }
    if history.plan.ebb {
        history.flood_and_ebb().map_err(|text| format!("flood and ebb: {}", text))?;
    }
    for step in 1..=history.plan.steps {
        let mut call = history.plan.call(&mut history.random, &history.table);
        history.step(&mut call).map_err(|text| format!("step {}, {}: {}", step, describe(&call), text))?;
    }
    history.coverage.history(deepest(&history.lent));
    history.check_book().and_then(|_| history.ask_nodes()).map_err(|text| format!("after the last step: {}", text))
}

/// A buffer that a call may be lent in a wrong length.
#[derive(Clone, Copy)]
enum Which {
    Image,
    Copy,
    Map,
    Script,
    Scratch,
    List,
}

/// The book's own buffer, handed back after a call that was lent another; of one for another geometry, only if it was refused.
struct Own {
    which: Which,
    buffer: Buffer,
    if_refused: bool,
}

impl History<'_> {
    /// The rule that the book is to go by: the table knows whether it was given one.
    pub fn rule(&self) -> Rule {
        match self.header[0] {
            FIRST_EDITION => FIRST,
            _ if self.table.own => OWN,
            _ => SECOND,
        }
    }

    fn step(&mut self, call: &mut Call) -> Result<(), String> {
        let claims = Claims::of(&self.table, call);
        // More often where it is seldom: in Open; with all heads at work, or several in one tree, in what is not a head's next.
        let next = matches!(call.function, Function::Claim | Function::Fill | Function::Commit);
        let seldom = call.function == Function::Open || (claims.all == HEADS || claims.in_one_tree > 1) && !next;
        let often = if claims.in_one_tree > 1 { self.plan.crash.min(30) } else { self.plan.crash };
        let crash = self.random.one_in(if seldom { 3 } else { often });
        let before = if crash { Some((self.table.reels.clone(), self.lent.image.clone())) } else { None };
        let (answer, entries) = self.perform(call)?;
        // A claim that is cut short is open too, and one that is cut short in its commit.
        let claims = claims.max(Claims::of(&self.table, call));
        // An answered Format runs on steady power.
        let steady = call.function == Function::Format && answer == 0;
        let converted = call.function == Function::Convert && answer == 0;
        let branch = call.function == Function::Claim && entries.len() > 2;
        let cut = !steady && (before.is_some() || branch && self.random.one_in(2));
        self.note(call, answer, cut);
        if !cut {
            self.carry_out(call, answer, &entries)?;
            if converted && self.random.one_in(2) {
                return self.go_on_with_copy();
            }
            if call.function == Function::Claim && answer == 8 && self.random.one_in(4) {
                return self.claim_again(call).map_err(|text| format!("made again after tidy: {}", text));
            }
            return if self.random.one_in(self.plan.crash) { self.check_book() } else { Ok(()) };
        }
        // A crash decided on only now is in a claim, which changes no reel and leaves the stores to its script.
        let (reels, image) = before.unwrap_or_else(|| (self.table.reels.clone(), self.lent.image.clone()));
        if converted {
            self.coverage.conversions.crash(self.rule(), claims);
        }
        if call.function == Function::Recover {
            self.crash_in_recover(&image, &reels, claims)
        } else {
            self.crash_in_script(call, &entries, &reels, claims)
        }
    }

    /// Calls book and table, and compares. The answer, and the entries handed out.
    pub fn perform(&mut self, call: &mut Call) -> Result<(u64, Vec<Entry>), String> {
        let own = self.lend(call);
        let due = self.due(call);
        let rule = self.rule();
        let compared = matches!(call.function, Function::Format | Function::Recover | Function::Convert | Function::Tidy);
        let before = if compared { Some(self.lent.clone()) } else { None };
        let handed = self.subject.perform(call, &mut self.lent, self.random.word());
        let reply = self.table.perform(call, &Fed::of(&self.lent), handed.answer);
        self.coverage.answer(call.function, handed.answer, rule);
        if self.copied && handed.answer == 0 {
            self.coverage.conversions.on_copy(call.function, rule);
        }
        if let Some(name) = self.lent.written_outside() {
            return Err(format!("there is written outside the {}", name));
        }
        self.compare(handed.answer, handed.count, &reply)?;
        self.check_more(call, &handed, due, before)?;
        let scripted = reply == Ok(Value::None);
        let entries = if scripted { script::read(&self.lent.script[..handed.count as usize]) } else { Vec::new() };
        self.take_back(own, handed.answer);
        if self.on_lines || self.random.one_in(4) {
            self.translate(&entries).map_err(|text| format!("translated: {}", text))?;
        }
        match (call.function, handed.answer) {
            (Function::Has, 0) => self.coverage.lookup(handed.count == 1, rule),
            (Function::Format, 0) => self.formatted(call, rule),
            (Function::Format, 16) => self.coverage.refused_table(self.lent.table()),
            _ => (),
        }
        self.check_header()?;
        Ok((handed.answer, entries))
    }

    /// What the table does not know, by what was lent before.
    fn check_more(&mut self, call: &Call, handed: &Handed, due: (u64, Option<u64>), before: Option<Lent>) -> Result<(), String> {
        if let (Some(before), 0, true) = (&before, handed.answer, self.random.one_in(8)) {
            self.check_written(call.function, before)?;
        }
        match (call.function, before) {
            (Function::Claim, _) => self.compare_claim(call, handed, due),
            (Function::Has, _) => self.compare_has(call, handed),
            (Function::Convert, Some(before)) => self.check_convert(before, handed.answer),
            (Function::Tidy, Some(before)) => self.check_tidy(call, before, handed),
            _ => Ok(()),
        }
    }

    /// Book and table have answered a format of a book that went by another rule, or by the same.
    fn formatted(&mut self, call: &Call, before: Rule) {
        self.format_header(call);
        self.coverage.format(before, self.rule());
    }

    /// What a format that is answered has to write.
    pub fn format_header(&mut self, call: &Call) {
        self.header = header(call.slots, call.nodes, self.lent.table());
        self.copied = false;
        if self.subject.fault() == Fault::OwnForgotten {
            self.table.own = false;
        }
    }

    /// What is due to a claim that comes as far, where the table takes the book's word: 13 if another head has the frame, or is
    /// at the node that this claim would use; else 8 if it uses none; else 0. In a history no two reels share a node. With it
    /// that node.
    pub fn due(&self, call: &Call) -> (u64, Option<u64>) {
        if call.function != Function::Claim {
            return (0, None);
        }
        let node = node_used(call, &self.lent);
        let is_there = |head: Head| head.state != State::Idle && Some(head.node) == node;
        let busy = (0..HEADS).any(|head| is_there(Head::read(&self.lent.heads, head)));
        match node {
            _ if busy || self.table.claimed(call.reel, call.frame) => (13, node),
            None => (8, node),
            Some(_) => (0, node),
        }
    }

    /// Of a claim, what the table does not know: the answer where that turns on nodes, and the places left in its node.
    fn compare_claim(&mut self, call: &Call, handed: &Handed, due: (u64, Option<u64>)) -> Result<(), String> {
        if matches!(handed.answer, 0 | 8 | 13) {
            self.coverage.claim(handed.answer, &self.table, call);
            if handed.answer != due.0 {
                return Err(format!("by heads and nodes {} is due, the book answers {}", due.0, handed.answer));
            }
        }
        let claimed = due.1.filter(|_| handed.answer == 0).map(|node| Claimed::of(node, &self.lent, handed.count));
        let left = claimed.as_ref().map_or(0, Claimed::left);
        if handed.left != left {
            return Err(format!("places left: {} by the node's words, {} by the book", left, handed.left));
        }
        if let Some(claimed) = claimed {
            self.coverage.left(Head::read(&self.lent.heads, call.head).place, &claimed);
        }
        Ok(())
    }

    fn buffer(&mut self, which: Which) -> &mut Buffer {
        match which {
            Which::Image => &mut self.lent.image,
            Which::Copy => &mut self.lent.copy,
            Which::Map => &mut self.lent.map,
            Which::Script => &mut self.lent.script,
            Which::Scratch => &mut self.lent.scratch,
            Which::List => &mut self.lent.list,
        }
    }

    /// Now and then a buffer of another length for this call; for a format a table, good or not, or none.
    fn lend(&mut self, call: &mut Call) -> Vec<Own> {
        if call.function == Function::Format {
            self.lent.table = tables::given(&mut self.random);
            if self.random.one_in(3) {
                return self.other_geometry(call);
            }
        }
        if call.function == Function::Convert {
            self.lend_copy();
        }
        // More often for the operations that are seldom.
        let bound = match call.function {
            Function::Claim | Function::Fill | Function::Commit => 100,
            Function::Format | Function::Recover | Function::Has | Function::List | Function::Convert => 16,
            _ => 25,
        };
        let which = match self.random.below(bound) {
            0 => Which::Image,
            1 => Which::Map,
            2..=3 if call.function == Function::Format => Which::Map,
            2 => Which::Scratch,
            3 => Which::Script,
            4..=9 if call.function == Function::List => Which::List,
            4 if call.function == Function::Convert => Which::Copy,
            _ => return Vec::new(),
        };
        let buffer = self.buffer(which).clone();
        let frames = self.table.reels.get(&call.reel).map_or(0, |frames| frames.len() as u64);
        let (less, more) = (self.random.below(buffer.len() as u64), buffer.len() as u64 + 1);
        let length = match which {
            Which::Script => less,
            Which::List => self.random.below(frames + 2),
            _ => self.random.pick(&[less, more]),
        };
        self.buffer(which).resize(length as usize, || 0);
        vec![Own { which, buffer, if_refused: false }]
    }

    fn take_back(&mut self, own: Vec<Own>, answer: u64) {
        for Own { which, buffer, if_refused } in own {
            if answer != 0 || !if_refused {
                *self.buffer(which) = buffer;
            }
        }
    }

    /// Another R and N for Format: of the same length, with a map of their own, or of another length.
    fn other_geometry(&mut self, call: &mut Call) -> Vec<Own> {
        if self.random.one_in(4) || call.nodes == 1 && call.slots <= 40 {
            call.slots += 1;
            return Vec::new();
        }
        (call.slots, call.nodes) =
            if call.nodes > 1 { (call.slots + 40, call.nodes - 1) } else { (call.slots - 40, call.nodes + 1) };
        let length = map_words(call.nodes) as usize;
        let mut replaced = |which: Which| {
            let buffer = self.buffer(which).clone();
            self.buffer(which).resize(length, || 0);
            Own { which, buffer, if_refused: true }
        };
        vec![replaced(Which::Map), replaced(Which::Scratch)]
    }

    fn compare(&self, answer: u64, count: u64, reply: &Reply) -> Result<(), String> {
        let expected = reply.as_ref().err().copied().unwrap_or(0);
        if answer != expected {
            return Err(format!("the table answers {}, the book {}", expected, answer));
        }
        let (right, what) = match reply {
            Err(_) => (count == 0, "count after a refusal"),
            Ok(Value::Has(yes)) => (count == u64::from(*yes), "yes or no"),
            Ok(Value::Frames(frames)) => {
                let mut listed = self.lent.list[..count as usize].to_vec();
                listed.sort_unstable();
                (listed.iter().eq(frames), "listing")
            }
            Ok(Value::None) => {
                let ends = count == 0 || script::read(&self.lent.script[..count as usize]).last() == Some(&BARRIER);
                (count % 2 == 0 && ends, "script that does not end in a barrier")
            }
        };
        if right {
            Ok(())
        } else {
            Err(format!("{}: the table has {:?}, the book {}", what, reply, count))
        }
    }
}
