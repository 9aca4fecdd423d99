//! Single calls over any contents and lengths, compared with the model: answer, counts, and every word of every buffer.
use crate::coverage::Coverage;
use crate::damage::{descent, some_slot, Damage};
use crate::lending::Lending;
use crate::model::buffer::Buffer;
use crate::model::call::{Call, Function, Lent};
use crate::model::ending::{BAD_TABLES, COPY_LONG, COPY_SHORT};
use crate::model::fault::Fault;
use crate::model::image::*;
use crate::model::left::Claimed;
use crate::model::node::*;
use crate::model::operations::{self, Outcome};
use crate::model::script::{self, SCRIPT_WORDS};
use crate::model::translate::MODULE_WORDS;
use crate::random::Random;
use crate::report;
use crate::subject::Subject;
use crate::translating::{check_lines, Translating};
use crate::translations::OF_LIBRARY;
use crate::trip::Trip;
use crate::{tables, trees};

const CALLS: u64 = 16;
const LARGE_WORDS: usize = 100_000;
const CALLS_ON_LARGE: u64 = 3;

/// An image with what else a call is lent, and the two copies that a call is made on.
struct Case {
    random: Random,
    subject: Subject,
    slots: u64,
    nodes: u64,
    lent: Lent,
    expected: Lent,
    found: Lent,
    /// A tidy that was answered just before: there may be more to be given back.
    tidied: Option<Call>,
    translating: Translating,
}

/// An image, sound or damaged, and some calls on it; the scripts of most are carried out.
pub fn case(seed: u64, subject: Subject, coverage: &mut Coverage) -> Result<(), String> {
    let mut case = Case::new(Random::new(seed), subject);
    let calls = if case.lent.image.len() > LARGE_WORDS { CALLS_ON_LARGE } else { CALLS };
    for _ in 0..calls {
        case.call(coverage)?;
    }
    Ok(())
}

impl Case {
    fn new(mut random: Random, subject: Subject) -> Case {
        let trees::Built { mut image, map, slots, nodes, .. } = trees::build(&mut random);
        let damages = if random.one_in(2) { random.between(1, 4) } else { 0 };
        for _ in 0..damages {
            Damage { random: &mut random, image: &mut image, slots, nodes }.once();
        }
        let mut junk = |length: usize| Buffer::of((0..length).map(|_| random.word()));
        let (scratch, script, list) = (junk(map.len()), junk(SCRIPT_WORDS + 6), junk(200));
        let heads = Buffer::of([0; HEADS as usize * HEAD_WORDS]);
        let mut lent =
            Lent { image, copy: Buffer::of([]), map, heads, script, scratch, list, module: Buffer::of([]), table: None };
        let mut lending = Lending { random: &mut random, lent: &mut lent, slots, nodes };
        if lending.random.one_in(3) {
            lending.map();
        }
        if lending.random.one_in(3) {
            lending.spare_bits();
        }
        let (expected, found, translating) = (lent.clone(), lent.clone(), Translating::new());
        Case { random, subject, slots, nodes, lent, expected, found, tidied: None, translating }
    }

    fn call(&mut self, coverage: &mut Coverage) -> Result<(), String> {
        let mut call = self.tidied.take().filter(|_| self.random.one_in(2)).unwrap_or_else(|| self.draw());
        if call.function == Function::Translate {
            return self.translate(coverage);
        }
        self.found.clone_from(&self.lent);
        let kept = self.lend(&mut call);
        self.expected.clone_from(&self.found);
        let heads = self.found.heads.clone();
        let outcome = operations::perform(&call, &mut self.expected, Fault::None);
        self.count(&call, &outcome, coverage);
        let found = self.subject.perform(&call, &mut self.found, self.random.word());
        if outcome.handed != found || self.expected != self.found {
            return Err(report::difference(&call, &heads, (outcome.handed, &self.expected), (found, &self.found)));
        }
        if call.function == Function::Claim && found.answer == 0 {
            let head = Head::read(&self.found.heads, call.head);
            coverage.left(head.place, &Claimed::of(head.node, &self.found, found.count));
        }
        let scripted = !matches!(call.function, Function::Has | Function::List) && found.count > 0;
        if scripted && self.random.one_in(2) {
            self.translate_found(found.count as usize, coverage)?;
        }
        match call.function {
            Function::Convert if found.answer == 0 => self.converted(coverage)?,
            Function::Tidy if found.answer == 0 && kept => self.tidied = Some(call),
            _ => (),
        }
        if kept {
            std::mem::swap(&mut self.lent, &mut self.found);
            self.lent.copy.resize(0, || 0);
            if scripted {
                script::carry_out(&mut self.lent.image, &script::read(&self.lent.script[..found.count as usize]));
            }
        }
        Ok(())
    }

    /// After an answered conversion: there and back, now and then, and sometimes the case goes on with the copy.
    fn converted(&mut self, coverage: &mut Coverage) -> Result<(), String> {
        let Lent { image, copy, .. } = &mut self.found;
        coverage.conversions.met(image);
        if self.random.one_in(2) {
            let reached = Image::read(image, Fault::None).and_then(|image| image.sound()).unwrap_or_default();
            let mut trip = Trip { random: &mut self.random, subject: self.subject, compared: true };
            trip.make(image, copy, reached.into_iter()).map_err(|text| format!("there and back: {}", text))?;
        }
        if self.random.one_in(3) {
            std::mem::swap(image, copy);
        }
        Ok(())
    }

    /// A script of any kind is translated; and now and then the module is given entries of any kind.
    fn translate(&mut self, coverage: &mut Coverage) -> Result<(), String> {
        let words = self.translating.draw(&mut self.random);
        self.translating.compare(self.subject, words, coverage)?;
        if self.random.one_in(4) {
            return check_lines(&mut self.random, self.subject.fault());
        }
        Ok(())
    }

    /// A script that a call has handed out, of so many words: it is translated, if the buffer is long enough and the image not
    /// too short.
    fn translate_found(&mut self, used: usize, coverage: &mut Coverage) -> Result<(), String> {
        let room = MODULE_WORDS - usize::from(self.random.one_in(8));
        self.translating.lend(&self.found.script[..used], room, &mut self.random);
        let (words, last) = (self.found.image.len() as u64, script::last_word(&script::read(&self.found.script[..used])));
        let words = self.random.pick(&[words, words, last + 1, last]);
        coverage.translations.met(OF_LIBRARY);
        self.translating.compare(self.subject, words, coverage)
    }

    /// Counts what is reached, by what the call is about to be lent.
    fn count(&self, call: &Call, outcome: &Outcome, coverage: &mut Coverage) {
        coverage.call(call.function, &self.found.image, outcome.ending);
        if call.function == Function::Has {
            coverage.paths.called(call, &self.found.image);
        }
        if call.function == Function::Apply && outcome.ending.answer == 0 {
            coverage.translations.applied(&self.found.script, self.found.image.len() as u64);
        }
        if call.function == Function::Tidy {
            coverage.groups.called(call, &self.found, outcome.ending);
        }
        if BAD_TABLES.contains(&outcome.ending) {
            let otherwise = operations::perform(call, &mut self.found.clone(), Fault::BadTableTaken);
            coverage.bad_table(call.function, otherwise.ending.answer);
        }
        let is_lent = [COPY_SHORT, COPY_LONG].contains(&outcome.ending) || matches!(outcome.ending.answer, 2 | 3);
        if call.function == Function::Convert && is_lent {
            coverage.conversions.refused(call, &self.found, outcome.ending);
        }
    }

    fn draw(&mut self) -> Call {
        use Function::*;
        // More of those with many ways to end, fewer of Recover, which takes the most time.
        let often = [
            Open, Claim, Claim, Claim, Claim, Claim, Fill, Commit, Abandon, Remove, Remove, Has, Has, List, Retire, Convert,
            Apply, Tidy, Tidy, Translate,
        ];
        let function = if self.random.one_in(3) { self.random.pick(&Function::ALL) } else { self.random.pick(&often) };
        let head = if self.random.one_in(12) { self.random.odd_word(&[HEADS]) } else { self.random.below(HEADS) };
        let slot = match self.random.below(12) {
            0 => self.random.below(self.slots),
            _ => self.slot(function),
        };
        let reel = match self.random.below(12) {
            0 => self.random.odd_word(&[self.slots]),
            _ => self.lent.image[slot_index(slot) as usize],
        };
        Call { function, slots: self.slots, nodes: self.nodes, head, reel, frame: self.frame(slot), words: 0 }
    }

    /// A slot that is filled, if there is one; for Tidy mostly one whose root has children.
    fn slot(&mut self, function: Function) -> u64 {
        let image = &self.lent.image;
        let drawn = some_slot(&mut self.random, image, self.slots);
        let others = (drawn + 1..self.slots).chain(0..drawn);
        let has_children = |&slot: &u64| {
            let root = image[slot_index(slot) as usize + 1];
            (1..=self.nodes).contains(&root) && image[(node_index(self.slots, root - 1) + NEXT) as usize] != 0
        };
        let branched = std::iter::once(drawn).chain(others).find(has_children);
        if function == Function::Tidy && !self.random.one_in(4) {
            return branched.unwrap_or(drawn);
        }
        drawn
    }

    /// A frame that the reel in this slot holds, or one near it: on the path of a node, off it by a bit, or with its lower half.
    fn frame(&mut self, slot: u64) -> u64 {
        let numbers = descent(&mut self.random, &self.lent.image, self.slots, self.nodes, slot);
        let at = node_index(self.slots, numbers[numbers.len() - 1]) as usize;
        let set = self.lent.image[at + SET as usize];
        let any = self.random.below(PLACES);
        let place = if set >> any & 1 == 1 { any } else { u64::from(set.trailing_zeros()).min(PLACES - 1) };
        let frame = self.lent.image[at + (FRAMES + place) as usize];
        let bits = path_bits(self.lent.image[at + LEVEL_AT as usize].min(LAST_LEVEL));
        match self.random.below(11) {
            0 => self.random.odd_word(&[64]),
            1 => frame ^ 1 << self.random.below(64),
            2 => self.random.with_upper_half(frame),
            3..=7 => frame & ((1 << bits) - 1) | self.random.word() << bits,
            _ => frame,
        }
    }

    /// What this call is lent, drawn into `found`. True if what it leaves is for the next call to go on with.
    fn lend(&mut self, call: &mut Call) -> bool {
        let (slots, nodes) = (self.slots, self.nodes);
        let mut lending = Lending { random: &mut self.random, lent: &mut self.found, slots, nodes };
        let function = call.function;
        match function {
            Function::Fill | Function::Commit | Function::Abandon if lending.random.one_in(2) => lending.heads(function),
            Function::Claim if lending.random.one_in(2) => lending.lent.heads.fill(0),
            Function::Claim if lending.random.one_in(2) => lending.rivals(call),
            Function::Tidy if lending.random.one_in(2) => lending.lent.heads.fill(0),
            _ if lending.random.one_in(8) => lending.heads(function),
            _ => (),
        }
        if lending.random.one_in(16) {
            lending.map();
        }
        let odd = lending.random.below(24);
        match odd {
            0 => lending.header(call),
            1 => lending.edition(),
            2 | 3 => lending.length(),
            4 => lending.bad_table(),
            _ => (),
        }
        let kept = odd > 4 && function != Function::Apply && (function != Function::Format || lending.random.one_in(8));
        lending.lent.table = if function == Function::Format { tables::given(lending.random) } else { None };
        match function {
            Function::Apply => lending.script(),
            Function::Convert => lending.copy(),
            Function::List => self.list(call),
            _ => (),
        }
        kept
    }

    /// A list of just the room needed, one too small, or any.
    fn list(&mut self, call: &Call) {
        let any = self.random.below(300);
        self.expected.clone_from(&self.found);
        self.expected.list.resize((64 * self.nodes) as usize, || 0);
        let count = operations::perform(call, &mut self.expected, Fault::None).handed.count;
        let length = self.random.pick(&[any, count, count.saturating_sub(1), 0, count + 1]) as usize;
        let random = &mut self.random;
        self.found.list.resize(length, || random.word());
    }
}
