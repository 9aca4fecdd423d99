//! How a history starts: with a format of memory that holds anything, perhaps after formats refused for their table, or with the
//! recovery of a sound image that holds frames, perhaps after attempts that are refused or crash.
use crate::coverage::{Claims, Coverage};
use crate::history::History;
use crate::model::buffer::Buffer;
use crate::model::call::{Call, Function, Lent};
use crate::model::fault::Fault;
use crate::model::format::header;
use crate::model::image::*;
use crate::model::loads::Loads;
use crate::model::rule::*;
use crate::model::script::SCRIPT_WORDS;
use crate::model::table::{Fed, Reels, Table};
use crate::plan::Plan;
use crate::random::Random;
use crate::subject::Subject;
use crate::translating::Translating;
use crate::{tables, trees};

pub fn start(mut random: Random, subject: Subject, coverage: &mut Coverage) -> Result<History<'_>, String> {
    let plan = Plan::draw(&mut random);
    let lent = memory(&mut random, plan.slots, plan.nodes);
    let table = Table::formatted(plan.slots, plan.nodes, false);
    let formats = random.one_in(2);
    let header = header(plan.slots, plan.nodes, &[]);
    let loads = Loads::default();
    let on_lines = random.one_in(3);
    let mut history = History {
        random,
        subject,
        coverage,
        lent,
        table,
        loads,
        plan,
        header,
        copied: false,
        on_lines,
        translating: Translating::new(),
        translated: Vec::new(),
    };
    let started = if formats { history.format_first() } else { history.recover_first() };
    started.map_err(|text| format!("start: {}", text))?;
    Ok(history)
}

/// Buffers of any contents.
fn memory(random: &mut Random, slots: u64, nodes: u64) -> Lent {
    let zeros = random.one_in(2);
    let mut junk = |length: u64| Buffer::of((0..length).map(|_| if zeros { 0 } else { random.word() }));
    Lent {
        image: junk(image_words(slots, nodes)),
        copy: Buffer::of([]),
        map: junk(map_words(nodes)),
        heads: junk(HEADS * HEAD_WORDS as u64),
        script: junk(SCRIPT_WORDS as u64),
        scratch: junk(map_words(nodes)),
        list: junk(64 * nodes),
        module: Buffer::of([]),
        table: None,
    }
}

/// A fault of the table: it lacks the lowest frame of every reel.
fn forget_frames(reels: &mut Reels) {
    for frames in reels.values_mut() {
        *frames = frames.iter().copied().skip(1).collect();
    }
}

impl History<'_> {
    fn format_first(&mut self) -> Result<(), String> {
        let (slots, nodes) = (self.plan.slots, self.plan.nodes);
        let format = Call { function: Function::Format, slots, nodes, head: 0, reel: 0, frame: 0, words: 0 };
        let mut refused = false;
        while !self.format_once(&format)? {
            refused = true;
        }
        self.format_header(&format);
        self.coverage.format_start(self.rule(), refused);
        self.check_book()
    }

    /// True if it is answered. Else nothing is written.
    fn format_once(&mut self, format: &Call) -> Result<bool, String> {
        self.lent.table = tables::given(&mut self.random);
        let before = self.lent.clone();
        let answer = self.subject.perform(format, &mut self.lent, 0).answer;
        let reply = self.table.perform(format, &Fed::of(&self.lent), answer);
        let expected = reply.err().unwrap_or(0);
        if answer != expected || answer != 0 && self.lent != before {
            return Err(format!("a format to be answered with {} answers {}, or has written", expected, answer));
        }
        Ok(answer == 0)
    }

    /// The table has the frames that were put into the image. A crash of the recovery is tried with every mixture of its stores
    /// where these are few.
    fn recover_first(&mut self) -> Result<(), String> {
        let geometry = (self.plan.slots, self.plan.nodes);
        let rule = self.random.pick(&[FIRST, FIRST, OWN, OWN, SECOND]);
        let built = trees::found(&mut self.random, rule, geometry, &self.plan.reels, self.plan.depths);
        (self.lent.image, self.table.reels, self.table.own) = (built.image, built.reels, rule.own);
        self.header.copy_from_slice(&self.lent.image[..HEADER_WORDS as usize]);
        if self.subject.fault() == Fault::HeldForgotten {
            forget_frames(&mut self.table.reels);
        }
        self.loads.found(&self.table, self.subject.fault());
        let image = self.lent.image.clone();
        let (refused, cut) = self.power_up()?;
        self.coverage.found_start(rule, refused, cut && image != self.lent.image, self.table.holds_frames());
        self.check_book()
    }

    /// A recovery of the image as it lies there, and whether one was refused before it, and one cut.
    pub fn power_up(&mut self) -> Result<(bool, bool), String> {
        let (refused, cut) = (self.random.one_in(2), self.random.one_in(2));
        if refused {
            self.recover_refused()?;
        }
        let (image, reels) = (self.lent.image.clone(), self.table.reels.clone());
        self.recover_once()?;
        if cut {
            self.crash_in_recover(&image, &reels, Claims::NONE)?;
        }
        Ok((refused, cut))
    }
}
