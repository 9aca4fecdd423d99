//! Histories and the module with line flushes: every script is translated, and may be cut on the module after any entry of the
//! translation; the driver flushes what an order wrote itself.
use crate::crash::Crash;
use crate::history::History;
use crate::lines::{written, Lines};
use crate::model::buffer::Buffer;
use crate::model::call::{Function, Lent};
use crate::model::fault::Fault;
use crate::model::script::{self, Entry};
use crate::model::translate::MODULE_WORDS;
use crate::translating::sweep;
use crate::translations::{FENCED, FLUSHING, STORING};

impl History<'_> {
    /// A script that was handed out: the translation is the model's, and no cut of it leaves what the present module would not.
    /// A fault of the model's translation is for the cuts to find.
    pub fn translate(&mut self, entries: &[Entry]) -> Result<(), String> {
        let script: Vec<u64> = entries.iter().flat_map(|entry| [entry.0, entry.1]).collect();
        let room = MODULE_WORDS + self.random.below(3) as usize;
        self.translating.lend(&script, room, &mut self.random);
        let words = self.lent.image.len() as u64;
        let handed = self.translating.perform(self.subject, words, self.subject.fault())?.handed;
        if handed.answer != 0 {
            return Err(format!("the script is refused with {}", handed.answer));
        }
        self.translated = self.translating.entries(&handed);
        let cuts = sweep(&self.lent.image, entries, &self.translated, self.subject.fault())?;
        self.coverage.translations.swept(cuts);
        Ok(())
    }

    /// The last script that was handed out is carried out; on the module with line flushes as it was translated, by Apply.
    pub fn apply(&mut self, entries: &[Entry]) -> Result<(), String> {
        if !self.on_lines || entries.is_empty() {
            script::carry_out(&mut self.lent.image, entries);
            return Ok(());
        }
        let translated = Buffer::of(self.translated.iter().flat_map(|entry| [entry.0, entry.1]));
        let script = std::mem::replace(&mut self.lent.script, translated);
        let apply = self.call(Function::Apply, 0, 0, 0);
        let answer = self.subject.perform(&apply, &mut self.lent, 0).answer;
        self.lent.script = script;
        match answer {
            0 => Ok(()),
            _ => Err(format!("the translated script is carried out with {}", answer)),
        }
    }

    /// An order wrote an image itself, the second one if it is a conversion. When the driver has flushed each of that one's lines
    /// and passed the barrier, it lasts.
    pub fn check_written(&mut self, function: Function, before: &Lent) -> Result<(), String> {
        let (before, after) = match function {
            Function::Convert => (&before.copy, &self.lent.copy),
            _ => (&before.image, &self.lent.image),
        };
        let fault = match self.subject.fault() {
            Fault::BookFlushedForCopy if function == Function::Convert => Fault::NoLineFlushed,
            fault => fault,
        };
        let lines = Lines::after(before, &written(before, after, fault), fault);
        match (0..before.len()).find(|&index| before[index] != after[index] && lines.contents(index as u64) != [after[index]]) {
            Some(index) => Err(format!("word {} does not last after the driver's barrier", index)),
            None => Ok(self.coverage.translations.written(function)),
        }
    }

    /// A crash in a Recover that has stored this, or between it and the driver's barrier. On the module with line flushes it
    /// falls in the stores, in the driver's flushes, or just after the barrier.
    pub fn crash_of_recover(&mut self, before: &Buffer) -> Crash {
        let (after, fault) = (&self.lent.image, self.subject.fault());
        let here = Crash::in_recover(before, after);
        if !self.on_lines {
            return here;
        }
        let mut entries = written(before, after, fault);
        let stores = script::stores(&entries);
        if stores > 0 {
            entries[..stores as usize].rotate_left(self.random.below(stores) as usize);
        }
        let all = entries.len() as u64;
        let (cut, kind) = match self.random.below(3) {
            0 => (self.random.below(stores + 1), STORING),
            1 => (self.random.between(stores, all - 1), FLUSHING),
            _ => (all, FENCED),
        };
        self.coverage.translations.history(kind);
        Crash::on_lines(before, &entries[..cut as usize], here, fault)
    }
}
