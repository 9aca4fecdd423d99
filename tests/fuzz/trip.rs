//! There and back: what conversions promise of each other, and of the operations on a copy.
use crate::model::buffer::Buffer;
use crate::model::call::{Call, Function, Handed, Lent};
use crate::model::fault::Fault;
use crate::model::image::*;
use crate::model::node::PLACES;
use crate::model::operations;
use crate::random::Random;
use crate::report;
use crate::subject::Subject;

pub struct Trip<'a> {
    pub random: &'a mut Random,
    pub subject: Subject,
    /// Every conversion is compared with the model's, word for word.
    pub compared: bool,
}

/// A call with a reel at most.
fn call(function: Function, reel: u64) -> Call {
    Call { function, slots: 0, nodes: 0, head: 0, reel, frame: 0, words: 0 }
}

impl Trip<'_> {
    /// An image has been converted to this copy. Converted back, and there again, the second copy is the first. Every reel has
    /// the same listing on all three, order included. Recover takes the copy as it is, and finds the nodes that the image has.
    pub fn make(&mut self, image: &Buffer, copy: &Buffer, reached: impl Iterator<Item = u64>) -> Result<(), String> {
        let back = self.convert(copy)?;
        if self.convert(&back)? != *copy {
            return Err("there and back and there again is another copy".to_string());
        }
        let listings = self.listings(image)?;
        for (name, other) in [("the copy", copy), ("the copy converted back", &back)] {
            if self.listings(other)? != listings {
                return Err(format!("{} has other listings", name));
            }
        }
        self.recover(copy, reached)
    }

    /// What else a call is lent, of any content.
    fn lent(&mut self, image: &Buffer) -> Lent {
        let nodes = image[2];
        let mut junk = |length: u64| Buffer::of((0..length).map(|_| self.random.word()));
        let (map, heads, scratch) = (junk(map_words(nodes)), junk(HEADS * HEAD_WORDS as u64), junk(map_words(nodes)));
        let none = || Buffer::of([]);
        let (copy, script, list, module) = (none(), none(), none(), none());
        Lent { image: image.clone(), copy, map, heads, script, scratch, list, module, table: None }
    }

    fn convert(&mut self, image: &Buffer) -> Result<Buffer, String> {
        let mut lent = self.lent(image);
        lent.copy = Buffer::of(image.iter().map(|_| self.random.word()));
        let (mut expected, call) = (lent.clone(), call(Function::Convert, 0));
        let handed = self.subject.perform(&call, &mut lent, 0);
        if self.compared {
            let outcome = operations::perform(&call, &mut expected, Fault::None);
            if outcome.handed != handed || expected != lent {
                return Err(report::difference(&call, &lent.heads, (outcome.handed, &expected), (handed, &lent)));
            }
        }
        match handed.answer {
            0 => Ok(lent.copy),
            answer => Err(format!("a converted image is converted with {}", answer)),
        }
    }

    /// Each reel with its frames, in the order of List.
    fn listings(&mut self, image: &Buffer) -> Result<Vec<(u64, Vec<u64>)>, String> {
        let mut lent = self.lent(image);
        lent.list = Buffer::of((0..PLACES * image[2]).map(|_| 0));
        let slots = 0..image[1];
        let filled = slots.map(|slot| slot_index(slot) as usize).filter(|&at| image[at + 1] != 0);
        let mut listing = |reel: u64| match self.subject.perform(&call(Function::List, reel), &mut lent, 0) {
            Handed { answer: 0, count, .. } => Ok((reel, lent.list[..count as usize].to_vec())),
            Handed { answer, .. } => Err(format!("list of reel {} answers {}", reel, answer)),
        };
        filled.map(|at| listing(image[at])).collect()
    }

    fn recover(&mut self, copy: &Buffer, reached: impl Iterator<Item = u64>) -> Result<(), String> {
        let mut lent = self.lent(copy);
        let mut map = vec![0; lent.map.len()];
        reached.for_each(|node| mark_used(&mut map, node));
        let answer = self.subject.perform(&call(Function::Recover, 0), &mut lent, 0).answer;
        if answer != 0 || lent.image != *copy || lent.map[..] != map || lent.heads.iter().any(|&word| word != 0) {
            return Err(format!("recover of the copy answers {}, or does not leave copy, map and heads as is due", answer));
        }
        Ok(())
    }
}
