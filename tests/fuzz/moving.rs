//! Convert in histories: it reads the book and writes a copy, in the other edition, that shows the same table. Some histories go
//! on with the copy.
use crate::goals::attempts;
use crate::history::History;
use crate::model::buffer::Buffer;
use crate::model::call::Lent;
use crate::model::convert::converted_header;
use crate::model::image::{HEADER_WORDS, HEADS};
use crate::model::table::Head;
use crate::recovery::contents;
use crate::report::reels_differ;
use crate::trip::Trip;

impl History<'_> {
    /// A second image of any content.
    pub fn lend_copy(&mut self) {
        self.lent.copy = Buffer::of(self.lent.image.iter().map(|_| self.random.word()));
    }

    /// A conversion writes nothing but the scratch map, 0 unless a length is refused, and the copy if it is answered.
    pub fn check_convert(&mut self, mut before: Lent, answer: u64) -> Result<(), String> {
        if !matches!(answer, 1 | 3) {
            before.scratch.fill(0);
        }
        if answer == 0 {
            before.copy.clone_from(&self.lent.copy);
        }
        match self.lent.differs(&before) {
            Some(name) => Err(format!("the {} is not as is due", name)),
            None if answer == 0 => self.check_copy().map_err(|text| format!("copy: {}", text)),
            None => Ok(()),
        }
    }

    fn copied_header(&self) -> [u64; HEADER_WORDS as usize] {
        converted_header(self.header[0], self.table.slots, self.table.nodes)
    }

    /// The reels, frames, places and nodes are the book's; now and then, there and back.
    fn check_copy(&mut self) -> Result<(), String> {
        let Lent { image, copy, .. } = &self.lent;
        let (of_image, of_copy) = (contents(image)?, contents(copy)?);
        if copy[..HEADER_WORDS as usize] != self.copied_header() {
            return Err(format!("the header is {:x?}", &copy[..HEADER_WORDS as usize]));
        }
        if of_copy.reels != self.table.reels || of_copy.nodes != of_image.nodes || of_copy.places != of_image.places {
            return Err(format!("other nodes or places, or {}", reels_differ(&self.table.reels, &of_copy.reels)));
        }
        if !self.random.one_in(2) {
            return Ok(());
        }
        Trip { random: &mut self.random, subject: self.subject, compared: false }.make(image, copy, of_image.nodes.into_iter())
    }

    /// Power-up on the copy, as on an image that is found. Open claims are lost; the table has no table given.
    pub fn go_on_with_copy(&mut self) -> Result<(), String> {
        let (rule, claims) = (self.rule(), self.table.claims());
        self.header = self.copied_header();
        self.lent.image = std::mem::replace(&mut self.lent.copy, Buffer::of([]));
        self.table.heads = [Head::Idle; HEADS as usize];
        // A run starts on it: no reel is opened in that.
        self.loads.found(&self.table, self.subject.fault());
        self.copied = true;
        let (refused, cut) = self.power_up()?;
        self.coverage.conversions.moved(rule, attempts(refused, cut), self.table.holds_frames(), claims);
        self.check_book()
    }
}
