//! A call: the function, its numbers, and what it is lent.
use super::buffer::Buffer;

#[derive(Clone, Copy, PartialEq, Eq, PartialOrd, Ord, Debug)]
pub enum Function {
    Format,
    Recover,
    Open,
    Claim,
    Fill,
    Commit,
    Abandon,
    Remove,
    Has,
    List,
    Retire,
    Tidy,
    Convert,
    Apply,
    Translate,
}

impl Function {
    pub const ALL: [Function; 15] = [
        Function::Format,
        Function::Recover,
        Function::Open,
        Function::Claim,
        Function::Fill,
        Function::Commit,
        Function::Abandon,
        Function::Remove,
        Function::Has,
        Function::List,
        Function::Retire,
        Function::Tidy,
        Function::Convert,
        Function::Apply,
        Function::Translate,
    ];

    pub fn name(self) -> String {
        format!("{:?}", self).to_lowercase()
    }
}

/// Each function reads those of the numbers that it has.
#[derive(Clone, Copy, Debug)]
pub struct Call {
    pub function: Function,
    pub slots: u64,
    pub nodes: u64,
    pub head: u64,
    pub reel: u64,
    pub frame: u64,
    /// The image's length, which Translate is given as a number.
    pub words: u64,
}

/// What a call hands back: its answer; words of script, frames listed, or Has's yes or no; Claim's places left; the nodes on the
/// path that Has goes. A count is 0 after a refusal, and where a function has none.
#[derive(Clone, Copy, PartialEq, Eq, Debug)]
pub struct Handed {
    pub answer: u64,
    pub count: u64,
    pub left: u64,
    pub path_nodes: u64,
}

/// Every buffer there is; a function is lent those that it has.
#[derive(PartialEq, Eq)]
pub struct Lent {
    pub image: Buffer,
    /// The second image, of Convert alone: for every other call without a word.
    pub copy: Buffer,
    pub map: Buffer,
    pub heads: Buffer,
    pub script: Buffer,
    pub scratch: Buffer,
    pub list: Buffer,
    /// The buffer for the module's script, of Translate alone.
    pub module: Buffer,
    /// The table that Format is given. None is no memory at all, which counts as a length of 0.
    pub table: Option<Buffer<u8>>,
}

impl Lent {
    pub fn table(&self) -> &[u8] {
        self.table.as_deref().unwrap_or(&[])
    }

    /// The name of a buffer whose guards are written to.
    pub fn written_outside(&self) -> Option<&'static str> {
        let broken = self.named().into_iter().find(|(_, buffer)| !buffer.guards_hold()).map(|(name, _)| name);
        let table = self.table.iter().any(|table| !table.guards_hold());
        broken.or(if table { Some("table") } else { None })
    }

    /// The name of a buffer in which the other has something else.
    pub fn differs(&self, other: &Lent) -> Option<&'static str> {
        let differing = self.named().into_iter().zip(other.named()).find(|(mine, other)| mine != other);
        differing.map(|((name, _), _)| name)
    }

    pub fn named(&self) -> [(&'static str, &Buffer); 8] {
        [
            ("image", &self.image),
            ("copy", &self.copy),
            ("map", &self.map),
            ("heads", &self.heads),
            ("script", &self.script),
            ("scratch", &self.scratch),
            ("list", &self.list),
            ("module", &self.module),
        ]
    }
}

impl Clone for Lent {
    fn clone(&self) -> Lent {
        Lent {
            image: self.image.clone(),
            copy: self.copy.clone(),
            map: self.map.clone(),
            heads: self.heads.clone(),
            script: self.script.clone(),
            scratch: self.scratch.clone(),
            list: self.list.clone(),
            module: self.module.clone(),
            table: self.table.clone(),
        }
    }

    fn clone_from(&mut self, other: &Lent) {
        self.image.clone_from(&other.image);
        self.copy.clone_from(&other.copy);
        self.map.clone_from(&other.map);
        self.heads.clone_from(&other.heads);
        self.script.clone_from(&other.script);
        self.scratch.clone_from(&other.scratch);
        self.list.clone_from(&other.list);
        self.module.clone_from(&other.module);
        self.table.clone_from(&other.table);
    }
}
