//! What is tested: the library; or, to see that a fault is found, the model with one, or the library with its results spoilt.
use crate::library;
use crate::model::call::{Call, Function, Handed, Lent};
use crate::model::fault::Fault;
use crate::model::operations;
use crate::spoil::Spoil;

#[derive(Clone, Copy)]
pub enum Subject {
    Library,
    Faulty(Fault),
    Spoilt(&'static Spoil),
}

impl Subject {
    /// The fault, of those that the model makes, or that what it is held against does.
    pub fn fault(self) -> Fault {
        match self {
            Subject::Faulty(fault) => fault,
            _ => Fault::None,
        }
    }

    /// Makes the call. `junk`, and another word made of it, are what the places of the counts hold before.
    pub fn perform(self, call: &Call, lent: &mut Lent, junk: u64) -> Handed {
        match self {
            Subject::Library => {
                let none = matches!(call.function, Function::Format | Function::Recover | Function::Convert | Function::Apply);
                let mut count = if none { 0 } else { junk };
                let second = |function: Function| if call.function == function { !junk } else { 0 };
                let (mut left, mut path_nodes) = (second(Function::Claim), second(Function::Has));
                let answer = library::perform(call, lent, &mut count, &mut left, &mut path_nodes);
                Handed { answer, count, left, path_nodes }
            }
            Subject::Faulty(fault) => operations::perform(call, lent, fault).handed,
            Subject::Spoilt(spoil) => {
                let mut handed = Subject::Library.perform(call, lent, junk);
                spoil.spoil(call, lent, &mut handed);
                handed
            }
        }
    }
}
