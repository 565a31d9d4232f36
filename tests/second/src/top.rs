//! The owner and the greatest held ceiling, which the machine keeps. Each call that moves a hold sets them to what a walk over the holds
//! then finds.

use crate::fault::Fault;
use crate::machine::{Hold, Machine};

/// With nothing held they are nobody and 0. In a lent state they may be any numbers.
#[derive(Clone, Copy, Debug, Default, PartialEq, Eq)]
pub struct Top {
    pub owner: Option<usize>,
    pub ceiling: u8,
}

impl Machine {
    /// What the walk finds: the thread holding the section of greatest ceiling, on a tie the one taken later, and that ceiling.
    pub fn walked(&self) -> Top {
        let ceiling = |hold: &&Hold| self.ceiling(hold.section);
        // Of equal maxima `max_by_key` gives the last it meets, which is the one taken later.
        let found = match self.fault {
            Fault::OwnerTie => self.holds.iter().rev().max_by_key(ceiling),
            _ => self.holds.iter().max_by_key(ceiling),
        };
        found.map_or_else(Top::default, |hold| self.top_of(*hold))
    }

    /// Whether what is kept is what the walk finds; a part of question 12.
    pub(crate) fn keeps_the_walked(&self) -> bool {
        let walked = self.walked();
        match self.fault {
            Fault::OwnerNotAsked => self.top.ceiling == walked.ceiling,
            Fault::CeilingNotAsked => self.top.owner == walked.owner,
            Fault::NothingHeldNotAsked if self.holds.is_empty() => true,
            _ => self.top == walked,
        }
    }

    /// The hold is there, by a won Take.
    pub(crate) fn keep_taken(&mut self, taken: Hold) {
        match self.fault {
            // What these keep wrong goes on to be compared with, as in code that does not walk; a walk would mend it.
            Fault::GiveKeepsTop | Fault::GivenCeilingKept | Fault::HandOverKeepsTop => self.keep_greater(taken),
            _ => self.top = self.walked(),
        }
    }

    /// The hold is there, by a Give that ended another.
    pub(crate) fn keep_handed_over(&mut self, taken: Hold) {
        match self.fault {
            Fault::HandOverKeepsTop => {}
            Fault::HandOverTie if self.top.owner.is_some() && self.top.ceiling == self.ceiling(taken.section) => {}
            _ => self.keep_taken(taken),
        }
    }

    /// The Take is lost, and no hold has moved.
    pub(crate) fn keep_after_lost(&mut self, wanted: Hold) {
        if self.fault == Fault::LostTakeSetsTop {
            self.keep_greater(wanted);
        }
    }

    /// The hold of that section is gone.
    pub(crate) fn keep_given(&mut self, section: usize) {
        let walked = self.walked();
        self.top = match self.fault {
            Fault::GiveKeepsTop => self.top,
            Fault::GivenCeilingKept => Top {
                ceiling: self.ceiling(section),
                ..walked
            },
            Fault::LastOwnerKept if self.holds.is_empty() => Top {
                owner: self.top.owner,
                ..walked
            },
            _ => walked,
        };
    }

    fn keep_greater(&mut self, hold: Hold) {
        if self.ceiling(hold.section) >= self.top.ceiling {
            self.top = self.top_of(hold);
        }
    }

    fn top_of(&self, hold: Hold) -> Top {
        Top {
            owner: Some(hold.thread),
            ceiling: self.ceiling(hold.section),
        }
    }
}
