//! The order of Delays, which decides between sleepers that share a tick.

use crate::fault::Fault;

/// The Delay calls, counted from 1 on. Sleepers stand in the order of their numbers.
#[derive(Clone, Debug, PartialEq, Eq)]
pub struct Delays {
    /// Per thread the number of its latest Delay, 0 if it has made none. That of a thread not asleep means nothing.
    numbers: Vec<u64>,
    made: u64,
}

impl Delays {
    pub fn none(threads: usize) -> Delays {
        Delays {
            numbers: vec![0; threads],
            made: 0,
        }
    }

    /// As if these threads had made their Delays in this order, and the others none.
    pub fn in_order(sleepers: &[usize], threads: usize) -> Delays {
        let mut delays = Delays::none(threads);
        sleepers.iter().for_each(|thread| delays.make(*thread, Fault::None));
        delays
    }

    /// The thread makes a Delay.
    pub fn make(&mut self, thread: usize, fault: Fault) {
        self.made += 1;
        let again = self.numbers[thread] != 0;
        if !again || fault != Fault::DelayAgainKeepsPlace {
            self.numbers[thread] = self.made;
        }
    }

    /// The number of the thread's Delay: the lesser one was made earlier.
    pub fn number(&self, thread: usize) -> u64 {
        self.numbers[thread]
    }
}
