//! The plan: threads with their base priorities and needs, and the ceilings that follow.

use crate::fault::Fault;

pub const MOST_THREADS: usize = 16;
pub const MOST_SECTIONS: usize = 16;
pub const GREATEST_PRIORITY: u8 = 64;

#[derive(Clone, Debug, PartialEq, Eq)]
pub struct Plan {
    sections: usize,
    bases: Vec<u8>,
    needs: Vec<u16>,
    ceilings: Vec<u8>,
}

impl Plan {
    /// Reads a plan; a No to one of the questions 1 to 4 gives its number.
    pub fn read(bytes: &[u8], fault: Fault) -> Result<Plan, u8> {
        if bytes.len() < 2 {
            return Err(1);
        }
        let threads = bytes[0] as usize;
        let sections = bytes[1] as usize;
        if !sizes_allowed(threads, sections) {
            return Err(1);
        }
        if bytes.len() != 2 + 3 * threads {
            return Err(2);
        }
        let (bases, needs) = bytes[2..].split_at(threads);
        let needs = needs.chunks(2).map(|b| two_bytes(b[0], b[1], fault == Fault::NeedsByteOrder));
        Plan::from_numbers(threads, sections, bases.to_vec(), needs.collect())
    }

    /// A plan from its numbers, with the same questions.
    pub fn from_numbers(threads: usize, sections: usize, bases: Vec<u8>, needs: Vec<u16>) -> Result<Plan, u8> {
        if !sizes_allowed(threads, sections) {
            return Err(1);
        }
        if bases.len() != threads || needs.len() != threads {
            return Err(2);
        }
        if !bases.iter().all(|base| (1..=GREATEST_PRIORITY).contains(base)) {
            return Err(3);
        }
        if !needs.iter().all(|bits| no_bit_from(*bits, sections)) {
            return Err(4);
        }
        let ceilings = (0..sections).map(|section| greatest_needing(section, &bases, &needs)).collect();
        Ok(Plan {
            sections,
            bases,
            needs,
            ceilings,
        })
    }

    pub fn threads(&self) -> usize {
        self.bases.len()
    }

    pub fn sections(&self) -> usize {
        self.sections
    }

    pub fn bases(&self) -> &[u8] {
        &self.bases
    }

    pub fn needs_bits(&self) -> &[u16] {
        &self.needs
    }

    pub fn base(&self, thread: usize) -> u8 {
        self.bases[thread]
    }

    pub fn needs(&self, thread: usize, section: usize) -> bool {
        has_bit(self.needs[thread], section)
    }

    /// The greatest base priority among threads that need the section, 0 if none does.
    pub fn ceiling(&self, section: usize) -> u8 {
        self.ceilings[section]
    }
}

fn greatest_needing(section: usize, bases: &[u8], needs: &[u16]) -> u8 {
    let needing = bases.iter().zip(needs).filter(|(_, bits)| has_bit(**bits, section));
    needing.map(|(base, _)| *base).max().unwrap_or(0)
}

fn has_bit(bits: u16, section: usize) -> bool {
    bits >> section & 1 == 1
}

/// The number of two bytes, low byte first unless the order is swapped by mistake.
pub fn two_bytes(first: u8, second: u8, swapped: bool) -> u16 {
    if swapped {
        first as u16 * 256 + second as u16
    } else {
        first as u16 + second as u16 * 256
    }
}

fn sizes_allowed(threads: usize, sections: usize) -> bool {
    (1..=MOST_THREADS).contains(&threads) && sections <= MOST_SECTIONS
}

/// Whether every bit at `sections` or above is zero. Sixteen sections allow every bit.
fn no_bit_from(bits: u16, sections: usize) -> bool {
    u32::from(bits) < (1u32 << sections)
}
