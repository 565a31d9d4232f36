//! Questions 1 to 8.

use super::*;

#[derive(Clone, Copy)]
pub struct Plan {
    pub threads: usize,
    pub sections: usize,
    pub bases: [u8; 16],
    pub needs: [u16; 16],
    pub ceilings: [u8; 16],
}

/// The plan of some bytes, or the question, 1 to 4, that refuses them.
pub fn plan(bytes: &[u8]) -> Result<Plan, u8> {
    if bytes.len() < 2 || !(1..=16).contains(&bytes[0]) || bytes[1] > 16 {
        return Err(1);
    }
    let (threads, sections) = (bytes[0] as usize, bytes[1] as usize);
    if bytes.len() != 2 + 3 * threads {
        return Err(2);
    }
    let (priorities, masks) = bytes[2..].split_at(threads);
    let mut plan = Plan {
        threads,
        sections,
        bases: [0; 16],
        needs: [0; 16],
        ceilings: [0; 16],
    };
    for (thread, &base) in priorities.iter().enumerate() {
        if !(1..=64).contains(&base) {
            return Err(3);
        }
        plan.bases[thread] = base;
    }
    for (thread, mask) in masks.chunks_exact(2).enumerate() {
        let needs = u16::from_le_bytes([mask[0], mask[1]]);
        if (needs as u32) >> sections != 0 {
            return Err(4);
        }
        plan.needs[thread] = needs;
        for section in 0..sections {
            if needs >> section & 1 == 1 {
                plan.ceilings[section] = plan.ceilings[section].max(plan.bases[thread]);
            }
        }
    }
    Ok(plan)
}

/// The kind bytes and the operand bytes of a dump, or the question, 5 to 8, that refuses it.
pub fn records<'a, const TUNED: bool>(plan: &Plan, dump: &'a [u8]) -> Result<(&'a [u8], &'a [u8]), u8> {
    if dump.len() < 2 {
        return Err(5);
    }
    let count = u16::from_le_bytes([dump[0], dump[1]]) as usize;
    if count > 20_000 {
        return Err(5);
    }
    if dump.len() != 2 + 3 * count {
        return Err(6);
    }
    let (kinds, operands) = dump[2..].split_at(count);
    if TUNED {
        by_table(plan, kinds, operands)?;
    } else {
        by_kind(plan, kinds, operands)?;
    }
    Ok((kinds, operands))
}

fn known(kind: u8) -> bool {
    matches!(kind, CREATE..=CANCEL | READY..=LATE)
}

fn by_kind(plan: &Plan, kinds: &[u8], operands: &[u8]) -> Result<(), u8> {
    if !kinds.iter().all(|&kind| known(kind)) {
        return Err(7);
    }
    for (&kind, operand) in kinds.iter().zip(operands.chunks_exact(2)) {
        if !allowed(plan, kind, u16::from_le_bytes([operand[0], operand[1]])) {
            return Err(8);
        }
    }
    Ok(())
}

fn allowed(plan: &Plan, kind: u8, operand: u16) -> bool {
    match kind {
        CREATE | READY | WON | LOST | YIELD => (operand as usize) < plan.threads,
        SWITCH => (operand as usize) < plan.threads || operand == NOBODY,
        TAKE | GIVE => (operand as usize) < plan.sections,
        ARM | CANCEL | EXPIRE => (operand as usize) < TIMERS,
        DELAY | START => operand > 0,
        PERIOD | LATE => true,
        _ => operand == 0,
    }
}

/// One pass without a decision over the kind: the operands of a kind begin at `first` and end before `end`.
fn by_table(plan: &Plan, kinds: &[u8], operands: &[u8]) -> Result<(), u8> {
    let (mut first, mut end) = ([0; 32], [1; 32]);
    for kind in [CREATE, READY, SWITCH, WON, LOST, YIELD] {
        end[kind as usize] = plan.threads as u32;
    }
    for kind in [TAKE, GIVE] {
        end[kind as usize] = plan.sections as u32;
    }
    for kind in [ARM, CANCEL, EXPIRE] {
        end[kind as usize] = TIMERS as u32;
    }
    for (kind, least) in [(DELAY, 1), (START, 1), (PERIOD, 0), (LATE, 0)] {
        (first[kind as usize], end[kind as usize]) = (least, 65536);
    }
    let (mut kinds_good, mut operands_good) = (true, true);
    for (&kind, operand) in kinds.iter().zip(operands.chunks_exact(2)) {
        let operand = u16::from_le_bytes([operand[0], operand[1]]);
        let row = kind as usize % 32;
        kinds_good &= known(kind);
        operands_good &= (first[row]..end[row]).contains(&(operand as u32)) | ((kind == SWITCH) & (operand == NOBODY));
    }
    match (kinds_good, operands_good) {
        (false, _) => Err(7),
        (_, false) => Err(8),
        _ => Ok(()),
    }
}
