//! Entries of the line, the waits, the order of Delays and the holds that question 12 refuses, or their want.

use second::Parts;

use crate::random::Random;
use crate::{state, tops};

/// Adds an entry somewhere, if the library's word has room for it.
fn add<T>(list: &mut Vec<T>, entry: T, random: &mut Random) -> bool {
    if list.len() >= state::ENTRIES {
        return false;
    }
    list.insert(random.below(list.len() + 1), entry);
    true
}

pub fn listed_beyond(list: &mut Vec<u16>, threads: usize, random: &mut Random) -> bool {
    let thread = beyond(random, threads);
    thread.is_some_and(|thread| add(list, thread, random))
}

pub fn listed_twice(list: &mut Vec<u16>, random: &mut Random) -> bool {
    if list.is_empty() {
        return false;
    }
    let thread = random.pick(list);
    add(list, thread, random)
}

pub fn remove(list: &mut Vec<u16>, random: &mut Random) -> bool {
    if list.is_empty() {
        return false;
    }
    list.remove(random.below(list.len()));
    true
}

/// One sleeper's place goes to another one, and the order keeps its length.
pub fn listed_for_another(parts: &mut Parts, random: &mut Random) -> bool {
    if parts.delays.len() < 2 {
        return false;
    }
    random.shuffle(&mut parts.delays);
    parts.delays[0] = parts.delays[1];
    random.shuffle(&mut parts.delays);
    true
}

/// A thread in that condition, beside the sleepers or in the place of one.
pub fn named_asleep(parts: &mut Parts, condition: u8, random: &mut Random) -> bool {
    let conditions = parts.conditions.iter().zip(0..);
    let threads: Vec<u16> = conditions.filter(|(c, _)| c.0 == condition).map(|(_, thread)| thread).collect();
    if threads.is_empty() {
        return false;
    }
    let thread = random.pick(&threads);
    if !parts.delays.is_empty() && random.one_in(2) {
        remove(&mut parts.delays, random);
    }
    add(&mut parts.delays, thread, random)
}

/// A thread that is in one condition by its number, and in another by a list.
pub fn in_two(parts: &mut Parts, random: &mut Random) -> bool {
    let thread = random.below(parts.threads);
    let (state, entry) = (parts.conditions[thread].0, thread as u16);
    if state != 1 && random.one_in(2) {
        add(&mut parts.line, entry, random)
    } else if state != 3 {
        add(&mut parts.waits, entry, random)
    } else {
        false
    }
}

pub fn held_twice(parts: &mut Parts, random: &mut Random) -> bool {
    if parts.holds.is_empty() {
        return false;
    }
    let hold = (random.pick(&parts.holds).0, random.below(parts.threads) as u16);
    add(&mut parts.holds, hold, random) && tops::keep(parts)
}

pub fn holder_beyond(parts: &mut Parts, random: &mut Random) -> bool {
    let free: Vec<u16> = (0..parts.sections as u16)
        .filter(|s| parts.holds.iter().all(|(held, _)| held != s))
        .collect();
    if free.is_empty() {
        return false;
    }
    let section = random.pick(&free);
    let thread = beyond(random, parts.threads);
    thread.is_some_and(|thread| add(&mut parts.holds, (section, thread), random) && tops::keep(parts))
}

pub fn section_beyond(parts: &mut Parts, random: &mut Random) -> bool {
    let thread = random.below(parts.threads) as u16;
    let section = beyond(random, parts.sections);
    section.is_some_and(|section| add(&mut parts.holds, (section, thread), random) && tops::keep(parts))
}

/// A number from the bound on that fits an entry of the library's words; none where the bound does not.
pub fn beyond(random: &mut Random, bound: usize) -> Option<u16> {
    let greatest = usize::from(state::GREATEST);
    if bound > greatest {
        return None;
    }
    let any = random.between(bound, greatest);
    Some(random.pick(&[bound, any, greatest]) as u16)
}
