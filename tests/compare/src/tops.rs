//! The owner and the greatest held ceiling in lent states: what a walk over the holds finds, and ways in which what is lent differs from it.

use std::cmp::Reverse;

use second::{Parts, Top};

use crate::random::Random;

/// What the walk finds. Numbers out of range count as they are: a section that no thread needs has ceiling 0.
pub fn walked(parts: &Parts) -> Top {
    match greatest_first(parts).first() {
        Some((ceiling, thread)) => top(*thread, *ceiling),
        None => Top::default(),
    }
}

/// Lends what the walk finds.
pub fn keep(parts: &mut Parts) -> bool {
    parts.top = walked(parts);
    true
}

/// The greatest base among the threads that need the section.
pub fn ceiling(parts: &Parts, section: u16) -> u8 {
    let threads = parts.needs.iter().zip(&parts.bases);
    let needing = threads.filter(|(bits, _)| u32::from(**bits) >> section & 1 == 1);
    needing.map(|(_, base)| *base).max().unwrap_or(0)
}

/// The ceiling and the thread of each hold, those of greatest ceiling first, and of equal ones the latest taken.
pub fn greatest_first(parts: &Parts) -> Vec<(u8, usize)> {
    let latest_first = parts.holds.iter().rev();
    let mut held: Vec<(u8, usize)> = latest_first
        .map(|(section, thread)| (ceiling(parts, *section), (*thread).into()))
        .collect();
    // A stable sort.
    held.sort_by_key(|(ceiling, _)| Reverse(*ceiling));
    held
}

fn top(thread: usize, ceiling: u8) -> Top {
    Top {
        owner: Some(thread),
        ceiling,
    }
}

fn held(parts: &Parts) -> bool {
    !parts.holds.is_empty()
}

fn own(parts: &mut Parts, owner: Option<usize>) -> bool {
    parts.top.owner = owner;
    true
}

fn cap(parts: &mut Parts, ceiling: u8) -> bool {
    parts.top.ceiling = ceiling;
    true
}

pub fn owner_of_less(parts: &mut Parts, random: &mut Random) -> bool {
    let greatest = parts.top.ceiling;
    another_owner(parts, random, |most| most.is_some_and(|ceiling| ceiling < greatest))
}

pub fn owner_of_a_tie(parts: &mut Parts, random: &mut Random) -> bool {
    let greatest = parts.top.ceiling;
    another_owner(parts, random, |most| most == Some(greatest))
}

pub fn owner_of_none(parts: &mut Parts, random: &mut Random) -> bool {
    held(parts) && another_owner(parts, random, |most| most.is_none())
}

/// Another thread, by the greatest ceiling that it holds itself, if it holds any.
fn another_owner(parts: &mut Parts, random: &mut Random, fits: impl Fn(Option<u8>) -> bool) -> bool {
    let held = greatest_first(parts);
    let most = |thread: usize| held.iter().find(|hold| hold.1 == thread).map(|hold| hold.0);
    let others = (0..parts.threads).filter(|thread| Some(*thread) != parts.top.owner && fits(most(*thread)));
    let owners: Vec<usize> = others.collect();
    !owners.is_empty() && own(parts, Some(random.pick(&owners)))
}

pub fn ceiling_of_another(parts: &mut Parts, random: &mut Random) -> bool {
    let mut held = greatest_first(parts);
    held.retain(|hold| hold.0 != parts.top.ceiling);
    !held.is_empty() && cap(parts, random.pick(&held).0)
}

/// As if the holds of the owner were not there.
pub fn both_of_another(parts: &mut Parts, random: &mut Random) -> bool {
    let mut others: Vec<Top> = greatest_first(parts).into_iter().map(|hold| top(hold.1, hold.0)).collect();
    others.retain(|other| other.owner != parts.top.owner && other.ceiling != parts.top.ceiling);
    if others.is_empty() {
        return false;
    }
    parts.top = random.pick(&others);
    true
}

pub fn nobody_owns(parts: &mut Parts, _: &mut Random) -> bool {
    held(parts) && own(parts, None)
}

pub fn neither(parts: &mut Parts, random: &mut Random) -> bool {
    zero(parts, random) && own(parts, None)
}

pub fn one_more(parts: &mut Parts, _: &mut Random) -> bool {
    held(parts) && cap(parts, parts.top.ceiling + 1)
}

pub fn one_less(parts: &mut Parts, _: &mut Random) -> bool {
    parts.top.ceiling > 0 && cap(parts, parts.top.ceiling - 1)
}

pub fn zero(parts: &mut Parts, _: &mut Random) -> bool {
    parts.top.ceiling > 0 && cap(parts, 0)
}

pub fn owner_of_nothing(parts: &mut Parts, random: &mut Random) -> bool {
    !held(parts) && own(parts, Some(random.below(parts.threads)))
}

pub fn ceiling_of_nothing(parts: &mut Parts, random: &mut Random) -> bool {
    let base = random.pick(&parts.bases);
    !held(parts) && cap(parts, random.pick(&[1, base, 64, 255]))
}
