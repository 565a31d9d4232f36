//! Two parts of 12, asked of states made here: where a Switch due stands, and what has a claim on the room for reports.
mod known;

use beltcairn::kind::{EXPIRE, LATE, READY, SWITCH, TICK};
use beltcairn::packed::word;
use beltcairn::{refused, Queue, Reply, Report, Watch, NOBODY, TIMERS};
use known::states::{is_refused, made, made_owing, owe, owed, steps};

/// 12 whatever the record, asked before 7; nothing changes.
fn ill_formed(watch: Watch) {
    for (kind, operand) in [(TICK, 0), (LATE, 0), (0, 0)] {
        is_refused(watch, refused::STATE, kind, operand);
    }
}

/// A Tick leaves these reports due, at the front.
fn ticks_to(mut watch: Watch, due: &[(u8, u16)]) {
    assert_eq!(watch.step(TICK, 0), Reply::Clean(due.len() as u64));
    assert_eq!((owed(&watch.state), watch.state.given), (due.to_vec(), 0));
}

/// A Switch due that is not last, whoever it names; one that is last, and one that was given and so is not due, are well formed.
#[test]
fn switch_not_last() {
    let late = (LATE, 0);
    for switch in [0, 1, 2, NOBODY].map(|thread| (SWITCH, thread)) {
        ticks_to(made_owing(&[switch]), &[]);
        ticks_to(made_owing(&[late, late, late, switch]), &[late; 3]);
        ill_formed(made_owing(&[late, late, switch, switch]));
        for place in 0..3 {
            let mut reports = [late; 4];
            reports[place] = switch;
            let mut watch = made_owing(&reports);
            ill_formed(watch);
            watch.state.given = place;
            ill_formed(watch);
            watch.state.given = place + 1;
            ticks_to(watch, &reports[place + 1..]);
        }
    }
}

/// A Switch that is dropped is due again where another thread was reported than the chosen one, whoever it named.
#[test]
fn switch_put_right() {
    for reported in [1, 2, 255] {
        let mut watch = made_owing(&[(LATE, 0), (SWITCH, 1)]);
        watch.state.machine.reported = reported;
        steps(&mut watch, &[(TICK, 0)]);
        assert_eq!(owed(&watch.state), [(LATE, 0), (SWITCH, 0)]);
        assert_eq!(watch.state.machine.reported, reported);
        steps(&mut watch, &[(LATE, 0), (SWITCH, 0), (TICK, 0)]);
        assert_eq!((watch.state.machine.reported, owed(&watch.state)), (0, vec![(READY, 1)]));
        // at 9 thread 1 wakes
    }
}

/// Reports that were given mean nothing, whatever they have.
#[test]
fn given_means_nothing() {
    let mut watch = made_owing(&[(255, 65535), (SWITCH, 7), (LATE, 3), (SWITCH, 2)]);
    watch.state.given = 2;
    ticks_to(watch, &[(LATE, 3)]);
    watch.state.machine.timers.expiries[5] = 8;
    watch.state.due.items[1] = Report { kind: EXPIRE, operand: 5 };
    ticks_to(watch, &[(LATE, 3), (EXPIRE, 5)]);
}

/// Timer 5 expires at 8 while an Expire of it is owed: it adds none, and an alarm is unarmed all the same.
#[test]
fn lent_expiries() {
    for (period, next) in [(0, 0), (1, 9), (65535, 65543)] {
        let mut watch = made_owing(&[(EXPIRE, 5)]);
        (watch.state.machine.timers.expiries[5], watch.state.machine.timers.periods[5]) = (8, period);
        assert_eq!(watch.step(TICK, 0), Reply::Clean(1));
        assert_eq!(
            (owed(&watch.state), watch.state.machine.timers.expiries[5]),
            (vec![(EXPIRE, 5)], next)
        );
    }
}

/// What has a claim on the room.
#[derive(Clone, Copy)]
struct Claims {
    sleepers: usize,
    armed: usize,
    owed: usize,
    lates: usize,
}

impl Claims {
    /// Expires of the first timers, and Lates behind them.
    fn due(self) -> Vec<(u8, u16)> {
        let expires = (0..self.owed as u16).map(|timer| (EXPIRE, timer));
        expires.chain((0..self.lates).map(|_| (LATE, 0))).collect()
    }

    /// Three threads of priority 1 at tick number 7, and nobody reported. The first ones sleep until 8, and the others stand in the line. The
    /// first timers expire at 8, even ones as alarms and odd ones by 1; of these again the first are owed an Expire. Lates are due behind them.
    fn state(self) -> Watch {
        let mut watch = Watch::begin(&[3, 0, 1, 1, 1, 0, 0, 0, 0, 0, 0]).unwrap();
        let m = &mut watch.state.machine;
        m.tick = 7;
        m.slots.states = word(std::array::from_fn(|thread| match thread {
            0..=2 if thread < self.sleepers => 2,
            0..=2 => 1,
            _ => 0,
        }));
        m.wakes[..3].fill(8);
        (m.queue.items, m.queue.count) = (0x210 >> (4 * self.sleepers), 3 - self.sleepers);
        m.delays = Queue {
            items: 0x210,
            count: self.sleepers,
        };
        for timer in 0..self.armed {
            (m.timers.expiries[timer], m.timers.periods[timer]) = (8, timer as u16 % 2);
        }
        owe(&mut watch, &self.due());
        watch
    }

    /// What is due behind the next Tick: an Expire for each other timer, a Ready for each sleeper, and a Switch.
    fn met(self) -> Vec<(u8, u16)> {
        let expires = (self.owed as u16..self.armed as u16).map(|timer| (EXPIRE, timer));
        let readys = (0..self.sleepers as u16).map(|thread| (READY, thread));
        let first = self.sleepers as u16 % 3;
        self.due()
            .into_iter()
            .chain(expires)
            .chain(readys)
            .chain([(SWITCH, first)])
            .collect()
    }
}

/// Every number of sleepers, armed timers and timers owed an Expire, with as many Lates as make T + 9 claims:
/// 12 = owed + lates + sleepers + (armed - owed) + 1.
fn most_claims() -> impl Iterator<Item = Claims> {
    let counts = (0..=3).flat_map(|sleepers| (0..=TIMERS).map(move |armed| (sleepers, armed)));
    let owed = |(sleepers, armed)| (0..=armed).map(move |owed| (sleepers, armed, owed));
    counts.flat_map(owed).map(|(sleepers, armed, owed)| Claims {
        sleepers,
        armed,
        owed,
        lates: 11 - sleepers - armed,
    })
}

/// T + 9 claims are met, a Switch due making no difference; as many reports are due then, and stay so at the next Tick.
#[test]
fn claims_that_are_met() {
    for claims in most_claims() {
        let (mut plain, mut switching) = (claims.state(), claims.state());
        owe(&mut switching, &[claims.due(), vec![(SWITCH, 1)]].concat());
        for watch in [&mut plain, &mut switching] {
            for tick in [8, 9] {
                assert_eq!(watch.step(TICK, 0), Reply::Clean(12));
                assert_eq!((owed(&watch.state), watch.state.given), (claims.met(), 0));
                let next = |timer: usize| if timer < claims.armed && timer % 2 == 1 { tick + 1 } else { 0 };
                assert_eq!(watch.state.machine.timers.expiries, std::array::from_fn(next));
            }
        }
    }
}

/// With a report, a sleeper or an armed timer more they are not.
#[test]
fn one_claim_too_many() {
    for claims in most_claims() {
        let (mut report, mut sleeper, mut timer) = (claims, claims, claims);
        report.lates += 1;
        ill_formed(report.state());
        sleeper.sleepers += 1;
        if sleeper.sleepers <= 3 {
            ill_formed(sleeper.state());
        }
        timer.armed += 1;
        if timer.armed <= TIMERS {
            ill_formed(timer.state());
        }
    }
}

/// `made` has one sleeper: ten Lates may be due, and a Switch; an armed timer takes the place of one, unless it is owed an Expire.
#[test]
fn claims_of_one_state() {
    let lates = |n: usize| vec![(LATE, 0); n];
    let with = |n: usize, last: (u8, u16)| [lates(n), vec![last]].concat();
    let armed = |reports: &[(u8, u16)]| {
        let mut watch = made_owing(reports);
        watch.state.machine.timers.expiries[3] = 9;
        watch
    };
    ticks_to(made(), &[]);
    ticks_to(made_owing(&lates(10)), &lates(10));
    ticks_to(made_owing(&with(10, (SWITCH, 2))), &lates(10));
    ill_formed(made_owing(&lates(11)));
    ill_formed(made_owing(&with(11, (SWITCH, 2))));
    ticks_to(armed(&lates(9)), &lates(9));
    ill_formed(armed(&lates(10)));
    ticks_to(armed(&with(9, (EXPIRE, 3))), &with(9, (EXPIRE, 3)));
    ill_formed(armed(&with(9, (EXPIRE, 4))));
}
