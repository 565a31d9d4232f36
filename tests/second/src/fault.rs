//! Mistakes that the implementation makes on request, one at a time.
//!
//! A comparison that does not see one of these would not see the same mistake made by
//! accident either.

#[derive(Clone, Copy, Debug, Default, PartialEq, Eq)]
pub enum Fault {
    /// No mistake: the documents as written.
    #[default]
    None,
    /// The plan's needs are read high byte first.
    NeedsByteOrder,
    /// The number of records is read and written high byte first.
    CountByteOrder,
    /// Operands are read and written high byte first.
    OperandByteOrder,
    /// Operands are read one byte apart.
    OperandsByOne,
    /// Operands are read from byte 2 + 2N on.
    OperandsFromTwoPlusTwoN,
    /// Each record is read with the operand of the next one.
    OperandsOneBehind,
    /// Question 8 is asked of a record before question 7 is asked of the next one.
    Questions7And8ByRecord,
    /// A Take is won by a base at or above the ceilings.
    TakeAtOrAbove,
    /// A waiting thread wins at a Give with a base at or above the ceilings.
    GiveAtOrAbove,
    /// Of equal waiting threads the heir is the one that waits least long.
    HeirTie,
    /// A thread begins to wait in front of the others.
    WaitsNewestFirst,
    /// The waits stand in the order of the thread numbers.
    WaitsByNumber,
    /// Sleepers of one tick wake with the lower thread number first.
    SleepersByNumber,
    /// Sleepers of one tick wake with the latest Delay first.
    LatestDelayFirst,
    /// A thread that delays again gets its old place in the order of Delays, that of its first Delay. In a lent state only the sleepers have
    /// a place; the others get one with a Delay in a step.
    DelayAgainKeepsPlace,
    /// Relinquish compares base priorities.
    RelinquishBases,
    /// An heir becomes ready at the line's front.
    HeirAtFront,
    /// A woken thread becomes ready at the line's front.
    WokenAtFront,
    /// The Lost of a Give names the giver.
    LostNamesGiver,
    /// A ceiling is taken over all threads, needing the section or not.
    CeilingOverAll,
    /// A Delay of n sleeps until tick number + n.
    WakeAtNumberPlusN,
    /// End is admitted while the caller holds a section.
    EndWhileHolding,
    /// An heir holds the given section and not the one it wanted.
    HeirGetsGiven,
    /// Question 30 is asked before question 29.
    Rules29And30Swapped,
    /// Question 22 is not asked.
    Rule22Dropped,
    /// Of equal ceilings the one taken earlier makes the owner.
    OwnerTie,
    /// A Take is lost only where the section itself is held.
    BarsHeldOnly,
    /// The heir is the longest waiting thread, urgent or not.
    LongestWaiter,
    /// A relinquisher yields even where it is alone.
    LoneRelinquisherMoves,
    /// A start in time is one tick before the first expiry.
    ExpiryAtStartPlusOne,
    /// A start is in time at or above the tick number.
    StartAtTickInTime,
    /// An alarm that is too late is armed for a tick that never comes.
    LateAlarmArmed,
    /// An alarm that is too late leaves the timer as it was armed before.
    LateAlarmKeepsOld,
    /// A periodic timer armed too late expires a period after the tick number.
    LatePeriodicFromTick,
    /// A periodic timer loses the least j for which start + j × period is at or above the tick number.
    LostAtOrAbove,
    /// With nothing lost no Late is due.
    LateZeroLeftOut,
    /// Of a count above 65535 the lowest two bytes are written.
    CountNotCapped,
    /// An alarm stays armed at its expiry.
    AlarmStaysArmed,
    /// The Readys of a Tick are due before its Expires.
    ReadyBeforeExpire,
    /// Of the timers of one tick the higher number expires first.
    HigherTimerFirst,
    /// Question 31 is asked of a call after question 21.
    Rule31After21,
    /// Question 31 is asked of calls only.
    Rule31OfCallsOnly,
    /// A Tick is admitted inside an arming.
    TickInsideArming,
    /// A call list may end inside an arming.
    BenchEndsInsideArming,
    /// Question 22 is asked of kinds 2 to 6 only.
    Rule22NotOfTimers,
    /// Question 30 compares the low bytes of the operands.
    Rule30LowByte,
    /// Question 32 is not asked.
    Rule32Dropped,
    /// Question 21 is asked of a Tick too.
    Rule21OfTick,
    /// A Switch still due at a Tick stays due where it stands, and what the Tick owes comes behind it.
    SwitchKeptAtTick,
    /// A Switch still due at a Tick is due before all else.
    SwitchMovedToFront,
    /// The thread of a dropped Switch counts as last reported.
    ReportedFromDroppedSwitch,
    /// An expiry adds an Expire though one of the timer is still owed.
    ExpireOwedTwice,
    /// A timer that is still owed an Expire does not expire, and keeps its tick number.
    OwedTimerStands,
    /// A delay runs from the Switch behind its Delay.
    DelayFromSwitch,
    /// In a lent state a Switch due may stand anywhere.
    SwitchDueAnywhere,
    /// Of a lent state a Switch due is counted with the other reports due.
    SwitchAmongClaims,
    /// Of a lent state every armed timer is counted, owed an Expire or not.
    OwedTimersAmongClaims,
    /// Of a lent state the one beside reports due, sleepers and timers is not counted.
    ClaimsWithoutOne,
    /// A Give leaves the kept owner and ceiling as they were.
    GiveKeepsTop,
    /// A lost Take makes its caller the kept owner, if the section's ceiling is at or above the kept one.
    LostTakeSetsTop,
    /// After a Give the ceiling of the section given is kept.
    GivenCeilingKept,
    /// A section that is handed over leaves the kept owner and ceiling as the Give before it set them.
    HandOverKeepsTop,
    /// A section that is handed over leaves the owner where its ceiling is the one kept.
    HandOverTie,
    /// With nothing held any more the last owner stays the kept one.
    LastOwnerKept,
    /// Of a lent state the owner is not compared with the walk's.
    OwnerNotAsked,
    /// Of a lent state the greatest ceiling is not compared with the walk's.
    CeilingNotAsked,
    /// Of a lent state in which nothing is held neither is asked.
    NothingHeldNotAsked,
}

impl Fault {
    /// Every mistake, without `None`.
    pub const ALL: [Fault; 67] = [
        Fault::NeedsByteOrder,
        Fault::CountByteOrder,
        Fault::OperandByteOrder,
        Fault::OperandsByOne,
        Fault::OperandsFromTwoPlusTwoN,
        Fault::OperandsOneBehind,
        Fault::Questions7And8ByRecord,
        Fault::TakeAtOrAbove,
        Fault::GiveAtOrAbove,
        Fault::HeirTie,
        Fault::WaitsNewestFirst,
        Fault::WaitsByNumber,
        Fault::SleepersByNumber,
        Fault::LatestDelayFirst,
        Fault::DelayAgainKeepsPlace,
        Fault::RelinquishBases,
        Fault::HeirAtFront,
        Fault::WokenAtFront,
        Fault::LostNamesGiver,
        Fault::CeilingOverAll,
        Fault::WakeAtNumberPlusN,
        Fault::EndWhileHolding,
        Fault::HeirGetsGiven,
        Fault::Rules29And30Swapped,
        Fault::Rule22Dropped,
        Fault::OwnerTie,
        Fault::BarsHeldOnly,
        Fault::LongestWaiter,
        Fault::LoneRelinquisherMoves,
        Fault::ExpiryAtStartPlusOne,
        Fault::StartAtTickInTime,
        Fault::LateAlarmArmed,
        Fault::LateAlarmKeepsOld,
        Fault::LatePeriodicFromTick,
        Fault::LostAtOrAbove,
        Fault::LateZeroLeftOut,
        Fault::CountNotCapped,
        Fault::AlarmStaysArmed,
        Fault::ReadyBeforeExpire,
        Fault::HigherTimerFirst,
        Fault::Rule31After21,
        Fault::Rule31OfCallsOnly,
        Fault::TickInsideArming,
        Fault::BenchEndsInsideArming,
        Fault::Rule22NotOfTimers,
        Fault::Rule30LowByte,
        Fault::Rule32Dropped,
        Fault::Rule21OfTick,
        Fault::SwitchKeptAtTick,
        Fault::SwitchMovedToFront,
        Fault::ReportedFromDroppedSwitch,
        Fault::ExpireOwedTwice,
        Fault::OwedTimerStands,
        Fault::DelayFromSwitch,
        Fault::SwitchDueAnywhere,
        Fault::SwitchAmongClaims,
        Fault::OwedTimersAmongClaims,
        Fault::ClaimsWithoutOne,
        Fault::GiveKeepsTop,
        Fault::LostTakeSetsTop,
        Fault::GivenCeilingKept,
        Fault::HandOverKeepsTop,
        Fault::HandOverTie,
        Fault::LastOwnerKept,
        Fault::OwnerNotAsked,
        Fault::CeilingNotAsked,
        Fault::NothingHeldNotAsked,
    ];

    /// The name as written above.
    pub fn name(self) -> String {
        format!("{self:?}")
    }

    /// The mistake of that name; `None` the case for the word "None".
    pub fn named(name: &str) -> Option<Fault> {
        if name == "None" {
            return Some(Fault::None);
        }
        Fault::ALL.into_iter().find(|fault| fault.name() == name)
    }
}
