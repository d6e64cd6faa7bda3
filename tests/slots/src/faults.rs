//! Calls that are wrong on purpose, in the place of the archive's. Each must be
//! noticed.

use crate::named_faults::words;
use crate::words::{BRANCHES, JUMPS};

macro_rules! faults {
    ($($name:ident,)*) => {
        #[derive(Clone, Copy, PartialEq, Eq, Debug)]
        pub enum Fault {
            /// Goes the way of the wrong calls, and must not be noticed.
            NotWrong,
            $($name,)*
            /// Exceptions of this code forget that they are in a slot.
            CodeForgets(u32),
            /// This branch or jump has no slot.
            BranchForgets(usize),
        }

        const PLAIN: &[Fault] = &[$(Fault::$name,)*];
    };
}

faults! {
    FlagKeptAtEntry,
    AddressKeptAtEntry,
    EpcFromPc,
    EpcBehindTheBranch,
    EpcFourBeforePc,
    BdLeftZero,
    BdAlwaysOne,
    BdNeverCleared,
    BdKeptAtInterrupts,
    FetchFaultsForget,
    DataFaultsForget,
    MissesForget,
    NotMissedForget,
    TimerForgets,
    PrintersForget,
    SoftwareLinesForget,
    BadVAddrIsTheBranch,
    EntryHiOfTheBranch,
    BadCodeGoesOnWithNextPc,
    NotTakenForgets,
    TakenForgets,
    BranchInASlotForgets,
    FirstOfTwoBranches,
    AddressOfTheSlot,
    AddressOfTheTarget,
    FlagStaysBehindASlot,
    AddressStaysBehindASlot,
    RfeHasASlot,
    LoadHasASlot,
    FlagFromNextPc,
    FlagIsTwo,
    EntryHasASlot,
    HaltForgets,
    HaltClearsTheAddress,
    FlagLostAtTheEndOfARun,
    RecordWithoutTheSlot,
    RecordOfTheFlagBehind,
    RecordOfPc,
    RecordFlagInTheLastWord,
    RecordInTheOldPlaces,
    RunTakesAnyFlag,
    RunTakesAnAddressAlone,
    RunTakesOldImages,
    RunTakesTheOldVersionByte,
    ResetLeavesTheSlot,
    ResetLeavesTheDisks,
    BackKeepsTheSlot,
    BackForgetsTheSlot,
    BackForgetsTheAddress,
    BackForgetsBd,
    BackTakesAnyFlag,
    BackTakesAnAddressAlone,
    BackRefusesSlots,
    ConvertKeepsOnHand,
    ConvertKeepsNextSlot,
    ConvertHalvesNextSlot,
    ConvertForgetsTheSlot,
    ConvertSetsTheFlag,
    ConvertSetsTheAddress,
    ConvertInstallsADisk,
    ConvertSetsTheDisksPending,
    ConvertLeavesTheEnd,
    ConvertLeavesTheLengthWord,
    ConvertLeavesTheVersion,
    ConvertClearsBd,
    ConvertForgetsEpc,
    ConvertWritesWhereItRefuses,
    ConvertJudgesNoRule,
    ConvertJudgesNoOnHand,
    ConvertJudgesNoNextSlot,
    ConvertJudgesNoPaperCount,
    ConvertJudgesNoSlotFlag,
    ConvertJudgesInNewSlots,
    ConvertCountsInNewSlots,
    ConvertTakesTheFirstVersion,
    ConvertTakesAnyVersion,
    ConvertTakesAnyLengthWord,
    ConvertTakesLongerOldImages,
    ConvertTakesLongerNewImages,
    ConvertJudgesNoPaper,
    ConvertJudgesNoJournal,
    ConvertJudgesTheImageFirst,
    ConvertJudgesTheJournalFirst,
    ConvertTellsSteps,
    ConvertTellsAReason,
    ConvertRefusesAll,
}

pub fn all() -> Vec<Fault> {
    let codes = (0..=12).map(Fault::CodeForgets);
    let branches = (0..12).map(Fault::BranchForgets);
    PLAIN.iter().copied().chain(codes).chain(branches).collect()
}

/// As words: EpcFromPc is "epc from pc".
pub fn name(fault: Fault) -> String {
    match fault {
        Fault::CodeForgets(code) => return format!("code {code} forgets the slot"),
        Fault::BranchForgets(kind) => {
            let word = JUMPS.iter().chain(&BRANCHES).nth(kind).expect("one of the twelve");
            return format!("{word} has no slot");
        }
        _ => {}
    }
    words(fault)
}
