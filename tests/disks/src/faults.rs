//! Calls that are wrong on purpose, in the place of the archive's. Each must be
//! noticed.

use crate::judge::WRONGS;
use crate::named_faults::words;
use crate::rules::BROKEN;

macro_rules! faults {
    ($($name:ident,)*) => {
        #[derive(Clone, Copy, PartialEq, Eq, Debug)]
        pub enum Fault {
            /// Goes the way of the model, and must not be noticed.
            NotWrong,
            $($name,)*
            /// A rule of the image that is not judged.
            RuleNotJudged(usize),
            /// A clause of the record's layout that is not judged.
            ClauseNotJudged(usize),
        }

        const PLAIN: &[Fault] = &[$(Fault::$name,)*];
    };
}

faults! {
    // Part 2 of a step.
    HeadAndSectorSwapped,
    BlocksOfCylinderNull,
    OrderReversed,
    OnlyTheLowestMoves,
    WritesComeFirst,
    ReadsComeFirst,
    BytesTurned,
    WritesTakeTheWordBefore,
    Data0MovesOn,
    TransferEndsEarly,
    ResetKeepsTheCylinder,
    SeekKeepsTheCylinder,
    SeekEndsSilently,
    ResetEndsSilently,
    TransferEndsSilently,
    TransfersComeLast,
    TwoMatchesOnTheOldWord,
    HaltsMoveWords,
    NothingMovesAtExceptions,
    StoresLoseAgainstReads,
    WritesTakeTheStoredWord,
    // Registers.
    CountsOfNullAre256,
    NoCylinderIsLookedAt,
    OddData0IsTaken,
    LastBlockOfRamIsRefused,
    BlockAcrossRamsEndIsTaken,
    BlockAcrossFramesIsRefused,
    ErrorsOfReadAndWriteSwapped,
    CylnumOfEightBits,
    WholeWordIsTheCode,
    AckKeepsTheStatus,
    Data0IsLookedAtFirst,
    UnknownCodesAreAcks,
    TransferMovesOneWordLess,
    SeekTakesOneTick,
    SeekMovesAtOnce,
    ErrorsDoNotPend,
    AckPends,
    CommandKeepsPending,
    CommandClearsAllPending,
    BusyTakesCommand,
    BusyTakesData0,
    AbsentDisksTakeData0,
    StatusIsWritten,
    Data1IsWritten,
    MapsArePrinters,
    BusyReadsReady,
    CommandReadsItsCode,
    Data1ReadsNull,
    // The record.
    RecordWithoutDisks,
    RecordOfWhatStarts,
    RecordOfIdleCylinders,
    RecordEndsNotInNulls,
    RecordOfPendingBehind,
    RecordOfTheWordBehind,
    RecordOfTheWordBetween,
    RecordOfTheCylinderBehind,
    RecordOfWhatIsLeftBehind,
    RecordOfTheBlocksPlace,
    RecordOfPlacesOfWrites,
    RecordOfTurnedBytes,
    StoresRecordIsOfTheWordBetween,
    NoKindOfRegisters,
    NoKindOfRegistersNotTaken,
    NoKindOfData0,
    StatusBehindInTheRecord,
    OffsetWithinTheLine,
    // The index.
    DropsForgetReads,
    ReadsHaveNoDistance,
    DistancesTurned,
    DistancesBehindTheMarks,
    ReadsMarkNoFrame,
    EqualReadsMarkFrames,
    StoresAloneAreLookedAt,
    OnlyTheFirstFrameIsMarked,
    // Rows.
    LongerDisksAreTaken,
    ShorterDisksAreTaken,
    AbsentDisksMayHaveBytes,
    OnlyDiskNullIsMeasured,
    DisksAreMeasuredFirst,
    DisksAreMeasuredBeforeRules,
    // Take-back.
    BackKeepsPending,
    BackKeepsRegisters,
    BackKeepsStatus,
    BackKeepsWhatIsLeft,
    BackKeepsCylinders,
    BackKeepsWhatWasRead,
    BackKeepsWhatWasWritten,
    BackGoesUpward,
    BackPutsTheStoreLast,
    BackForgetsReadsInTheIndex,
    IndexGoesBackByTheLowestDisk,
    WordsThatHoldNothingMayHold,
    PlacesOutsideRamAreTaken,
    PlacesOutsideDisksAreTaken,
    PlacesAreJudgedByTheGeometry,
    HowIsHeldAgainstCommand,
    RecordsOfRegistersAreRefused,
    // The question.
    AskForgetsReads,
    AskTakesTheFirstPlace,
    // Reset.
    ResetTakesWideMaps,
    ResetTakesWideGeometries,
    ResetTakesGeometriesOfNone,
    ResetRefusesCountsOfNull,
    ResetForgetsGeometries,
    ResetLeavesDisksOff,
    ResetTurnsGeometries,
    ResetPends,
}

pub fn all() -> Vec<Fault> {
    let rules = (0..BROKEN.len()).map(Fault::RuleNotJudged);
    // The first two clauses are judged by the rest too.
    let clauses = (2..WRONGS.len()).map(Fault::ClauseNotJudged);
    PLAIN.iter().copied().chain(rules).chain(clauses).collect()
}

pub fn name(fault: Fault) -> String {
    match fault {
        Fault::RuleNotJudged(which) => format!("not judged: {}", BROKEN[which].0),
        Fault::ClauseNotJudged(which) => format!("not judged: {}", WRONGS[which].0),
        _ => words(fault),
    }
}
