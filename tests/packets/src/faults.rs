//! Stubs that are wrong on purpose. Each must be noticed.

use crate::named_faults::faults;

faults! {
    ReplyMissing,
    ReplyTwice,
    SumWrong,
    ReplyCut,
    ByteBetween,
    PlusMissing,
    PlusTwice,
    PlusThoughNoneAskedFor,
    MinusMissing,
    MinusForARightSum,
    InterruptNotHeard,
    StallsWithAFullBuffer,
    NeverEnds,
    CutsMatter,
    StatusUnknown,
    WantsAnother,
    MoreSaidThanRoom,
    MoreUsedThanSent,
    MoreForErrorsThanSaid,
    StatusBeforeTheEnd,
    OtherBits,
    WordBeside,
    ByteBeside,
    InputWritten,
}
