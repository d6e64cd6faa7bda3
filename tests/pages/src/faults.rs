//! Runs that remember pages in the place of the archive's, wrongly on purpose.
//! Each must be noticed; the last, which has no fault, must not.

use crate::named_faults::faults;

faults! {
    TlbwiDoesNotForget,
    TlbwrDoesNotForget,
    TlbwiForgetsFetchesOnly,
    TlbwiForgetsDataOnly,
    TlbwrForgetsFetchesOnly,
    TlbwrForgetsDataOnly,
    OnlyTheWrittenRowForgotten,
    OnlyTheWrittenPageForgotten,
    DoubledPageKept,
    AsidMovedIgnored,
    AsidReadIgnored,
    TranslationOffIgnored,
    ModeIgnored,
    DirtyIgnored,
    ValidIgnored,
    MissRemembered,
    NeighbourTaken,
    KeptBetweenCalls,
    OldCodeRun,
    NoFault,
}
