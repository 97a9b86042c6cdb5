//! The planted mistakes, by what shows them: a drill, a list of demand 3, or neither of these.
//! Every mistake is in one of the lists.

use crate::mistake::Mistake;

impl Mistake {
    /// The mistakes of calls that a drill makes: the four in document 01's order, then those of the requests.
    pub const PLANTED: [Mistake; 18] = [
        Mistake::TrustKernelFrame,
        Mistake::WritableAlias,
        Mistake::FirstPageOnly,
        Mistake::ForgetApproval,
        Mistake::IgnoreReserved,
        Mistake::ReservedIfNotApproved,
        Mistake::ExchangeCacheBits,
        Mistake::OneCacheBit,
        Mistake::ApprovedCarriesCacheBits,
        Mistake::SwitchClearsCacheBits,
        Mistake::DeviceFromOne,
        Mistake::DeviceWraps,
        Mistake::NoDeviceAsNoWindow,
        Mistake::DeviceBeforeLength,
        Mistake::DeviceAfterExists,
        Mistake::WindowBeforeExists,
        Mistake::WindowWithoutFirst,
        Mistake::WindowWithoutLast,
    ];

    /// The mistakes of writing a record, which no list and no drill does.
    pub const OF_WRITING_RECORDS: [Mistake; 3] =
        [Mistake::CutSizes, Mistake::BufferBeforeRun, Mistake::BytePastRecord];

    /// The mistakes of synchronising from a tree that a list of demand 3 shows. No drill has a tree.
    pub const OF_TREES: [Mistake; 12] = [
        Mistake::LastLevelRights,
        Mistake::Level3Rights,
        Mistake::NoExecuteOfEveryLevel,
        Mistake::CacheBitsOfEveryLevel,
        Mistake::LargeAtLevel1,
        Mistake::LargeAtLevel3,
        Mistake::LargeWithoutLowNine,
        Mistake::MisalignedLarge,
        Mistake::ReservedInLastEntry,
        Mistake::CutTableNumber,
        Mistake::WrapPages,
        Mistake::PageBeforeTree,
    ];

    /// The other mistakes with a tree: in a list of demand 3 question 7 is passed before 17, and no call gives a count of entries read.
    pub const OF_WALKS: [Mistake; 2] = [Mistake::TreeBeforeTables, Mistake::ReadToTheDepth];

    /// The mistakes of device writes that a list of demand 3 shows. A drill brings one list, in which every window has all frames.
    pub const OF_DEVICES: [Mistake; 12] = [
        Mistake::CutDevice,
        Mistake::FirstFrameOnly,
        Mistake::LastFrameOnly,
        Mistake::WindowTouched,
        Mistake::NeighbourWindow,
        Mistake::AnyWindow,
        Mistake::WindowTurned,
        Mistake::EmptyWindowOpen,
        Mistake::ExcludedBeforeWindow,
        Mistake::ListNotAsked,
        Mistake::LongerList,
        Mistake::LengthBeforeList,
    ];

    /// The mistakes with the number of devices: a drill always has 64, and in a list of demand 3 a state has what its start was given.
    pub const OF_DEVICE_COUNTS: [Mistake; 8] = [
        Mistake::CountNotAsked,
        Mistake::CountOfTransfersAlone,
        Mistake::CutCount,
        Mistake::CountBeforeSizes,
        Mistake::CountAfterLength,
        Mistake::NoDeviceAtAll,
        Mistake::OneDeviceMore,
        Mistake::CountNotKept,
    ];

    /// The mistakes with asks, commits, drops and what is pending that a list of demand 3 shows. No drill has such a call.
    pub const OF_PENDING: [Mistake; 49] = [
        Mistake::AskDoesNotExclude,
        Mistake::AskWhilePending,
        Mistake::AskApprovedPage,
        Mistake::AskByMark,
        Mistake::AskExcludedFrame,
        Mistake::InKernelModeAlone,
        Mistake::AskAnyPage,
        Mistake::AskAnyFrame,
        Mistake::CutPage,
        Mistake::CutFrame,
        Mistake::ConflictBeforeExists,
        Mistake::WritableBeforeConflict,
        Mistake::WritableNotAsked,
        Mistake::WritableOfTheAskedPage,
        Mistake::AskClosesEntries,
        Mistake::AskCountsThePage,
        Mistake::PendingAfterStep4,
        Mistake::PendingBeforeStep2,
        Mistake::PendingFrameCut,
        Mistake::PendingJoins,
        Mistake::PendingNotMapped,
        Mistake::PendingWritable,
        Mistake::PendingWithoutBit9,
        Mistake::PendingRunsInUserMode,
        Mistake::PendingWithoutUser,
        Mistake::PendingWithoutCacheBits,
        Mistake::PendingOfTheAskedPage,
        Mistake::PendingWhateverTheFrame,
        Mistake::PendingNotOfOne,
        Mistake::PendingNotOfAll,
        Mistake::PendingNotOfTrees,
        Mistake::CommitApprovedPage,
        Mistake::CommitByMark,
        Mistake::CommitOfNothing,
        Mistake::CommitSkipsAliases,
        Mistake::CommitSkipsAbsentPage,
        Mistake::CommitSkipsOtherFrame,
        Mistake::CommitTakesAbsent,
        Mistake::CommitInKernelMode,
        Mistake::CommitKeepsBits,
        Mistake::CommitMapAlone,
        Mistake::CommitShadowAlone,
        Mistake::CommitLeavesPair,
        Mistake::JoinedWithoutTheAsked,
        Mistake::DropOfNothing,
        Mistake::DropLeavesBit,
        Mistake::DropLeavesPair,
        Mistake::DropClearsNext,
        Mistake::DropClearsByte,
    ];

    /// The other mistakes with them. In a list of demand 3 an entry that is not present is 0, a present one has a frame below F, one of an
    /// approved page is not writable and has the approved frame, a commit changes every entry that it approves, and a pending pair is
    /// below V and F and its frame excluded; and the words of a pair are nothing that a one-page guard holds.
    pub const OF_PENDING_STATES: [Mistake; 31] = [
        Mistake::WritableIfNotPresent,
        Mistake::WritableIfNotApproved,
        Mistake::WritableIfNotMarked,
        Mistake::WritableFrameCut,
        Mistake::PendingIfExcluded,
        Mistake::CommitTakesApproved,
        Mistake::CommitFrameCut,
        Mistake::JoinedAsChanged,
        Mistake::PairNotAsked,
        Mistake::PairNotAskedToSynchroniseOne,
        Mistake::PairNotAskedToSynchroniseAll,
        Mistake::PairNotAskedToFetch,
        Mistake::PairNotAskedToWrite,
        Mistake::PairNotAskedToEnter,
        Mistake::PairNotAskedToLeave,
        Mistake::PairNotAskedOfDevices,
        Mistake::PairNotAskedOfOneFromTree,
        Mistake::PairNotAskedOfAllFromTree,
        Mistake::PairNotAskedToAsk,
        Mistake::PairNotAskedToCommit,
        Mistake::PairNotAskedToDrop,
        Mistake::PendingPageV,
        Mistake::PendingFrameF,
        Mistake::CutPairWords,
        Mistake::PairReadWhereNone,
        Mistake::PendingWordIsAny,
        Mistake::PendingWordIsOne,
        Mistake::OthersWritePair,
        Mistake::CommitLeavesWords,
        Mistake::DropLeavesWords,
        Mistake::StartLeavesPair,
    ];

    /// The mistakes of the share, which no call gives: the drill alone prints it.
    pub const OF_SHARES: [Mistake; 5] = [
        Mistake::ShareRoundedDown,
        Mistake::ShareRoundedUp,
        Mistake::ShareHalfUp,
        Mistake::ShareHalfDown,
        Mistake::ShareHalfToOdd,
    ];
}
