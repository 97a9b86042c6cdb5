//! The names of the planted mistakes: the four of document 01 and the nearest ones of each request.
//! A mistake is made in the module of its call, or apart from it: mistaken.rs says where. planted.rs says what shows it.

/// A mistake that the guard has to exclude.
#[derive(Clone, Copy, Debug, PartialEq, Eq)]
#[repr(u8)]
pub enum Mistake {
    None = 0,
    /// Trusting the kernel's frame for an approved page.
    TrustKernelFrame = 1,
    /// Leaving an alias of an approved frame writable.
    WritableAlias = 2,
    /// Checking only the first page of a write that crosses into the next.
    FirstPageOnly = 3,
    /// Forgetting approval when a page goes absent.
    ForgetApproval = 4,
    /// K1: not asking a kernel entry for its reserved bits.
    IgnoreReserved = 5,
    /// K1: asking for them on pages that are not approved alone.
    ReservedIfNotApproved = 6,
    /// K2: cutting the sizes to 16 bits before asking about them.
    CutSizes = 7,
    /// K2: asking for the buffer before the numbers run.
    BufferBeforeRun = 8,
    /// K2: writing a byte past the record.
    BytePastRecord = 9,
    /// K3: exchanging write-through and cache disable.
    ExchangeCacheBits = 10,
    /// K3: carrying write-through alone.
    OneCacheBit = 11,
    /// K3: carrying both bits in an approved entry too.
    ApprovedCarriesCacheBits = 12,
    /// K3: clearing both bits at a mode switch.
    SwitchClearsCacheBits = 13,
    /// K4: taking writable, user and no-execute from the last entry alone.
    LastLevelRights = 14,
    /// K4: counting these three bits at level 3 too.
    Level3Rights = 15,
    /// K4: asking every level for no-execute, as for a right.
    NoExecuteOfEveryLevel = 16,
    /// K4: taking cache bits from the entries above the last too.
    CacheBitsOfEveryLevel = 17,
    /// K4: believing bit 7 at level 1.
    LargeAtLevel1 = 18,
    /// K4: believing bit 7 at level 3.
    LargeAtLevel3 = 19,
    /// K4: mapping every page of a large page to its first frame.
    LargeWithoutLowNine = 20,
    /// K4: mapping a large page whose frame field has low bits set.
    MisalignedLarge = 21,
    /// K4: asking the last entry alone for its reserved bits.
    ReservedInLastEntry = 22,
    /// K4: cutting the number of the next table to 32 bits.
    CutTableNumber = 23,
    /// K4: taking a page number with too many bits by its lower bits.
    WrapPages = 24,
    /// K4: asking 9 before 17.
    PageBeforeTree = 25,
    /// K4: asking 17 before 7.
    TreeBeforeTables = 26,
    /// K4: counting the levels, and not the entries met.
    ReadToTheDepth = 27,
    /// K5: counting devices from 1.
    DeviceFromOne = 28,
    /// K5: taking a device past the list by its remainder.
    DeviceWraps = 29,
    /// K5: taking a device that is not in the list as one whose window has no frame.
    NoDeviceAsNoWindow = 30,
    /// K5: asking 18 before 8.
    DeviceBeforeLength = 31,
    /// K5: asking 18 after 9.
    DeviceAfterExists = 32,
    /// K5: asking 19 before 9.
    WindowBeforeExists = 33,
    /// K5: leaving the first frame out of a window.
    WindowWithoutFirst = 34,
    /// K5: leaving the last frame out of a window.
    WindowWithoutLast = 35,
    /// K5: cutting the device to 16 bits.
    CutDevice = 36,
    /// K5: comparing the transfer's first frame alone with the window.
    FirstFrameOnly = 37,
    /// K5: comparing its last frame alone.
    LastFrameOnly = 38,
    /// K5: allowing a transfer that has a frame of the window.
    WindowTouched = 39,
    /// K5: taking the window of the next device.
    NeighbourWindow = 40,
    /// K5: allowing a transfer within the window of any device.
    AnyWindow = 41,
    /// K5: taking a window whose first frame is above its last the other way round.
    WindowTurned = 42,
    /// K5: taking such a window as no limit.
    EmptyWindowOpen = 43,
    /// K5: asking 13 before 19.
    ExcludedBeforeWindow = 44,
    /// K5: not asking the list for its length.
    ListNotAsked = 45,
    /// K5: accepting a longer list.
    LongerList = 46,
    /// K5: asking 8 before the list's length.
    LengthBeforeList = 47,
    /// K5: asking for the list's length and not whether the state's number of devices is in range.
    CountNotAsked = 48,
    /// K5: asking that of device writes alone.
    CountOfTransfersAlone = 49,
    /// K5: cutting the number of devices to 16 bits at the start.
    CutCount = 50,
    /// K5: asking for it before 2.
    CountBeforeSizes = 51,
    /// K5: asking for it after 4.
    CountAfterLength = 52,
    /// K5: starting with 0 devices.
    NoDeviceAtAll = 53,
    /// K5: starting with 65.
    OneDeviceMore = 54,
    /// K5: keeping 64, whatever the number.
    CountNotKept = 55,
    /// K6: asking without excluding the frame.
    AskDoesNotExclude = 56,
    /// K6: allowing an ask while a pair is pending, which takes its place.
    AskWhilePending = 57,
    /// K6: allowing an ask for a page that has an approval.
    AskApprovedPage = 58,
    /// K6: taking the approved mark of the page's entry for its approval, at an ask.
    AskByMark = 59,
    /// K6: allowing an ask for an excluded frame.
    AskExcludedFrame = 60,
    /// K6: asking, committing and dropping in kernel mode alone.
    InKernelModeAlone = 61,
    /// K6: asking 9 of the frame alone.
    AskAnyPage = 62,
    /// K6: asking 9 of the page alone.
    AskAnyFrame = 63,
    /// K6: cutting the page to 16 bits.
    CutPage = 64,
    /// K6: cutting the frame to 16 bits.
    CutFrame = 65,
    /// K6: asking 20 before 9.
    ConflictBeforeExists = 66,
    /// K6: asking 21 before 20.
    WritableBeforeConflict = 67,
    /// K6: not asking 21.
    WritableNotAsked = 68,
    /// K6: asking 21 of the asked page's entry alone.
    WritableOfTheAskedPage = 69,
    /// K6: setting bit 9 at the ask, in the entries that have the frame already.
    AskClosesEntries = 70,
    /// K6: counting the asked page at the ask.
    AskCountsThePage = 71,
    /// K6: the rule for a pending frame after step 4, so that the page joins.
    PendingAfterStep4 = 72,
    /// K6: the rule before step 2, so that an approved page loses its entry.
    PendingBeforeStep2 = 73,
    /// K6: the rule before step 3, for every frame with the same lower 16 bits.
    PendingFrameCut = 74,
    /// K6: the page joins the map with its ordinary entry.
    PendingJoins = 75,
    /// K6: leaving the page absent.
    PendingNotMapped = 76,
    /// K6: keeping writable.
    PendingWritable = 77,
    /// K6: not setting bit 9.
    PendingWithoutBit9 = 78,
    /// K6: setting bit 9, and bit 63 by the kernel entry's own no-execute.
    PendingRunsInUserMode = 79,
    /// K6: losing the user bit.
    PendingWithoutUser = 80,
    /// K6: losing both cache bits.
    PendingWithoutCacheBits = 81,
    /// K6: the rule for the asked page alone.
    PendingOfTheAskedPage = 82,
    /// K6: the rule for the asked page with any frame.
    PendingWhateverTheFrame = 83,
    /// K6: no rule where one page is synchronised.
    PendingNotOfOne = 84,
    /// K6: no rule where all pages are.
    PendingNotOfAll = 85,
    /// K6: no rule where they are from a tree.
    PendingNotOfTrees = 86,
    /// K6: committing a page that has an approval by now.
    CommitApprovedPage = 87,
    /// K6: taking the mark for the approval, at a commit.
    CommitByMark = 88,
    /// K6: accepting a commit where nothing is pending.
    CommitOfNothing = 89,
    /// K6: committing the asked page alone.
    CommitSkipsAliases = 90,
    /// K6: not approving the asked page where it is absent.
    CommitSkipsAbsentPage = 91,
    /// K6: not approving the asked page where it has another frame.
    CommitSkipsOtherFrame = 92,
    /// K6: taking entries with that frame that are not present.
    CommitTakesAbsent = 93,
    /// K6: approved entries as in kernel mode, whatever the mode is.
    CommitInKernelMode = 94,
    /// K6: keeping bits 2 to 4 of an entry that is approved.
    CommitKeepsBits = 95,
    /// K6: approving in the map and not in the shadow.
    CommitMapAlone = 96,
    /// K6: approving in the shadow and not in the map.
    CommitShadowAlone = 97,
    /// K6: leaving the pair pending.
    CommitLeavesPair = 98,
    /// K6: counting the joined pages without the asked one.
    JoinedWithoutTheAsked = 99,
    /// K6: accepting a drop where nothing is pending.
    DropOfNothing = 100,
    /// K6: leaving the frame excluded.
    DropLeavesBit = 101,
    /// K6: leaving the pair pending at a drop.
    DropLeavesPair = 102,
    /// K6: clearing the bit of the next frame.
    DropClearsNext = 103,
    /// K6: clearing the bits of all eight frames of the byte.
    DropClearsByte = 104,
    /// K6: asking 21 of entries that are not present too.
    WritableIfNotPresent = 105,
    /// K6: asking 21 of pages without an approval alone.
    WritableIfNotApproved = 106,
    /// K6: asking 21 of entries without the approved mark alone.
    WritableIfNotMarked = 107,
    /// K6: asking 21 of entries whose frame has the same lower 16 bits.
    WritableFrameCut = 108,
    /// K6: the rule for a pending frame only where the vector excludes it.
    PendingIfExcluded = 109,
    /// K6: taking pages with another number in the map too.
    CommitTakesApproved = 110,
    /// K6: taking entries whose frame has the same lower 16 bits.
    CommitFrameCut = 111,
    /// K6: counting every joined page as a changed entry.
    JoinedAsChanged = 112,
    /// K6: not asking 7 of the pair in any call.
    PairNotAsked = 113,
    /// K6: not asking it to synchronise one page.
    PairNotAskedToSynchroniseOne = 114,
    /// K6: not asking it to synchronise all pages.
    PairNotAskedToSynchroniseAll = 115,
    /// K6: not asking it to fetch.
    PairNotAskedToFetch = 116,
    /// K6: not asking it to write.
    PairNotAskedToWrite = 117,
    /// K6: not asking it to enter.
    PairNotAskedToEnter = 118,
    /// K6: not asking it to leave.
    PairNotAskedToLeave = 119,
    /// K6: not asking it for a device write.
    PairNotAskedOfDevices = 120,
    /// K6: not asking it to synchronise one page from a tree.
    PairNotAskedOfOneFromTree = 121,
    /// K6: not asking it to synchronise all pages from a tree.
    PairNotAskedOfAllFromTree = 122,
    /// K6: not asking it to ask.
    PairNotAskedToAsk = 123,
    /// K6: not asking it to commit.
    PairNotAskedToCommit = 124,
    /// K6: not asking it to drop.
    PairNotAskedToDrop = 125,
    /// K6: allowing page V in a pending pair.
    PendingPageV = 126,
    /// K6: allowing frame F in a pending pair.
    PendingFrameF = 127,
    /// K6: cutting the words of the pair to 16 bits.
    CutPairWords = 128,
    /// K6: asking the words of the pair where none is pending.
    PairReadWhereNone = 129,
    /// K6: taking every word but 0 as one that says that a pair is pending.
    PendingWordIsAny = 130,
    /// K6: taking every word but 1 as one that says that none is.
    PendingWordIsOne = 131,
    /// K6: writing the words of the pair in a call that concerns no pair.
    OthersWritePair = 132,
    /// K6: leaving the words of the pair at a commit.
    CommitLeavesWords = 133,
    /// K6: leaving the words of the pair at a drop.
    DropLeavesWords = 134,
    /// K6: leaving what the run has of a pair at the start.
    StartLeavesPair = 135,
    /// K7: the share rounded down, as before.
    ShareRoundedDown = 136,
    /// K7: the share rounded up.
    ShareRoundedUp = 137,
    /// K7: an exact half to the number above.
    ShareHalfUp = 138,
    /// K7: an exact half to the number below.
    ShareHalfDown = 139,
    /// K7: an exact half to the odd number.
    ShareHalfToOdd = 140,
}

impl Mistake {
    /// Whether it is one of K6's.
    pub(crate) fn is_of_pending(self) -> bool {
        (Mistake::AskDoesNotExclude as u8..=Mistake::StartLeavesPair as u8).contains(&(self as u8))
    }
}

// The mistakes for which a call has a variant, as numbers: no const parameter takes an enum.

pub(crate) const NONE: u8 = Mistake::None as u8;
pub(crate) const TRUST_KERNEL_FRAME: u8 = Mistake::TrustKernelFrame as u8;
pub(crate) const WRITABLE_ALIAS: u8 = Mistake::WritableAlias as u8;
pub(crate) const FORGET_APPROVAL: u8 = Mistake::ForgetApproval as u8;
pub(crate) const IGNORE_RESERVED: u8 = Mistake::IgnoreReserved as u8;
pub(crate) const RESERVED_IF_NOT_APPROVED: u8 = Mistake::ReservedIfNotApproved as u8;
pub(crate) const CUT_SIZES: u8 = Mistake::CutSizes as u8;
pub(crate) const BUFFER_BEFORE_RUN: u8 = Mistake::BufferBeforeRun as u8;
pub(crate) const BYTE_PAST_RECORD: u8 = Mistake::BytePastRecord as u8;
pub(crate) const EXCHANGE_CACHE_BITS: u8 = Mistake::ExchangeCacheBits as u8;
pub(crate) const ONE_CACHE_BIT: u8 = Mistake::OneCacheBit as u8;
pub(crate) const APPROVED_CARRIES_CACHE_BITS: u8 = Mistake::ApprovedCarriesCacheBits as u8;
pub(crate) const SWITCH_CLEARS_CACHE_BITS: u8 = Mistake::SwitchClearsCacheBits as u8;
pub(crate) const LAST_LEVEL_RIGHTS: u8 = Mistake::LastLevelRights as u8;
pub(crate) const LEVEL_3_RIGHTS: u8 = Mistake::Level3Rights as u8;
pub(crate) const NO_EXECUTE_OF_EVERY_LEVEL: u8 = Mistake::NoExecuteOfEveryLevel as u8;
pub(crate) const CACHE_BITS_OF_EVERY_LEVEL: u8 = Mistake::CacheBitsOfEveryLevel as u8;
pub(crate) const LARGE_AT_LEVEL_1: u8 = Mistake::LargeAtLevel1 as u8;
pub(crate) const LARGE_AT_LEVEL_3: u8 = Mistake::LargeAtLevel3 as u8;
pub(crate) const LARGE_WITHOUT_LOW_NINE: u8 = Mistake::LargeWithoutLowNine as u8;
pub(crate) const MISALIGNED_LARGE: u8 = Mistake::MisalignedLarge as u8;
pub(crate) const RESERVED_IN_LAST_ENTRY: u8 = Mistake::ReservedInLastEntry as u8;
pub(crate) const CUT_TABLE_NUMBER: u8 = Mistake::CutTableNumber as u8;
pub(crate) const WRAP_PAGES: u8 = Mistake::WrapPages as u8;
pub(crate) const PAGE_BEFORE_TREE: u8 = Mistake::PageBeforeTree as u8;
pub(crate) const TREE_BEFORE_TABLES: u8 = Mistake::TreeBeforeTables as u8;
pub(crate) const READ_TO_THE_DEPTH: u8 = Mistake::ReadToTheDepth as u8;
pub(crate) const CUT_COUNT: u8 = Mistake::CutCount as u8;
pub(crate) const COUNT_BEFORE_SIZES: u8 = Mistake::CountBeforeSizes as u8;
pub(crate) const COUNT_AFTER_LENGTH: u8 = Mistake::CountAfterLength as u8;
pub(crate) const NO_DEVICE_AT_ALL: u8 = Mistake::NoDeviceAtAll as u8;
pub(crate) const ONE_DEVICE_MORE: u8 = Mistake::OneDeviceMore as u8;
pub(crate) const COUNT_NOT_KEPT: u8 = Mistake::CountNotKept as u8;
/// No mistake of the list: the variant without steps 2 and 4.
pub(crate) const NO_APPROVAL: u8 = 255;
