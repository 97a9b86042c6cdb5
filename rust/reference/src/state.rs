//! The guard's state, its answers and its refusal numbers.
//! Question 7 about the state is asked here; each call asks it about the tables that it is lent.

/// The largest number of virtual pages.
pub(crate) const MAX_PAGES: u16 = 2048;
/// The largest number of physical frames.
pub(crate) const MAX_FRAMES: u16 = 4096;
/// The largest number of devices.
pub(crate) const MAX_DEVICES: u16 = 64;
/// How many entry pages the state has room for.
pub(crate) const ENTRY_PAGES: usize = 16;
/// The bytes of a page and of a frame.
pub(crate) const PAGE_BYTES: u64 = 4096;
/// The bytes of the longest exclusion vector.
pub(crate) const MAX_VECTOR: usize = MAX_FRAMES as usize / 8;

/// The two numbers of an accepted call, or the number of the first question answered no.
pub type Answer = Result<(u64, u64), Refusal>;

/// The mode together with the page now running.
#[derive(Clone, Copy, Debug, PartialEq, Eq)]
pub enum Mode {
    Kernel(u16),
    User(u16),
}

impl Mode {
    /// The page now running.
    #[inline]
    pub fn page(self) -> u16 {
        match self {
            Mode::Kernel(page) | Mode::User(page) => page,
        }
    }

    #[inline]
    pub fn is_user(self) -> bool {
        matches!(self, Mode::User(_))
    }

    /// The same mode with another page running.
    #[inline]
    pub(crate) fn on(self, page: u16) -> Mode {
        match self {
            Mode::Kernel(_) => Mode::Kernel(page),
            Mode::User(_) => Mode::User(page),
        }
    }
}

/// A page and a frame that an accepted ask named (K6): they are pending until a commit or a drop.
#[derive(Clone, Copy, Debug, PartialEq, Eq)]
pub struct Pair {
    pub page: u16,
    pub frame: u16,
}

/// What the guard keeps beside the lent tables.
#[derive(Clone, Copy, Debug, PartialEq, Eq)]
pub struct State {
    /// V, the number of virtual pages.
    pub v: u16,
    /// F, the number of physical frames.
    pub f: u16,
    /// The number of entry pages.
    pub e: u16,
    /// The entry pages; unused places are 0.
    pub entry_pages: [u16; ENTRY_PAGES],
    pub mode: Mode,
    /// The number of devices.
    pub devices: u16,
    /// What is pending, if anything is.
    pub pending: Option<Pair>,
}

impl State {
    /// The answer of a refused start, which has no state to keep.
    pub const REFUSED: State = State {
        v: 0,
        f: 0,
        e: 0,
        entry_pages: [0; ENTRY_PAGES],
        mode: Mode::User(0),
        devices: 0,
        pending: None,
    };

    /// Question 7 about the state alone.
    #[inline]
    pub fn is_sound(&self) -> bool {
        (1..=MAX_PAGES).contains(&self.v)
            && (1..=MAX_FRAMES).contains(&self.f)
            && (1..=ENTRY_PAGES as u16).contains(&self.e)
            && self.mode.page() < self.v
            && (1..=MAX_DEVICES).contains(&self.devices)
            && self.pending.is_none_or(|pair| pair.page < self.v && pair.frame < self.f)
    }

    /// Question 7 for a call that is lent one table with a place for each page.
    #[inline]
    pub(crate) fn fits_pages(&self, places: usize) -> bool {
        self.is_sound() && places == usize::from(self.v)
    }

    /// Question 7 for a call that is lent the exclusion vector.
    #[inline]
    pub(crate) fn fits_vector(&self, bytes: usize) -> bool {
        self.is_sound() && bytes == vector_len(self.f)
    }
}

/// The bytes of the exclusion vector of `frames` frames.
#[inline]
pub fn vector_len(frames: u16) -> usize {
    usize::from(frames).div_ceil(8)
}

/// The number of the first question answered no.
#[derive(Clone, Copy, Debug, PartialEq, Eq)]
#[repr(u8)]
pub enum Refusal {
    RecordTooShort = 1,
    SizeOutOfRange = 2,
    CountOutOfRange = 3,
    RecordLength = 4,
    ListedPage = 5,
    ListedFrame = 6,
    StateOrTable = 7,
    LengthOutOfRange = 8,
    DoesNotExist = 9,
    WrongMode = 10,
    NotPresent = 11,
    NotPermitted = 12,
    Excluded = 13,
    CallCutShort = 14,
    UnknownKind = 15,
    BufferTooShort = 16,
    Tree = 17,
    NoDevice = 18,
    OutsideWindow = 19,
    ApprovalConflict = 20,
    MappedWritable = 21,
    NothingPending = 22,
}

impl Refusal {
    pub const ALL: [Refusal; 22] = [
        Refusal::RecordTooShort,
        Refusal::SizeOutOfRange,
        Refusal::CountOutOfRange,
        Refusal::RecordLength,
        Refusal::ListedPage,
        Refusal::ListedFrame,
        Refusal::StateOrTable,
        Refusal::LengthOutOfRange,
        Refusal::DoesNotExist,
        Refusal::WrongMode,
        Refusal::NotPresent,
        Refusal::NotPermitted,
        Refusal::Excluded,
        Refusal::CallCutShort,
        Refusal::UnknownKind,
        Refusal::BufferTooShort,
        Refusal::Tree,
        Refusal::NoDevice,
        Refusal::OutsideWindow,
        Refusal::ApprovalConflict,
        Refusal::MappedWritable,
        Refusal::NothingPending,
    ];

    #[inline]
    pub fn number(self) -> u8 {
        self as u8
    }
}
