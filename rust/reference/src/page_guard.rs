//! The one-page guard of demand 3: what is true of one page, by what it is told and nothing else.
//! It is written from documents 01 and 02 apart from the table code, in numbers and named fields, so that each can check the other.

/// The approval of a page that has none.
const NONE: u16 = 65535;

/// Some frames, one bit each.
#[derive(Clone, Copy, PartialEq, Eq)]
pub(crate) struct FrameSet([u64; 64]);

impl FrameSet {
    pub const EMPTY: FrameSet = FrameSet([0; 64]);

    pub fn add(&mut self, frame: u16) {
        self.0[usize::from(frame / 64)] |= 1 << (frame % 64);
    }

    fn remove(&mut self, frame: u16) {
        self.0[usize::from(frame / 64)] &= !(1 << (frame % 64));
    }

    pub fn has(&self, frame: u64) -> bool {
        frame < 4096 && self.0[(frame / 64) as usize] & 1 << (frame % 64) != 0
    }
}

/// An entry, kernel or shadow, as one number and by its bits.
#[derive(Clone, Copy, Debug)]
pub(crate) struct Entry(pub u64);

impl Entry {
    pub fn bit(self, place: u32) -> bool {
        self.0 >> place & 1 == 1
    }

    pub fn frame(self) -> u64 {
        (self.0 >> 12) % (1 << 40)
    }

    /// The sum of the bits that are set; no place is given twice.
    pub fn of(bits: &[(u32, bool)], frame: u64) -> Entry {
        let bits = bits.iter().map(|&(place, set)| u64::from(set) << place);
        Entry(bits.sum::<u64>() + (frame << 12))
    }
}

/// The policy record of an accepted start, by its parts.
pub(crate) struct Record {
    pub v: u16,
    pub f: u16,
    pub e: u16,
    /// The two arrays. The pages are rising.
    pub pages: Vec<u16>,
    pub frames: Vec<u16>,
}

impl Record {
    pub fn of(bytes: &[u8]) -> Record {
        let mut numbers = bytes.chunks_exact(2).map(|pair| u16::from_le_bytes([pair[0], pair[1]]));
        let [v, f, n, e] = [(); 4].map(|()| numbers.next().expect("four sizes"));
        let pages = numbers.by_ref().take(n.into()).collect();
        Record { v, f, e, pages, frames: numbers.collect() }
    }

    /// The frames named in the policy: those in the second array.
    pub fn frame_set(&self) -> FrameSet {
        let mut set = FrameSet::EMPTY;
        self.frames.iter().for_each(|&frame| set.add(frame));
        set
    }

    /// The frame that a page is listed with.
    fn frame_of(&self, page: u16) -> Option<u16> {
        let place = self.pages.binary_search(&page).ok()?;
        Some(self.frames[place])
    }
}

/// What an ask told the guard of a page: the frame, and whether the ask was for this page.
#[derive(Clone, Copy, PartialEq, Eq)]
struct Asked {
    frame: u16,
    for_this_page: bool,
}

/// The guard of one page: a mode, an entry and an approval, with the excluded frames and what is pending (K6).
#[derive(Clone, PartialEq, Eq)]
pub(crate) struct PageGuard {
    frames: u64,
    excluded: FrameSet,
    user: bool,
    entry: u64,
    approval: u16,
    pending: Option<Asked>,
}

impl PageGuard {
    /// Told the policy record of an accepted start; the set of its frames is gathered once, and each guard has its own.
    pub fn told_start(record: &Record, excluded: FrameSet, page: u16) -> PageGuard {
        let mut guard = PageGuard {
            frames: record.f.into(),
            excluded,
            user: false,
            entry: 0,
            approval: NONE,
            pending: None,
        };
        if let Some(frame) = record.frame_of(page) {
            guard.approval = frame;
            guard.entry = guard.approved(frame.into()).0;
        }
        guard
    }

    /// Told an accepted synchronisation of its page, alone or with others, with the kernel table's entry for it,
    /// or the flat entry of the walk to it.
    pub fn told_synchronised(&mut self, kernel_entry: u64) {
        let kernel = Entry(kernel_entry);
        // K1: a kernel entry with any of bits 52 to 62 set is absent.
        let is_absent = !kernel.bit(0) || (52..=62).any(|place| kernel.bit(place));
        self.entry = if is_absent {
            0
        } else if self.approval != NONE {
            self.approved(self.approval.into()).0
        } else if kernel.frame() >= self.frames {
            0
        } else if self.pending.is_some_and(|asked| u64::from(asked.frame) == kernel.frame()) {
            // K6: "clears writable and sets bit 9; this comes before step 4".
            self.ordinary(kernel, false, true).0
        } else if self.excluded.has(kernel.frame()) {
            self.approval = kernel.frame() as u16;
            self.approved(kernel.frame()).0
        } else {
            self.ordinary(kernel, kernel.bit(1), kernel.bit(63)).0
        };
    }

    /// Told an accepted ask for a frame, for its own page or another.
    pub fn told_asked(&mut self, frame: u16, for_this_page: bool) {
        self.excluded.add(frame);
        self.pending = Some(Asked { frame, for_this_page });
    }

    /// Told an accepted commit, which reaches the asked page, and others by their own entry and approval.
    pub fn told_committed(&mut self) {
        let Some(Asked { frame, for_this_page }) = self.pending.take() else { return };
        let found = Entry(self.entry);
        let maps_it = found.bit(0) && found.frame() == u64::from(frame);
        if for_this_page || (self.approval == NONE && maps_it) {
            self.approval = frame;
            self.entry = self.approved(frame.into()).0;
        }
    }

    /// Told an accepted drop.
    pub fn told_dropped(&mut self) {
        if let Some(Asked { frame, .. }) = self.pending.take() {
            self.excluded.remove(frame);
        }
    }

    /// Told an accepted enter.
    pub fn told_entered(&mut self) {
        self.user = false;
        self.assign_no_execute();
    }

    /// Told an accepted leave.
    pub fn told_left(&mut self) {
        self.user = true;
        self.assign_no_execute();
    }

    /// Whether its mode is user mode.
    pub fn is_user(&self) -> bool {
        self.user
    }

    /// Its entry, to be compared with the shadow entry of its page.
    pub fn entry(&self) -> u64 {
        self.entry
    }

    /// Its approval, to be compared with the map's number for its page.
    pub fn approval(&self) -> u16 {
        self.approval
    }

    /// Whether a frame is excluded.
    pub fn excludes(&self, frame: u64) -> bool {
        self.excluded.has(frame)
    }

    fn approved(&self, frame: u64) -> Entry {
        Entry::of(&[(0, true), (10, true), (63, self.user)], frame)
    }

    /// The ordinary entry of a kernel entry, with these bits 1 and 9.
    fn ordinary(&self, kernel: Entry, writable: bool, bit_9: bool) -> Entry {
        let user_page = kernel.bit(2);
        let no_execute = !self.user || bit_9 || !user_page;
        let bits = [
            (0, true),
            (1, writable),
            (2, user_page),
            // K3: write-through and cache disable.
            (3, kernel.bit(3)),
            (4, kernel.bit(4)),
            (9, bit_9),
            (63, no_execute),
        ];
        Entry::of(&bits, kernel.frame())
    }

    /// After a switch, a present entry has bit 63 by the rules of its new mode; its other bits are kept.
    fn assign_no_execute(&mut self) {
        let found = Entry(self.entry);
        if !found.bit(0) {
            return;
        }
        let no_execute = match (found.bit(10), self.user) {
            (true, user) => user,
            (false, false) => true,
            (false, true) => found.bit(9) || !found.bit(2),
        };
        self.entry = self.entry % (1 << 63) + (u64::from(no_execute) << 63);
    }
}
