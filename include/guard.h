/*
 * The page guard, for C. The calls are those of documents 01 and 02; every one of them is proved, in Rattle, to answer what the
 * definitions in crates/model and crates/record_model say, on all inputs (crates/boundary_model, specs/Boundary.antt).
 *
 * Build the library with `make archive`, and link target/staticlib/libexports.a. docs/INTEGRATION.md has what it needs
 * beside that (memcpy, memset, SSE, stack), how the processor is set up, and what to do around each call.
 *
 * Runs. A table, a run of tables, a list of devices, a policy record, an array, a buffer, the state and the two numbers of a call
 * each cross as a pointer and the number of its elements. The guard keeps nothing between calls: the caller holds every run and
 * lends it.
 *   - A pointer is valid for as many elements as its length says, is aligned to its element (8 bytes for 64 bits, 2 for 16, a
 *     struct as C aligns it), and is not NULL, even where the length is 0.
 *   - A run that is lent for writing overlaps no other run of the same call.
 *   - One run is lent to one call at a time, and nobody else writes it during the call, neither processor nor device.
 * These three are the caller's part, and the guard does not test them. It does not test either
 *   - that state, shadow, map and exclusion go from one call to the next as the last one left them, which is what the guarantee
 *     about all calls rests on: question 7 asks for lengths, and for ranges of the state's words, and no more;
 *   - that the TLB is flushed where a call below says so;
 *   - that the processor runs at ring 0 in kernel mode and at ring 3 in user mode.
 * docs/INTEGRATION.md has these and the rest of the caller's part.
 *
 * Numbers. Sizes, counts, roots, depths, the pages, frames and devices that a call names, entry indices, addresses and lengths are
 * 64 bits wide and are never cut: page 65537 is refused with 9, and is not taken for page 1. Sums of address and length are exact.
 *
 * Answers. A call returns 0 where it is accepted, and else the number of the first question that was answered no (enum
 * guard_refusal). Its two numbers go to the numbers run, a run of GUARD_NUMBERS words: 0 and 0 where it is refused.
 * A refused call changes nothing else: the state run, every table, a list of devices and a buffer stay as they were.
 *
 * The state run and the numbers run are part of question 7. These give 7: a state run that has not GUARD_STATE_WORDS words, as one
 * of an older version; a V, F, e, running page or number of devices out of its range, compared with all its 64 bits; a mode word that
 * is neither GUARD_MODE_KERNEL nor GUARD_MODE_USER; a pending word that is neither 0 nor 1; with 1 there, a pending page that is not
 * below V or a pending frame that is not below F; a numbers run that has not GUARD_NUMBERS words, which is not written.
 */
#ifndef GUARD_H
#define GUARD_H

#include <stddef.h>
#include <stdint.h>

#ifdef __cplusplus
extern "C" {
#endif

/*
 * The boundary is every prototype, struct and layout of this header. A version that changes one of them has another number here, and
 * its archive has a function of another name. Every source file that includes this header points to that function, so a
 * program that was compiled with the header of another boundary does not link: the linker finds no guard_boundary_N. Compile it
 * again with the header that came with the archive. The cost is a pointer for each source file, which nothing reads.
 *
 * guard_boundary() returns the archive's number, which is GUARD_BOUNDARY. No program has to call it. But a compiler that does not
 * know the attributes below may leave the pointer out, and so may a linker that collects garbage, from a compiler that does not
 * know `retain` (before GCC 11 or Clang 13): call it once there.
 *
 * A program that takes constants from this header and links no archive defines GUARD_NOT_LINKED before it includes it.
 */
#define GUARD_BOUNDARY UINT64_C(1)

uint64_t guard_boundary_1(void);

#ifndef GUARD_NOT_LINKED
#ifdef __GNUC__
__attribute__((used))
#endif
#ifdef __has_attribute
#if __has_attribute(retain)
__attribute__((retain))
#endif
#endif
static uint64_t (*const guard_boundary)(void) = guard_boundary_1;
#endif

/*
 * The layout of a state run. Each number has a word of its own, which is read whole: none is cut. An entry page that is not below V
 * gives 9 where it is entered. The pending page and frame mean nothing where none is pending. guard_start writes all words;
 * guard_enter and guard_leave write GUARD_STATE_MODE and GUARD_STATE_RUNNING alone; guard_fetch writes GUARD_STATE_RUNNING alone;
 * guard_ask, guard_commit and guard_drop write the three words of what is pending alone; the other calls write none. A later version
 * appends its fields.
 */
#define GUARD_STATE_WORDS 25
#define GUARD_STATE_PAGES 0          /* V, the number of virtual pages, 1 to 2048 */
#define GUARD_STATE_FRAMES 1         /* F, the number of physical frames, 1 to 4096 */
#define GUARD_STATE_ENTRIES 2        /* e, the number of entry pages, 1 to 16 */
#define GUARD_STATE_ENTRY 3          /* the sixteen entry pages, words 3 to 18; unused ones are 0 */
#define GUARD_STATE_MODE 19          /* GUARD_MODE_KERNEL or GUARD_MODE_USER */
#define GUARD_STATE_RUNNING 20       /* the page now running, below V */
#define GUARD_STATE_DEVICES 21       /* the number of devices, 1 to 64 */
#define GUARD_STATE_PENDING 22       /* 1 while a pair of page and frame is pending, else 0 */
#define GUARD_STATE_PENDING_PAGE 23  /* the pending page, below V; 0 where none is pending */
#define GUARD_STATE_PENDING_FRAME 24 /* the pending frame, below F; 0 where none is pending */

#define GUARD_MODE_KERNEL 0
#define GUARD_MODE_USER 1

/* The length of a numbers run. */
#define GUARD_NUMBERS 2

/*
 * What a call returns: 0, or the number of the question that refused it. docs/REFUSALS.md has each question and what to do
 * about its refusal. 14 and 15 are the drill program's: no call below returns them.
 */
enum guard_refusal {
    GUARD_ACCEPTED = 0,
    GUARD_RECORD_TOO_SHORT = 1,    /* the policy record is shorter than 8 bytes */
    GUARD_SIZE_OUT_OF_RANGE = 2,   /* V or F is out of range */
    GUARD_COUNT_OUT_OF_RANGE = 3,  /* n, e or the number of devices is out of range */
    GUARD_RECORD_LENGTH = 4,       /* the length of the policy record or of an array does not fit n */
    GUARD_LISTED_PAGE = 5,         /* a listed page is out of range or out of order */
    GUARD_LISTED_FRAME = 6,        /* a listed frame is out of range */
    GUARD_STATE_OR_TABLE = 7,      /* the state or the length of a table does not fit */
    GUARD_LENGTH_OUT_OF_RANGE = 8, /* the length is out of range */
    GUARD_DOES_NOT_EXIST = 9,      /* the thing named does not exist */
    GUARD_WRONG_MODE = 10,         /* the mode does not suit the call */
    GUARD_NOT_PRESENT = 11,        /* a touched page is not present */
    GUARD_NOT_PERMITTED = 12,      /* a touched page does not permit it */
    GUARD_EXCLUDED = 13,           /* a touched frame is excluded */
    GUARD_CALL_CUT_SHORT = 14,     /* the last call is cut short */
    GUARD_UNKNOWN_KIND = 15,       /* the kind of call is unknown */
    GUARD_BUFFER_TOO_SHORT = 16,   /* the buffer is shorter than the record */
    GUARD_TREE = 17,               /* the tree's run, depth or root does not fit */
    GUARD_NO_DEVICE = 18,          /* the device is not in the list */
    GUARD_OUTSIDE_WINDOW = 19,     /* the transfer is outside the device's window */
    GUARD_APPROVAL_CONFLICT = 20,  /* a pair is pending, the page is approved or the frame is excluded */
    GUARD_MAPPED_WRITABLE = 21,    /* a present shadow entry maps the frame writable */
    GUARD_NOTHING_PENDING = 22     /* no pair is pending */
};

/*
 * The tables, with the lengths that question 7 asks for.
 *   kernel     V entries of 64 bits, the kernel's own page table: read, never written
 *   shadow     V entries of 64 bits, which only the guard writes
 *   map        V numbers of 16 bits: the frame approved for that page, or GUARD_MAP_NONE
 *   exclusion  (F + 7) / 8 bytes: bit f % 8 of byte f / 8, bit 0 the lowest, is set where frame f is excluded; spare bits are 0
 *   devices    a struct guard_device for each device, as many as the state says: read, not written. See "Devices"
 * A tree, which stands in the kernel table's place, is question 17's: see "Trees".
 */
#define GUARD_MAP_NONE UINT16_C(65535)

/*
 * Entries. Entry p of a table is that of page p, the virtual addresses from p * 4096 to p * 4096 + 4095; frame f is the same of
 * physical addresses. The bits lie as in a last-level entry of 32-bit paging with physical address extension (PAE).
 *
 * What a synchronisation makes of a page's kernel entry (from a tree: of its flat entry), by the first line that fits:
 *
 *   bit 0 clear, or any of bits 52..62 set      shadow entry 0: the entry is absent. An approved page stays approved
 *   the map has a frame for the page            an approved entry with the map's frame, whatever the kernel's frame is
 *   frame at or above F                         shadow entry 0
 *   frame pending                               a pending entry: an ordinary one that is read-only and no-execute
 *   frame excluded                              an approved entry with this frame, which the map has for the page from then on
 *   any other                                   an ordinary entry
 *
 * Every bit of a kernel entry, and of the shadow entry that is made of it. K: in kernel mode. U: in user mode.
 *
 *   bits    name               kernel entry  ordinary entry         pending entry       approved entry
 *   0       present            read          1                      1                   1
 *   1       writable           read          kernel bit 1           0                   0
 *   2       user               read          kernel bit 2           kernel bit 2        0
 *   3       write-through      read          kernel bit 3           kernel bit 3        0
 *   4       cache disable      read          kernel bit 4           kernel bit 4        0
 *   5       accessed           ignored       0                      0                   0
 *   6       dirty              ignored       0                      0                   0
 *   7       PAT                ignored       0                      0                   0
 *   8       global             ignored       0                      0                   0
 *   9       kernel no-execute  ignored       kernel bit 63          1                   0
 *   10      approved           ignored       0                      0                   1
 *   11      available          ignored       0                      0                   0
 *   12..51  frame              read          kernel bits 12..51     kernel bits 12..51  the map's frame
 *   52..62  reserved           read          0                      0                   0
 *   63 K    no-execute         read          1                      1                   0
 *   63 U    no-execute         read          bit 9, or bit 2 clear  1                   1
 *
 * In PAE paging the processor faults on an entry with any of bits 52 to 62 set. A kernel that uses such entries as markers, not as
 * mappings, gets shadow entry 0 for them. Only kernel entries are asked for these bits, never shadow entries: there guard_enter and
 * guard_leave keep them as found, and a start or a synchronisation makes the entry anew without them.
 *
 * Bits 3 and 4 choose how the processor caches a page: device registers that the kernel maps uncached stay so. An approved entry has
 * neither, since approved frames are code in ordinary memory. Bit 7 is not carried: the PAT entry is 2 * bit 4 + bit 3, whatever the
 * kernel's bit 7 is (docs/INTEGRATION.md, "Memory types").
 *
 * An accepted guard_enter or guard_leave sets or clears bit 63 of every shadow entry whose bit 0 is set, by the last two rows
 * and the entry's own bits 2, 9 and 10. It keeps every other bit. A processor that walks the shadow table sets bits 5 and 6 in
 * it; no call asks for them.
 *
 * What the calls ask of the shadow entry of each page that they touch (11 where bit 0 is clear, else 12):
 *
 *   guard_fetch   bit 0 set, bit 63 clear; in user mode bit 2 set
 *   guard_write   bits 0 and 1 set; in user mode bit 2 set
 *   guard_enter   bits 0 and 10 set
 *   guard_leave   bits 0 and 2 set, bit 9 clear
 *
 * guard_ask asks every page: an entry with bits 0 and 1 set and the asked frame gives 21.
 */
#define GUARD_ENTRY_PRESENT (UINT64_C(1) << 0)
#define GUARD_ENTRY_WRITABLE (UINT64_C(1) << 1)
#define GUARD_ENTRY_USER (UINT64_C(1) << 2)
#define GUARD_ENTRY_WRITE_THROUGH (UINT64_C(1) << 3)     /* PWT in the manuals */
#define GUARD_ENTRY_CACHE_DISABLE (UINT64_C(1) << 4)     /* PCD in the manuals */
#define GUARD_ENTRY_LARGE (UINT64_C(1) << 7)             /* entries of a tree's level 2 only: a large page */
#define GUARD_ENTRY_KERNEL_NO_EXECUTE (UINT64_C(1) << 9) /* shadow entries only: the kernel entry's bit 63, or a pending entry */
#define GUARD_ENTRY_APPROVED (UINT64_C(1) << 10)         /* shadow entries only */
#define GUARD_ENTRY_RESERVED (UINT64_C(0x7ff) << 52)     /* kernel entries only: with any of them set the entry is absent */
#define GUARD_ENTRY_NO_EXECUTE (UINT64_C(1) << 63)

/* The frame of an entry, and the bits 12 to 51 for a frame below 2^40. */
#define GUARD_ENTRY_FRAME(entry) ((uint64_t)(entry) >> 12 & UINT64_C(0xffffffffff))
#define GUARD_ENTRY_OF_FRAME(frame) ((uint64_t)(frame) << 12)

/*
 * Trees: a kernel's page tables in the processor's own shape, in place of the flat kernel table. A tree is
 *   tables  a run of whole tables, each of GUARD_TABLE_ENTRIES entries of 64 bits, numbered from 0: read, never written
 *   root    the number of the table in which a walk begins
 *   depth   the level of that table, 1 to GUARD_DEPTH_MAX
 * Question 17 asks whether the run's length is a multiple of GUARD_TABLE_ENTRIES, the depth within its range, and the root below
 * the number of tables: an empty run, which has no table, gives 17. What the tables hold is never refused.
 *
 * The walk of page p goes down one level at a time. In a table of level l it reads entry p >> 9 * (l - 1) & 511. This is the last
 * entry at level 1, and at level 2 where its bit 7 is set: a large page, of 512 pages and frames. The frame field of every other
 * entry, all 40 bits of it, is the number of the next table: its place in the run and no physical frame (docs/INTEGRATION.md,
 * "From the kernel's own tables", has how a kernel's tables are copied into a run).
 *
 * A walk gives the page's flat entry, which a synchronisation from a tree takes for its kernel entry, and the number of entries
 * that were read, at most the depth. The page is absent, and its flat entry 0, where
 *   - p needs more than 9 * depth bits: no entry is read;
 *   - an entry on the way has bit 0 clear or any of bits 52..62 set: this entry was read, and is the last one;
 *   - the number of the next table is not below the number of tables: no further entry is read;
 *   - a large page has any of bits 12..20 set.
 *
 * Every bit of an entry in a tree, by the level of its table. Level 2 is for an entry with bit 7 clear, large page for one with
 * bit 7 set. What the words put into the flat entry of a page that is not absent:
 *
 *   every       the bit, where every entry that was read with this word has it
 *   any         the bit, where any entry that was read with this word has it
 *   taken       these bits as they stand here: only the last entry has this word
 *   must be 0   nothing: the page is absent where they are not 0. A large page has bits 0..8 of p in place of bits 12..20
 *   must be 1   1: the page is absent where it is not
 *   next table  nothing: the number of the next table
 *   ignored     nothing
 *
 *   bits    name             level 1    level 2     large page  level 3
 *   0       present          must be 1  must be 1   must be 1   must be 1
 *   1       writable         every      every       every       ignored
 *   2       user             every      every       every       ignored
 *   3       write-through    taken      ignored     taken       ignored
 *   4       cache disable    taken      ignored     taken       ignored
 *   5..6    accessed, dirty  ignored    ignored     ignored     ignored
 *   7       large page       ignored    0           1           ignored
 *   8..11   available        ignored    ignored     ignored     ignored
 *   12..20  frame            taken      next table  must be 0   next table
 *   21..51  frame            taken      next table  taken       next table
 *   52..62  reserved         must be 0  must be 0   must be 0   must be 0
 *   63      no-execute       any        any         any         ignored
 *
 * Level 3 has no rights, as in PAE paging. In 64-bit paging it has: there a tree of depth 3 gives pages rights that the kernel
 * withheld, unless they are folded into level 2 first.
 */
#define GUARD_TABLE_ENTRIES UINT64_C(512)
#define GUARD_DEPTH_MAX UINT64_C(3)

/*
 * Devices. guard_start is given how many there are, 1 to GUARD_DEVICES_MAX, and that number stands in the state from then on. Their
 * list is lent to each guard_device_write and has as many elements, or the call is refused with 7. A device is named by its place
 * in the list, from 0.
 *
 * The window of a device is the frames that it may write to: from first to last, both included. Where first is above last it is
 * empty, and every transfer of the device is refused. Windows may overlap. What a window has beyond the last frame, or of excluded
 * frames, it does not open: 9 is asked before, and 13 after.
 *
 * The caller holds the list and writes the windows, between calls, as it likes; the guard reads them. Another window of one
 * device changes no answer given to another.
 *
 * The struct grows: a later version has further fields behind these two, and one that a call writes. So set a device up by the
 * names of its fields, with zeros for the rest, as in
 *   struct guard_device cards[2] = {{.first = 4, .last = 7}, {.first = 9, .last = 9}};
 * and compile against the header that came with the archive: the elements of a list are sizeof(struct guard_device) apart.
 */
#define GUARD_DEVICES_MAX UINT64_C(64)

struct guard_device {
    uint16_t first; /* the first frame of the window */
    uint16_t last;  /* the last one */
};

/*
 * Start: reads the policy record, sets state, shadow, map and exclusion from it, whatever they held, and stands in kernel mode
 * on the first entry page. It is also given how many devices there are (devices), and is lent no list of them. Numbers: n and e.
 *
 * The record has 8 + 4 * n bytes. Every number in it has 16 bits, the lower byte first; i goes from 0 to n - 1.
 *
 *   at byte             number
 *   0                   V, the number of virtual pages, 1 to 2048
 *   2                   F, the number of physical frames, 1 to 4096
 *   4                   n, the number of listed pages, 1 to V
 *   6                   e, the number of entry pages, 1 to the smaller of n and 16
 *   8 + 2 * i           listed page i: below V, and above listed page i - 1
 *   8 + 2 * n + 2 * i   the frame of listed page i: below F; two pages may have one frame
 *
 * Listed page i is the page of entry index i, for i below e. What an accepted start writes:
 *
 *   state      V, F, e; the e entry pages, then zeros; GUARD_MODE_KERNEL; listed page 0; the number of devices; three zeros, since
 *              nothing is pending
 *   shadow     for a listed page the approved entry of its frame in kernel mode, frame * 4096 + 0x401; for any other 0
 *   map        for a listed page its frame; for any other GUARD_MAP_NONE
 *   exclusion  the bits of the frames in the record; every other bit 0
 *
 * Refusals 1 to 6 are about the record; 3 is also for a number of devices that is not 1 to GUARD_DEVICES_MAX. Then comes 7, by the
 * record's V and F, for the lengths of all runs. What the state run holds is not read.
 */
uint64_t guard_start(const uint8_t *policy, size_t policy_length, uint64_t devices, uint64_t *state, size_t state_length,
                     uint64_t *shadow, size_t shadow_length, uint16_t *map, size_t map_length, uint8_t *exclusion,
                     size_t exclusion_length, uint64_t *numbers, size_t numbers_length);

/*
 * Writes a policy record, laid out as at guard_start, to the front of a buffer. It is given V (pages), F (frames), n (count), e
 * (entry_count) and two arrays: the n listed pages, of which the first e are the entry pages, and the n frames of these pages.
 * Numbers: the record's length, 8 + 4 * n, and 0. Bytes of the buffer past the record stay as they were. A buffer of 8200 bytes
 * is long enough for every record.
 *
 * It is lent no state and no table, so that it can be called before any guard is started, and on another machine than the
 * guarded one. guard_start, with a number of devices in its range and tables, state and numbers runs of their right lengths,
 * accepts the record, cut to its length; the guard then stands as said there for these pages and frames. A record that guard_start
 * accepts, read and written again, is the same bytes.
 *
 * Refusals 2 to 6, in this order, as at guard_start, but 3 is for n and e alone, and 4 for an array that has not n numbers. Then
 * comes 7, for the numbers run, and last 16, for a buffer that is shorter than the record.
 */
uint64_t guard_write_record(uint64_t pages, uint64_t frames, uint64_t count, uint64_t entry_count,
                            const uint16_t *listed_pages, size_t listed_pages_length, const uint16_t *listed_frames,
                            size_t listed_frames_length, uint8_t *buffer, size_t buffer_length, uint64_t *numbers,
                            size_t numbers_length);

/*
 * Synchronise one page: makes its shadow entry from its kernel entry, as said at "Entries". The page may join the map, which is
 * to say that the map has a frame for it where it had none. Numbers: shadow entries whose value changed, pages that joined the
 * map; each 0 or 1. Where the first is not 0, flush the TLB before the kernel runs on.
 * Refusals 7 and 9.
 */
uint64_t guard_sync_page(const uint64_t *state, size_t state_length, const uint64_t *kernel, size_t kernel_length,
                         uint64_t *shadow, size_t shadow_length, uint16_t *map, size_t map_length, const uint8_t *exclusion,
                         size_t exclusion_length, uint64_t page, uint64_t *numbers, size_t numbers_length);

/*
 * Synchronise all pages, in rising order. Numbers: shadow entries whose value changed, pages that joined the map. Where the
 * first is not 0, flush the TLB before the kernel runs on.
 * Refusal 7.
 */
uint64_t guard_sync_all(const uint64_t *state, size_t state_length, const uint64_t *kernel, size_t kernel_length,
                        uint64_t *shadow, size_t shadow_length, uint16_t *map, size_t map_length, const uint8_t *exclusion,
                        size_t exclusion_length, uint64_t *numbers, size_t numbers_length);

/*
 * The walk of a page in a tree, as said at "Trees". It is lent no state and no table of the guard's. Numbers: the flat entry, 0
 * where the page is absent, and the number of entries read. A page whose number needs too many bits is accepted, with 0 and 0.
 * Refusals 7, for the numbers run alone, and 17.
 */
uint64_t guard_walk(const uint64_t *tables, size_t tables_length, uint64_t root, uint64_t depth, uint64_t page,
                    uint64_t *numbers, size_t numbers_length);

/*
 * Synchronise one page from a tree: as guard_sync_page, with the flat entry of the page's walk for its kernel entry.
 * Refusals 7, 17 and 9, in this order.
 */
uint64_t guard_sync_page_tree(const uint64_t *state, size_t state_length, const uint64_t *tables, size_t tables_length,
                              uint64_t root, uint64_t depth, uint64_t *shadow, size_t shadow_length, uint16_t *map,
                              size_t map_length, const uint8_t *exclusion, size_t exclusion_length, uint64_t page,
                              uint64_t *numbers, size_t numbers_length);

/*
 * Synchronise all pages from a tree, in rising order: as guard_sync_all, with the flat entries of all pages' walks for the kernel
 * table. No such table is made in memory.
 * Refusals 7 and 17, in this order.
 */
uint64_t guard_sync_all_tree(const uint64_t *state, size_t state_length, const uint64_t *tables, size_t tables_length,
                             uint64_t root, uint64_t depth, uint64_t *shadow, size_t shadow_length, uint16_t *map,
                             size_t map_length, const uint8_t *exclusion, size_t exclusion_length, uint64_t *numbers,
                             size_t numbers_length);

/*
 * Fetch a page, which then runs, in the mode that stands. Numbers: its frame, twice. No table changes.
 * Refusals 7, 9, 11 and 12.
 */
uint64_t guard_fetch(uint64_t *state, size_t state_length, const uint64_t *shadow, size_t shadow_length, uint64_t page,
                     uint64_t *numbers, size_t numbers_length);

/*
 * Write 1 to 16 bytes at a virtual address. Numbers: the frames of the first and of the last byte. The guard decides and stores
 * nothing: where it accepts, the caller makes the write.
 * Refusals 7, 8, 9, 11, 12 and 13; the last where a frame is excluded, or at or above F.
 */
uint64_t guard_write(const uint64_t *state, size_t state_length, const uint64_t *shadow, size_t shadow_length,
                     const uint8_t *exclusion, size_t exclusion_length, uint64_t address, uint64_t length,
                     uint64_t *numbers, size_t numbers_length);

/*
 * Enter the kernel by an entry index, 0 to e - 1: kernel mode, and the entry's page runs. Bit 63 of every present shadow entry is
 * set or cleared for the new mode. Numbers: shadow entries that changed, and 0. Flush the TLB before the kernel runs.
 * Refusals 7, 9, 10, 11 and 12.
 */
uint64_t guard_enter(uint64_t *state, size_t state_length, uint64_t *shadow, size_t shadow_length, uint64_t index,
                     uint64_t *numbers, size_t numbers_length);

/*
 * Leave the kernel to a page: user mode, and that page runs. Bit 63 of every present shadow entry is set or cleared for the new
 * mode. Numbers: shadow entries that changed, and 0. Flush the TLB, and go on at user privilege.
 * Refusals 7, 9, 10, 11 and 12.
 */
uint64_t guard_leave(uint64_t *state, size_t state_length, uint64_t *shadow, size_t shadow_length, uint64_t page,
                     uint64_t *numbers, size_t numbers_length);

/*
 * The write of a device, named by its place in the list (device), of 1 to 1048576 bytes at a physical address. Numbers: the frames
 * of the first and of the last byte. The guard decides and stores nothing: where it accepts, the caller lets the device write.
 *
 * Refusals in this order:
 *   7   the state, the exclusion vector's length, the numbers run's, or the list's, which is the number of devices in the state
 *   8   the length
 *   18  the device is not below the number of devices
 *   9   the last byte is not below F * 4096
 *   19  the first or the last byte's frame is outside the device's window
 *   13  a frame of the transfer is excluded
 * A later version writes to the list, and takes it without const.
 */
uint64_t guard_device_write(const uint64_t *state, size_t state_length, const uint8_t *exclusion, size_t exclusion_length,
                            const struct guard_device *devices, size_t devices_length, uint64_t device, uint64_t address,
                            uint64_t length, uint64_t *numbers, size_t numbers_length);

/*
 * Approval while the kernel runs. A driver that arrives after the start is first asked for, by the page and the frame that it is
 * to have, then inspected by the caller, and then committed or dropped. From the ask on the pair is pending, and the state has room
 * for one pair. While it is pending
 *   - its frame is excluded: no guard_write and no guard_device_write that reaches it is accepted (13), in any device's window;
 *   - a page without an approval that is synchronised with its frame gets a pending entry (see "Entries"), which neither kernel
 *     mode nor user mode runs or writes;
 *   - a page that was synchronised with its frame before the ask keeps its shadow entry until the next synchronisation or the
 *     commit. It is read-only (21), but user mode may run it. So synchronise all pages after the ask, flush the TLB, and inspect
 *     the frame then.
 * docs/INTEGRATION.md, "Drivers approved while running", has what to do around these calls, and about transfers under way.
 */

/*
 * Ask for the approval of a page with a frame. Sets the frame's bit in the exclusion vector and the three words of the pending pair
 * in the state. Shadow and map are read alone, and stay as they are. Numbers: 0 and 0.
 *
 * Refusals in this order:
 *   7   the state, the length of shadow, map or exclusion vector, or the numbers run's
 *   9   the page is not below V, or the frame not below F
 *   20  a pair is pending, the map has a frame for the page, or the frame is excluded
 *   21  a shadow entry with this frame has bits 0 and 1 set
 * A later version has more arguments.
 */
uint64_t guard_ask(uint64_t *state, size_t state_length, const uint64_t *shadow, size_t shadow_length, const uint16_t *map,
                   size_t map_length, uint8_t *exclusion, size_t exclusion_length, uint64_t page, uint64_t frame,
                   uint64_t *numbers, size_t numbers_length);

/*
 * Commit the pending pair: the map gets its frame for its page, whatever that page's shadow entry was, and for every other page
 * that has none and whose shadow entry has bit 0 set and this frame. Each of these pages gets the approved entry of the frame for
 * the mode that stands. Nothing is pending after it. The frame stays excluded, so the exclusion vector is not lent. No kernel table
 * is read. Numbers: shadow entries whose value changed; pages that joined the map, the asked one included. Where the first is not
 * 0, flush the TLB before the kernel runs on.
 *
 * Refusals in this order:
 *   7   the state, the length of shadow or map, or the numbers run's
 *   20  the map has a frame for the pending page by now, from a synchronisation after the ask
 *   22  nothing is pending
 * A later version has more arguments.
 */
uint64_t guard_commit(uint64_t *state, size_t state_length, uint64_t *shadow, size_t shadow_length, uint16_t *map,
                      size_t map_length, uint64_t *numbers, size_t numbers_length);

/*
 * Drop the pending pair: clears its frame's bit in the exclusion vector. Nothing is pending after it. Shadow and map are not lent:
 * pending entries stay as they are until they are synchronised. Numbers: 0 and 0.
 *
 * Refusals in this order:
 *   7   the state, the length of the exclusion vector, or the numbers run's
 *   22  nothing is pending
 */
uint64_t guard_drop(uint64_t *state, size_t state_length, uint8_t *exclusion, size_t exclusion_length, uint64_t *numbers,
                    size_t numbers_length);

#ifdef __cplusplus
}
#endif

#endif
