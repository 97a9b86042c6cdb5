/*
 * Copies the page tables of a kernel in PAE paging (32 bits, physical address extension) into a run for guard_walk,
 * guard_sync_page_tree and guard_sync_all_tree. The rules are those of docs/INTEGRATION.md, "From the kernel's own tables".
 * A host takes this as it is or as a pattern: it is tested and not proved, and nothing of the guard rests on it.
 */
#include "guard.h"

/* The page-directory-pointer entries; and for V, at most 2048, a root, a directory and four tables. */
enum { PAE_POINTERS = 4, PAE_TABLES = 6, PAE_RUN = PAE_TABLES * GUARD_TABLE_ENTRIES };

#define PAE_FRAME_FIELD GUARD_ENTRY_OF_FRAME(UINT64_C(0xffffffffff))
#define PAE_LARGE_PAT (UINT64_C(1) << 12)

/* The kernel's physical memory from address 0 on, as the host maps it. */
struct pae_memory {
    const volatile uint64_t *words; /* volatile: a device may write them, so each is read once and decided on afterwards */
    uint64_t frames;                /* F */
};

struct pae_copy {
    uint64_t words[PAE_RUN];    /* the run: lend count * GUARD_TABLE_ENTRIES words of it, with root 0 */
    uint64_t count;             /* tables in it */
    uint64_t frame[PAE_TABLES]; /* the frame that each was copied from, but for the root */
    unsigned level[PAE_TABLES]; /* the level that each was copied for */
};

/* The processor goes on to a table from here. */
static int pae_leads_on(uint64_t entry, unsigned level)
{
    int is_last = level == 1 || (level == 2 && (entry & GUARD_ENTRY_LARGE));
    return !is_last && (entry & GUARD_ENTRY_PRESENT) && !(entry & GUARD_ENTRY_RESERVED);
}

/*
 * The place in the run of a table, which is copied where it is not there yet: PAE_TABLES where it is not the kernel's memory, or
 * where there is no room. A table has a place for each level at which it is named: a kernel that maps its directory as a table, to
 * reach its own tables, gets a copy whose frame fields are places, and one where they are frames.
 */
static uint64_t pae_place(struct pae_copy *copy, struct pae_memory memory, uint64_t frame, unsigned level)
{
    uint64_t place = 1;
    while (place < copy->count && (copy->frame[place] != frame || copy->level[place] != level))
        place++;
    if (place < copy->count)
        return place;
    if (frame >= memory.frames || place == PAE_TABLES)
        return PAE_TABLES;
    for (uint64_t i = 0; i < GUARD_TABLE_ENTRIES; i++)
        copy->words[place * GUARD_TABLE_ENTRIES + i] = memory.words[frame * GUARD_TABLE_ENTRIES + i];
    copy->frame[place] = frame;
    copy->level[place] = level;
    copy->count++;
    return place;
}

/*
 * Copies the tables that the first pages of a tree need. The root has these entries, at most 512, and zeros after them: the four
 * page-directory-pointer entries with depth 3, or entries of a directory with depth 2 (pae_directory_entry). Tables get their places
 * in the order in which they are met. An entry whose table is not copied becomes 0: its frame could be taken for a place.
 */
void pae_copy(struct pae_copy *copy, struct pae_memory memory, const uint64_t *root, size_t length, unsigned depth, uint64_t pages)
{
    for (size_t i = 0; i < GUARD_TABLE_ENTRIES; i++)
        copy->words[i] = i < length ? root[i] : 0;
    copy->count = 1;
    copy->level[0] = depth;
    for (uint64_t place = 0; place < copy->count; place++) {
        unsigned level = copy->level[place];
        for (uint64_t i = 0; i < GUARD_TABLE_ENTRIES; i++) {
            uint64_t *entry = &copy->words[place * GUARD_TABLE_ENTRIES + i];
            if (pae_leads_on(*entry, level)) {
                int needed = (i << 9 * (level - 1)) < pages;
                uint64_t next = needed ? pae_place(copy, memory, GUARD_ENTRY_FRAME(*entry), level - 1) : PAE_TABLES;
                *entry = next == PAE_TABLES ? 0 : (*entry & ~PAE_FRAME_FIELD) | GUARD_ENTRY_OF_FRAME(next);
            } else if (level == 2) {
                /* a large page, or absent: no shadow entry has its PAT bit, which is no part of the frame */
                *entry &= ~PAE_LARGE_PAT;
            }
        }
    }
}

/* The four page-directory-pointer entries, at a load of CR3: the processor reads them then, and keeps them until the next load. */
void pae_pointers(struct pae_memory memory, uint64_t cr3, uint64_t pointers[PAE_POINTERS])
{
    uint64_t address = cr3 & UINT64_C(0xffffffe0);
    for (uint64_t i = 0; i < PAE_POINTERS; i++)
        pointers[i] = address / 4096 < memory.frames ? memory.words[address / 8 + i] : 0;
}

/* The directory entry of a virtual page, 0 where there is no directory: for a root whose first page is not virtual page 0. */
uint64_t pae_directory_entry(struct pae_memory memory, const uint64_t pointers[PAE_POINTERS], uint64_t page)
{
    uint64_t pointer = pointers[page >> 18 & 3];
    uint64_t frame = GUARD_ENTRY_FRAME(pointer);
    if (!pae_leads_on(pointer, 3) || frame >= memory.frames)
        return 0;
    return memory.words[frame * GUARD_TABLE_ENTRIES + (page >> 9 & 511)];
}
