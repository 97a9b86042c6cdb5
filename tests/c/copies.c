/*
 * examples/pae.c, which copies a kernel's page tables into a run: walks and synchronisations from its copies of a made-up memory,
 * against literals and against the walk of a processor in that memory. Prints 'ok NAME' or 'WRONG NAME', and a last line
 * 'N passed, M failed'.
 */
#include <stdio.h>
#include <string.h>

#include "../../examples/pae.c"

enum { TABLE = GUARD_TABLE_ENTRIES, FRAMES = 32, PAGES = 2048, VECTOR = FRAMES / 8, GIGABYTE = 262144, ROUNDS = 200 };

/* The address 0x90a0, and bits of CR3 that are no part of it. */
enum { CR3 = 0x90b8, POINTERS = 0x90a0 / 8 };

static uint64_t words[FRAMES * TABLE];
static const struct pae_memory memory = {words, FRAMES};
static struct pae_copy copy;
static int passed;
static int failed;

static void check(int right, const char *name)
{
    printf("%s %s\n", right ? "ok" : "WRONG", name);
    if (right)
        passed++;
    else
        failed++;
}

/* Two directories, frames 3 and 5, and tables that both name; more of them than the window of a guard needs. */
static void lay_out(void)
{
    memset(words, 0, sizeof words);
    words[POINTERS] = 0x3001;
    words[POINTERS + 1] = 0x5019;
    words[POINTERS + 2] = 0x5000; /* absent */
    words[POINTERS + 3] = 0x3001; /* the first directory once more */

    uint64_t *directory = words + 3 * TABLE;
    directory[0] = 0x6007;
    directory[1] = 0x200083;           /* a large page */
    directory[2] = 0x800000000040109f; /* one with its PAT bit, cache bits and no-execute */
    directory[3] = 0x3003;             /* the directory itself as a table */
    directory[4] = 0x7007;             /* pages past the window */

    directory = words + 5 * TABLE;
    directory[0] = 0x6005;             /* read-only here */
    directory[1] = 0x8000000000001007; /* no-execute here; the table's frame is 1 */
    directory[2] = 0x28007;            /* a table that is not the kernel's memory */
    directory[3] = 0x0010000000006007; /* a marker */
    directory[510] = 0x1003;
    directory[511] = 0x6007;

    uint64_t *table = words + 6 * TABLE;
    table[0] = 0x2fe7;
    table[1] = 0x401b;
    table[2] = 0x4000000000008003; /* a marker */
    table[511] = 0x8000000000009005;
    words[1 * TABLE] = 0xa007;
    words[1 * TABLE + 1] = 0xb006;
}

static int is_valid(uint64_t entry)
{
    return (entry & 1) != 0 && (entry & 0x7ff0000000000000) == 0;
}

/* What a processor in PAE paging makes of a virtual page, as a flat entry: 0 where it faults. It reads no table beyond the memory. */
static uint64_t processor(uint64_t page)
{
    uint64_t pointer = words[POINTERS + (page >> 18)];
    if (!is_valid(pointer) || (pointer >> 12 & 0xffffffffff) >= FRAMES)
        return 0;
    uint64_t upper = words[(pointer >> 12 & 0xffffffffff) * TABLE + (page >> 9 & 511)];
    if (!is_valid(upper))
        return 0;
    if (upper & 0x80)
        return upper & 0x1fe000 ? 0 : (upper & 0x800fffffffe0001f) | (page & 511) << 12;
    if ((upper >> 12 & 0xffffffffff) >= FRAMES)
        return 0;
    uint64_t entry = words[(upper >> 12 & 0xffffffffff) * TABLE + (page & 511)];
    if (!is_valid(entry))
        return 0;
    return (entry & 0x000ffffffffff019) | (entry & upper & 0x6) | ((entry | upper) & 0x8000000000000000);
}

static uint64_t walk(unsigned depth, uint64_t page, uint64_t *reads)
{
    uint64_t numbers[GUARD_NUMBERS] = {77, 88};
    uint64_t number = guard_walk(copy.words, copy.count * TABLE, 0, depth, page, numbers, GUARD_NUMBERS);
    *reads = numbers[1];
    return number == GUARD_ACCEPTED ? numbers[0] : UINT64_MAX;
}

static int walks_to(unsigned depth, uint64_t page, uint64_t entry, uint64_t reads)
{
    uint64_t read;
    return walk(depth, page, &read) == entry && read == reads;
}

/* The window from virtual page 0 on, with the processor's own three levels. */
static void copy_from_zero(uint64_t pages)
{
    uint64_t pointers[PAE_POINTERS];
    pae_pointers(memory, CR3, pointers);
    pae_copy(&copy, memory, pointers, PAE_POINTERS, 3, pages);
}

/* The window from a virtual page on, which is a multiple of 512, with a root of its directory entries. */
static void copy_from(uint64_t first, uint64_t pages)
{
    uint64_t pointers[PAE_POINTERS];
    uint64_t root[PAGES / TABLE];
    pae_pointers(memory, CR3, pointers);
    for (uint64_t i = 0; i < PAGES / TABLE; i++)
        root[i] = pae_directory_entry(memory, pointers, first + i * TABLE);
    pae_copy(&copy, memory, root, PAGES / TABLE, 2, pages);
}

/* Every page of the window is what the processor makes of it. How many are present. */
static uint64_t all_walk(unsigned depth, uint64_t first, uint64_t pages)
{
    uint64_t present = 0;
    for (uint64_t page = 0; page < pages; page++) {
        uint64_t reads;
        uint64_t entry = walk(depth, page, &reads);
        if (entry != processor(first + page) || reads > depth)
            return UINT64_MAX;
        present += entry != 0;
    }
    return present;
}

static void windows(void)
{
    lay_out();
    copy_from_zero(PAGES);
    check(copy.count == 4, "from page 0: the root, a directory, a table, and the directory as a table");
    check(walks_to(3, 0, 0x2007, 3) && walks_to(3, 1, 0x401b, 3) && walks_to(3, 2, 0, 3) && walks_to(3, 511, 0x8000000000009005, 3),
          "from page 0: pages of a table");
    check(walks_to(3, 512, 0x200003, 2) && walks_to(3, 1023, 0x3ff003, 2), "from page 0: a large page");
    check(walks_to(3, 1024 + 7, 0x800000000040701f, 2), "from page 0: a large page, its PAT bit passed over");
    check(walks_to(3, 1536, 0x6003, 3) && walks_to(3, 1537, 0x200003, 3) && walks_to(3, 1539, 0x3003, 3),
          "from page 0: the directory as a table has frames");
    check(walks_to(3, 2048, 0, 2) && walks_to(3, GIGABYTE, 0, 1), "from page 0: tables that are not copied make their pages absent");
    check(all_walk(3, 0, PAGES) == 3 + 1024 + 5, "from page 0: every page as the processor has it");

    copy_from(GIGABYTE, PAGES);
    check(copy.count == 3, "from a gigabyte on: the root and two tables");
    check(walks_to(2, 0, 0x2005, 2) && walks_to(2, 512, 0x800000000000a007, 2) && walks_to(2, 513, 0, 2) && walks_to(2, 1024, 0, 1) &&
              walks_to(2, 1536, 0, 1),
          "from a gigabyte on: pages of both tables, a table beyond the memory, a marker");
    check(all_walk(2, GIGABYTE, PAGES) == 4, "from a gigabyte on: every page as the processor has it");

    copy_from(GIGABYTE + 510 * TABLE, PAGES);
    check(walks_to(2, 0, 0xa003, 2) && walks_to(2, 512, 0x2007, 2) && walks_to(2, 1024, 0, 1), "across the end of a directory");
    check(all_walk(2, GIGABYTE + 510 * TABLE, PAGES) == 4, "across the end of a directory: every page as the processor has it");

    copy_from(3 * GIGABYTE, PAGES);
    check(all_walk(2, 3 * GIGABYTE, PAGES) == 3 + 1024 + 5, "the same directory by another pointer");
    copy_from(2 * GIGABYTE, PAGES);
    check(copy.count == 1 && all_walk(2, 2 * GIGABYTE, PAGES) == 0, "without a directory");

    uint64_t pointers[PAE_POINTERS];
    pae_pointers(memory, FRAMES * UINT64_C(4096), pointers);
    pae_copy(&copy, memory, pointers, PAE_POINTERS, 3, PAGES);
    check(copy.count == 1 && walks_to(3, 0, 0, 1), "with CR3 beyond the memory");
}

/* The kernel's memory itself as the run: tables then have their frames for numbers, and nothing is copied. */
static void without_a_copy(void)
{
    lay_out();
    int right = 1;
    for (uint64_t page = 0; page < PAGES; page++) {
        uint64_t numbers[GUARD_NUMBERS];
        uint64_t number = guard_walk(words, FRAMES * TABLE, 3, 2, page, numbers, GUARD_NUMBERS);
        /* the third directory entry has a PAT bit */
        right = right && number == GUARD_ACCEPTED && numbers[0] == (page / TABLE == 2 ? 0 : processor(page));
    }
    check(right, "memory itself as the run: as the processor has it, but for a large page with its PAT bit");
}

static uint64_t seed = 1;

static uint64_t below(uint64_t limit)
{
    seed ^= seed << 13;
    seed ^= seed >> 7;
    seed ^= seed << 17;
    return (seed * UINT64_C(0x2545f4914f6cdd1d) >> 16) % limit;
}

/* A frame of the memory or beyond it, or a multiple of 512; every other bit at random, markers seldom. */
static uint64_t any_entry(void)
{
    uint64_t frame = below(3) ? below(FRAMES + 4) : below(4) * 512 + (below(4) == 0) * below(512);
    uint64_t marker = below(12) ? 0 : UINT64_C(1) << (52 + below(11));
    return below(2) << 63 | marker | frame << 12 | below(4096) | (below(8) != 0);
}

struct guard {
    uint64_t state[GUARD_STATE_WORDS];
    uint64_t numbers[GUARD_NUMBERS];
    uint64_t shadow[PAGES];
    uint16_t map[PAGES];
    uint8_t exclusion[VECTOR];
};

/* Any memory: walks of both kinds of window, a synchronisation from the copy, and what a copy for more pages than it has room for
 * gives: of each page what the processor has, or nothing. */
static void any_memory(void)
{
    static const uint8_t policy[12] = {PAGES & 255, PAGES >> 8, FRAMES, 0, 1, 0, 1, 0, 1, 0, 2, 0};
    static struct guard one;
    static struct guard other;
    static uint64_t flat[PAGES];
    int walks = 1;
    int synchronised = 1;
    int room = 1;
    uint64_t present = 0;
    for (int round = 0; round < ROUNDS; round++) {
        for (size_t i = 0; i < FRAMES * TABLE; i++)
            words[i] = any_entry();
        uint64_t first = below(4 * GIGABYTE / TABLE - PAGES / TABLE) * TABLE;
        copy_from(first, PAGES);
        uint64_t found = all_walk(2, first, PAGES);
        walks = walks && copy.count <= PAE_TABLES && found != UINT64_MAX;
        present += found;
        copy_from_zero(PAGES);
        walks = walks && all_walk(3, 0, PAGES) != UINT64_MAX;

        for (uint64_t page = 0; page < PAGES; page++)
            flat[page] = processor(page);
        guard_start(policy, sizeof policy, 1, one.state, GUARD_STATE_WORDS, one.shadow, PAGES, one.map, PAGES, one.exclusion,
                    VECTOR, one.numbers, GUARD_NUMBERS);
        other = one;
        uint64_t number = guard_sync_all_tree(one.state, GUARD_STATE_WORDS, copy.words, copy.count * TABLE, 0, 3, one.shadow, PAGES,
                                              one.map, PAGES, one.exclusion, VECTOR, one.numbers, GUARD_NUMBERS);
        uint64_t want = guard_sync_all(other.state, GUARD_STATE_WORDS, flat, PAGES, other.shadow, PAGES, other.map, PAGES,
                                       other.exclusion, VECTOR, other.numbers, GUARD_NUMBERS);
        synchronised = synchronised && number == GUARD_ACCEPTED && want == GUARD_ACCEPTED && memcmp(&one, &other, sizeof one) == 0;

        copy_from_zero(4 * (uint64_t)GIGABYTE);
        for (int i = 0; i < 1000; i++) {
            uint64_t page = below(4 * GIGABYTE);
            uint64_t reads;
            uint64_t entry = walk(3, page, &reads);
            room = room && (entry == 0 || entry == processor(page));
        }
        room = room && copy.count <= PAE_TABLES;
    }
    check(walks && present > 10000, "any memory: every page as the processor has it");
    check(synchronised, "any memory: synchronised from the copy");
    check(room, "any memory: a copy without room for all tables has no other page");
}

int main(void)
{
    windows();
    without_a_copy();
    any_memory();
    printf("%d passed, %d failed\n", passed, failed);
    return failed == 0 ? 0 : 1;
}
