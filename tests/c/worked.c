/*
 * The worked example of document 01 through the C boundary, then refusals that only a caller of the library can provoke, then policy
 * records that the library writes, then trees. After each call the returned number, both numbers and every run that it is lent for
 * writing are compared with literals.
 */
#include <stdio.h>
#include <string.h>

#include "guard.h"

enum { PAGES = 4, VECTOR = 1, DEVICES = 2, ROOM = 24 };

/* Every run that the caller of a guard holds. */
struct guard {
    uint64_t state[GUARD_STATE_WORDS];
    uint64_t numbers[GUARD_NUMBERS];
    uint64_t kernel[PAGES];
    uint64_t shadow[PAGES];
    uint16_t map[PAGES];
    uint8_t exclusion[VECTOR];
    struct guard_device devices[DEVICES];
};

static int passed;
static int failed;

static void tell(const char *name, int right)
{
    printf("%s %s\n", right ? "ok" : "WRONG", name);
    if (right)
        passed++;
    else
        failed++;
}

/* A call is right where it returned what it should and left every run as it should. */
static void check(const char *name, uint64_t number, uint64_t want_number, const struct guard *g, const struct guard *want)
{
    int right = number == want_number && memcmp(g->state, want->state, sizeof g->state) == 0 &&
                memcmp(g->numbers, want->numbers, sizeof g->numbers) == 0 &&
                memcmp(g->kernel, want->kernel, sizeof g->kernel) == 0 &&
                memcmp(g->shadow, want->shadow, sizeof g->shadow) == 0 && memcmp(g->map, want->map, sizeof g->map) == 0 &&
                memcmp(g->exclusion, want->exclusion, sizeof g->exclusion) == 0 &&
                memcmp(g->devices, want->devices, sizeof g->devices) == 0;
    tell(name, right);
}

/* Numbers that no call leaves, so that a call that does not write them is seen. */
static void forget(struct guard *g)
{
    g->numbers[0] = 77;
    g->numbers[1] = 88;
}

static struct guard ready(const struct guard *before)
{
    struct guard g = *before;
    forget(&g);
    return g;
}

/* A refused call leaves 0 and 0, and everything else as it was before. The guard is then made ready for the next call. */
static void refused(const char *name, uint64_t number, uint64_t want_number, struct guard *g, const struct guard *before)
{
    struct guard want = *before;
    want.numbers[0] = 0;
    want.numbers[1] = 0;
    check(name, number, want_number, g, &want);
    *g = ready(before);
}

static uint64_t start(struct guard *g, const uint8_t *policy, size_t length)
{
    return guard_start(policy, length, DEVICES, g->state, GUARD_STATE_WORDS, g->shadow, PAGES, g->map, PAGES, g->exclusion, VECTOR,
                       g->numbers, GUARD_NUMBERS);
}

static uint64_t sync_page(struct guard *g, uint64_t page)
{
    return guard_sync_page(g->state, GUARD_STATE_WORDS, g->kernel, PAGES, g->shadow, PAGES, g->map, PAGES, g->exclusion, VECTOR,
                           page, g->numbers, GUARD_NUMBERS);
}

static uint64_t sync_all(struct guard *g)
{
    return guard_sync_all(g->state, GUARD_STATE_WORDS, g->kernel, PAGES, g->shadow, PAGES, g->map, PAGES, g->exclusion, VECTOR,
                          g->numbers, GUARD_NUMBERS);
}

/* K4: three tables, in memory that cannot be written.
 * Table 0: pages 0 to 3 are an alias of frame 2, another frame for page 1, a frame past the last, and registers; then a marker and the
 * highest frame.
 * Table 1: table 0; a large page; one with bit 12 set; a table that is none; table 0, closed to writes, user and fetches.
 * Table 2: table 1, without rights and with bits 7 and 63, which do not count at level 3; a marker. */
enum { TABLE = GUARD_TABLE_ENTRIES, TABLES = 3 };
static const uint64_t tables[TABLES * TABLE] = {
    0x2007,
    0x3007,
    0x4007,
    0x301f,
    0x4000000000003007,
    0x000ffffffffff001,
    [TABLE] = 0x0007,
    [TABLE + 1] = 0x200093,
    [TABLE + 2] = 0x201093,
    [TABLE + 3] = 0x3007,
    [TABLE + 4] = 0x8000000000000001,
    [2 * TABLE] = 0x8000000000001081,
    [2 * TABLE + 1] = 0x0010000000001007,
};

/* The run's length, the root and the depth. */
struct tree {
    size_t length;
    uint64_t root;
    uint64_t depth;
};

/* Table 0 as a tree of one level, table 1 of two, table 2 of three. */
static const struct tree trees[3] = {{TABLES * TABLE, 0, 1}, {TABLES * TABLE, 1, 2}, {TABLES * TABLE, 2, 3}};

static uint64_t sync_page_tree(struct guard *g, struct tree t, uint64_t page)
{
    return guard_sync_page_tree(g->state, GUARD_STATE_WORDS, tables, t.length, t.root, t.depth, g->shadow, PAGES, g->map, PAGES,
                                g->exclusion, VECTOR, page, g->numbers, GUARD_NUMBERS);
}

static uint64_t sync_all_tree(struct guard *g, struct tree t)
{
    return guard_sync_all_tree(g->state, GUARD_STATE_WORDS, tables, t.length, t.root, t.depth, g->shadow, PAGES, g->map, PAGES,
                               g->exclusion, VECTOR, g->numbers, GUARD_NUMBERS);
}

static uint64_t fetch(struct guard *g, uint64_t page)
{
    return guard_fetch(g->state, GUARD_STATE_WORDS, g->shadow, PAGES, page, g->numbers, GUARD_NUMBERS);
}

static uint64_t write_bytes(struct guard *g, uint64_t address, uint64_t length)
{
    return guard_write(g->state, GUARD_STATE_WORDS, g->shadow, PAGES, g->exclusion, VECTOR, address, length, g->numbers,
                       GUARD_NUMBERS);
}

static uint64_t enter(struct guard *g, uint64_t index)
{
    return guard_enter(g->state, GUARD_STATE_WORDS, g->shadow, PAGES, index, g->numbers, GUARD_NUMBERS);
}

static uint64_t leave(struct guard *g, uint64_t page)
{
    return guard_leave(g->state, GUARD_STATE_WORDS, g->shadow, PAGES, page, g->numbers, GUARD_NUMBERS);
}

/* By device 0. */
static uint64_t device_write(struct guard *g, uint64_t address, uint64_t length)
{
    return guard_device_write(g->state, GUARD_STATE_WORDS, g->exclusion, VECTOR, g->devices, DEVICES, 0, address, length, g->numbers,
                              GUARD_NUMBERS);
}

static uint64_t ask(struct guard *g, uint64_t page, uint64_t frame)
{
    return guard_ask(g->state, GUARD_STATE_WORDS, g->shadow, PAGES, g->map, PAGES, g->exclusion, VECTOR, page, frame, g->numbers,
                     GUARD_NUMBERS);
}

static uint64_t commit(struct guard *g)
{
    return guard_commit(g->state, GUARD_STATE_WORDS, g->shadow, PAGES, g->map, PAGES, g->numbers, GUARD_NUMBERS);
}

static uint64_t drop(struct guard *g)
{
    return guard_drop(g->state, GUARD_STATE_WORDS, g->exclusion, VECTOR, g->numbers, GUARD_NUMBERS);
}

/* "Policy V 4, F 4, n 1, e 1, page 1, frame 2." */
static const uint8_t policy[12] = {4, 0, 4, 0, 1, 0, 1, 0, 1, 0, 2, 0};

/* Runs as they may be before a start: nothing of them is read. Both devices may write to every frame. */
static const struct guard unset = {
    .state = {9, 9, 9, 9, 9, 9, 9, 9, 9, 9, 9, 9, 9, 9, 9, 9, 9, 9, 9, 9, 9, 9, 9, 9, 9},
    .numbers = {77, 88},
    .kernel = {0, 0, 0, 0},
    .shadow = {5, 6, 7, 8},
    .map = {1, 2, 3, 4},
    .exclusion = {0xff},
    .devices = {{.first = 0, .last = 3}, {.first = 0, .last = 3}},
};

/* The guard just started, in kernel mode on page 1. C1: "shadow of page 1 is 0x2401, exclusion byte 0x04". */
static const struct guard started = {
    .state = {4, 4, 1, 1, 0, 0, 0, 0, 0, 0, 0, 0, 0, 0, 0, 0, 0, 0, 0, GUARD_MODE_KERNEL, 1, DEVICES, 0, 0, 0},
    .numbers = {1, 1},
    .kernel = {0, 0, 0, 0},
    .shadow = {0, 0x2401, 0, 0},
    .map = {65535, 2, 65535, 65535},
    .exclusion = {0x04},
    .devices = {{.first = 0, .last = 3}, {.first = 0, .last = 3}},
};

/* The guard at the end of the worked example, in user mode on page 3. */
static const struct guard finished = {
    .state = {4, 4, 1, 1, 0, 0, 0, 0, 0, 0, 0, 0, 0, 0, 0, 0, 0, 0, 0, GUARD_MODE_USER, 3, DEVICES, 0, 0, 0},
    .numbers = {0, 0},
    .kernel = {0x2003, 0, 0, 0x3007},
    .shadow = {0x8000000000002401, 0x8000000000002401, 0, 0x3007},
    .map = {2, 2, 65535, 65535},
    .exclusion = {0x04},
    .devices = {{.first = 0, .last = 3}, {.first = 0, .last = 3}},
};

/* "S 0 1 1 K 1" to "7 13 0 0 U 3", a line of the document at a call. */
static void worked_example(void)
{
    struct guard g = unset;
    struct guard want = started;
    uint64_t number = start(&g, policy, sizeof policy);
    check("S 0 1 1 K 1", number, GUARD_ACCEPTED, &g, &want);

    /* edit 0 to 0x2003: the caller's own kernel table; synchronise 0 */
    g.kernel[0] = 0x2003;
    forget(&g);
    number = sync_page(&g, 0);
    want.kernel[0] = 0x2003;
    want.shadow[0] = 0x2401;
    want.map[0] = 2;
    want.numbers[0] = 1;
    want.numbers[1] = 1;
    check("1 0 1 1 K 1", number, GUARD_ACCEPTED, &g, &want);

    forget(&g);
    number = write_bytes(&g, 0, 1);
    want.numbers[0] = 0;
    want.numbers[1] = 0;
    check("4 12 0 0 K 1", number, GUARD_NOT_PERMITTED, &g, &want);

    /* edit 3 to 0x3007; synchronise 3 */
    g.kernel[3] = 0x3007;
    forget(&g);
    number = sync_page(&g, 3);
    want.kernel[3] = 0x3007;
    want.shadow[3] = 0x8000000000003007;
    want.numbers[0] = 1;
    want.numbers[1] = 0;
    check("1 0 1 0 K 1", number, GUARD_ACCEPTED, &g, &want);

    forget(&g);
    number = leave(&g, 3);
    want = finished;
    want.numbers[0] = 3;
    want.numbers[1] = 0;
    check("6 0 3 0 U 3", number, GUARD_ACCEPTED, &g, &want);

    forget(&g);
    number = device_write(&g, 8192, 1);
    check("7 13 0 0 U 3", number, GUARD_EXCLUDED, &g, &finished);
}

/* Accepted calls that the worked example does not make. */
static void other_calls(void)
{
    struct guard g = finished;
    struct guard want = finished;
    uint64_t number = fetch(&g, 3);
    want.numbers[0] = 3;
    want.numbers[1] = 3;
    check("fetch of page 3 in user mode", number, GUARD_ACCEPTED, &g, &want);

    forget(&g);
    number = write_bytes(&g, 16383 - 15, 16);
    check("write of the last 16 bytes", number, GUARD_ACCEPTED, &g, &want);

    forget(&g);
    number = enter(&g, 0);
    want.state[GUARD_STATE_MODE] = GUARD_MODE_KERNEL;
    want.state[GUARD_STATE_RUNNING] = 1;
    want.shadow[0] = 0x2401;
    want.shadow[1] = 0x2401;
    want.shadow[3] = 0x8000000000003007;
    want.numbers[0] = 3;
    want.numbers[1] = 0;
    check("enter by index 0", number, GUARD_ACCEPTED, &g, &want);

    forget(&g);
    number = fetch(&g, 0);
    want.state[GUARD_STATE_RUNNING] = 0;
    want.numbers[0] = 2;
    want.numbers[1] = 2;
    check("fetch of page 0 in kernel mode", number, GUARD_ACCEPTED, &g, &want);

    /* from a kernel table with page 0 absent and page 2 on frame 2: both keep or get frame 2 */
    g.kernel[0] = 0x2000;
    g.kernel[2] = 0x2007;
    forget(&g);
    number = sync_all(&g);
    want.kernel[0] = 0x2000;
    want.kernel[2] = 0x2007;
    want.shadow[0] = 0;
    want.shadow[1] = 0;
    want.shadow[2] = 0x2401;
    want.map[2] = 2;
    want.numbers[0] = 3;
    want.numbers[1] = 1;
    check("synchronise all", number, GUARD_ACCEPTED, &g, &want);

    /* K1: with a reserved bit page 3 is absent, an alias does not join, and an approved page is absent and stays approved */
    const struct guard plain = g;
    const struct guard plain_want = want;
    g.kernel[0] = 0x7ff0000000002003;
    g.kernel[2] = 0x0010000000002007;
    g.kernel[3] = 0x4000000000003007;
    g.map[0] = GUARD_MAP_NONE;
    forget(&g);
    number = sync_all(&g);
    want.kernel[0] = 0x7ff0000000002003;
    want.kernel[2] = 0x0010000000002007;
    want.kernel[3] = 0x4000000000003007;
    want.map[0] = GUARD_MAP_NONE;
    want.shadow[2] = 0;
    want.shadow[3] = 0;
    want.numbers[0] = 2;
    want.numbers[1] = 0;
    check("synchronise all with reserved bits", number, GUARD_ACCEPTED, &g, &want);

    g.kernel[2] = 0x3007;
    forget(&g);
    number = sync_page(&g, 2);
    want.kernel[2] = 0x3007;
    want.shadow[2] = 0x2401;
    want.numbers[0] = 1;
    check("an approved page after a reserved bit", number, GUARD_ACCEPTED, &g, &want);
    g = plain;
    want = plain_want;

    /* C9 */
    forget(&g);
    number = device_write(&g, 16383, 1);
    want.numbers[0] = 3;
    want.numbers[1] = 3;
    check("device write of the last byte", number, GUARD_ACCEPTED, &g, &want);
}

/* K3: page 3 has the registers of a line card. It carries bits 3 and 4, and approved pages and an alias have neither. */
static void device_registers(void)
{
    struct guard g = ready(&finished);
    struct guard want = finished;
    const uint64_t kernel[PAGES] = {0x201b, 0x2019, 0x201f, 0x301f};
    memcpy(g.kernel, kernel, sizeof kernel);
    memcpy(want.kernel, kernel, sizeof kernel);
    uint64_t number = sync_all(&g);
    want.shadow[2] = 0x8000000000002401;
    want.shadow[3] = 0x301f;
    want.map[2] = 2;
    want.numbers[0] = 2;
    want.numbers[1] = 1;
    check("synchronise all with both cache bits", number, GUARD_ACCEPTED, &g, &want);

    forget(&g);
    number = write_bytes(&g, 12288, 4);
    want.numbers[0] = 3;
    want.numbers[1] = 3;
    check("write to a register in user mode", number, GUARD_ACCEPTED, &g, &want);

    forget(&g);
    number = enter(&g, 0);
    want.state[GUARD_STATE_MODE] = GUARD_MODE_KERNEL;
    want.state[GUARD_STATE_RUNNING] = 1;
    want.shadow[0] = 0x2401;
    want.shadow[1] = 0x2401;
    want.shadow[2] = 0x2401;
    want.shadow[3] = 0x800000000000301f;
    want.numbers[0] = 4;
    want.numbers[1] = 0;
    check("enter keeps both cache bits", number, GUARD_ACCEPTED, &g, &want);

    g.kernel[3] = want.kernel[3] = 0x300f;
    forget(&g);
    number = sync_page(&g, 3);
    want.shadow[3] = 0x800000000000300f;
    want.numbers[0] = 1;
    check("synchronise with write-through alone", number, GUARD_ACCEPTED, &g, &want);

    g.kernel[3] = want.kernel[3] = 0x3017;
    forget(&g);
    number = sync_page(&g, 3);
    want.shadow[3] = 0x8000000000003017;
    check("synchronise with cache disable alone", number, GUARD_ACCEPTED, &g, &want);

    forget(&g);
    number = leave(&g, 3);
    want.state[GUARD_STATE_MODE] = GUARD_MODE_USER;
    want.state[GUARD_STATE_RUNNING] = 3;
    want.shadow[0] = 0x8000000000002401;
    want.shadow[1] = 0x8000000000002401;
    want.shadow[2] = 0x8000000000002401;
    want.shadow[3] = 0x3017;
    want.numbers[0] = 4;
    check("leave keeps cache disable", number, GUARD_ACCEPTED, &g, &want);
}

/* Refusals by page, index, address and length: nothing is cut to fewer bits. */
static void refused_arguments(void)
{
    const struct guard before = finished;
    struct guard g = ready(&before);
    refused("fetch of page 65537 gives 9", fetch(&g, 65537), GUARD_DOES_NOT_EXIST, &g, &before);
    refused("fetch of page 2^32 + 3 gives 9", fetch(&g, 4294967299), GUARD_DOES_NOT_EXIST, &g, &before);
    refused("synchronise page 65537 gives 9", sync_page(&g, 65537), GUARD_DOES_NOT_EXIST, &g, &before);
    refused("leave to page 65539 gives 9", leave(&g, 65539), GUARD_DOES_NOT_EXIST, &g, &before);
    refused("enter by index 65536 gives 9", enter(&g, 65536), GUARD_DOES_NOT_EXIST, &g, &before);
    refused("enter by index 1 gives 9", enter(&g, 1), GUARD_DOES_NOT_EXIST, &g, &before);
    refused("leave in user mode gives 10", leave(&g, 3), GUARD_WRONG_MODE, &g, &before);
    refused("fetch of an absent page gives 11", fetch(&g, 2), GUARD_NOT_PRESENT, &g, &before);
    refused("fetch of an approved page in user mode gives 12", fetch(&g, 1), GUARD_NOT_PERMITTED, &g, &before);
    refused("write of 0 bytes gives 8", write_bytes(&g, 12288, 0), GUARD_LENGTH_OUT_OF_RANGE, &g, &before);
    refused("write of 17 bytes gives 8", write_bytes(&g, 12288, 17), GUARD_LENGTH_OUT_OF_RANGE, &g, &before);
    refused("write of 2^32 + 1 bytes gives 8", write_bytes(&g, 12288, 4294967297), GUARD_LENGTH_OUT_OF_RANGE, &g, &before);
    refused("write at 2^64 - 1 gives 9", write_bytes(&g, UINT64_MAX, 16), GUARD_DOES_NOT_EXIST, &g, &before);
    refused("write across into an absent page gives 11", write_bytes(&g, 8191, 2), GUARD_NOT_PRESENT, &g, &before);
    refused("device write of 2 bytes at 16383 gives 9", device_write(&g, 16383, 2), GUARD_DOES_NOT_EXIST, &g, &before);
    refused("device write at 2^64 - 1 gives 9", device_write(&g, UINT64_MAX, 1048576), GUARD_DOES_NOT_EXIST, &g, &before);
    refused("device write of 1048577 bytes gives 8", device_write(&g, 0, 1048577), GUARD_LENGTH_OUT_OF_RANGE, &g, &before);
}

/* Refusals that no guard reaches by its calls, on tables that were made up. */
static void refused_tables(void)
{
    struct guard before = finished;
    before.shadow[2] = 0x2007;
    struct guard g = ready(&before);
    refused("write to an excluded frame gives 13", write_bytes(&g, 8192, 1), GUARD_EXCLUDED, &g, &before);
    refused("write across into an excluded frame gives 13", write_bytes(&g, 12288 - 1, 2), GUARD_EXCLUDED, &g, &before);
    before.shadow[2] = 0x4007;
    g = ready(&before);
    refused("write to a frame at F gives 13", write_bytes(&g, 8192, 1), GUARD_EXCLUDED, &g, &before);
    before.shadow[1] = 0x2001;
    g = ready(&before);
    refused("enter to a page without the approved mark gives 12", enter(&g, 0), GUARD_NOT_PERMITTED, &g, &before);
}

/* A guard with one word of its state run replaced. */
static struct guard with_word(size_t at, uint64_t word)
{
    struct guard g = finished;
    g.state[at] = word;
    return g;
}

/* Every call but the start gives 7 on a damaged state run. */
static void damaged_state(const char *name, const struct guard *before)
{
    char full[80];
    struct guard g = ready(before);
    snprintf(full, sizeof full, "synchronise one: %s gives 7", name);
    refused(full, sync_page(&g, 3), GUARD_STATE_OR_TABLE, &g, before);
    snprintf(full, sizeof full, "synchronise all: %s gives 7", name);
    refused(full, sync_all(&g), GUARD_STATE_OR_TABLE, &g, before);
    snprintf(full, sizeof full, "synchronise one from a tree: %s gives 7", name);
    refused(full, sync_page_tree(&g, trees[0], 3), GUARD_STATE_OR_TABLE, &g, before);
    snprintf(full, sizeof full, "synchronise all from a tree: %s gives 7", name);
    refused(full, sync_all_tree(&g, trees[0]), GUARD_STATE_OR_TABLE, &g, before);
    snprintf(full, sizeof full, "fetch: %s gives 7", name);
    refused(full, fetch(&g, 3), GUARD_STATE_OR_TABLE, &g, before);
    snprintf(full, sizeof full, "write: %s gives 7", name);
    refused(full, write_bytes(&g, 12288, 1), GUARD_STATE_OR_TABLE, &g, before);
    snprintf(full, sizeof full, "enter: %s gives 7", name);
    refused(full, enter(&g, 0), GUARD_STATE_OR_TABLE, &g, before);
    snprintf(full, sizeof full, "leave: %s gives 7", name);
    refused(full, leave(&g, 3), GUARD_STATE_OR_TABLE, &g, before);
    snprintf(full, sizeof full, "device write: %s gives 7", name);
    refused(full, device_write(&g, 0, 1), GUARD_STATE_OR_TABLE, &g, before);
    snprintf(full, sizeof full, "ask: %s gives 7", name);
    refused(full, ask(&g, 2, 1), GUARD_STATE_OR_TABLE, &g, before);
    snprintf(full, sizeof full, "commit: %s gives 7", name);
    refused(full, commit(&g), GUARD_STATE_OR_TABLE, &g, before);
    snprintf(full, sizeof full, "drop: %s gives 7", name);
    refused(full, drop(&g), GUARD_STATE_OR_TABLE, &g, before);
}

static void refused_states(void)
{
    static const struct {
        const char *name;
        size_t at;
        uint64_t word;
    } damage[] = {
        {"mode word 2", GUARD_STATE_MODE, 2},
        {"mode word 2^32", GUARD_STATE_MODE, 4294967296},
        {"V 65540", GUARD_STATE_PAGES, 65540},
        {"F 65540", GUARD_STATE_FRAMES, 65540},
        {"e 65537", GUARD_STATE_ENTRIES, 65537},
        {"running page 65539", GUARD_STATE_RUNNING, 65539},
        {"running page 4", GUARD_STATE_RUNNING, 4},
        {"no device", GUARD_STATE_DEVICES, 0},
        {"65 devices", GUARD_STATE_DEVICES, 65},
        {"65538 devices", GUARD_STATE_DEVICES, 65538},
        {"pending word 2", GUARD_STATE_PENDING, 2},
        {"pending word 2^32 + 1", GUARD_STATE_PENDING, 4294967297},
    };
    for (size_t i = 0; i < sizeof damage / sizeof damage[0]; i++) {
        struct guard before = with_word(damage[i].at, damage[i].word);
        damaged_state(damage[i].name, &before);
    }

    /* an entry page is asked for only by the call that names it */
    struct guard before = with_word(GUARD_STATE_ENTRY, 65537);
    struct guard g = ready(&before);
    refused("enter to entry page 65537 gives 9", enter(&g, 0), GUARD_DOES_NOT_EXIST, &g, &before);
    struct guard want = before;
    want.numbers[0] = 3;
    want.numbers[1] = 3;
    check("fetch beside entry page 65537 is accepted", fetch(&g, 3), GUARD_ACCEPTED, &g, &want);
}

/* Runs of other lengths. */
static void refused_lengths(void)
{
    const struct guard before = finished;
    struct guard g = ready(&before);
    refused("state run of 24 words gives 7",
            guard_fetch(g.state, GUARD_STATE_WORDS - 1, g.shadow, PAGES, 3, g.numbers, GUARD_NUMBERS), GUARD_STATE_OR_TABLE, &g,
            &before);
    uint64_t longer[GUARD_STATE_WORDS + 1] = {4, 4, 1, 1, [GUARD_STATE_MODE] = 1, 3, DEVICES, 0};
    refused("state run of 26 words gives 7",
            guard_fetch(longer, GUARD_STATE_WORDS + 1, g.shadow, PAGES, 3, g.numbers, GUARD_NUMBERS), GUARD_STATE_OR_TABLE, &g,
            &before);
    refused("shadow table of 3 entries gives 7",
            guard_leave(g.state, GUARD_STATE_WORDS, g.shadow, PAGES - 1, 3, g.numbers, GUARD_NUMBERS), GUARD_STATE_OR_TABLE, &g,
            &before);
    refused("exclusion vector of 0 bytes gives 7",
            guard_device_write(g.state, GUARD_STATE_WORDS, g.exclusion, 0, g.devices, DEVICES, 0, 0, 1, g.numbers, GUARD_NUMBERS),
            GUARD_STATE_OR_TABLE, &g, &before);

    /* a numbers run of another length is not written */
    const struct guard untold = ready(&before);
    check("numbers run of 1 word gives 7",
          guard_fetch(g.state, GUARD_STATE_WORDS, g.shadow, PAGES, 3, g.numbers, GUARD_NUMBERS - 1), GUARD_STATE_OR_TABLE, &g,
          &untold);
    uint64_t three[GUARD_NUMBERS + 1] = {77, 88, 99};
    uint64_t number = guard_enter(g.state, GUARD_STATE_WORDS, g.shadow, PAGES, 0, three, GUARD_NUMBERS + 1);
    check("numbers run of 3 words gives 7", number, GUARD_STATE_OR_TABLE, &g, &untold);
    check("numbers run of 3 words is not written", three[0] + three[1] + three[2], 77 + 88 + 99, &g, &untold);
}

/* Refused starts: the state run stays as it was too. */
static void refused_starts(void)
{
    const struct guard before = unset;
    struct guard g = ready(&before);
    refused("record of 7 bytes gives 1", start(&g, policy, 7), GUARD_RECORD_TOO_SHORT, &g, &before);
    refused("record of 11 bytes gives 4", start(&g, policy, 11), GUARD_RECORD_LENGTH, &g, &before);
    const uint8_t no_pages[12] = {0, 0, 4, 0, 1, 0, 1, 0, 1, 0, 2, 0};
    refused("V 0 gives 2", start(&g, no_pages, sizeof no_pages), GUARD_SIZE_OUT_OF_RANGE, &g, &before);
    const uint8_t no_entries[12] = {4, 0, 4, 0, 1, 0, 0, 0, 1, 0, 2, 0};
    refused("e 0 gives 3", start(&g, no_entries, sizeof no_entries), GUARD_COUNT_OUT_OF_RANGE, &g, &before);
    const uint8_t high_page[12] = {4, 0, 4, 0, 1, 0, 1, 0, 4, 0, 2, 0};
    refused("page 4 of 4 gives 5", start(&g, high_page, sizeof high_page), GUARD_LISTED_PAGE, &g, &before);
    const uint8_t high_frame[12] = {4, 0, 4, 0, 1, 0, 1, 0, 1, 0, 4, 0};
    refused("frame 4 of 4 gives 6", start(&g, high_frame, sizeof high_frame), GUARD_LISTED_FRAME, &g, &before);
    refused("start on a state run of 24 words gives 7",
            guard_start(policy, sizeof policy, DEVICES, g.state, GUARD_STATE_WORDS - 1, g.shadow, PAGES, g.map, PAGES, g.exclusion,
                        VECTOR, g.numbers, GUARD_NUMBERS),
            GUARD_STATE_OR_TABLE, &g, &before);
    refused("start on a map of 3 numbers gives 7",
            guard_start(policy, sizeof policy, DEVICES, g.state, GUARD_STATE_WORDS, g.shadow, PAGES, g.map, PAGES - 1, g.exclusion,
                        VECTOR, g.numbers, GUARD_NUMBERS),
            GUARD_STATE_OR_TABLE, &g, &before);
    refused("start asks 1 before 7",
            guard_start(policy, 7, DEVICES, g.state, GUARD_STATE_WORDS - 1, g.shadow, PAGES, g.map, PAGES, g.exclusion, VECTOR,
                        g.numbers, GUARD_NUMBERS),
            GUARD_RECORD_TOO_SHORT, &g, &before);
    refused("start asks 6 before 7",
            guard_start(high_frame, sizeof high_frame, DEVICES, g.state, 0, g.shadow, PAGES, g.map, PAGES, g.exclusion, VECTOR,
                        g.numbers, GUARD_NUMBERS),
            GUARD_LISTED_FRAME, &g, &before);
    check("start on a numbers run of 1 word gives 7",
          guard_start(policy, sizeof policy, DEVICES, g.state, GUARD_STATE_WORDS, g.shadow, PAGES, g.map, PAGES, g.exclusion, VECTOR,
                      g.numbers, GUARD_NUMBERS - 1),
          GUARD_STATE_OR_TABLE, &g, &before);
}

/* What a record is written from, and the lengths of the runs. */
struct writing {
    uint64_t sizes[4]; /* V, F, n and e */
    uint16_t pages[3];
    size_t pages_length;
    uint16_t frames[3];
    size_t frames_length;
    size_t buffer_length;
    size_t numbers_length;
};

/* The worked example's, with the record's own length. */
static const struct writing worked = {{4, 4, 1, 1}, {1}, 1, {2}, 1, 12, GUARD_NUMBERS};

static uint64_t write_record(const struct writing *w, uint8_t *buffer, uint64_t *numbers)
{
    return guard_write_record(w->sizes[0], w->sizes[1], w->sizes[2], w->sizes[3], w->pages, w->pages_length, w->frames,
                              w->frames_length, buffer, w->buffer_length, numbers, w->numbers_length);
}

/* A call is right where as many bytes as it is to write stand at the buffer's front, and all others as they were. Its numbers are that
 * length and 0; a numbers run of another length stays as it was too. */
static void written(const char *name, const struct writing *w, uint64_t want_number, const uint8_t *want, size_t length)
{
    uint8_t buffer[ROOM];
    uint8_t want_buffer[ROOM];
    memset(buffer, 0xee, sizeof buffer);
    memset(want_buffer, 0xee, sizeof want_buffer);
    memcpy(want_buffer, want, length);
    uint64_t numbers[GUARD_NUMBERS + 1] = {77, 88, 99};
    uint64_t want_numbers[GUARD_NUMBERS + 1] = {77, 88, 99};
    if (w->numbers_length == GUARD_NUMBERS) {
        want_numbers[0] = length;
        want_numbers[1] = 0;
    }
    uint64_t number = write_record(w, buffer, numbers);
    tell(name, number == want_number && memcmp(buffer, want_buffer, sizeof buffer) == 0 &&
                   memcmp(numbers, want_numbers, sizeof numbers) == 0);
}

/* K2: records that are written, and started with. */
static void written_records(void)
{
    written("write record: the worked example", &worked, GUARD_ACCEPTED, policy, sizeof policy);
    struct writing w = worked;
    w.buffer_length = ROOM;
    written("write record: bytes past the record stay", &w, GUARD_ACCEPTED, policy, sizeof policy);
    const struct writing three = {{0x302, 0x504, 3, 2}, {0, 7, 0x201}, 3, {0x403, 8, 8}, 3, 20, GUARD_NUMBERS};
    const uint8_t of_three[20] = {0x02, 3, 0x04, 5, 3, 0, 2, 0, 0, 0, 7, 0, 0x01, 2, 0x03, 4, 8, 0, 8, 0};
    written("write record: three pages", &three, GUARD_ACCEPTED, of_three, sizeof of_three);

    uint8_t record[12];
    struct guard g = unset;
    write_record(&worked, record, g.numbers);
    check("start by the written record", start(&g, record, sizeof record), GUARD_ACCEPTED, &g, &started);
}

static void refused_records(void)
{
    static const struct {
        const char *name;
        struct writing writing;
        uint64_t number;
    } refusals[] = {
        {"V 0 gives 2", {{0, 4, 1, 1}, {1}, 1, {2}, 1, 12, 2}, GUARD_SIZE_OUT_OF_RANGE},
        {"V 65540 gives 2", {{65540, 4, 1, 1}, {1}, 1, {2}, 1, 12, 2}, GUARD_SIZE_OUT_OF_RANGE},
        {"F 4097 gives 2", {{4, 4097, 1, 1}, {1}, 1, {2}, 1, 12, 2}, GUARD_SIZE_OUT_OF_RANGE},
        {"F 2^32 + 4 gives 2", {{4, 4294967300, 1, 1}, {1}, 1, {2}, 1, 12, 2}, GUARD_SIZE_OUT_OF_RANGE},
        {"n 0 gives 3", {{4, 4, 0, 1}, {1}, 0, {2}, 0, 12, 2}, GUARD_COUNT_OUT_OF_RANGE},
        {"n 65537 gives 3", {{4, 4, 65537, 1}, {1}, 1, {2}, 1, 12, 2}, GUARD_COUNT_OUT_OF_RANGE},
        {"e 0 gives 3", {{4, 4, 1, 0}, {1}, 1, {2}, 1, 12, 2}, GUARD_COUNT_OUT_OF_RANGE},
        {"e 65537 gives 3", {{4, 4, 1, 65537}, {1}, 1, {2}, 1, 12, 2}, GUARD_COUNT_OUT_OF_RANGE},
        {"no page for n 1 gives 4", {{4, 4, 1, 1}, {1}, 0, {2}, 1, 12, 2}, GUARD_RECORD_LENGTH},
        {"2 pages for n 1 give 4", {{4, 4, 1, 1}, {1, 2}, 2, {2}, 1, 12, 2}, GUARD_RECORD_LENGTH},
        {"no frame for n 1 gives 4", {{4, 4, 1, 1}, {1}, 1, {2}, 0, 12, 2}, GUARD_RECORD_LENGTH},
        {"2 frames for n 1 give 4", {{4, 4, 1, 1}, {1}, 1, {2, 2}, 2, 12, 2}, GUARD_RECORD_LENGTH},
        {"page 4 of 4 gives 5", {{4, 4, 1, 1}, {4}, 1, {2}, 1, 12, 2}, GUARD_LISTED_PAGE},
        {"page 1 twice gives 5", {{4, 4, 2, 1}, {1, 1}, 2, {2, 2}, 2, 16, 2}, GUARD_LISTED_PAGE},
        {"frame 4 of 4 gives 6", {{4, 4, 1, 1}, {1}, 1, {4}, 1, 12, 2}, GUARD_LISTED_FRAME},
        {"numbers run of 1 word gives 7", {{4, 4, 1, 1}, {1}, 1, {2}, 1, 12, 1}, GUARD_STATE_OR_TABLE},
        {"numbers run of 3 words gives 7", {{4, 4, 1, 1}, {1}, 1, {2}, 1, 12, 3}, GUARD_STATE_OR_TABLE},
        {"buffer of 11 bytes gives 16", {{4, 4, 1, 1}, {1}, 1, {2}, 1, 11, 2}, GUARD_BUFFER_TOO_SHORT},
        {"buffer of 0 bytes gives 16", {{4, 4, 1, 1}, {1}, 1, {2}, 1, 0, 2}, GUARD_BUFFER_TOO_SHORT},
        {"6 is asked before 7", {{4, 4, 1, 1}, {1}, 1, {4}, 1, 12, 1}, GUARD_LISTED_FRAME},
        {"7 is asked before 16", {{4, 4, 1, 1}, {1}, 1, {2}, 1, 11, 1}, GUARD_STATE_OR_TABLE},
    };
    for (size_t i = 0; i < sizeof refusals / sizeof refusals[0]; i++) {
        char full[80];
        snprintf(full, sizeof full, "write record: %s", refusals[i].name);
        written(full, &refusals[i].writing, refusals[i].number, policy, 0);
    }
}

/* K4: walks, by literals. */
static void walks(void)
{
    static const struct {
        const char *name;
        uint64_t root;
        uint64_t depth;
        uint64_t page;
        uint64_t entry;
        uint64_t reads;
    } cases[] = {
        {"page 3 at depth 1", 0, 1, 3, 0x301f, 1},
        {"page 3 at depth 2", 1, 2, 3, 0x301f, 2},
        {"page 3 at depth 3", 2, 3, 3, 0x301f, 3},
        {"bit 7 does not count at level 1", 1, 1, 1, 0x200013, 1},
        {"a marker at level 1", 2, 3, 4, 0, 3},
        {"the highest frame", 2, 3, 5, 0x000ffffffffff001, 3},
        {"page 6 is absent", 2, 3, 6, 0, 3},
        {"a large page at depth 2", 1, 2, 512 + 5, 0x205013, 1},
        {"the last page of a large page at depth 3", 2, 3, 1023, 0x3ff013, 2},
        {"a large page with bit 12 is absent", 2, 3, 1024, 0, 2},
        {"a table outside the run", 2, 3, 3 * 512, 0, 2},
        {"rights of level 2", 2, 3, 4 * 512 + 3, 0x8000000000003019, 3},
        {"a marker at level 3", 2, 3, 262144, 0, 1},
        {"page 512 needs more bits than depth 1 has", 0, 1, 512, 0, 0},
        {"page 2^18 needs more bits than depth 2 has", 1, 2, 262144, 0, 0},
        {"page 2^27 needs more bits than depth 3 has", 2, 3, 134217728, 0, 0},
        {"page 2^32 + 3 needs more bits than depth 3 has", 2, 3, 4294967299, 0, 0},
        {"page 2^63 + 3 needs more bits than depth 1 has", 0, 1, 0x8000000000000003, 0, 0},
    };
    for (size_t i = 0; i < sizeof cases / sizeof cases[0]; i++) {
        char full[80];
        uint64_t numbers[GUARD_NUMBERS] = {77, 88};
        uint64_t number = guard_walk(tables, TABLES * TABLE, cases[i].root, cases[i].depth, cases[i].page, numbers, GUARD_NUMBERS);
        snprintf(full, sizeof full, "walk: %s", cases[i].name);
        tell(full, number == GUARD_ACCEPTED && numbers[0] == cases[i].entry && numbers[1] == cases[i].reads);
    }
}

/* K4: both synchronisations, from trees of each depth with the same pages 0 to 3. */
static void synchronised_from_trees(void)
{
    for (size_t i = 0; i < sizeof trees / sizeof trees[0]; i++) {
        char full[80];
        struct guard g = ready(&started);
        struct guard want = started;
        uint64_t number = sync_page_tree(&g, trees[i], 0);
        want.shadow[0] = 0x2401;
        want.map[0] = 2;
        want.numbers[0] = 1;
        want.numbers[1] = 1;
        snprintf(full, sizeof full, "synchronise page 0 from a tree of depth %u", (unsigned)trees[i].depth);
        check(full, number, GUARD_ACCEPTED, &g, &want);

        forget(&g);
        number = sync_page_tree(&g, trees[i], 3);
        want.shadow[3] = 0x800000000000301f;
        want.numbers[1] = 0;
        snprintf(full, sizeof full, "synchronise page 3 from a tree of depth %u", (unsigned)trees[i].depth);
        check(full, number, GUARD_ACCEPTED, &g, &want);

        g = ready(&started);
        number = sync_all_tree(&g, trees[i]);
        want.numbers[0] = 2;
        want.numbers[1] = 1;
        snprintf(full, sizeof full, "synchronise all from a tree of depth %u", (unsigned)trees[i].depth);
        check(full, number, GUARD_ACCEPTED, &g, &want);
    }

    /* table 1 as the only level: its numbers are frames now */
    struct guard g = ready(&started);
    struct guard want = started;
    uint64_t number = sync_all_tree(&g, (struct tree){TABLES * TABLE, 1, 1});
    want.shadow[0] = 0x8000000000000007;
    want.shadow[3] = 0x8000000000003007;
    want.numbers[0] = 2;
    want.numbers[1] = 0;
    check("synchronise all from a tree of depth 1 with another root", number, GUARD_ACCEPTED, &g, &want);
}

/* K4: what gives 17, to each of the three calls. */
static void refused_trees(void)
{
    static const struct {
        const char *name;
        struct tree tree;
    } refusals[] = {
        {"empty run", {0, 0, 1}},
        {"run of 511 words", {511, 0, 1}},
        {"run of 513 words", {513, 0, 1}},
        {"run of 768 words", {768, 0, 1}},
        {"run of 3 tables less a word", {TABLES * TABLE - 1, 0, 1}},
        {"depth 0", {TABLES * TABLE, 0, 0}},
        {"depth 4", {TABLES * TABLE, 0, 4}},
        {"depth 2^32 + 1", {TABLES * TABLE, 0, 4294967297}},
        {"depth 2^64 - 1", {TABLES * TABLE, 0, UINT64_MAX}},
        {"root 3 of 3", {TABLES * TABLE, 3, 1}},
        {"root 2 of 2", {2 * TABLE, 2, 3}},
        {"root 2^32", {TABLES * TABLE, 4294967296, 1}},
        {"root 2^55", {TABLES * TABLE, 36028797018963968, 1}},
        {"root 2^64 - 1", {TABLES * TABLE, UINT64_MAX, 3}},
    };
    const struct guard before = finished;
    struct guard g = ready(&before);
    for (size_t i = 0; i < sizeof refusals / sizeof refusals[0]; i++) {
        char full[80];
        struct tree t = refusals[i].tree;
        snprintf(full, sizeof full, "walk: %s gives 17", refusals[i].name);
        refused(full, guard_walk(tables, t.length, t.root, t.depth, 3, g.numbers, GUARD_NUMBERS), GUARD_TREE, &g, &before);
        snprintf(full, sizeof full, "synchronise one from a tree: %s gives 17", refusals[i].name);
        refused(full, sync_page_tree(&g, t, 3), GUARD_TREE, &g, &before);
        snprintf(full, sizeof full, "synchronise all from a tree: %s gives 17", refusals[i].name);
        refused(full, sync_all_tree(&g, t), GUARD_TREE, &g, &before);
    }
    refused("synchronise page 4 from a tree gives 9", sync_page_tree(&g, trees[2], 4), GUARD_DOES_NOT_EXIST, &g, &before);
    refused("synchronise page 2^32 + 3 from a tree gives 9", sync_page_tree(&g, trees[0], 4294967299), GUARD_DOES_NOT_EXIST, &g,
            &before);
    refused("17 is asked before 9", sync_page_tree(&g, refusals[0].tree, 4), GUARD_TREE, &g, &before);
}

/* K4: runs of other lengths give 7, before 17 and 9. The tree of each call is refused too, and so is its page. */
static void refused_tree_lengths(void)
{
    enum { STATE, SHADOW, MAP, EXCLUSION, NUMBERS, LENGTHS };
    static const char *const names[LENGTHS] = {"state run of 24 words", "shadow table of 3 entries", "map of 3 numbers",
                                               "exclusion vector of 0 bytes", "numbers run of 1 word"};
    const struct guard before = finished;
    struct guard g = ready(&before);
    const struct guard untold = g;
    for (int i = 0; i < LENGTHS; i++) {
        char full[80];
        size_t n[LENGTHS] = {GUARD_STATE_WORDS, PAGES, PAGES, VECTOR, GUARD_NUMBERS};
        n[i]--;
        const struct guard *want = i == NUMBERS ? &untold : &before;
        uint64_t number = guard_sync_page_tree(g.state, n[STATE], tables, 511, 3, 4, g.shadow, n[SHADOW], g.map, n[MAP], g.exclusion,
                                               n[EXCLUSION], 4, g.numbers, n[NUMBERS]);
        snprintf(full, sizeof full, "synchronise one from a tree: %s gives 7", names[i]);
        check(full, number, GUARD_STATE_OR_TABLE, &g, want);
        g = ready(&before);
        number = guard_sync_all_tree(g.state, n[STATE], tables, 511, 3, 4, g.shadow, n[SHADOW], g.map, n[MAP], g.exclusion,
                                     n[EXCLUSION], g.numbers, n[NUMBERS]);
        snprintf(full, sizeof full, "synchronise all from a tree: %s gives 7", names[i]);
        check(full, number, GUARD_STATE_OR_TABLE, &g, want);
        g = ready(&before);
    }
    uint64_t three[GUARD_NUMBERS + 1] = {77, 88, 99};
    for (size_t length = 0; length <= 3; length++)
        if (length != GUARD_NUMBERS) {
            char full[80];
            snprintf(full, sizeof full, "walk: numbers run of %u words gives 7", (unsigned)length);
            uint64_t number = guard_walk(tables, 511, 3, 4, 3, three, length);
            tell(full, number == GUARD_STATE_OR_TABLE && three[0] == 77 && three[1] == 88 && three[2] == 99);
        }
}

int main(void)
{
    worked_example();
    other_calls();
    device_registers();
    refused_arguments();
    refused_tables();
    refused_states();
    refused_lengths();
    refused_starts();
    written_records();
    refused_records();
    walks();
    synchronised_from_trees();
    refused_trees();
    refused_tree_lengths();
    printf("%d passed, %d failed\n", passed, failed);
    return failed == 0 ? 0 : 1;
}
