/*
 * K6 through the C boundary: a driver that is asked for, synchronised, committed and run, and one that is dropped; every refusal of
 * the three calls; pending entries; and the three words of the pair in the state run. After each call the returned number, both
 * numbers and every run are compared.
 */
#include <stdio.h>
#include <string.h>

#include "guard.h"

_Static_assert(GUARD_STATE_WORDS == 25 && GUARD_STATE_PENDING == 22, "the words of the pair come last");
_Static_assert(GUARD_STATE_PENDING_PAGE == 23 && GUARD_STATE_PENDING_FRAME == 24, "its page, then its frame");

enum { PAGES = 7, FRAMES = 12, VECTOR = 2, DEVICES = 1, TABLE = GUARD_TABLE_ENTRIES, WORDS = GUARD_STATE_WORDS };

/* The driver's page and frame, and a page of a user program. */
enum { DRIVER = 4, FRAME = 6, PROGRAM = 5 };

static const uint64_t NO_EXECUTE = UINT64_C(1) << 63;
static const uint16_t NONE = GUARD_MAP_NONE;

/* Every run that the caller holds. */
struct guard {
    uint64_t state[WORDS];
    uint64_t numbers[GUARD_NUMBERS];
    uint64_t kernel[PAGES];
    uint64_t shadow[PAGES];
    uint16_t map[PAGES];
    uint8_t exclusion[VECTOR];
};

static int passed;
static int failed;

static void tell(const char *name, int right)
{
    printf("%s %s\n", right ? "ok" : "WRONG", name);
    if (right)
        passed++;
    else
        failed++;
}

static int same(const struct guard *g, const struct guard *want)
{
    return memcmp(g->state, want->state, sizeof g->state) == 0 && memcmp(g->numbers, want->numbers, sizeof g->numbers) == 0 &&
           memcmp(g->kernel, want->kernel, sizeof g->kernel) == 0 && memcmp(g->shadow, want->shadow, sizeof g->shadow) == 0 &&
           memcmp(g->map, want->map, sizeof g->map) == 0 && memcmp(g->exclusion, want->exclusion, sizeof g->exclusion) == 0;
}

/* Numbers that no call leaves, so that a call that does not write them is seen. */
static void forget(struct guard *g)
{
    g->numbers[0] = 77;
    g->numbers[1] = 88;
}

static struct guard ready(const struct guard *before)
{
    struct guard g = *before;
    forget(&g);
    return g;
}

/* A call is right where it returned this number and left these two numbers, and every other run as it should. */
static void check(const char *name, uint64_t number, uint64_t want_number, uint64_t first, uint64_t second, const struct guard *g,
                  struct guard want)
{
    want.numbers[0] = first;
    want.numbers[1] = second;
    tell(name, number == want_number && same(g, &want));
}

/* A refused call leaves 0 and 0, and everything else as it was before. The guard is then made ready for the next call. */
static void refused(const char *name, uint64_t number, uint64_t want_number, struct guard *g, const struct guard *before)
{
    check(name, number, want_number, 0, 0, g, *before);
    *g = ready(before);
}

/* Entry page 1 with frame 2, and page 2 with frame 9. */
static const uint8_t policy[16] = {PAGES, 0, FRAMES, 0, 2, 0, 1, 0, 1, 0, 2, 0, 2, 0, 9, 0};

/* Just started. The kernel maps its own pages, and a user program to frame 3. */
static const struct guard started = {
    .state = {PAGES, FRAMES, 1, 1, [GUARD_STATE_MODE] = GUARD_MODE_KERNEL, 1, DEVICES, 0, 0, 0},
    .numbers = {2, 1},
    .kernel = {0, 0x2001, 0x9001, 0, 0, 0x3007, 0},
    .shadow = {0, 0x2401, 0x9401, 0, 0, 0, 0},
    .map = {65535, 2, 9, 65535, 65535, 65535, 65535},
    .exclusion = {0x04, 0x02},
};

/* All frames. */
static const struct guard_device devices[DEVICES] = {{.first = 0, .last = FRAMES - 1}};

static uint64_t start(struct guard *g)
{
    return guard_start(policy, sizeof policy, DEVICES, g->state, WORDS, g->shadow, PAGES, g->map, PAGES, g->exclusion, VECTOR,
                       g->numbers, GUARD_NUMBERS);
}

static uint64_t sync_page(struct guard *g, uint64_t page)
{
    return guard_sync_page(g->state, WORDS, g->kernel, PAGES, g->shadow, PAGES, g->map, PAGES, g->exclusion, VECTOR, page,
                           g->numbers, GUARD_NUMBERS);
}

static uint64_t sync_all(struct guard *g)
{
    return guard_sync_all(g->state, WORDS, g->kernel, PAGES, g->shadow, PAGES, g->map, PAGES, g->exclusion, VECTOR, g->numbers,
                          GUARD_NUMBERS);
}

/* From a tree of one table with the kernel's entries. */
static uint64_t sync_from_tree(struct guard *g, int all, uint64_t page)
{
    uint64_t tables[TABLE] = {0};
    memcpy(tables, g->kernel, sizeof g->kernel);
    return all ? guard_sync_all_tree(g->state, WORDS, tables, TABLE, 0, 1, g->shadow, PAGES, g->map, PAGES, g->exclusion, VECTOR,
                                     g->numbers, GUARD_NUMBERS)
               : guard_sync_page_tree(g->state, WORDS, tables, TABLE, 0, 1, g->shadow, PAGES, g->map, PAGES, g->exclusion, VECTOR,
                                      page, g->numbers, GUARD_NUMBERS);
}

static uint64_t fetch(struct guard *g, uint64_t page)
{
    return guard_fetch(g->state, WORDS, g->shadow, PAGES, page, g->numbers, GUARD_NUMBERS);
}

static uint64_t write_bytes(struct guard *g, uint64_t address, uint64_t length)
{
    return guard_write(g->state, WORDS, g->shadow, PAGES, g->exclusion, VECTOR, address, length, g->numbers, GUARD_NUMBERS);
}

static uint64_t enter(struct guard *g, uint64_t index)
{
    return guard_enter(g->state, WORDS, g->shadow, PAGES, index, g->numbers, GUARD_NUMBERS);
}

static uint64_t leave(struct guard *g, uint64_t page)
{
    return guard_leave(g->state, WORDS, g->shadow, PAGES, page, g->numbers, GUARD_NUMBERS);
}

static uint64_t device_write(struct guard *g, uint64_t address, uint64_t length)
{
    return guard_device_write(g->state, WORDS, g->exclusion, VECTOR, devices, DEVICES, 0, address, length, g->numbers,
                              GUARD_NUMBERS);
}

static uint64_t ask(struct guard *g, uint64_t page, uint64_t frame)
{
    return guard_ask(g->state, WORDS, g->shadow, PAGES, g->map, PAGES, g->exclusion, VECTOR, page, frame, g->numbers, GUARD_NUMBERS);
}

static uint64_t commit(struct guard *g)
{
    return guard_commit(g->state, WORDS, g->shadow, PAGES, g->map, PAGES, g->numbers, GUARD_NUMBERS);
}

static uint64_t drop(struct guard *g)
{
    return guard_drop(g->state, WORDS, g->exclusion, VECTOR, g->numbers, GUARD_NUMBERS);
}

/* The words of a pair, and its frame's exclusion bit. */
static void put_pair(struct guard *g, uint64_t page, uint64_t frame)
{
    g->state[GUARD_STATE_PENDING] = 1;
    g->state[GUARD_STATE_PENDING_PAGE] = page;
    g->state[GUARD_STATE_PENDING_FRAME] = frame;
    g->exclusion[frame / 8] |= 1 << frame % 8;
}

static void clear_pair(struct guard *g)
{
    memset(g->state + GUARD_STATE_PENDING, 0, 3 * sizeof g->state[0]);
}

/* The driver is pending, right after the start. */
static struct guard asked(void)
{
    struct guard g = started;
    put_pair(&g, DRIVER, FRAME);
    return g;
}

/* The same guard in user mode, on the program's page. */
static struct guard in_user_mode(struct guard g)
{
    sync_page(&g, PROGRAM);
    leave(&g, PROGRAM);
    return g;
}

/* A driver from its ask to its first fetch in kernel mode. */
static void arrives(void)
{
    struct guard g = ready(&started);
    struct guard want = started;
    memset(g.state, 9, sizeof g.state);
    check("start: nothing is pending", start(&g), GUARD_ACCEPTED, 2, 1, &g, want);

    /* the kernel writes the driver through page 4, and takes its writable mapping away */
    want.kernel[DRIVER] = 0x6003;
    want.shadow[DRIVER] = NO_EXECUTE | 0x6003;
    g.kernel[DRIVER] = 0x6003;
    forget(&g);
    check("before the ask: page 4 is synchronised", sync_page(&g, DRIVER), GUARD_ACCEPTED, 1, 0, &g, want);
    forget(&g);
    check("before the ask: the kernel writes there", write_bytes(&g, 0x4000, 16), GUARD_ACCEPTED, FRAME, FRAME, &g, want);
    forget(&g);
    check("before the ask: a device writes there", device_write(&g, 0x6000, 4096), GUARD_ACCEPTED, FRAME, FRAME, &g, want);
    forget(&g);
    check("an ask of a frame that is mapped writable gives 21", ask(&g, DRIVER, FRAME), GUARD_MAPPED_WRITABLE, 0, 0, &g, want);
    want.kernel[DRIVER] = g.kernel[DRIVER] = 0x6001;
    want.shadow[DRIVER] = NO_EXECUTE | 0x6001;
    forget(&g);
    check("the writable mapping is gone", sync_page(&g, DRIVER), GUARD_ACCEPTED, 1, 0, &g, want);

    put_pair(&want, DRIVER, FRAME);
    forget(&g);
    check("ask", ask(&g, DRIVER, FRAME), GUARD_ACCEPTED, 0, 0, &g, want);

    /* an intruder maps the frame once more, writable */
    want.kernel[6] = g.kernel[6] = 0x6007;
    want.shadow[1] = 0x2401;
    want.shadow[DRIVER] = NO_EXECUTE | 0x6201;
    want.shadow[PROGRAM] = NO_EXECUTE | 0x3007;
    want.shadow[6] = NO_EXECUTE | 0x6205;
    forget(&g);
    check("synchronise all while pending", sync_all(&g), GUARD_ACCEPTED, 3, 0, &g, want);
    const struct guard pending = want;
    g = ready(&pending);
    refused("a kernel fetch of the pending page gives 12", fetch(&g, DRIVER), GUARD_NOT_PERMITTED, &g, &pending);
    refused("a kernel fetch of an alias gives 12", fetch(&g, 6), GUARD_NOT_PERMITTED, &g, &pending);
    refused("a leave to an alias gives 12", leave(&g, 6), GUARD_NOT_PERMITTED, &g, &pending);
    refused("a write to the pending page gives 12", write_bytes(&g, 0x4000, 1), GUARD_NOT_PERMITTED, &g, &pending);
    refused("a write to an alias gives 12", write_bytes(&g, 0x6000, 16), GUARD_NOT_PERMITTED, &g, &pending);
    refused("a transfer to the pending frame gives 13", device_write(&g, 0x6000, 1), GUARD_EXCLUDED, &g, &pending);
    refused("a transfer across into it gives 13", device_write(&g, 0x5fff, 2), GUARD_EXCLUDED, &g, &pending);
    check("a transfer beside it", device_write(&g, 0x7000, 4096), GUARD_ACCEPTED, 7, 7, &g, pending);

    clear_pair(&want);
    want.shadow[DRIVER] = want.shadow[6] = 0x6401;
    want.map[DRIVER] = want.map[6] = FRAME;
    forget(&g);
    check("commit approves the page and its alias", commit(&g), GUARD_ACCEPTED, 2, 2, &g, want);
    const struct guard committed = want;
    g = ready(&committed);
    refused("a write to a committed page gives 12", write_bytes(&g, 0x4000, 1), GUARD_NOT_PERMITTED, &g, &committed);
    refused("a transfer to a committed frame gives 13", device_write(&g, 0x6000, 1), GUARD_EXCLUDED, &g, &committed);
    refused("a second commit gives 22", commit(&g), GUARD_NOTHING_PENDING, &g, &committed);
    refused("a drop after the commit gives 22", drop(&g), GUARD_NOTHING_PENDING, &g, &committed);
    refused("an ask for the committed page gives 20", ask(&g, DRIVER, 7), GUARD_APPROVAL_CONFLICT, &g, &committed);
    refused("an ask for the committed frame gives 20", ask(&g, 0, FRAME), GUARD_APPROVAL_CONFLICT, &g, &committed);
    want.state[GUARD_STATE_RUNNING] = DRIVER;
    check("a kernel fetch of the committed page", fetch(&g, DRIVER), GUARD_ACCEPTED, FRAME, FRAME, &g, want);
}

/* A driver that is dropped: the exclusion vector is as before the ask, and a pending entry stays until it is synchronised. */
static void dropped(void)
{
    struct guard g = ready(&started);
    struct guard want = asked();
    check("ask for a driver that is dropped", ask(&g, DRIVER, FRAME), GUARD_ACCEPTED, 0, 0, &g, want);
    forget(&g);
    check("drop restores the exclusion vector", drop(&g), GUARD_ACCEPTED, 0, 0, &g, started);
    forget(&g);
    check("ask once more", ask(&g, DRIVER, FRAME), GUARD_ACCEPTED, 0, 0, &g, want);

    want.kernel[DRIVER] = g.kernel[DRIVER] = 0x6003;
    want.shadow[DRIVER] = NO_EXECUTE | 0x6201;
    forget(&g);
    check("synchronise the driver's page", sync_page(&g, DRIVER), GUARD_ACCEPTED, 1, 0, &g, want);
    clear_pair(&want);
    want.exclusion[0] = 0x04;
    forget(&g);
    check("drop leaves a pending entry", drop(&g), GUARD_ACCEPTED, 0, 0, &g, want);
    want.shadow[DRIVER] = NO_EXECUTE | 0x6003;
    forget(&g);
    check("which a synchronisation makes ordinary", sync_page(&g, DRIVER), GUARD_ACCEPTED, 1, 0, &g, want);
    forget(&g);
    check("a transfer to the dropped frame", device_write(&g, 0x6000, 1), GUARD_ACCEPTED, FRAME, FRAME, &g, want);
}

/* Every page without an approval and every frame that is not excluded can be asked for. Shadow and map lie in memory that cannot be
 * written. */
static void accepted_asks(void)
{
    static const uint64_t shadow[PAGES] = {0, 0x2401, 0x9401, 0, 0, 0, 0x6001};
    static const uint16_t map[PAGES] = {65535, 2, 9, 65535, 65535, 65535, 65535};
    int right = 1;
    for (uint64_t page = 0; page < PAGES; page++)
        for (uint64_t frame = 0; frame < FRAMES; frame++) {
            int conflicts = page == 1 || page == 2 || frame == 2 || frame == 9;
            struct guard g = ready(&started);
            struct guard want = started;
            uint64_t number = guard_ask(g.state, WORDS, shadow, PAGES, map, PAGES, g.exclusion, VECTOR, page, frame, g.numbers,
                                        GUARD_NUMBERS);
            if (!conflicts)
                put_pair(&want, page, frame);
            want.numbers[0] = want.numbers[1] = 0;
            right = right && number == (conflicts ? GUARD_APPROVAL_CONFLICT : GUARD_ACCEPTED) && same(&g, &want);
        }
    tell("ask for every page and every frame", right);
}

static void refused_asks(void)
{
    static const struct {
        const char *name;
        int is_pending;
        uint64_t entry; /* of page 6 */
        uint64_t page;
        uint64_t frame;
        uint64_t number;
    } asks[] = {
        {"one is pending", 1, 0, 0, 7, GUARD_APPROVAL_CONFLICT},
        {"the pending pair", 1, 0, DRIVER, FRAME, GUARD_APPROVAL_CONFLICT},
        {"an approved page", 0, 0, 1, 7, GUARD_APPROVAL_CONFLICT},
        {"an excluded frame", 0, 0, 0, 9, GUARD_APPROVAL_CONFLICT},
        {"a writable entry", 0, 0x7003, 0, 7, GUARD_MAPPED_WRITABLE},
        {"a writable entry with every other bit", 0, 0xfff0000000007fff, 0, 7, GUARD_MAPPED_WRITABLE},
        {"the asked page's own writable entry", 0, 0x7003, 6, 7, GUARD_MAPPED_WRITABLE},
        {"page 7 of 7", 0, 0, 7, 7, GUARD_DOES_NOT_EXIST},
        {"frame 12 of 12", 0, 0, 0, 12, GUARD_DOES_NOT_EXIST},
        {"page 65536", 0, 0, 65536, 7, GUARD_DOES_NOT_EXIST},
        {"frame 65543", 0, 0, 0, 65543, GUARD_DOES_NOT_EXIST},
        {"page 2^32", 0, 0, 4294967296, 7, GUARD_DOES_NOT_EXIST},
        {"frame 2^32 + 7", 0, 0, 0, 4294967303, GUARD_DOES_NOT_EXIST},
        {"page 2^64 - 1", 0, 0, UINT64_MAX, 7, GUARD_DOES_NOT_EXIST},
        {"frame 2^64 - 1", 0, 0, 0, UINT64_MAX, GUARD_DOES_NOT_EXIST},
        {"9 is asked before 20, of a page", 1, 0, 7, 9, GUARD_DOES_NOT_EXIST},
        {"9 is asked before 20, of a frame", 1, 0, 1, 12, GUARD_DOES_NOT_EXIST},
        {"9 is asked before 21", 0, 0x7003, 7, 7, GUARD_DOES_NOT_EXIST},
        {"20 is asked before 21, one pending", 1, 0x7003, 0, 7, GUARD_APPROVAL_CONFLICT},
        {"20 is asked before 21, of a page", 0, 0x7003, 1, 7, GUARD_APPROVAL_CONFLICT},
        {"20 is asked before 21, of a frame", 0, 0x9003, 0, 9, GUARD_APPROVAL_CONFLICT},
    };
    for (size_t i = 0; i < sizeof asks / sizeof asks[0]; i++) {
        char full[80];
        struct guard before = asks[i].is_pending ? asked() : started;
        before.shadow[6] = asks[i].entry;
        struct guard g = ready(&before);
        snprintf(full, sizeof full, "ask: %s (%u)", asks[i].name, (unsigned)asks[i].number);
        refused(full, ask(&g, asks[i].page, asks[i].frame), asks[i].number, &g, &before);
    }

    /* entries of the frame that do not give 21 */
    static const uint64_t entries[] = {0x7001, 0x7002, 0x7006, 0x7401, 0x7000, 0x100000007003, 0x0008000000007003};
    for (size_t i = 0; i < sizeof entries / sizeof entries[0]; i++) {
        char full[80];
        struct guard before = started;
        before.shadow[6] = entries[i];
        struct guard want = before;
        put_pair(&want, 0, 7);
        struct guard g = ready(&before);
        snprintf(full, sizeof full, "ask for frame 7: entry 0x%llx is accepted", (unsigned long long)entries[i]);
        check(full, ask(&g, 0, 7), GUARD_ACCEPTED, 0, 0, &g, want);
    }
}

/* Pending entries, in both modes, by each of the four synchronisations: a page at a time or all, flat or from a tree. */
static void pending_entries(void)
{
    static const struct {
        uint64_t kernel;
        uint64_t made;
    } entries[] = {
        {0x6001, 0x6201}, {0x6003, 0x6201}, {0x6007, 0x6205}, {0x600b, 0x6209},
        {0x6013, 0x6211}, {0x6fff, 0x621d}, {0x8000000000006003, 0x6201},
    };
    static const char *const calls[] = {"synchronise one", "synchronise all", "synchronise one from a tree",
                                        "synchronise all from a tree"};
    for (int user = 0; user < 2; user++)
        for (int call = 0; call < 4; call++) {
            char full[80];
            int right = 1;
            for (size_t i = 0; i < sizeof entries / sizeof entries[0]; i++) {
                struct guard before = user ? in_user_mode(asked()) : asked();
                before.shadow[PROGRAM] = user ? 0x3007 : NO_EXECUTE | 0x3007;
                before.kernel[DRIVER] = entries[i].kernel;
                struct guard g = ready(&before);
                struct guard want = before;
                want.shadow[DRIVER] = NO_EXECUTE | entries[i].made;
                want.numbers[0] = 1;
                want.numbers[1] = 0;
                uint64_t number = call == 0   ? sync_page(&g, DRIVER)
                                  : call == 1 ? sync_all(&g)
                                              : sync_from_tree(&g, call == 3, DRIVER);
                right = right && number == GUARD_ACCEPTED && same(&g, &want);
            }
            snprintf(full, sizeof full, "%s while pending, in %s mode", calls[call], user ? "user" : "kernel");
            tell(full, right);
        }
}

/* Steps 1 to 3 come before the rule, and step 4 is for other excluded frames. */
static void other_pages(void)
{
    static const uint64_t kernel[PAGES] = {0x6000, 0x6003, 0x9001, 0x10006003, 0x0010000000006003, 0x3007, 0x2007};
    struct guard before = asked();
    memcpy(before.kernel, kernel, sizeof kernel);
    struct guard want = before;
    want.shadow[PROGRAM] = NO_EXECUTE | 0x3007;
    want.shadow[6] = 0x2401;
    want.map[6] = 2;
    struct guard g = ready(&before);
    check("other pages while pending", sync_all(&g), GUARD_ACCEPTED, 2, 1, &g, want);
}

/* A page of the frame from before the ask: user code may run there until it is synchronised. */
static void from_before(void)
{
    struct guard before = started;
    before.kernel[6] = 0x6005;
    before.shadow[6] = NO_EXECUTE | 0x6005;
    struct guard want = before;
    put_pair(&want, DRIVER, FRAME);
    struct guard g = ready(&before);
    check("ask leaves a read-only entry of the frame", ask(&g, DRIVER, FRAME), GUARD_ACCEPTED, 0, 0, &g, want);
    const struct guard pending = want;
    want.state[GUARD_STATE_MODE] = GUARD_MODE_USER;
    want.state[GUARD_STATE_RUNNING] = 6;
    want.shadow[1] = NO_EXECUTE | 0x2401;
    want.shadow[2] = NO_EXECUTE | 0x9401;
    want.shadow[6] = 0x6005;
    forget(&g);
    check("a leave to a page of the frame from before the ask", leave(&g, 6), GUARD_ACCEPTED, 3, 0, &g, want);
    g = ready(&pending);
    want = pending;
    want.shadow[6] = NO_EXECUTE | 0x6205;
    check("which a synchronisation ends", sync_page(&g, 6), GUARD_ACCEPTED, 1, 0, &g, want);
    forget(&g);
    check("a leave to it then gives 12", leave(&g, 6), GUARD_NOT_PERMITTED, 0, 0, &g, want);
}

static void commits(void)
{
    static const struct {
        const char *name;
        uint64_t driver; /* the shadow entry of the asked page */
        uint64_t alias;  /* of page 0 */
        uint64_t other;  /* of page 3 */
        uint64_t changed;
        uint64_t joined;
    } cases[] = {
        {"the page is absent", 0, 0, 0, 1, 1},
        {"the page has a pending entry", 0x8000000000006201, 0, 0, 1, 1},
        {"the page has another frame", 0x8000000000007003, 0, 0, 1, 1},
        {"the page has an entry of the frame that is not present", 0x6000, 0, 0, 1, 1},
        {"one alias", 0, 0x8000000000006205, 0, 2, 2},
        {"two aliases", 0x8000000000006201, 0x8000000000006205, 0x8000000000006001, 3, 3},
        {"an alias with accessed and dirty bits", 0, 0x8000000000006265, 0, 2, 2},
        {"an entry of the frame that is not present", 0, 0x6004, 0, 1, 1},
        {"an entry of another frame", 0, 0x8000000000007001, 0x1000000006001, 1, 1},
    };
    for (int user = 0; user < 2; user++)
        for (size_t i = 0; i < sizeof cases / sizeof cases[0]; i++) {
            char full[80];
            struct guard before = user ? in_user_mode(asked()) : asked();
            before.shadow[DRIVER] = cases[i].driver;
            before.shadow[0] = cases[i].alias;
            before.shadow[3] = cases[i].other;
            struct guard g = ready(&before);
            struct guard want = before;
            clear_pair(&want);
            for (int page = 0; page < PAGES; page++)
                if (page == DRIVER || ((want.shadow[page] & 1) && GUARD_ENTRY_FRAME(want.shadow[page]) == FRAME)) {
                    want.shadow[page] = 0x6401 | (user ? NO_EXECUTE : 0);
                    want.map[page] = FRAME;
                }
            snprintf(full, sizeof full, "commit in %s mode: %s", user ? "user" : "kernel", cases[i].name);
            check(full, commit(&g), GUARD_ACCEPTED, cases[i].changed, cases[i].joined, &g, want);
        }

    /* an entry that is the approved one already is not counted as changed; a page with another number keeps it */
    struct guard before = asked();
    before.shadow[DRIVER] = 0x6401;
    before.shadow[2] = 0x6001;
    struct guard g = ready(&before);
    struct guard want = before;
    clear_pair(&want);
    want.map[DRIVER] = FRAME;
    check("commit: nothing changed, and an approved page keeps its entry", commit(&g), GUARD_ACCEPTED, 0, 1, &g, want);
}

static void refused_commits_and_drops(void)
{
    for (int user = 0; user < 2; user++) {
        char full[80];
        const char *mode = user ? "user" : "kernel";
        struct guard before = user ? in_user_mode(started) : started;
        struct guard g = ready(&before);
        snprintf(full, sizeof full, "commit in %s mode with nothing pending gives 22", mode);
        refused(full, commit(&g), GUARD_NOTHING_PENDING, &g, &before);
        snprintf(full, sizeof full, "drop in %s mode with nothing pending gives 22", mode);
        refused(full, drop(&g), GUARD_NOTHING_PENDING, &g, &before);

        /* the kernel maps the pending page to an approved frame, and it joins the map */
        before = user ? in_user_mode(asked()) : asked();
        before.kernel[DRIVER] = 0x9001;
        sync_page(&before, DRIVER);
        g = ready(&before);
        snprintf(full, sizeof full, "the pending page joins the map in %s mode", mode);
        tell(full, before.map[DRIVER] == 9);
        snprintf(full, sizeof full, "commit in %s mode of a page that joined the map gives 20", mode);
        refused(full, commit(&g), GUARD_APPROVAL_CONFLICT, &g, &before);
        struct guard want = before;
        clear_pair(&want);
        want.exclusion[0] = 0x04;
        snprintf(full, sizeof full, "drop in %s mode of that pair", mode);
        check(full, drop(&g), GUARD_ACCEPTED, 0, 0, &g, want);
    }
}

/* The runs of a guard with room for one element more, and their lengths by these places. */
enum { STATE, SHADOW, MAP, EXCLUSION, NUMBERS, LENGTHS };
struct room {
    uint64_t state[WORDS + 1];
    uint64_t shadow[PAGES + 1];
    uint16_t map[PAGES + 1];
    uint8_t exclusion[VECTOR + 1];
    uint64_t numbers[GUARD_NUMBERS + 1];
};

static struct room room_of(const struct guard *g)
{
    struct room r = {.numbers = {77, 88, 99}};
    memcpy(r.state, g->state, sizeof g->state);
    memcpy(r.shadow, g->shadow, sizeof g->shadow);
    memcpy(r.map, g->map, sizeof g->map);
    memcpy(r.exclusion, g->exclusion, sizeof g->exclusion);
    return r;
}

/* Whether ask, commit or drop is refused with 7 on runs of these lengths, and changes nothing. It would be refused with 9, 20 or 22
 * too. A numbers run of another length is not written. */
static int gives_7(int call, const struct guard *before, const size_t *n)
{
    struct room r = room_of(before);
    struct room want = r;
    if (n[NUMBERS] == GUARD_NUMBERS)
        want.numbers[0] = want.numbers[1] = 0;
    uint64_t number = GUARD_ACCEPTED;
    if (call == 0)
        number = guard_ask(r.state, n[STATE], r.shadow, n[SHADOW], r.map, n[MAP], r.exclusion, n[EXCLUSION], PAGES, FRAMES,
                           r.numbers, n[NUMBERS]);
    else if (call == 1)
        number = guard_commit(r.state, n[STATE], r.shadow, n[SHADOW], r.map, n[MAP], r.numbers, n[NUMBERS]);
    else
        number = guard_drop(r.state, n[STATE], r.exclusion, n[EXCLUSION], r.numbers, n[NUMBERS]);
    return number == GUARD_STATE_OR_TABLE && memcmp(r.state, want.state, sizeof r.state) == 0 &&
           memcmp(r.shadow, want.shadow, sizeof r.shadow) == 0 && memcmp(r.map, want.map, sizeof r.map) == 0 &&
           memcmp(r.exclusion, want.exclusion, sizeof r.exclusion) == 0 && memcmp(r.numbers, want.numbers, sizeof r.numbers) == 0;
}

/* Each run that a call is lent, one element shorter and one longer. */
static void other_lengths(void)
{
    static const char *const calls[] = {"ask", "commit", "drop"};
    static const char *const runs[LENGTHS] = {"state run", "shadow table", "map", "exclusion vector", "numbers run"};
    static const int lent[3][LENGTHS] = {{1, 1, 1, 1, 1}, {1, 1, 1, 0, 1}, {1, 0, 0, 1, 1}};
    struct guard joined = asked();
    joined.map[DRIVER] = 9;
    for (int call = 0; call < 3; call++) {
        const struct guard *before = call == 2 ? &started : &joined;
        for (int i = 0; i < LENGTHS; i++)
            for (int more = -1; lent[call][i] && more <= 1; more += 2) {
                char full[80];
                size_t n[LENGTHS] = {WORDS, PAGES, PAGES, VECTOR, GUARD_NUMBERS};
                n[i] += more;
                snprintf(full, sizeof full, "%s: %s of %u elements gives 7", calls[call], runs[i], (unsigned)n[i]);
                tell(full, gives_7(call, before, n));
            }
    }
}

enum { CALLS = 12 };

/* One of the calls that are lent a state, on this guard; the last three are ask, commit and drop. */
static uint64_t make(int call, struct guard *g, size_t words)
{
    static const uint64_t tables[TABLE] = {0x3007};
    switch (call) {
    case 0:
        return guard_sync_page(g->state, words, g->kernel, PAGES, g->shadow, PAGES, g->map, PAGES, g->exclusion, VECTOR, 0,
                               g->numbers, GUARD_NUMBERS);
    case 1:
        return guard_sync_all(g->state, words, g->kernel, PAGES, g->shadow, PAGES, g->map, PAGES, g->exclusion, VECTOR, g->numbers,
                              GUARD_NUMBERS);
    case 2:
        return guard_sync_page_tree(g->state, words, tables, TABLE, 0, 1, g->shadow, PAGES, g->map, PAGES, g->exclusion, VECTOR, 0,
                                    g->numbers, GUARD_NUMBERS);
    case 3:
        return guard_sync_all_tree(g->state, words, tables, TABLE, 0, 1, g->shadow, PAGES, g->map, PAGES, g->exclusion, VECTOR,
                                   g->numbers, GUARD_NUMBERS);
    case 4:
        return guard_fetch(g->state, words, g->shadow, PAGES, 2, g->numbers, GUARD_NUMBERS);
    case 5:
        return guard_write(g->state, words, g->shadow, PAGES, g->exclusion, VECTOR, 0x5000, 1, g->numbers, GUARD_NUMBERS);
    case 6:
        return guard_enter(g->state, words, g->shadow, PAGES, 0, g->numbers, GUARD_NUMBERS);
    case 7:
        return guard_leave(g->state, words, g->shadow, PAGES, PROGRAM, g->numbers, GUARD_NUMBERS);
    case 8:
        return guard_device_write(g->state, words, g->exclusion, VECTOR, devices, DEVICES, 0, 0, 1, g->numbers, GUARD_NUMBERS);
    case 9:
        return guard_ask(g->state, words, g->shadow, PAGES, g->map, PAGES, g->exclusion, VECTOR, 0, 7, g->numbers, GUARD_NUMBERS);
    case 10:
        return guard_commit(g->state, words, g->shadow, PAGES, g->map, PAGES, g->numbers, GUARD_NUMBERS);
    default:
        return guard_drop(g->state, words, g->exclusion, VECTOR, g->numbers, GUARD_NUMBERS);
    }
}

/* In user mode where a call enters the kernel, else in kernel mode, with the program's page synchronised. */
static struct guard before_call(int call)
{
    struct guard g = in_user_mode(started);
    if (call != 6)
        enter(&g, 0);
    return g;
}

/* "Question 7 wants a pending pair below V and F", of every call, and a word that is 0 or 1. Nothing is cut. */
static void other_pairs(void)
{
    static const struct {
        const char *name;
        uint64_t pair[3];
        size_t words;
    } states[] = {
        {"pending word 2", {2, DRIVER, FRAME}, WORDS},
        {"pending word 256", {256, DRIVER, FRAME}, WORDS},
        {"pending word 2^32 + 1", {4294967297, DRIVER, FRAME}, WORDS},
        {"pending word 2^64 - 1", {UINT64_MAX, 0, 0}, WORDS},
        {"pending page 7 of 7", {1, 7, FRAME}, WORDS},
        {"pending page 65540", {1, 65540, FRAME}, WORDS},
        {"pending page 2^32 + 4", {1, 4294967300, FRAME}, WORDS},
        {"pending page 2^64 - 1", {1, UINT64_MAX, FRAME}, WORDS},
        {"pending frame 12 of 12", {1, DRIVER, 12}, WORDS},
        {"pending frame 65542", {1, DRIVER, 65542}, WORDS},
        {"pending frame 2^32 + 6", {1, DRIVER, 4294967302}, WORDS},
        {"pending frame 2^64 - 1", {1, DRIVER, UINT64_MAX}, WORDS},
        {"a state run of 24 words", {0, 0, 0}, 24},
        {"a state run of 23 words", {0, 0, 0}, 23},
        {"a state run of 22 words, as before K6", {0, 0, 0}, 22},
    };
    for (size_t i = 0; i < sizeof states / sizeof states[0]; i++) {
        char full[80];
        int right = 1;
        for (int call = 0; call < CALLS; call++) {
            struct guard before = before_call(call);
            memcpy(before.state + GUARD_STATE_PENDING, states[i].pair, sizeof states[i].pair);
            struct guard g = ready(&before);
            uint64_t number = make(call, &g, states[i].words);
            before.numbers[0] = before.numbers[1] = 0;
            right = right && number == GUARD_STATE_OR_TABLE && same(&g, &before);
        }
        snprintf(full, sizeof full, "every call: %s gives 7", states[i].name);
        tell(full, right);
    }
}

/* Where none is pending, the words of page and frame are not read: every call does the same whatever they hold. An accepted ask
 * writes all three, and every other call leaves them. */
static void words_that_are_not_read(void)
{
    static const char *const names[CALLS] = {"synchronise one", "synchronise all", "synchronise one from a tree",
                                             "synchronise all from a tree", "fetch", "write", "enter", "leave", "device write",
                                             "ask", "commit", "drop"};
    /* the last has an approved page and the program's frame */
    static const uint64_t pairs[][2] = {
        {PAGES, FRAMES}, {DRIVER, FRAME}, {UINT64_MAX, UINT64_MAX}, {4294967296, 65536}, {1, 3},
    };
    for (int call = 0; call < CALLS; call++) {
        char full[80];
        int right = 1;
        for (size_t i = 0; i < sizeof pairs / sizeof pairs[0]; i++) {
            const struct guard before = before_call(call);
            struct guard plain = ready(&before);
            struct guard g = plain;
            memcpy(g.state + GUARD_STATE_PENDING_PAGE, pairs[i], sizeof pairs[i]);
            uint64_t want_number = call < 10 ? GUARD_ACCEPTED : GUARD_NOTHING_PENDING;
            right = right && make(call, &plain, WORDS) == want_number && make(call, &g, WORDS) == want_number;
            struct guard want = plain;
            if (call != 9)
                memcpy(want.state + GUARD_STATE_PENDING_PAGE, pairs[i], sizeof pairs[i]);
            right = right && same(&g, &want);
        }
        snprintf(full, sizeof full, "%s: the pair is not read where none is pending", names[call]);
        tell(full, right);
    }
}

/* While a pair is pending, the nine calls of before leave its three words. */
static void words_that_stay(void)
{
    int right = 1;
    for (int call = 0; call < 9; call++) {
        struct guard before = before_call(call);
        put_pair(&before, DRIVER, FRAME);
        struct guard g = ready(&before);
        right = right && make(call, &g, WORDS) == GUARD_ACCEPTED;
        right = right && memcmp(g.state + GUARD_STATE_PENDING, before.state + GUARD_STATE_PENDING, 3 * sizeof g.state[0]) == 0;
        right = right && memcmp(g.exclusion, before.exclusion, sizeof g.exclusion) == 0;
    }
    tell("calls that leave the pair and the exclusion vector", right);
}

/* A write to the pending frame through a made-up writable entry: the exclusion vector refuses it. */
static void made_up(void)
{
    struct guard before = asked();
    before.shadow[0] = 0x6003;
    before.map[0] = NONE;
    struct guard g = ready(&before);
    refused("a write through a made-up entry of the pending frame gives 13", write_bytes(&g, 0, 1), GUARD_EXCLUDED, &g, &before);
}

int main(void)
{
    arrives();
    dropped();
    accepted_asks();
    refused_asks();
    pending_entries();
    other_pages();
    from_before();
    commits();
    refused_commits_and_drops();
    other_lengths();
    other_pairs();
    words_that_are_not_read();
    words_that_stay();
    made_up();
    printf("%d passed, %d failed\n", passed, failed);
    return failed == 0 ? 0 : 1;
}
