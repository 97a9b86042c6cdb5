/*
 * The rule of docs/INTEGRATION.md for serving a page fault, against the archive and a processor's rules. The rows of its table come on
 * standard input, a row a line with tabs between its five columns, so that the table itself is what is followed. Each cell is served
 * for every kind of entry. Prints 'ok NAME' or 'WRONG NAME', and a last line 'N passed, M failed'.
 */
#include <stdio.h>
#include <stdlib.h>
#include <string.h>

#include "guard.h"

/* Page 0 is the entry page and page 1 listed beside it. The pages from 2 on have each combination of bits 1, 2 and 63 with each of
 * four frames. The last two are absent: with bit 0 clear, and with a marker. */
enum { ENTRY_PAGE, LISTED_PAGE, FIRST, COMBINATIONS = 32, ABSENT = FIRST + COMBINATIONS, MARKED, PAGES };
enum { ENTRY_FRAME = 1, LISTED_FRAME, ORDINARY_FRAME, PENDING_FRAME, FRAMES = 8, VECTOR = 1 };

enum { FETCH, WRITE, READ, ACCESSES };
static const char *const accesses[ACCESSES] = {"fetch", "write", "read"};

/* The columns of the table, in its order. */
enum { COLUMNS = 4 };
static const struct column {
    const char *name;
    int ring;
    int user;
} columns[COLUMNS] = {
    {"ring 0, kernel mode", 0, 0}, {"ring 3, user mode", 3, 1}, {"ring 0, user mode", 0, 1}, {"ring 3, kernel mode", 3, 0}};

static char cells[ACCESSES][COLUMNS][64];
static uint64_t state[GUARD_STATE_WORDS];
static uint64_t numbers[GUARD_NUMBERS];
static uint64_t kernel[PAGES];
static uint64_t shadow[PAGES];
static uint16_t map[PAGES];
static uint8_t exclusion[VECTOR];
static int passed;
static int failed;

static void check(int right, const char *name)
{
    printf("%s %s\n", right ? "ok" : "WRONG", name);
    if (right)
        passed++;
    else
        failed++;
}

static _Noreturn void stop(const char *why, const char *what)
{
    printf("%s: %s\n0 passed, 1 failed\n", why, what);
    exit(1);
}

static void read_rows(void)
{
    char line[256];
    for (int access = 0; access < ACCESSES; access++) {
        char name[64];
        if (!fgets(line, sizeof line, stdin) ||
            sscanf(line, "%63[^\t]\t%63[^\t]\t%63[^\t]\t%63[^\t]\t%63[^\t\n]", name, cells[access][0], cells[access][1],
                   cells[access][2], cells[access][3]) != 5 ||
            strcmp(name, accesses[access]) != 0)
            stop("no row of five columns for a", accesses[access]);
    }
    if (fgets(line, sizeof line, stdin))
        stop("a row too many", line);
}

static uint64_t sync(uint64_t page)
{
    return guard_sync_page(state, GUARD_STATE_WORDS, kernel, PAGES, shadow, PAGES, map, PAGES, exclusion, VECTOR, page, numbers,
                           GUARD_NUMBERS);
}

static uint64_t fetch(uint64_t page)
{
    return guard_fetch(state, GUARD_STATE_WORDS, shadow, PAGES, page, numbers, GUARD_NUMBERS);
}

static uint64_t write_bytes(uint64_t address, uint64_t length)
{
    return guard_write(state, GUARD_STATE_WORDS, shadow, PAGES, exclusion, VECTOR, address, length, numbers, GUARD_NUMBERS);
}

static uint64_t enter(uint64_t index)
{
    return guard_enter(state, GUARD_STATE_WORDS, shadow, PAGES, index, numbers, GUARD_NUMBERS);
}

static uint64_t leave(uint64_t page)
{
    return guard_leave(state, GUARD_STATE_WORDS, shadow, PAGES, page, numbers, GUARD_NUMBERS);
}

static void make(uint64_t answer)
{
    if (answer != GUARD_ACCEPTED)
        stop("a call was refused", "the guard is not prepared");
}

/* Where page is one of the combinations: its bits 1, 2 and 63, and its frame. */
static uint64_t combination(uint64_t page)
{
    static const uint64_t frames[] = {ORDINARY_FRAME, LISTED_FRAME, PENDING_FRAME, FRAMES};
    uint64_t bits = (page - FIRST) % 8;
    return GUARD_ENTRY_OF_FRAME(frames[(page - FIRST) / 8]) | (bits & 1 ? GUARD_ENTRY_WRITABLE : 0) |
           (bits & 2 ? GUARD_ENTRY_USER : 0) | (bits & 4 ? GUARD_ENTRY_NO_EXECUTE : 0);
}

/* The ordinary page that a program runs, which the kernel may write too. */
enum { PROGRAM = FIRST + 3 };

/* A guard with a frame pending, in the mode asked for. Of the pages that the policy does not list it has synchronised none but the
 * program's, or all. */
static void prepare(int user, int all)
{
    static const uint16_t pages[] = {ENTRY_PAGE, LISTED_PAGE};
    static const uint16_t frames[] = {ENTRY_FRAME, LISTED_FRAME};
    uint8_t record[16];
    make(guard_write_record(PAGES, FRAMES, 2, 1, pages, 2, frames, 2, record, sizeof record, numbers, GUARD_NUMBERS));
    make(guard_start(record, sizeof record, 1, state, GUARD_STATE_WORDS, shadow, PAGES, map, PAGES, exclusion, VECTOR, numbers,
                     GUARD_NUMBERS));
    make(guard_ask(state, GUARD_STATE_WORDS, shadow, PAGES, map, PAGES, exclusion, VECTOR, ABSENT, PENDING_FRAME, numbers,
                   GUARD_NUMBERS));
    kernel[ENTRY_PAGE] = GUARD_ENTRY_OF_FRAME(ENTRY_FRAME) | GUARD_ENTRY_PRESENT;
    kernel[LISTED_PAGE] = GUARD_ENTRY_OF_FRAME(LISTED_FRAME) | GUARD_ENTRY_PRESENT;
    for (uint64_t page = FIRST; page < ABSENT; page++)
        kernel[page] = combination(page) | GUARD_ENTRY_PRESENT;
    kernel[ABSENT] = GUARD_ENTRY_OF_FRAME(ORDINARY_FRAME) | GUARD_ENTRY_USER | GUARD_ENTRY_WRITABLE;
    kernel[MARKED] = kernel[ABSENT] | GUARD_ENTRY_PRESENT | UINT64_C(1) << 52;
    for (uint64_t page = FIRST; page < PAGES; page++)
        if (all || page == PROGRAM)
            make(sync(page));
    if (user)
        make(leave(PROGRAM));
}

/* Whether a processor lets an access through an entry, with CR0.WP and EFER.NXE set and SMAP clear. */
static int lets(uint64_t entry, int access, int ring, int smep)
{
    int user = (entry & GUARD_ENTRY_USER) != 0;
    return entry & GUARD_ENTRY_PRESENT && (ring == 0 || user) && (access != WRITE || entry & GUARD_ENTRY_WRITABLE) &&
           (access != FETCH || !(entry & GUARD_ENTRY_NO_EXECUTE || (smep && ring == 0 && user)));
}

/* Whether the access is one that the guarded kernel may make, by document 01 and its own entry. */
static int ought(uint64_t page, int access, const struct column *c)
{
    uint64_t frame = GUARD_ENTRY_FRAME(kernel[page]);
    int absent = page >= ABSENT || frame >= FRAMES;
    int approved = page < FIRST || (!absent && frame == LISTED_FRAME);
    int ordinary = !absent && !approved && frame == ORDINARY_FRAME;
    int user = !approved && kernel[page] & GUARD_ENTRY_USER;
    int program = ordinary && user && !(kernel[page] & GUARD_ENTRY_NO_EXECUTE);
    if (access != FETCH && c->ring == 3 && !c->user)
        return 0;
    if (access == READ)
        return !absent && (c->ring == 0 || user);
    if (access == WRITE)
        return ordinary && kernel[page] & GUARD_ENTRY_WRITABLE && (c->ring == 0 || user);
    if (c->ring == 3)
        return program;
    return c->user ? page == ENTRY_PAGE : approved;
}

/* Serves a fault as its cell says: whether the access is resumed. */
static int serve(const char *cell, uint64_t page)
{
    if (sync(page) != GUARD_ACCEPTED)
        return 0;
    if (strcmp(cell, "`guard_fetch`") == 0)
        return fetch(page) == GUARD_ACCEPTED;
    if (strcmp(cell, "`guard_write`") == 0)
        return write_bytes(4096 * page + 7, 1) == GUARD_ACCEPTED;
    if (strcmp(cell, "`guard_leave`") == 0)
        return leave(page) == GUARD_ACCEPTED;
    if (strcmp(cell, "`guard_enter` of an entry page, else refuse") == 0) {
        for (uint64_t i = 0; i < state[GUARD_STATE_ENTRIES]; i++)
            if (state[GUARD_STATE_ENTRY + i] == page)
                return enter(i) == GUARD_ACCEPTED;
        return 0;
    }
    if (strcmp(cell, "stop") == 0)
        return 0;
    unsigned first = 0;
    unsigned second = 0;
    char rest;
    if (sscanf(cell, "bit %u%c", &first, &rest) != 1 && sscanf(cell, "bits %u and %u%c", &first, &second, &rest) != 2)
        stop("a cell is not understood", cell);
    if (first > 63 || second > 63)
        stop("there is no such bit", cell);
    return shadow[page] >> first & shadow[page] >> second & 1;
}

/* Every page is served as it ought to be, and what is resumed goes through, in the mode that suits the ring. */
static void serves(int access, int column)
{
    const struct column *c = &columns[column];
    int right = 1;
    char name[128];
    for (int all = 0; all < 2; all++)
        for (uint64_t page = 0; page < PAGES; page++) {
            prepare(c->user, all);
            int resumed = serve(cells[access][column], page);
            int mode = access == FETCH ? c->ring == 3 : c->user;
            if (resumed != ought(page, access, c) ||
                (resumed && (!lets(shadow[page], access, c->ring, 1) || state[GUARD_STATE_MODE] != (uint64_t)mode)))
                right = 0;
        }
    snprintf(name, sizeof name, "%s, %s", accesses[access], c->name);
    check(right, name);
}

/* How many pages can be fetched from, of all synchronised ones in a mode. */
static int fetched(int user, int ring)
{
    int count = 0;
    prepare(user, 1);
    for (uint64_t page = 0; page < PAGES; page++)
        count += lets(shadow[page], FETCH, ring, 1);
    return count;
}

/* Every byte of a page has the same answer. */
static int one_byte(void)
{
    for (int user = 0; user < 2; user++) {
        prepare(user, 1);
        for (uint64_t page = 0; page < PAGES; page++)
            for (uint64_t i = 1; i < 4096; i++)
                if (write_bytes(4096 * page, 1) != write_bytes(4096 * page + i, 1))
                    return 0;
    }
    return 1;
}

/* Pages with a bit from 32 on in the frame field are absent, and an approved page is approved all the same. */
static int wide(void)
{
    for (unsigned bit = 32; bit < 52; bit++) {
        prepare(0, 1);
        for (uint64_t page = 0; page < PAGES; page++) {
            uint64_t approved = GUARD_ENTRY_OF_FRAME(map[page]) | GUARD_ENTRY_APPROVED | GUARD_ENTRY_PRESENT;
            uint64_t wanted = map[page] == GUARD_MAP_NONE ? 0 : approved;
            kernel[page] |= UINT64_C(1) << bit;
            make(sync(page));
            if (page < ABSENT && shadow[page] != wanted)
                return 0;
        }
    }
    return 1;
}

int main(void)
{
    read_rows();
    for (int access = 0; access < ACCESSES; access++)
        for (int column = 0; column < COLUMNS; column++)
            serves(access, column);

    check(fetched(0, 3) == 0 && fetched(0, 0) > 0, "kernel mode: no page is fetched from at ring 3");
    check(fetched(1, 0) == 0 && fetched(1, 3) > 0, "user mode: with SMEP no page is fetched from at ring 0");

    prepare(1, 1);
    check(fetch(PROGRAM) == GUARD_ACCEPTED && !lets(shadow[PROGRAM], FETCH, 0, 1) && lets(shadow[PROGRAM], FETCH, 0, 0),
          "ring 0, user mode: guard_fetch accepts a page that faults again with SMEP, and runs without it");
    prepare(0, 1);
    check(fetch(LISTED_PAGE) == GUARD_ACCEPTED && !lets(shadow[LISTED_PAGE], FETCH, 3, 1),
          "ring 3, kernel mode: guard_fetch accepts a page that faults again");
    prepare(1, 1);
    check(write_bytes(4096 * (FIRST + 1), 1) == GUARD_NOT_PERMITTED && lets(shadow[FIRST + 1], WRITE, 0, 1),
          "ring 0, user mode: guard_write refuses the kernel's stack, which the processor writes");
    prepare(0, 1);
    check(fetch(PROGRAM) == GUARD_NOT_PERMITTED && leave(PROGRAM) == GUARD_ACCEPTED && lets(shadow[PROGRAM], FETCH, 3, 1),
          "ring 0, kernel mode: a refused fetch becomes an exit");
    check(one_byte(), "one byte decides for its page");
    check(wide(), "bits 32 to 51 of the frame field: absent, and approved pages stay");
    printf("%d passed, %d failed\n", passed, failed);
    return failed != 0;
}
