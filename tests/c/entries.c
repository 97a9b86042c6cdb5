/*
 * The words of include/guard.h about entries, against the archive. The rows of its bit table come on standard input, a row a line
 * with tabs between its six columns, so that the table itself is what is compared. Prints 'ok NAME' or 'WRONG NAME', and a last
 * line 'N passed, M failed'.
 */
#include <stdio.h>
#include <stdlib.h>
#include <string.h>

#include "guard.h"

/* The named bits, as document 01 and requests K1 and K3 have them. */
_Static_assert(GUARD_ENTRY_PRESENT == 0x1 && GUARD_ENTRY_WRITABLE == 0x2 && GUARD_ENTRY_USER == 0x4, "bits 0, 1 and 2");
_Static_assert(GUARD_ENTRY_WRITE_THROUGH == 0x8 && GUARD_ENTRY_CACHE_DISABLE == 0x10, "bits 3 and 4");
_Static_assert(GUARD_ENTRY_KERNEL_NO_EXECUTE == 0x200 && GUARD_ENTRY_APPROVED == 0x400, "bits 9 and 10");
_Static_assert(GUARD_ENTRY_RESERVED == 0x7ff0000000000000 && GUARD_ENTRY_NO_EXECUTE == 0x8000000000000000, "bits 52 to 63");
_Static_assert(GUARD_ENTRY_FRAME(0xfff2345678901fff) == 0x2345678901 && GUARD_ENTRY_FRAME(0x000ffffffffff000) == 0xffffffffff,
               "bits 12 to 51");
_Static_assert(GUARD_ENTRY_OF_FRAME(0x2345678901) == 0x2345678901000 && GUARD_MAP_NONE == 65535, "a frame's bits; no frame");

enum { PAGES = 64, FRAMES = 300, VECTOR = (FRAMES + 7) / 8, ROUNDS = 20000, MOST_ROWS = 64 };

/* A shadow entry's kind: a column of the table. */
enum { ORDINARY, PENDING, APPROVED, KINDS };

/* The pair that is asked for where a test has one pending. */
enum { PENDING_PAGE = 9, PENDING_FRAME = 5 };

/* A row of the table: its bits, the mode that it is for (K, U, or 0 for both), its word for kernel entries, and one for each kind. */
struct row {
    char bits[64];
    unsigned first;
    unsigned last;
    char mode;
    char kernel[64];
    char words[KINDS][64];
};

static struct row rows[MOST_ROWS];
static size_t row_count;
static int passed;
static int failed;

static void check(int right, const char *name)
{
    printf("%s %s\n", right ? "ok" : "WRONG", name);
    if (right)
        passed++;
    else
        failed++;
}

static _Noreturn void stop(const char *why, const char *what)
{
    printf("%s: %s\n0 passed, 1 failed\n", why, what);
    exit(1);
}

static uint64_t seed = 1;

static uint64_t word(void)
{
    seed ^= seed << 13;
    seed ^= seed >> 7;
    seed ^= seed << 17;
    return seed * UINT64_C(0x2545f4914f6cdd1d);
}

static uint64_t below(uint64_t limit)
{
    return (word() >> 16) % limit;
}

static int bit(uint64_t entry, unsigned k)
{
    return entry >> k & 1;
}

static void read_rows(void)
{
    char line[256];
    while (fgets(line, sizeof line, stdin)) {
        struct row r = {0};
        char name[64];
        char rest;
        if (sscanf(line, "%63[^\t]\t%63[^\t]\t%63[^\t]\t%63[^\t]\t%63[^\t]\t%63[^\t\n]", r.bits, name, r.kernel,
                   r.words[ORDINARY], r.words[PENDING], r.words[APPROVED]) != 6)
            stop("not a row of six columns", line);
        if (sscanf(r.bits, "%u..%u%c", &r.first, &r.last, &rest) != 2) {
            int single = sscanf(r.bits, "%u%c", &r.first, &rest) == 1;
            int of_mode = sscanf(r.bits, "%u %c%c", &r.first, &r.mode, &rest) == 2 && (r.mode == 'K' || r.mode == 'U');
            if (!single && !of_mode)
                stop("not the bits of a row", r.bits);
            r.last = r.first;
        }
        if (row_count == MOST_ROWS || r.first > r.last || r.last > 63)
            stop("not the bits of a row", r.bits);
        rows[row_count++] = r;
    }
}

static int for_mode(const struct row *r, int user)
{
    return r->mode == 0 || r->mode == (user ? 'U' : 'K');
}

/* Every bit has one row in each mode, and the rows rise. */
static int every_bit(int user)
{
    unsigned next = 0;
    for (size_t i = 0; i < row_count; i++)
        if (for_mode(&rows[i], user)) {
            if (rows[i].first != next)
                return 0;
            next = rows[i].last + 1;
        }
    return next == 64;
}

/* What a column's word puts into the bits of its row, of an entry whose lower bits are made. */
static uint64_t bits_of(const struct row *r, const char *what, uint64_t kernel, uint64_t frame, uint64_t made)
{
    unsigned from;
    unsigned to;
    char rest;
    unsigned width = r->last - r->first + 1;
    uint64_t value;
    if (strcmp(what, "0") == 0)
        value = 0;
    else if (strcmp(what, "1") == 0 && width == 1)
        value = 1;
    else if (sscanf(what, "kernel bit %u%c", &from, &rest) == 1 && width == 1 && from < 64)
        value = bit(kernel, from);
    else if (sscanf(what, "kernel bits %u..%u%c", &from, &to, &rest) == 2 && from <= to && to < 64 && width == to - from + 1)
        value = kernel >> from & (UINT64_MAX >> (64 - width));
    else if (strcmp(what, "the map's frame") == 0 && width == 40)
        value = frame;
    else if (strcmp(what, "bit 9, or bit 2 clear") == 0 && r->first > 9)
        value = bit(made, 9) || !bit(made, 2);
    else
        stop("a word of the table that this test does not know", what);
    return value << r->first;
}

/* A shadow entry by the table: an approved one with a frame, or an ordinary or pending one of a kernel entry. */
static uint64_t by_table(int kind, int user, uint64_t kernel, uint64_t frame)
{
    uint64_t made = 0;
    for (size_t i = 0; i < row_count; i++)
        if (for_mode(&rows[i], user))
            made |= bits_of(&rows[i], rows[i].words[kind], kernel, frame, made);
    return made;
}

/* Bit 63 by the table, of an entry that has its other bits. */
static uint64_t no_execute(int user, uint64_t entry)
{
    for (size_t i = 0; i < row_count; i++)
        if (rows[i].first == 63 && for_mode(&rows[i], user))
            return bits_of(&rows[i], rows[i].words[bit(entry, 10) ? APPROVED : ORDINARY], 0, 0, entry);
    stop("no row for bit 63", user ? "U" : "K");
}

struct guard {
    uint64_t state[GUARD_STATE_WORDS];
    uint64_t numbers[GUARD_NUMBERS];
    uint64_t kernel[PAGES];
    uint64_t shadow[PAGES];
    uint16_t map[PAGES];
    uint8_t exclusion[VECTOR];
};

/* Entry pages 0 and 1 on frames 2 and 299. */
static const uint8_t policy[16] = {PAGES, 0, FRAMES & 255, FRAMES >> 8, 2, 0, 2, 0, 0, 0, 1, 0, 2, 0, 299 & 255, 299 >> 8};

static int excluded(uint64_t frame)
{
    return frame == 2 || frame == 299;
}

/* Just started, with the mode's word replaced. */
static struct guard started(int user)
{
    struct guard g = {0};
    if (guard_start(policy, sizeof policy, 1, g.state, GUARD_STATE_WORDS, g.shadow, PAGES, g.map, PAGES, g.exclusion, VECTOR,
                    g.numbers, GUARD_NUMBERS) != GUARD_ACCEPTED)
        stop("the start", "refused");
    g.state[GUARD_STATE_MODE] = user ? GUARD_MODE_USER : GUARD_MODE_KERNEL;
    return g;
}

/* The same with a pair pending. */
static struct guard with_pending(int user)
{
    struct guard g = started(user);
    if (guard_ask(g.state, GUARD_STATE_WORDS, g.shadow, PAGES, g.map, PAGES, g.exclusion, VECTOR, PENDING_PAGE, PENDING_FRAME,
                  g.numbers, GUARD_NUMBERS) != GUARD_ACCEPTED)
        stop("the ask", "refused");
    return g;
}

static uint64_t sync_page(struct guard *g, uint64_t page)
{
    return guard_sync_page(g->state, GUARD_STATE_WORDS, g->kernel, PAGES, g->shadow, PAGES, g->map, PAGES, g->exclusion, VECTOR,
                           page, g->numbers, GUARD_NUMBERS);
}

static uint64_t sync_all(struct guard *g)
{
    return guard_sync_all(g->state, GUARD_STATE_WORDS, g->kernel, PAGES, g->shadow, PAGES, g->map, PAGES, g->exclusion, VECTOR,
                          g->numbers, GUARD_NUMBERS);
}

/* Leave to page 7, or enter by index 1, which is page 1. */
static uint64_t switch_to(struct guard *g, int user)
{
    return user ? guard_leave(g->state, GUARD_STATE_WORDS, g->shadow, PAGES, 7, g->numbers, GUARD_NUMBERS)
                : guard_enter(g->state, GUARD_STATE_WORDS, g->shadow, PAGES, 1, g->numbers, GUARD_NUMBERS);
}

/* Reserved bits of a kernel entry: mostly none, else one of them or any. */
static uint64_t reserved_bits(void)
{
    switch (below(16)) {
    case 0:
        return UINT64_C(1) << (52 + below(11));
    case 1:
        return word() & GUARD_ENTRY_RESERVED;
    default:
        return 0;
    }
}

/* A kernel entry drawn by its fields: mostly present, its frame ordinary, excluded, one that may be pending or past the last,
 * reserved bits as above, every other bit at random. */
static uint64_t kernel_entry(void)
{
    uint64_t frame = below(FRAMES);
    switch (below(7)) {
    case 0:
        frame = below(2) ? 2 : 299;
        break;
    case 1:
        frame = FRAMES + below(3);
        break;
    case 2:
        frame = word() & UINT64_C(0xffffffffff);
        break;
    case 3:
        frame = PENDING_FRAME;
        break;
    }
    uint64_t entry = (word() & ~UINT64_C(0x7ffffffffffff000)) | reserved_bits() | GUARD_ENTRY_OF_FRAME(frame);
    return below(8) ? entry | GUARD_ENTRY_PRESENT : entry & ~GUARD_ENTRY_PRESENT;
}

/* A synchronisation, by the list of the header: the shadow entry, the map's number and both numbers. */
static int synchronised(int user, int all)
{
    struct guard g = with_pending(user);
    /* with all pages: none changes after this but the one whose kernel entry does */
    sync_all(&g);
    /* absent by bit 0; four lines of the list; absent by a reserved bit, of an approved page and of another; the pending frame, and
     * the same frame where it is not pending */
    unsigned kinds[9] = {0};
    for (int i = 0; i < ROUNDS; i++) {
        uint64_t page = below(PAGES);
        /* a page approved by an earlier round stays approved: begin anew at times */
        if (below(PAGES) == 0) {
            g = below(2) ? with_pending(user) : started(user);
            sync_all(&g);
        }
        uint64_t entry = g.kernel[page] = kernel_entry();
        uint64_t frame = GUARD_ENTRY_FRAME(entry);
        uint64_t old_shadow = g.shadow[page];
        uint16_t old_map = g.map[page];
        uint64_t want = 0;
        uint16_t want_map = old_map;
        if (!(entry & GUARD_ENTRY_PRESENT)) {
            kinds[0]++;
        } else if (entry & GUARD_ENTRY_RESERVED) {
            kinds[old_map != GUARD_MAP_NONE ? 5 : 6]++;
        } else if (old_map != GUARD_MAP_NONE) {
            want = by_table(APPROVED, user, entry, old_map);
            kinds[1]++;
        } else if (frame >= FRAMES) {
            kinds[2]++;
        } else if (frame == PENDING_FRAME && g.state[GUARD_STATE_PENDING]) {
            want = by_table(PENDING, user, entry, frame);
            kinds[7]++;
        } else if (excluded(frame)) {
            want = by_table(APPROVED, user, entry, frame);
            want_map = frame;
            kinds[3]++;
        } else {
            want = by_table(ORDINARY, user, entry, frame);
            kinds[frame == PENDING_FRAME ? 8 : 4]++;
        }
        uint64_t number = all ? sync_all(&g) : sync_page(&g, page);
        if (number != GUARD_ACCEPTED || g.shadow[page] != want || g.map[page] != want_map ||
            g.numbers[0] != (want != old_shadow) || g.numbers[1] != (want_map != old_map))
            return 0;
    }
    for (int k = 0; k < 9; k++)
        if (kinds[k] < 100)
            return 0;
    return 1;
}

/* Each reserved bit alone, on an approved page, on an alias of its frame and on an ordinary page: entry 0, and the map as it was. The
 * bits beside them are no reserved ones. */
static int reserved(int user)
{
    for (unsigned k = 51; k <= 63; k++) {
        struct guard g = started(user);
        int absent = k != 51 && k != 63;
        uint64_t set = UINT64_C(1) << k;
        g.kernel[0] = set | 0x2003;
        g.kernel[5] = set | 0x2007;
        g.kernel[6] = set | 0x3007;
        g.shadow[6] = 0x3007;
        for (uint64_t page = 0; page < 7; page++)
            if (g.kernel[page] != 0 && sync_page(&g, page) != GUARD_ACCEPTED)
                return 0;
        if (g.shadow[0] != (absent ? 0 : by_table(APPROVED, user, g.kernel[0], 2)) || g.map[0] != 2)
            return 0;
        /* with bit 51 the frame is past the last one */
        if (k != 63 && (g.shadow[5] != 0 || g.map[5] != GUARD_MAP_NONE || g.shadow[6] != 0 || g.map[6] != GUARD_MAP_NONE))
            return 0;
        if (k == 63 && (g.shadow[5] != by_table(APPROVED, user, g.kernel[5], 2) || g.map[5] != 2 ||
                        g.shadow[6] != by_table(ORDINARY, user, g.kernel[6], 3) || g.map[6] != GUARD_MAP_NONE))
            return 0;
    }
    return 1;
}

/* Synchronises pages whose kernel entries have these of bits 3 and 4, and all of bits 5 to 11: two approved ones, an alias, one past
 * the last frame, an ordinary one and an absent one; in one call, or a page at a time. How many entries changed. */
static uint64_t cache(struct guard *g, int all, uint64_t bits)
{
    g->kernel[0] = 0x2fe3 | bits;
    g->kernel[1] = 0x12bfe1 | bits;
    g->kernel[5] = 0x2fe7 | bits;
    g->kernel[6] = 0x12cfe7 | bits;
    g->kernel[7] = 0x3fe7 | bits;
    g->kernel[8] = 0x3fe6 | bits;
    if (all)
        return sync_all(g) == GUARD_ACCEPTED ? g->numbers[0] : UINT64_MAX;
    uint64_t changed = 0;
    for (uint64_t page = 0; page < 9; page++) {
        if (sync_page(g, page) != GUARD_ACCEPTED)
            return UINT64_MAX;
        changed += g->numbers[0];
    }
    return changed;
}

/* The entries of these pages in a mode, by literals and by the table: the ordinary one alone has the bits, and none the others. */
static int cached_as(const struct guard *g, int user, uint64_t bits)
{
    uint64_t in_user = user ? GUARD_ENTRY_NO_EXECUTE : 0;
    uint64_t ordinary = (user ? 0x3007 : 0x8000000000003007) | bits;
    return g->shadow[0] == (in_user | 0x2401) && g->shadow[1] == (in_user | 0x12b401) && g->shadow[5] == (in_user | 0x2401) &&
           g->shadow[6] == 0 && g->shadow[7] == ordinary && g->shadow[8] == 0 &&
           by_table(APPROVED, user, g->kernel[0], 2) == g->shadow[0] && by_table(ORDINARY, user, g->kernel[7], 3) == ordinary;
}

/* Neither of bits 3 and 4, each alone and both, from each of these to each: an entry that gains or loses one is counted as changed. A
 * switch to the other mode and back keeps them. */
static int cached(int user, int all)
{
    for (uint64_t from = 0; from < 4; from++)
        for (uint64_t to = 0; to < 4; to++) {
            struct guard g = started(user);
            cache(&g, all, from << 3);
            if (!cached_as(&g, user, from << 3) || cache(&g, all, to << 3) != (from != to) || !cached_as(&g, user, to << 3))
                return 0;
            if (switch_to(&g, !user) != GUARD_ACCEPTED || !cached_as(&g, !user, to << 3))
                return 0;
            if (switch_to(&g, user) != GUARD_ACCEPTED || !cached_as(&g, user, to << 3))
                return 0;
        }
    return 1;
}

/* Pages of the pending frame: their entries by the table, also after a switch to the other mode and back; a commit then makes each of
 * them an approved one, and so the asked page, which is absent. */
static int pending(int user, int all)
{
    for (int i = 0; i < ROUNDS / PAGES; i++) {
        struct guard g = with_pending(user);
        g.kernel[0] = 0x2001;
        g.kernel[1] = 0x12b001;
        g.kernel[7] = 0x3007;
        for (uint64_t page = 10; page < 20; page++)
            g.kernel[page] = ((word() & ~UINT64_C(0x7ffffffffffff000)) | 0x5001);
        if (all)
            sync_all(&g);
        for (uint64_t page = 0; page < 20 && !all; page++)
            sync_page(&g, page);
        for (int turn = 0; turn < 3; turn++) {
            int now = turn == 1 ? !user : user;
            if (turn > 0 && switch_to(&g, now) != GUARD_ACCEPTED)
                return 0;
            for (uint64_t page = 10; page < 20; page++)
                if (g.shadow[page] != by_table(PENDING, now, g.kernel[page], 0) || g.map[page] != GUARD_MAP_NONE)
                    return 0;
        }
        if (guard_commit(g.state, GUARD_STATE_WORDS, g.shadow, PAGES, g.map, PAGES, g.numbers, GUARD_NUMBERS) != GUARD_ACCEPTED ||
            g.numbers[0] != 11 || g.numbers[1] != 11)
            return 0;
        for (uint64_t page = 9; page < 20; page++)
            if (g.shadow[page] != by_table(APPROVED, user, 0, PENDING_FRAME) || g.map[page] != PENDING_FRAME)
                return 0;
    }
    return 1;
}

/* A bit is read where some present entry's shadow entry depends on it, and ignored elsewhere. */
static int read_or_ignored(const struct row *r)
{
    for (unsigned k = r->first; k <= r->last; k++) {
        int depends = 0;
        for (int i = 0; i < 2000; i++) {
            int user = i % 2;
            if (!for_mode(r, user))
                continue;
            struct guard one = started(user);
            struct guard other = one;
            one.kernel[5] = kernel_entry() | GUARD_ENTRY_PRESENT;
            other.kernel[5] = one.kernel[5] ^ UINT64_C(1) << k;
            sync_page(&one, 5);
            sync_page(&other, 5);
            depends |= one.shadow[5] != other.shadow[5] || one.map[5] != other.map[5];
        }
        if (strcmp(r->kernel, depends ? "read" : "ignored") != 0)
            return 0;
    }
    return 1;
}

/* Enter and leave on entries of any bits: bit 63 of present ones by the table, every other bit as it was, and the count. */
static int switched(int user)
{
    for (int i = 0; i < ROUNDS / PAGES; i++) {
        struct guard g = started(!user);
        for (int p = 0; p < PAGES; p++)
            g.shadow[p] = word();
        /* the page that the call goes to */
        g.shadow[1] |= GUARD_ENTRY_PRESENT | GUARD_ENTRY_APPROVED;
        g.shadow[7] = (g.shadow[7] | GUARD_ENTRY_PRESENT | GUARD_ENTRY_USER) & ~GUARD_ENTRY_KERNEL_NO_EXECUTE;
        uint64_t want[PAGES];
        uint64_t changed = 0;
        for (int p = 0; p < PAGES; p++) {
            uint64_t entry = g.shadow[p];
            want[p] = entry & GUARD_ENTRY_PRESENT ? (entry & ~GUARD_ENTRY_NO_EXECUTE) | no_execute(user, entry) : entry;
            changed += want[p] != entry;
        }
        if (switch_to(&g, user) != GUARD_ACCEPTED || memcmp(g.shadow, want, sizeof want) != 0 || g.numbers[0] != changed ||
            g.numbers[1] != 0)
            return 0;
    }
    return 1;
}

/* What fetch, write, enter and leave ask of an entry's bits; all bits that they do not ask for, 5 and 6 too, are at random. */
static int asked(int user)
{
    unsigned answers[3] = {0};
    for (int i = 0; i < ROUNDS; i++) {
        /* frame 5, which is not excluded: question 13 is not asked here */
        uint64_t entry = (word() & ~UINT64_C(0x000ffffffffff000)) | GUARD_ENTRY_OF_FRAME(5);
        int may = !user || bit(entry, 2);
        int fetch = bit(entry, 0) ? !bit(entry, 63) && may ? 0 : 12 : 11;
        int write = bit(entry, 0) ? bit(entry, 1) && may ? 0 : 12 : 11;
        int turn = !bit(entry, 0) ? 11 : (user ? bit(entry, 10) : bit(entry, 2) && !bit(entry, 9)) ? 0 : 12;
        struct guard g = started(user);
        g.shadow[1] = entry;
        uint64_t number = guard_fetch(g.state, GUARD_STATE_WORDS, g.shadow, PAGES, 1, g.numbers, GUARD_NUMBERS);
        if (number != (uint64_t)fetch)
            return 0;
        number = guard_write(g.state, GUARD_STATE_WORDS, g.shadow, PAGES, g.exclusion, VECTOR, 4096, 16, g.numbers, GUARD_NUMBERS);
        if (number != (uint64_t)write)
            return 0;
        number = user ? guard_enter(g.state, GUARD_STATE_WORDS, g.shadow, PAGES, 1, g.numbers, GUARD_NUMBERS)
                      : guard_leave(g.state, GUARD_STATE_WORDS, g.shadow, PAGES, 1, g.numbers, GUARD_NUMBERS);
        if (number != (uint64_t)turn)
            return 0;
        answers[turn == 0 ? 0 : turn - 10]++;
    }
    return answers[0] >= 100 && answers[1] >= 100 && answers[2] >= 100;
}

/* Bits 5 and 6, which a processor sets in an installed table: a synchronisation clears them and counts the entry as changed. */
static int accessed_and_dirty(int user)
{
    struct guard g = started(user);
    g.kernel[5] = 0x3007;
    sync_page(&g, 5);
    uint64_t made = g.shadow[5];
    for (uint64_t bits = 0; bits < 4; bits++) {
        g.shadow[5] = made | bits << 5;
        if (sync_page(&g, 5) != GUARD_ACCEPTED || g.shadow[5] != made || g.numbers[0] != (bits != 0) || g.numbers[1] != 0)
            return 0;
    }
    return 1;
}

/* "for a listed page the approved entry of its frame in kernel mode, frame * 4096 + 0x401" */
static int start_entries(void)
{
    struct guard g = started(0);
    int right = g.shadow[0] == 2 * 4096 + 0x401 && g.shadow[1] == 299 * 4096 + 0x401 && g.map[0] == 2 && g.map[1] == 299;
    for (int p = 2; p < PAGES; p++)
        right = right && g.shadow[p] == 0 && g.map[p] == GUARD_MAP_NONE;
    for (unsigned f = 0; f < VECTOR * 8; f++)
        right = right && bit(g.exclusion[f / 8], f % 8) == excluded(f);
    return right && g.shadow[0] == by_table(APPROVED, 0, 0, 2);
}

int main(void)
{
    read_rows();
    check(every_bit(0) && every_bit(1), "the table has every bit once in each mode");
    check(start_entries(), "entries, map and vector after the start");
    for (int user = 0; user < 2; user++) {
        check(synchronised(user, 0), user ? "synchronised entries in user mode" : "synchronised entries in kernel mode");
        check(synchronised(user, 1), user ? "entries of all pages in user mode" : "entries of all pages in kernel mode");
        check(reserved(user), user ? "reserved bits in user mode" : "reserved bits in kernel mode");
        check(cached(user, 0), user ? "cache bits in user mode" : "cache bits in kernel mode");
        check(cached(user, 1), user ? "cache bits in user mode, all pages" : "cache bits in kernel mode, all pages");
        check(pending(user, 0), user ? "pending entries in user mode" : "pending entries in kernel mode");
        check(pending(user, 1), user ? "pending entries in user mode, all pages" : "pending entries in kernel mode, all pages");
        check(switched(user), user ? "entries after a leave" : "entries after an enter");
        check(asked(user), user ? "bits that the calls ask for in user mode" : "bits that the calls ask for in kernel mode");
        check(accessed_and_dirty(user), user ? "accessed and dirty bits in user mode" : "accessed and dirty bits in kernel mode");
    }
    for (size_t i = 0; i < row_count; i++) {
        char name[128];
        snprintf(name, sizeof name, "row '%.32s' of the table: read or ignored", rows[i].bits);
        check(read_or_ignored(&rows[i]), name);
    }
    printf("%d passed, %d failed\n", passed, failed);
    return failed == 0 ? 0 : 1;
}
