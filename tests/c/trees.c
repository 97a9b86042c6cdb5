/*
 * The words of include/guard.h about trees, against the archive. The rows of its table of bits by level come on standard input, a row
 * a line with tabs between its six columns, so that the table itself is what is compared. Prints 'ok NAME' or 'WRONG NAME', and a last
 * line 'N passed, M failed'.
 */
#include <stdio.h>
#include <stdlib.h>
#include <string.h>

#include "guard.h"

_Static_assert(GUARD_TABLE_ENTRIES == 512 && GUARD_DEPTH_MAX == 3 && GUARD_ENTRY_LARGE == 0x80, "as request K4 has them");

enum { TABLE = GUARD_TABLE_ENTRIES, MOST_TABLES = 6, RUN = MOST_TABLES * TABLE };
enum { PAGES = 1300, FRAMES = 1100, VECTOR = (FRAMES + 7) / 8, ROUNDS = 400, MOST_ROWS = 64 };

/* An entry's kind: a column of the table. */
enum { LEVEL_1, LEVEL_2, LARGE, LEVEL_3, KINDS };

/* A row of the table: its bits, and a word for each kind. */
struct row {
    char bits[64];
    unsigned first;
    unsigned last;
    char words[KINDS][64];
};

static struct row rows[MOST_ROWS];
static size_t row_count;
static int passed;
static int failed;

static void check(int right, const char *name)
{
    printf("%s %s\n", right ? "ok" : "WRONG", name);
    if (right)
        passed++;
    else
        failed++;
}

static _Noreturn void stop(const char *why, const char *what)
{
    printf("%s: %s\n0 passed, 1 failed\n", why, what);
    exit(1);
}

static uint64_t seed = 1;

static uint64_t word(void)
{
    seed ^= seed << 13;
    seed ^= seed >> 7;
    seed ^= seed << 17;
    return seed * UINT64_C(0x2545f4914f6cdd1d);
}

static uint64_t below(uint64_t limit)
{
    return (word() >> 16) % limit;
}

static void read_rows(void)
{
    char line[256];
    while (fgets(line, sizeof line, stdin)) {
        struct row r = {0};
        char name[64];
        char rest;
        if (sscanf(line, "%63[^\t]\t%63[^\t]\t%63[^\t]\t%63[^\t]\t%63[^\t]\t%63[^\t\n]", r.bits, name, r.words[LEVEL_1],
                   r.words[LEVEL_2], r.words[LARGE], r.words[LEVEL_3]) != 6)
            stop("not a row of six columns", line);
        if (sscanf(r.bits, "%u..%u%c", &r.first, &r.last, &rest) != 2) {
            if (sscanf(r.bits, "%u%c", &r.first, &rest) != 1)
                stop("not the bits of a row", r.bits);
            r.last = r.first;
        }
        if (row_count == MOST_ROWS || r.first > r.last || r.last > 63)
            stop("not the bits of a row", r.bits);
        rows[row_count++] = r;
    }
}

/* Every bit has one row, and the rows rise. */
static int every_bit(void)
{
    unsigned next = 0;
    for (size_t i = 0; i < row_count; i++) {
        if (rows[i].first != next)
            return 0;
        next = rows[i].last + 1;
    }
    return next == 64;
}

static uint64_t bits_of(const struct row *r)
{
    return UINT64_MAX >> (63 - r->last + r->first) << r->first;
}

static int kind_of(unsigned level, uint64_t entry)
{
    return level == 1 ? LEVEL_1 : level == 3 ? LEVEL_3 : entry & GUARD_ENTRY_LARGE ? LARGE : LEVEL_2;
}

/* Why a walk ended. */
enum { TOO_MANY_BITS, NOT_PRESENT, RESERVED, NOT_ALIGNED, OUTSIDE, PRESENT, LARGE_PRESENT, ENDS };

/* A walk by the table: what it gives, and the entries on its way. */
struct walk {
    uint64_t entry;
    uint64_t reads;
    int end;
    size_t way[GUARD_DEPTH_MAX];
    int kinds[GUARD_DEPTH_MAX];
};

static uint64_t tables[RUN];

static struct walk by_table(uint64_t count, uint64_t root, uint64_t depth, uint64_t page)
{
    struct walk w = {.end = TOO_MANY_BITS};
    if (page >> (9 * depth))
        return w;
    uint64_t table = root;
    uint64_t every = UINT64_MAX;
    uint64_t every_mask = 0;
    uint64_t made = 0;
    for (unsigned level = depth;; level--) {
        size_t place = table * TABLE + (page >> 9 * (level - 1) & 511);
        uint64_t entry = tables[place];
        int kind = kind_of(level, entry);
        w.way[w.reads] = place;
        w.kinds[w.reads] = kind;
        w.reads++;
        uint64_t next = 0;
        int goes_on = 0;
        for (size_t i = 0; i < row_count; i++) {
            const char *what = rows[i].words[kind];
            uint64_t mask = bits_of(&rows[i]);
            uint64_t value = entry & mask;
            if (strcmp(what, "every") == 0) {
                every &= value | ~mask;
                every_mask |= mask;
            } else if (strcmp(what, "any") == 0 || strcmp(what, "taken") == 0) {
                made |= value;
            } else if (strcmp(what, "next table") == 0) {
                next |= value >> 12;
                goes_on = 1;
            } else if (strcmp(what, "must be 1") == 0 || strcmp(what, "must be 0") == 0) {
                uint64_t needed = what[8] == '1' ? mask : 0;
                if (value != needed) {
                    w.end = needed ? NOT_PRESENT : rows[i].first < 52 ? NOT_ALIGNED : RESERVED;
                    return w;
                }
                made |= needed;
            } else if (strcmp(what, "ignored") != 0 && strcmp(what, value ? "1" : "0") != 0) {
                stop("a word of the table that this test does not know", what);
            }
        }
        if (!goes_on) {
            w.end = kind == LARGE ? LARGE_PRESENT : PRESENT;
            w.entry = made | (every & every_mask) | (kind == LARGE ? (page & 511) << 12 : 0);
            return w;
        }
        if (next >= count) {
            w.end = OUTSIDE;
            return w;
        }
        table = next;
    }
}

/* An entry that leads on mostly: its frame field is a table of the run or the next past it, a multiple of 512 or near it, or any. */
static uint64_t tree_entry(uint64_t count)
{
    uint64_t frame = below(count + 1);
    switch (below(8)) {
    case 0:
    case 1:
        frame = below(3) * 512;
        break;
    case 2:
        frame = below(3) * 512 | UINT64_C(1) << below(9);
        break;
    case 3:
        frame |= UINT64_C(1) << below(40);
        break;
    case 4:
        frame = word() & UINT64_C(0xffffffffff);
        break;
    }
    uint64_t entry = (word() & ~(UINT64_C(0x7ffffffffffff000))) | GUARD_ENTRY_OF_FRAME(frame);
    if (below(16) == 0)
        entry |= UINT64_C(1) << (52 + below(11));
    return below(12) ? entry | GUARD_ENTRY_PRESENT : entry & ~GUARD_ENTRY_PRESENT;
}

/* Tables of such entries: how many. */
static uint64_t plant(void)
{
    uint64_t count = 1 + below(MOST_TABLES);
    for (size_t i = 0; i < count * TABLE; i++)
        tables[i] = tree_entry(count);
    return count;
}

static uint64_t page_of(uint64_t depth)
{
    switch (below(16)) {
    case 0:
        return word();
    case 1:
        return (UINT64_C(1) << 9 * depth) | below(512);
    default:
        return below(UINT64_C(1) << 9 * depth);
    }
}

/* Walks at a depth: the flat entry and the entries read. Every way to end that the depth has comes. */
static int walked(uint64_t depth)
{
    unsigned ends[ENDS] = {0};
    for (int round = 0; round < ROUNDS; round++) {
        uint64_t count = plant();
        for (int i = 0; i < 200; i++) {
            uint64_t numbers[GUARD_NUMBERS] = {77, 88};
            uint64_t root = below(count);
            uint64_t page = page_of(depth);
            struct walk want = by_table(count, root, depth, page);
            uint64_t number = guard_walk(tables, count * TABLE, root, depth, page, numbers, GUARD_NUMBERS);
            if (number != GUARD_ACCEPTED || numbers[0] != want.entry || numbers[1] != want.reads || want.reads > depth)
                return 0;
            ends[want.end]++;
        }
    }
    for (int end = 0; end < ENDS; end++)
        if (ends[end] < 100 && !(depth == 1 && (end == NOT_ALIGNED || end == OUTSIDE || end == LARGE_PRESENT)))
            return 0;
    return 1;
}

/* Whether a walk gives something else where a bit of the one entry on its way is turned. */
static int turned(uint64_t depth, uint64_t page, size_t place, unsigned k)
{
    uint64_t one[GUARD_NUMBERS];
    uint64_t other[GUARD_NUMBERS];
    guard_walk(tables, RUN, 0, depth, page, one, GUARD_NUMBERS);
    tables[place] ^= UINT64_C(1) << k;
    guard_walk(tables, RUN, 0, depth, page, other, GUARD_NUMBERS);
    tables[place] ^= UINT64_C(1) << k;
    return memcmp(one, other, sizeof one) != 0;
}

/* A bit is ignored in a kind of entry where no walk depends on it, and in no other. An entry that a walk meets at two levels is of two
 * kinds, and is passed over. */
static int ignored(const struct row *r)
{
    for (unsigned k = r->first; k <= r->last; k++) {
        int depends[KINDS] = {0};
        for (int i = 0; i < 8000; i++) {
            if (i % 100 == 0)
                plant();
            uint64_t depth = 1 + below(GUARD_DEPTH_MAX);
            uint64_t page = below(UINT64_C(1) << 9 * depth);
            struct walk w = by_table(MOST_TABLES, 0, depth, page);
            for (size_t at = 0; at < w.reads; at++) {
                size_t met = 0;
                for (size_t other = 0; other < w.reads; other++)
                    met += w.way[other] == w.way[at];
                if (met == 1)
                    depends[w.kinds[at]] |= turned(depth, page, w.way[at], k);
            }
        }
        for (int kind = 0; kind < KINDS; kind++)
            if ((strcmp(r->words[kind], "ignored") == 0) == depends[kind])
                return 0;
    }
    return 1;
}

/* Question 17, for lengths around each number of tables, depths and roots around their ends. */
static int refused(void)
{
    for (uint64_t length = 0; length <= 3 * TABLE; length++)
        for (uint64_t depth = 0; depth <= 5; depth++)
            for (uint64_t root = 0; root <= 4; root++) {
                uint64_t numbers[GUARD_NUMBERS] = {77, 88};
                int fits = length % TABLE == 0 && depth >= 1 && depth <= 3 && root < length / TABLE;
                uint64_t number = guard_walk(tables, length, root, depth, UINT64_MAX, numbers, GUARD_NUMBERS);
                if (number != (fits ? GUARD_ACCEPTED : GUARD_TREE) || numbers[0] != 0 || numbers[1] != 0)
                    return 0;
            }
    return 1;
}

struct guard {
    uint64_t state[GUARD_STATE_WORDS];
    uint64_t numbers[GUARD_NUMBERS];
    uint64_t shadow[PAGES];
    uint16_t map[PAGES];
    uint8_t exclusion[VECTOR];
};

/* Entry pages 0 and 600 on frames 2 and 515; the mode's word replaced. */
static struct guard started(int user)
{
    static const uint8_t policy[16] = {PAGES & 255, PAGES >> 8, FRAMES & 255, FRAMES >> 8, 2, 0, 2, 0, 0, 0, 600 & 255, 600 >> 8, 2, 0,
                                       515 & 255,   515 >> 8};
    struct guard g = {0};
    if (guard_start(policy, sizeof policy, 1, g.state, GUARD_STATE_WORDS, g.shadow, PAGES, g.map, PAGES, g.exclusion, VECTOR,
                    g.numbers, GUARD_NUMBERS) != GUARD_ACCEPTED)
        stop("the start", "refused");
    g.state[GUARD_STATE_MODE] = user ? GUARD_MODE_USER : GUARD_MODE_KERNEL;
    return g;
}

/* The same with a frame pending that pages of the trees have. */
static struct guard with_pending(int user)
{
    struct guard g = started(user);
    if (guard_ask(g.state, GUARD_STATE_WORDS, g.shadow, PAGES, g.map, PAGES, g.exclusion, VECTOR, PAGES - 1, 3, g.numbers,
                  GUARD_NUMBERS) != GUARD_ACCEPTED)
        stop("the ask", "refused");
    return g;
}

/* A synchronisation from a tree leaves what one from the flat entries of its walks leaves, and gives the same numbers. */
static int synchronised(int user, int all)
{
    static uint64_t flat[PAGES];
    static struct guard one;
    static struct guard other;
    uint64_t changed = 0;
    uint64_t joined = 0;
    uint64_t pending = 0;
    for (int round = 0; round < ROUNDS; round++) {
        /* begin anew at times, since a page stays approved */
        if (round % 4 == 0)
            one = other = round % 8 == 0 ? started(user) : with_pending(user);
        uint64_t count = plant();
        uint64_t root = below(count);
        uint64_t depth = 1 + below(GUARD_DEPTH_MAX);
        for (uint64_t page = 0; page < PAGES; page++)
            flat[page] = by_table(count, root, depth, page).entry;
        for (uint64_t page = below(8); page < PAGES; page += all ? PAGES : 9) {
            uint64_t number;
            uint64_t want;
            if (all) {
                number = guard_sync_all_tree(one.state, GUARD_STATE_WORDS, tables, count * TABLE, root, depth, one.shadow, PAGES,
                                             one.map, PAGES, one.exclusion, VECTOR, one.numbers, GUARD_NUMBERS);
                want = guard_sync_all(other.state, GUARD_STATE_WORDS, flat, PAGES, other.shadow, PAGES, other.map, PAGES,
                                      other.exclusion, VECTOR, other.numbers, GUARD_NUMBERS);
            } else {
                number = guard_sync_page_tree(one.state, GUARD_STATE_WORDS, tables, count * TABLE, root, depth, one.shadow, PAGES,
                                              one.map, PAGES, one.exclusion, VECTOR, page, one.numbers, GUARD_NUMBERS);
                want = guard_sync_page(other.state, GUARD_STATE_WORDS, flat, PAGES, other.shadow, PAGES, other.map, PAGES,
                                       other.exclusion, VECTOR, page, other.numbers, GUARD_NUMBERS);
            }
            if (number != want || memcmp(&one, &other, sizeof one) != 0)
                return 0;
            changed += one.numbers[0];
            joined += one.numbers[1];
            /* present, read-only and not approved, with bit 9 and frame 3 */
            for (uint64_t at = page; at < (all ? PAGES : page + 1); at++)
                pending += one.state[GUARD_STATE_PENDING] && (one.shadow[at] & 0x000ffffffffff603) == 0x3201;
        }
    }
    return changed > 1000 && joined > 100 && pending > 10;
}

int main(void)
{
    char name[128];
    read_rows();
    check(every_bit(), "the table by level has every bit once");
    for (unsigned depth = 1; depth <= GUARD_DEPTH_MAX; depth++) {
        snprintf(name, sizeof name, "walks at depth %u", depth);
        check(walked(depth), name);
    }
    check(refused(), "runs, depths and roots that give 17");
    for (int user = 0; user < 2; user++) {
        check(synchronised(user, 0), user ? "pages from trees in user mode" : "pages from trees in kernel mode");
        check(synchronised(user, 1), user ? "all pages from trees in user mode" : "all pages from trees in kernel mode");
    }
    for (size_t i = 0; i < row_count; i++) {
        snprintf(name, sizeof name, "row '%.32s' of the table by level: ignored or not", rows[i].bits);
        check(ignored(&rows[i]), name);
    }
    printf("%d passed, %d failed\n", passed, failed);
    return failed == 0 ? 0 : 1;
}
