/*
 * K5 through the C boundary: the struct of a device, the number of devices that a start is given, a music card and a billing card
 * with their windows, lists of other lengths, and state runs with no such number. After each call the returned number, both
 * numbers and every run are compared.
 */
#include <stdio.h>
#include <string.h>

#include "guard.h"

/* A list crosses as it lies in memory. */
_Static_assert(sizeof(struct guard_device) == 4 && _Alignof(struct guard_device) == 2, "a device has two numbers of 16 bits");
_Static_assert(offsetof(struct guard_device, first) == 0 && offsetof(struct guard_device, last) == 2, "the first one comes first");
_Static_assert(GUARD_STATE_DEVICES == 21 && GUARD_DEVICES_MAX == 64, "the word and its range");

enum { PAGES = 4, FRAMES = 16, VECTOR = 2, FRAME = 4096, TABLE = GUARD_TABLE_ENTRIES, MOST = 65, WORDS = GUARD_STATE_WORDS };

/* The devices of the list, and how many they are. */
enum { MUSIC, BILLING, CLOSED, OPEN, BEYOND, DEVICES };

/* Every run that the caller holds. */
struct guard {
    uint64_t state[GUARD_STATE_WORDS];
    uint64_t numbers[GUARD_NUMBERS];
    uint64_t kernel[PAGES];
    uint64_t shadow[PAGES];
    uint16_t map[PAGES];
    uint8_t exclusion[VECTOR];
    struct guard_device devices[MOST];
};

static int passed;
static int failed;

static void tell(const char *name, int right)
{
    printf("%s %s\n", right ? "ok" : "WRONG", name);
    if (right)
        passed++;
    else
        failed++;
}

static int same(const struct guard *g, const struct guard *want)
{
    return memcmp(g->state, want->state, sizeof g->state) == 0 && memcmp(g->numbers, want->numbers, sizeof g->numbers) == 0 &&
           memcmp(g->kernel, want->kernel, sizeof g->kernel) == 0 && memcmp(g->shadow, want->shadow, sizeof g->shadow) == 0 &&
           memcmp(g->map, want->map, sizeof g->map) == 0 && memcmp(g->exclusion, want->exclusion, sizeof g->exclusion) == 0 &&
           memcmp(g->devices, want->devices, sizeof g->devices) == 0;
}

/* Numbers that no call leaves, so that a call that does not write them is seen. */
static struct guard ready(const struct guard *before)
{
    struct guard g = *before;
    g.numbers[0] = 77;
    g.numbers[1] = 88;
    return g;
}

/* A call is right where it returned this number and left these two numbers, and everything else as it was before. */
static int answered(uint64_t number, uint64_t want_number, uint64_t first, uint64_t last, const struct guard *g,
                    const struct guard *before)
{
    struct guard want = *before;
    want.numbers[0] = first;
    want.numbers[1] = last;
    return number == want_number && same(g, &want);
}

static int refused(uint64_t number, uint64_t want_number, const struct guard *g, const struct guard *before)
{
    return answered(number, want_number, 0, 0, g, before);
}

/* Page 1 with frame 2, an entry page, and page 2 with frame 8. */
static const uint8_t policy[16] = {PAGES, 0, FRAMES, 0, 2, 0, 1, 0, 1, 0, 2, 0, 2, 0, 8, 0};

/* Just started, with five devices. The list has room for more, which no call is lent unless a test says so. */
static const struct guard started = {
    .state = {PAGES, FRAMES, 1, 1, [GUARD_STATE_MODE] = GUARD_MODE_KERNEL, 1, DEVICES},
    .numbers = {2, 1},
    .kernel = {0, 0x2001, 0x8001, 0x3007},
    .shadow = {0, 0x2401, 0x8401, 0},
    .map = {65535, 2, 8, 65535},
    .exclusion = {0x04, 0x01},
    .devices = {[MUSIC] = {.first = 4, .last = 7},
                [BILLING] = {.first = 9, .last = 9},
                [CLOSED] = {.first = 8, .last = 7},
                [OPEN] = {.first = 0, .last = 15},
                [BEYOND] = {.first = 10, .last = 65535}},
};

static uint64_t start(struct guard *g, size_t length, uint64_t devices, size_t words)
{
    return guard_start(policy, length, devices, g->state, words, g->shadow, PAGES, g->map, PAGES, g->exclusion, VECTOR, g->numbers,
                       GUARD_NUMBERS);
}

/* A device write with a list of this length. */
static uint64_t write_by(struct guard *g, size_t list, uint64_t device, uint64_t address, uint64_t length)
{
    return guard_device_write(g->state, GUARD_STATE_WORDS, g->exclusion, VECTOR, g->devices, list, device, address, length,
                              g->numbers, GUARD_NUMBERS);
}

static void accepted_starts(void)
{
    static const uint64_t counts[] = {1, 2, 63, 64};
    for (size_t i = 0; i < sizeof counts / sizeof counts[0]; i++) {
        char full[80];
        struct guard want = started;
        struct guard g = ready(&want);
        memset(g.state, 9, sizeof g.state);
        memset(g.shadow, 9, sizeof g.shadow);
        memset(g.map, 9, sizeof g.map);
        memset(g.exclusion, 9, sizeof g.exclusion);
        want.state[GUARD_STATE_DEVICES] = counts[i];
        uint64_t number = start(&g, sizeof policy, counts[i], GUARD_STATE_WORDS);
        snprintf(full, sizeof full, "start with %u devices", (unsigned)counts[i]);
        tell(full, number == GUARD_ACCEPTED && same(&g, &want));
    }
}

static void refused_starts(void)
{
    static const struct {
        const char *name;
        size_t length;
        uint64_t devices;
        size_t words;
        uint64_t number;
    } refusals[] = {
        {"0 devices gives 3", 16, 0, WORDS, GUARD_COUNT_OUT_OF_RANGE},
        {"65 devices gives 3", 16, 65, WORDS, GUARD_COUNT_OUT_OF_RANGE},
        {"65536 devices gives 3", 16, 65536, WORDS, GUARD_COUNT_OUT_OF_RANGE},
        {"65537 devices gives 3", 16, 65537, WORDS, GUARD_COUNT_OUT_OF_RANGE},
        {"2^32 + 1 devices gives 3", 16, 4294967297, WORDS, GUARD_COUNT_OUT_OF_RANGE},
        {"2^64 - 1 devices gives 3", 16, UINT64_MAX, WORDS, GUARD_COUNT_OUT_OF_RANGE},
        {"0 devices and a record of 15 bytes gives 3", 15, 0, WORDS, GUARD_COUNT_OUT_OF_RANGE},
        {"65 devices and a state run of 21 words gives 3", 16, 65, 21, GUARD_COUNT_OUT_OF_RANGE},
        {"0 devices and a record of 7 bytes gives 1", 7, 0, WORDS, GUARD_RECORD_TOO_SHORT},
        {"5 devices and a record of 15 bytes gives 4", 15, 5, WORDS, GUARD_RECORD_LENGTH},
        {"a state run of 21 words gives 7", 16, 5, 21, GUARD_STATE_OR_TABLE},
    };
    const struct guard before = started;
    for (size_t i = 0; i < sizeof refusals / sizeof refusals[0]; i++) {
        char full[80];
        struct guard g = ready(&before);
        uint64_t number = start(&g, refusals[i].length, refusals[i].devices, refusals[i].words);
        snprintf(full, sizeof full, "start with %s", refusals[i].name);
        tell(full, refused(number, refusals[i].number, &g, &before));
    }
    static const uint8_t no_frames[16] = {PAGES, 0, 0, 0, 2, 0, 1, 0, 1, 0, 2, 0, 2, 0, 8, 0};
    struct guard g = ready(&before);
    uint64_t number = guard_start(no_frames, sizeof no_frames, 0, g.state, GUARD_STATE_WORDS, g.shadow, PAGES, g.map, PAGES,
                                  g.exclusion, VECTOR, g.numbers, GUARD_NUMBERS);
    tell("start with 0 devices and F 0 gives 2", refused(number, GUARD_SIZE_OUT_OF_RANGE, &g, &before));
}

static void windows(void)
{
    static const struct {
        const char *name;
        uint64_t device;
        uint64_t address;
        uint64_t length;
        uint64_t number;
        uint64_t first;
        uint64_t last;
    } writes[] = {
        {"the whole window", MUSIC, 4 * FRAME, 4 * FRAME, 0, 4, 7},
        {"the window's first byte", MUSIC, 4 * FRAME, 1, 0, 4, 4},
        {"the window's last byte", MUSIC, 8 * FRAME - 1, 1, 0, 7, 7},
        {"two frames of the window", MUSIC, 6 * FRAME - 1, 2, 0, 5, 6},
        {"the byte before the window", MUSIC, 4 * FRAME - 1, 1, GUARD_OUTSIDE_WINDOW, 0, 0},
        {"across the window's beginning", MUSIC, 4 * FRAME - 1, 2, GUARD_OUTSIDE_WINDOW, 0, 0},
        {"across the window's end", MUSIC, 8 * FRAME - 1, 2, GUARD_OUTSIDE_WINDOW, 0, 0},
        {"the byte after the window", MUSIC, 8 * FRAME, 1, GUARD_OUTSIDE_WINDOW, 0, 0},
        {"around the window", MUSIC, 3 * FRAME, 6 * FRAME, GUARD_OUTSIDE_WINDOW, 0, 0},
        {"another device's window", MUSIC, 9 * FRAME, 1, GUARD_OUTSIDE_WINDOW, 0, 0},
        {"a window of one frame", BILLING, 9 * FRAME, FRAME, 0, 9, 9},
        {"a byte more than that", BILLING, 9 * FRAME, FRAME + 1, GUARD_OUTSIDE_WINDOW, 0, 0},
        {"first above last, at last", CLOSED, 7 * FRAME, 1, GUARD_OUTSIDE_WINDOW, 0, 0},
        {"first above last, at first", CLOSED, 8 * FRAME, 1, GUARD_OUTSIDE_WINDOW, 0, 0},
        {"first above last, from last to first", CLOSED, 7 * FRAME, 2 * FRAME, GUARD_OUTSIDE_WINDOW, 0, 0},
        {"a window of all frames", OPEN, 15 * FRAME, FRAME, 0, 15, 15},
        {"an excluded frame in a window", OPEN, 2 * FRAME, 1, GUARD_EXCLUDED, 0, 0},
        {"an excluded frame within a transfer", OPEN, 7 * FRAME, 3 * FRAME, GUARD_EXCLUDED, 0, 0},
        {"the last frame of a window that reaches beyond", BEYOND, 15 * FRAME, FRAME, 0, 15, 15},
        {"beyond the last frame", BEYOND, 16 * FRAME, 1, GUARD_DOES_NOT_EXIST, 0, 0},
        {"device 5 of 5", DEVICES, 4 * FRAME, 1, GUARD_NO_DEVICE, 0, 0},
        {"device 65536", 65536, 4 * FRAME, 1, GUARD_NO_DEVICE, 0, 0},
        {"device 2^32", 4294967296, 4 * FRAME, 1, GUARD_NO_DEVICE, 0, 0},
        {"device 2^64 - 1", UINT64_MAX, 4 * FRAME, 1, GUARD_NO_DEVICE, 0, 0},
        {"8 is asked before 18", DEVICES, 4 * FRAME, 0, GUARD_LENGTH_OUT_OF_RANGE, 0, 0},
        {"8 is asked before 18, of a long one", DEVICES, 4 * FRAME, 1048577, GUARD_LENGTH_OUT_OF_RANGE, 0, 0},
        {"18 is asked before 9", DEVICES, UINT64_MAX, 1048576, GUARD_NO_DEVICE, 0, 0},
        {"18 is asked before 13", DEVICES, 2 * FRAME, 1, GUARD_NO_DEVICE, 0, 0},
        {"9 is asked before 19", CLOSED, 16 * FRAME - 1, 2, GUARD_DOES_NOT_EXIST, 0, 0},
        {"9 is asked before 19, near 2^64", MUSIC, UINT64_MAX, 1048576, GUARD_DOES_NOT_EXIST, 0, 0},
        {"19 is asked before 13", MUSIC, 2 * FRAME, 1, GUARD_OUTSIDE_WINDOW, 0, 0},
    };
    const struct guard before = started;
    for (size_t i = 0; i < sizeof writes / sizeof writes[0]; i++) {
        char full[80];
        struct guard g = ready(&before);
        uint64_t number = write_by(&g, DEVICES, writes[i].device, writes[i].address, writes[i].length);
        snprintf(full, sizeof full, "device write: %s (%u)", writes[i].name, (unsigned)writes[i].number);
        tell(full, answered(number, writes[i].number, writes[i].first, writes[i].last, &g, &before));
    }
}

/* What a device write should answer, by the request's words; lengths are in range. */
static uint64_t by_words(const struct guard *g, uint64_t device, uint64_t address, uint64_t length)
{
    uint64_t first = address / FRAME;
    uint64_t last = (address + length - 1) / FRAME;
    if (last >= FRAMES)
        return GUARD_DOES_NOT_EXIST;
    if (first < g->devices[device].first || last > g->devices[device].last)
        return GUARD_OUTSIDE_WINDOW;
    for (uint64_t frame = first; frame <= last; frame++)
        if (frame == 2 || frame == 8)
            return GUARD_EXCLUDED;
    return GUARD_ACCEPTED;
}

/* Every device's answers to transfers from every frame on, of up to three frames and a byte more, are those of the request. */
static int follow(const struct guard *before)
{
    for (uint64_t device = 0; device < DEVICES; device++)
        for (uint64_t frame = 0; frame <= FRAMES; frame++)
            for (uint64_t length = FRAME; length <= 3 * FRAME + 1; length += length % FRAME == 0 ? 1 : FRAME - 1) {
                struct guard g = ready(before);
                uint64_t want = by_words(before, device, frame * FRAME, length);
                uint64_t last = frame + (length - 1) / FRAME;
                int is_accepted = want == GUARD_ACCEPTED;
                uint64_t number = write_by(&g, DEVICES, device, frame * FRAME, length);
                if (!answered(number, want, is_accepted ? frame : 0, is_accepted ? last : 0, &g, before))
                    return 0;
            }
    return 1;
}

/* The answers that do not change are compared with those of the guard before, and not with what they should be. */
static int others_keep(const struct guard *before, const struct guard *after, uint64_t changed)
{
    for (uint64_t device = 0; device < DEVICES; device++)
        for (uint64_t address = 0; device != changed && address <= FRAMES * FRAME; address += FRAME / 2)
            for (uint64_t length = 1; length <= 4 * FRAME; length += FRAME - 1) {
                struct guard one = ready(before);
                struct guard other = ready(after);
                uint64_t number = write_by(&one, DEVICES, device, address, length);
                if (write_by(&other, DEVICES, device, address, length) != number ||
                    memcmp(one.numbers, other.numbers, sizeof one.numbers) != 0)
                    return 0;
            }
    return 1;
}

/* "Changing one device's window changes no answer given to another." Both cards get every window from frame 0 to two past the last. */
static void other_windows(void)
{
    static const char *const names[] = {[MUSIC] = "music", [BILLING] = "billing"};
    for (uint64_t card = MUSIC; card <= BILLING; card++) {
        char full[80];
        int followed = 1;
        int kept = 1;
        for (unsigned first = 0; first < FRAMES + 2; first++)
            for (unsigned last = 0; last < FRAMES + 2; last++) {
                struct guard g = started;
                g.devices[card] = (struct guard_device){.first = first, .last = last};
                followed = followed && follow(&g);
                kept = kept && others_keep(&started, &g, card);
            }
        snprintf(full, sizeof full, "every window of the %s card", names[card]);
        tell(full, followed);
        snprintf(full, sizeof full, "no window of the %s card changes an answer to another", names[card]);
        tell(full, kept);
    }
}

/* A list of another length gives 7, before 8 and 18. */
static void other_lists(void)
{
    static const size_t lengths[] = {0, 1, 4, 6, 64, 65};
    const struct guard before = started;
    for (size_t i = 0; i < sizeof lengths / sizeof lengths[0]; i++) {
        char full[80];
        struct guard g = ready(&before);
        uint64_t number = write_by(&g, lengths[i], MUSIC, 4 * FRAME, 1);
        int right = refused(number, GUARD_STATE_OR_TABLE, &g, &before);
        g = ready(&before);
        number = write_by(&g, lengths[i], 65, 4 * FRAME, 0);
        snprintf(full, sizeof full, "device write: a list of %u for 5 devices gives 7", (unsigned)lengths[i]);
        tell(full, right && refused(number, GUARD_STATE_OR_TABLE, &g, &before));
    }
}

/* The longest list: device i has frame i mod 16 alone. */
static void most_devices(void)
{
    struct guard before = started;
    int right = 1;
    before.state[GUARD_STATE_DEVICES] = 64;
    for (unsigned i = 0; i < 64; i++)
        before.devices[i] = (struct guard_device){.first = i % 16, .last = i % 16};
    for (uint64_t device = 0; device < 64; device++)
        for (uint64_t frame = 0; frame < FRAMES; frame++) {
            struct guard g = ready(&before);
            uint64_t want = frame != device % 16        ? GUARD_OUTSIDE_WINDOW
                            : frame == 2 || frame == 8 ? GUARD_EXCLUDED
                                                       : GUARD_ACCEPTED;
            uint64_t number = write_by(&g, 64, device, frame * FRAME, FRAME);
            uint64_t shown = want == GUARD_ACCEPTED ? frame : 0;
            right = right && answered(number, want, shown, shown, &g, &before);
        }
    tell("each of 64 devices writes to its own frame", right);
    struct guard g = ready(&before);
    tell("device 64 of 64 gives 18", refused(write_by(&g, 64, 64, 0, 1), GUARD_NO_DEVICE, &g, &before));
}

/* Every call on a state gives 7, with these words of it. */
static int all_give_7(const struct guard *before, size_t words, size_t list)
{
    static const uint64_t tables[TABLE] = {0x3007};
    int right = 1;
    for (int call = 0; call < 12; call++) {
        struct guard g = ready(before);
        uint64_t number = 0;
        switch (call) {
        case 0:
            number = guard_sync_page(g.state, words, g.kernel, PAGES, g.shadow, PAGES, g.map, PAGES, g.exclusion, VECTOR, 3,
                                     g.numbers, GUARD_NUMBERS);
            break;
        case 1:
            number = guard_sync_all(g.state, words, g.kernel, PAGES, g.shadow, PAGES, g.map, PAGES, g.exclusion, VECTOR, g.numbers,
                                    GUARD_NUMBERS);
            break;
        case 2:
            number = guard_sync_page_tree(g.state, words, tables, TABLE, 0, 1, g.shadow, PAGES, g.map, PAGES, g.exclusion, VECTOR,
                                          0, g.numbers, GUARD_NUMBERS);
            break;
        case 3:
            number = guard_sync_all_tree(g.state, words, tables, TABLE, 0, 1, g.shadow, PAGES, g.map, PAGES, g.exclusion, VECTOR,
                                         g.numbers, GUARD_NUMBERS);
            break;
        case 4:
            number = guard_fetch(g.state, words, g.shadow, PAGES, 1, g.numbers, GUARD_NUMBERS);
            break;
        case 5:
            number = guard_write(g.state, words, g.shadow, PAGES, g.exclusion, VECTOR, 0, 1, g.numbers, GUARD_NUMBERS);
            break;
        case 6:
            number = guard_enter(g.state, words, g.shadow, PAGES, 0, g.numbers, GUARD_NUMBERS);
            break;
        case 7:
            number = guard_leave(g.state, words, g.shadow, PAGES, 1, g.numbers, GUARD_NUMBERS);
            break;
        case 8:
            number = guard_device_write(g.state, words, g.exclusion, VECTOR, g.devices, list, MUSIC, 4 * FRAME, 1, g.numbers,
                                        GUARD_NUMBERS);
            break;
        case 9:
            number = guard_ask(g.state, words, g.shadow, PAGES, g.map, PAGES, g.exclusion, VECTOR, 0, 3, g.numbers, GUARD_NUMBERS);
            break;
        case 10:
            number = guard_commit(g.state, words, g.shadow, PAGES, g.map, PAGES, g.numbers, GUARD_NUMBERS);
            break;
        default:
            number = guard_drop(g.state, words, g.exclusion, VECTOR, g.numbers, GUARD_NUMBERS);
        }
        right = right && refused(number, GUARD_STATE_OR_TABLE, &g, before);
    }
    return right;
}

/* State runs of an older version, and a number of devices that is out of its range or wider than 16 bits, with a list that may seem to
 * fit. */
static void refused_states(void)
{
    static const struct {
        const char *name;
        uint64_t devices;
        size_t words;
        size_t list;
    } states[] = {
        {"a state run of 21 words", DEVICES, 21, DEVICES},
        {"a state run of 20 words", DEVICES, 20, DEVICES},
        {"0 devices, and an empty list", 0, WORDS, 0},
        {"65 devices, and as many in the list", 65, WORDS, 65},
        {"65541 devices, and 5 in the list", 65536 + DEVICES, WORDS, DEVICES},
        {"2^32 + 5 devices, and 5 in the list", 4294967296 + DEVICES, WORDS, DEVICES},
        {"2^64 - 1 devices, and 5 in the list", UINT64_MAX, WORDS, DEVICES},
    };
    for (size_t i = 0; i < sizeof states / sizeof states[0]; i++) {
        char full[80];
        struct guard before = started;
        before.state[GUARD_STATE_DEVICES] = states[i].devices;
        snprintf(full, sizeof full, "every call: %s gives 7", states[i].name);
        tell(full, all_give_7(&before, states[i].words, states[i].list));
    }
}

int main(void)
{
    accepted_starts();
    refused_starts();
    windows();
    other_windows();
    other_lists();
    most_devices();
    refused_states();
    printf("%d passed, %d failed\n", passed, failed);
    return failed == 0 ? 0 : 1;
}
