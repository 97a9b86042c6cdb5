// The header and the archive from C++: the start and one synchronised page of document 01's policy (C1 and C2), the same page from a
// tree, a transfer of two devices, and a driver that is asked for, dropped and committed, by their C names.
#include <cstdio>

#include "guard.h"

namespace {

int passed;
int failed;

void check(const char *name, bool right)
{
    std::printf("%s %s\n", right ? "ok" : "WRONG", name);
    (right ? passed : failed)++;
}

} // namespace

int main()
{
    const uint8_t policy[] = {4, 0, 4, 0, 1, 0, 1, 0, 1, 0, 2, 0};
    const uint64_t kernel[4] = {0x2003, 0, 0, 0};
    uint64_t state[GUARD_STATE_WORDS] = {};
    uint64_t shadow[4] = {9, 9, 9, 9};
    uint16_t map[4] = {9, 9, 9, 9};
    uint8_t exclusion[1] = {255};
    uint64_t numbers[GUARD_NUMBERS] = {77, 88};

    uint64_t number = guard_start(policy, sizeof policy, 2, state, GUARD_STATE_WORDS, shadow, 4, map, 4, exclusion, 1, numbers,
                                  GUARD_NUMBERS);
    check("C++: start is accepted", number == GUARD_ACCEPTED && numbers[0] == 1 && numbers[1] == 1);
    check("C++: start leaves the tables of C1", shadow[0] == 0 && shadow[1] == 0x2401 && map[1] == 2 && exclusion[0] == 0x04 &&
                                                    state[GUARD_STATE_RUNNING] == 1 && state[GUARD_STATE_DEVICES] == 2);
    number = guard_sync_page(state, GUARD_STATE_WORDS, kernel, 4, shadow, 4, map, 4, exclusion, 1, 0, numbers, GUARD_NUMBERS);
    check("C++: page 0 joins as in C2",
          number == GUARD_ACCEPTED && numbers[0] == 1 && numbers[1] == 1 && shadow[0] == 0x2401 && map[0] == 2);
    number = guard_sync_page(state, GUARD_STATE_WORDS, kernel, 4, shadow, 4, map, 4, exclusion, 1, 4, numbers, GUARD_NUMBERS);
    check("C++: page 4 gives 9", number == GUARD_DOES_NOT_EXIST && numbers[0] == 0 && numbers[1] == 0);

    static uint64_t tables[2 * GUARD_TABLE_ENTRIES];
    tables[0] = GUARD_ENTRY_OF_FRAME(1) | GUARD_ENTRY_PRESENT;
    tables[GUARD_TABLE_ENTRIES] = 0x2003;
    number = guard_walk(tables, 2 * GUARD_TABLE_ENTRIES, 0, 2, 0, numbers, GUARD_NUMBERS);
    check("C++: a walk of two entries", number == GUARD_ACCEPTED && numbers[0] == 0x2001 && numbers[1] == 2);
    shadow[0] = 0;
    map[0] = GUARD_MAP_NONE;
    number = guard_sync_page_tree(state, GUARD_STATE_WORDS, tables, 2 * GUARD_TABLE_ENTRIES, 0, 2, shadow, 4, map, 4, exclusion, 1, 0,
                                  numbers, GUARD_NUMBERS);
    check("C++: page 0 joins from a tree",
          number == GUARD_ACCEPTED && numbers[0] == 1 && numbers[1] == 1 && shadow[0] == 0x2401 && map[0] == 2);
    number = guard_sync_all_tree(state, GUARD_STATE_WORDS, tables, 2 * GUARD_TABLE_ENTRIES, 2, GUARD_DEPTH_MAX, shadow, 4, map, 4,
                                 exclusion, 1, numbers, GUARD_NUMBERS);
    check("C++: root 2 of 2 gives 17", number == GUARD_TREE && numbers[0] == 0 && numbers[1] == 0 && shadow[0] == 0x2401);

    guard_device cards[2] = {};
    cards[0].last = 1;
    cards[1].first = cards[1].last = 3;
    number = guard_device_write(state, GUARD_STATE_WORDS, exclusion, 1, cards, 2, 1, 12288, 4096, numbers, GUARD_NUMBERS);
    check("C++: device 1 writes to its window", number == GUARD_ACCEPTED && numbers[0] == 3 && numbers[1] == 3);
    number = guard_device_write(state, GUARD_STATE_WORDS, exclusion, 1, cards, 2, 0, 12288, 4096, numbers, GUARD_NUMBERS);
    check("C++: device 0 there gives 19", number == GUARD_OUTSIDE_WINDOW && numbers[0] == 0 && numbers[1] == 0);

    number = guard_ask(state, GUARD_STATE_WORDS, shadow, 4, map, 4, exclusion, 1, 3, 1, numbers, GUARD_NUMBERS);
    check("C++: ask for page 3 with frame 1", number == GUARD_ACCEPTED && exclusion[0] == 0x06 && state[GUARD_STATE_PENDING] == 1 &&
                                                  state[GUARD_STATE_PENDING_PAGE] == 3 && state[GUARD_STATE_PENDING_FRAME] == 1);
    number = guard_drop(state, GUARD_STATE_WORDS, exclusion, 1, numbers, GUARD_NUMBERS);
    check("C++: drop", number == GUARD_ACCEPTED && exclusion[0] == 0x04 && state[GUARD_STATE_PENDING] == 0);
    number = guard_commit(state, GUARD_STATE_WORDS, shadow, 4, map, 4, numbers, GUARD_NUMBERS);
    check("C++: commit with nothing pending gives 22", number == GUARD_NOTHING_PENDING && map[3] == GUARD_MAP_NONE);
    guard_ask(state, GUARD_STATE_WORDS, shadow, 4, map, 4, exclusion, 1, 3, 1, numbers, GUARD_NUMBERS);
    number = guard_commit(state, GUARD_STATE_WORDS, shadow, 4, map, 4, numbers, GUARD_NUMBERS);
    check("C++: commit", number == GUARD_ACCEPTED && numbers[0] == 1 && numbers[1] == 1 && shadow[3] == 0x1401 && map[3] == 1);
    std::printf("%d passed, %d failed\n", passed, failed);
    return failed == 0 ? 0 : 1;
}
