/*
 * How many bytes of stack each exported function takes at most. Each is called on a painted stack, on the largest tables, by
 * calls that it accepts and calls that it refuses, and what it overwrote is looked at afterwards: bytes below the stack pointer of
 * the call instruction, so return addresses, frames and the red zone count, and arguments on the stack do not.
 * Prints 'NAME BYTES' for each function. memcpy and memset are the program's own and take no stack but their return address.
 */
#include <stdio.h>
#include <stdlib.h>
#include <string.h>

#include "guard.h"

/* V, F, n and e at their largest, and the lengths that follow. */
enum { PAGES = 2048, FRAMES = 4096, ENTRIES = 16, VECTOR = FRAMES / 8, RECORD = 8 + 4 * PAGES, DEVICES = GUARD_DEVICES_MAX };
enum { STACK = 65536, MOST_WORDS = 16 };

/* The tables of a tree: a root, a directory, and one for each 512 pages. */
enum { TABLES = 2 + PAGES / GUARD_TABLE_ENTRIES, RUN = TABLES * GUARD_TABLE_ENTRIES };

/* A call: the function, its arguments in order, and after it what it returned and the stack pointer of its call instruction. */
struct call {
    uint64_t function;
    uint64_t count;
    uint64_t words[MOST_WORDS];
    uint64_t result;
    uint64_t pointer;
};

_Static_assert(offsetof(struct call, words) == 16 && offsetof(struct call, result) == 144, "the places that call_on takes");
_Static_assert(offsetof(struct call, pointer) == 152, "the place of the stack pointer");

/* Makes the call by the System V convention on the stack below top, which is a multiple of 16. */
void call_on(struct call *call, void *top);

__asm__(".text\n"
        ".globl call_on\n"
        "call_on:\n"
        "    push %rbp\n"
        "    push %rbx\n"
        "    mov %rsp, %rbp\n"
        "    mov %rdi, %rbx\n"
        "    mov %rsi, %rsp\n"
        "    mov 8(%rbx), %rax\n"
        "    cmp $6, %rax\n"
        "    jbe 2f\n"
        /* an odd number of words on the stack: one more keeps it a multiple of 16 */
        "    test $1, %al\n"
        "    jz 1f\n"
        "    sub $8, %rsp\n"
        "1:  pushq 8(%rbx,%rax,8)\n"
        "    dec %rax\n"
        "    cmp $6, %rax\n"
        "    ja 1b\n"
        "2:  mov 16(%rbx), %rdi\n"
        "    mov 24(%rbx), %rsi\n"
        "    mov 32(%rbx), %rdx\n"
        "    mov 40(%rbx), %rcx\n"
        "    mov 48(%rbx), %r8\n"
        "    mov 56(%rbx), %r9\n"
        "    mov %rsp, 152(%rbx)\n"
        "    call *(%rbx)\n"
        "    mov %rax, 144(%rbx)\n"
        "    mov %rbp, %rsp\n"
        "    pop %rbx\n"
        "    pop %rbp\n"
        "    ret\n"
        /* what the archive asks of its caller */
        ".globl memcpy\n"
        "memcpy:\n"
        "    mov %rdi, %rax\n"
        "    mov %rdx, %rcx\n"
        "    rep movsb\n"
        "    ret\n"
        ".globl memset\n"
        "memset:\n"
        "    mov %rdi, %r8\n"
        "    mov %esi, %eax\n"
        "    mov %rdx, %rcx\n"
        "    rep stosb\n"
        "    mov %r8, %rax\n"
        "    ret\n");

static uint64_t state[GUARD_STATE_WORDS];
static uint64_t numbers[GUARD_NUMBERS];
static uint64_t kernel[PAGES];
static uint64_t tables[RUN];
static uint64_t shadow[PAGES];
static uint16_t map[PAGES];
static uint8_t exclusion[VECTOR];
static struct guard_device devices[DEVICES];
static uint8_t policy[RECORD];
static uint16_t listed_pages[PAGES];
static uint16_t listed_frames[PAGES];
static _Alignas(16) uint8_t stack[STACK];

static uint64_t deepest;
static uint64_t accepted;
static uint64_t refused;

/* The bytes that one call overwrote, from the lowest on, where the stack held this pattern before. */
static uint64_t depth(struct call call, uint8_t pattern)
{
    memset(stack, pattern, sizeof stack);
    call_on(&call, stack + sizeof stack);
    uint64_t end = call.pointer - (uint64_t)(uintptr_t)stack;
    uint64_t low = 0;
    while (low < end && stack[low] == pattern)
        low++;
    if (low == 0) {
        fprintf(stderr, "a call took the whole stack of %d bytes\n", STACK);
        exit(1);
    }
    if (call.result == GUARD_ACCEPTED)
        accepted++;
    else
        refused++;
    return end - low;
}

/* Everything that a call may change, so that it can be made again on the same. */
struct runs {
    uint64_t state[GUARD_STATE_WORDS];
    uint64_t shadow[PAGES];
    uint16_t map[PAGES];
    uint8_t exclusion[VECTOR];
};

static struct runs kept;

static void keep(void)
{
    memcpy(kept.state, state, sizeof state);
    memcpy(kept.shadow, shadow, sizeof shadow);
    memcpy(kept.map, map, sizeof map);
    memcpy(kept.exclusion, exclusion, sizeof exclusion);
}

static void put_back(void)
{
    memcpy(state, kept.state, sizeof state);
    memcpy(shadow, kept.shadow, sizeof shadow);
    memcpy(map, kept.map, sizeof map);
    memcpy(exclusion, kept.exclusion, sizeof exclusion);
}

/* The last page is pending with the last frame. */
static void put_pair(void)
{
    state[GUARD_STATE_PENDING] = 1;
    state[GUARD_STATE_PENDING_PAGE] = PAGES - 1;
    state[GUARD_STATE_PENDING_FRAME] = FRAMES - 1;
    exclusion[VECTOR - 1] |= 128;
}

/* Makes a call where a pair is pending, since question 7 asks more there, and then as things stand. Each time it is made with two
 * patterns: a byte that a call overwrote with the one pattern differs from the other. */
static void measure(struct call call)
{
    static const uint8_t patterns[] = {0xa5, 0x5a};
    keep();
    for (int pending = 1; pending >= 0; pending--)
        for (size_t i = 0; i < sizeof patterns; i++) {
            put_back();
            if (pending)
                put_pair();
            uint64_t bytes = depth(call, patterns[i]);
            if (bytes > deepest)
                deepest = bytes;
        }
}

/* A pointer as an argument, and the arguments of a call. */
#define AT(run) (uint64_t)(uintptr_t)(run)
#define CALL(function, ...) \
    ((struct call){AT(function), sizeof((uint64_t[]){__VA_ARGS__}) / sizeof(uint64_t), {__VA_ARGS__}, 0, 0})

static struct call start(uint64_t length, uint64_t count, uint64_t words)
{
    return CALL(guard_start, AT(policy), length, count, AT(state), words, AT(shadow), PAGES, AT(map), PAGES, AT(exclusion), VECTOR,
                AT(numbers), GUARD_NUMBERS);
}

/* Writes the record of the first n pages to the policy's run. */
static struct call write_record(uint64_t n, uint64_t e, uint64_t frames_length, uint64_t room, uint64_t words)
{
    return CALL(guard_write_record, PAGES, FRAMES, n, e, AT(listed_pages), n, AT(listed_frames), frames_length, AT(policy), room,
                AT(numbers), words);
}

static struct call sync_page(uint64_t page, uint64_t words)
{
    return CALL(guard_sync_page, AT(state), words, AT(kernel), PAGES, AT(shadow), PAGES, AT(map), PAGES, AT(exclusion), VECTOR,
                page, AT(numbers), GUARD_NUMBERS);
}

static struct call sync_all(uint64_t words)
{
    return CALL(guard_sync_all, AT(state), words, AT(kernel), PAGES, AT(shadow), PAGES, AT(map), PAGES, AT(exclusion), VECTOR,
                AT(numbers), GUARD_NUMBERS);
}

static struct call walk(uint64_t length, uint64_t root, uint64_t depth, uint64_t page, uint64_t words)
{
    return CALL(guard_walk, AT(tables), length, root, depth, page, AT(numbers), words);
}

static struct call sync_page_tree(uint64_t root, uint64_t depth, uint64_t page, uint64_t words)
{
    return CALL(guard_sync_page_tree, AT(state), words, AT(tables), RUN, root, depth, AT(shadow), PAGES, AT(map), PAGES,
                AT(exclusion), VECTOR, page, AT(numbers), GUARD_NUMBERS);
}

static struct call sync_all_tree(uint64_t root, uint64_t depth, uint64_t words)
{
    return CALL(guard_sync_all_tree, AT(state), words, AT(tables), RUN, root, depth, AT(shadow), PAGES, AT(map), PAGES,
                AT(exclusion), VECTOR, AT(numbers), GUARD_NUMBERS);
}

static struct call fetch(uint64_t page, uint64_t words)
{
    return CALL(guard_fetch, AT(state), words, AT(shadow), PAGES, page, AT(numbers), GUARD_NUMBERS);
}

static struct call write_bytes(uint64_t address, uint64_t length, uint64_t words)
{
    return CALL(guard_write, AT(state), words, AT(shadow), PAGES, AT(exclusion), VECTOR, address, length, AT(numbers),
                GUARD_NUMBERS);
}

static struct call enter(uint64_t index, uint64_t words)
{
    return CALL(guard_enter, AT(state), words, AT(shadow), PAGES, index, AT(numbers), GUARD_NUMBERS);
}

static struct call leave(uint64_t page, uint64_t words)
{
    return CALL(guard_leave, AT(state), words, AT(shadow), PAGES, page, AT(numbers), GUARD_NUMBERS);
}

static struct call device_write(uint64_t device, uint64_t address, uint64_t length, uint64_t words)
{
    return CALL(guard_device_write, AT(state), words, AT(exclusion), VECTOR, AT(devices), DEVICES, device, address, length,
                AT(numbers), GUARD_NUMBERS);
}

static struct call ask(uint64_t page, uint64_t frame, uint64_t words)
{
    return CALL(guard_ask, AT(state), words, AT(shadow), PAGES, AT(map), PAGES, AT(exclusion), VECTOR, page, frame, AT(numbers),
                GUARD_NUMBERS);
}

static struct call commit(uint64_t words)
{
    return CALL(guard_commit, AT(state), words, AT(shadow), PAGES, AT(map), PAGES, AT(numbers), GUARD_NUMBERS);
}

static struct call drop(uint64_t words)
{
    return CALL(guard_drop, AT(state), words, AT(exclusion), VECTOR, AT(numbers), GUARD_NUMBERS);
}

static void put(size_t at, unsigned number)
{
    policy[at] = number & 255;
    policy[at + 1] = number >> 8;
}

/* A record that lists the first n pages, e of them as entry pages, on the frames from 2048 on. */
static void record(unsigned n, unsigned e)
{
    put(0, PAGES);
    put(2, FRAMES);
    put(4, n);
    put(6, e);
    for (unsigned i = 0; i < n; i++) {
        put(8 + 2 * i, i);
        put(8 + 2 * n + 2 * i, PAGES + i);
    }
}

/* A call that has to be accepted, before others are measured. */
static void make(struct call call)
{
    call_on(&call, stack + sizeof stack);
    if (call.result != GUARD_ACCEPTED) {
        fprintf(stderr, "a call that prepares others was refused with %llu\n", (unsigned long long)call.result);
        exit(1);
    }
}

/* Absent, ordinary and excluded frames, user pages and others; page 18 is one that a leave may go to. */
static uint64_t kernel_entry(uint64_t page)
{
    uint64_t entry = GUARD_ENTRY_PRESENT | GUARD_ENTRY_WRITABLE | GUARD_ENTRY_OF_FRAME(page % 11 == 10 ? PAGES : page);
    if (page % 3 == 0)
        entry |= GUARD_ENTRY_USER;
    if (page % 5 == 4)
        entry |= GUARD_ENTRY_NO_EXECUTE;
    return page % 7 == 6 ? 0 : entry;
}

/* The guard that the calls are measured on: sixteen entry pages, synchronised, in user mode on page 18 or in kernel mode, and 64
 * devices, of which the last has an empty window and the others every frame. */
static void prepare(int user)
{
    record(ENTRIES, ENTRIES);
    make(start(8 + 4 * ENTRIES, DEVICES, GUARD_STATE_WORDS));
    for (uint64_t page = 0; page < PAGES; page++)
        kernel[page] = kernel_entry(page);
    make(sync_all(GUARD_STATE_WORDS));
    for (int i = 0; i < DEVICES; i++)
        devices[i] = (struct guard_device){.first = 0, .last = FRAMES - 1};
    devices[DEVICES - 1] = (struct guard_device){.first = 1, .last = 0};
    if (user)
        make(leave(18, GUARD_STATE_WORDS));
}

/* Table 0, of level 3, leads to table 1, of level 2, and that to the others, which have the pages above. Or table 1 has a large page,
 * a table that is none, a large page whose frame is no multiple of 512, and an absent entry. */
static void plant(int large)
{
    memset(tables, 0, sizeof tables);
    tables[0] = GUARD_ENTRY_OF_FRAME(1) | GUARD_ENTRY_PRESENT;
    uint64_t *directory = tables + GUARD_TABLE_ENTRIES;
    for (uint64_t i = 0; i < PAGES / GUARD_TABLE_ENTRIES; i++)
        directory[i] = GUARD_ENTRY_OF_FRAME(2 + i) | GUARD_ENTRY_PRESENT | GUARD_ENTRY_WRITABLE | GUARD_ENTRY_USER;
    for (uint64_t page = 0; page < PAGES; page++)
        tables[2 * GUARD_TABLE_ENTRIES + page] = kernel_entry(page);
    if (large) {
        directory[0] = GUARD_ENTRY_OF_FRAME(PAGES) | GUARD_ENTRY_LARGE | GUARD_ENTRY_PRESENT;
        directory[1] = GUARD_ENTRY_OF_FRAME(TABLES) | GUARD_ENTRY_PRESENT;
        directory[2] = GUARD_ENTRY_OF_FRAME(1) | GUARD_ENTRY_LARGE | GUARD_ENTRY_PRESENT;
        directory[3] = 0;
    }
}

/* The table of that level on the way to page 0. */
static uint64_t root_of(uint64_t depth)
{
    return GUARD_DEPTH_MAX - depth;
}

/* The deepest of a function's calls. Both an accepted and a refused one must have been among them. */
static void report(const char *name)
{
    if (accepted == 0 || refused == 0) {
        fprintf(stderr, "%s was not measured both accepted and refused\n", name);
        exit(1);
    }
    printf("%s %llu\n", name, (unsigned long long)deepest);
    deepest = accepted = refused = 0;
}

int main(void)
{
    const uint64_t whole = GUARD_STATE_WORDS;
    const uint64_t cut = GUARD_STATE_WORDS - 1;

    record(PAGES, ENTRIES);
    measure(start(RECORD, DEVICES, whole));
    measure(start(RECORD, DEVICES, cut));
    measure(start(RECORD, DEVICES + 1, whole));
    for (uint64_t length = 0; length < 24; length++)
        measure(start(length, DEVICES, whole));
    record(1, 1);
    measure(start(12, 1, whole));
    report("guard_start");

    for (unsigned i = 0; i < PAGES; i++) {
        listed_pages[i] = i;
        listed_frames[i] = PAGES + i;
    }
    for (uint64_t n = 1; n <= 64; n++)
        measure(write_record(n, 1, n, RECORD, GUARD_NUMBERS));
    measure(write_record(PAGES, ENTRIES, PAGES, RECORD, GUARD_NUMBERS));
    measure(write_record(PAGES, ENTRIES, PAGES, RECORD - 1, GUARD_NUMBERS));
    measure(write_record(PAGES, ENTRIES, PAGES, RECORD, GUARD_NUMBERS - 1));
    measure(write_record(PAGES, ENTRIES, PAGES - 1, RECORD, GUARD_NUMBERS));
    measure(write_record(PAGES, ENTRIES + 1, PAGES, RECORD, GUARD_NUMBERS));
    listed_frames[PAGES - 1] = FRAMES;
    measure(write_record(PAGES, ENTRIES, PAGES, RECORD, GUARD_NUMBERS));
    listed_pages[PAGES - 1] = PAGES;
    measure(write_record(PAGES, ENTRIES, PAGES, RECORD, GUARD_NUMBERS));
    report("guard_write_record");

    for (int user = 0; user < 2; user++) {
        prepare(user);
        for (uint64_t page = 0; page < 64; page++)
            measure(sync_page(page, whole));
        measure(sync_page(PAGES - 1, whole));
        measure(sync_page(PAGES, whole));
        measure(sync_page(0, cut));
    }
    report("guard_sync_page");

    for (int user = 0; user < 2; user++) {
        prepare(user);
        measure(sync_all(whole));
        memset(shadow, 0xff, sizeof shadow);
        measure(sync_all(whole));
        measure(sync_all(cut));
    }
    report("guard_sync_all");

    for (int large = 0; large < 2; large++) {
        plant(large);
        for (uint64_t depth = 1; depth <= GUARD_DEPTH_MAX; depth++) {
            for (uint64_t page = 0; page < PAGES; page += 37)
                measure(walk(RUN, root_of(depth), depth, page, GUARD_NUMBERS));
            measure(walk(RUN, root_of(depth), depth, UINT64_MAX, GUARD_NUMBERS));
            measure(walk(RUN, TABLES, depth, 0, GUARD_NUMBERS));
        }
        measure(walk(RUN - 1, 0, 3, 0, GUARD_NUMBERS));
        measure(walk(RUN, 0, GUARD_DEPTH_MAX + 1, 0, GUARD_NUMBERS));
        measure(walk(RUN, 0, 3, 0, GUARD_NUMBERS - 1));
    }
    report("guard_walk");

    for (int user = 0; user < 2; user++)
        for (int large = 0; large < 2; large++)
            for (uint64_t depth = 1; depth <= GUARD_DEPTH_MAX; depth++) {
                prepare(user);
                plant(large);
                for (uint64_t page = 0; page < PAGES; page += 37)
                    measure(sync_page_tree(root_of(depth), depth, page, whole));
                measure(sync_page_tree(root_of(depth), depth, PAGES, whole));
                measure(sync_page_tree(TABLES, depth, 0, whole));
                measure(sync_page_tree(root_of(depth), depth, 0, cut));
            }
    report("guard_sync_page_tree");

    for (int user = 0; user < 2; user++)
        for (int large = 0; large < 2; large++)
            for (uint64_t depth = 1; depth <= GUARD_DEPTH_MAX; depth++) {
                prepare(user);
                plant(large);
                measure(sync_all_tree(root_of(depth), depth, whole));
                memset(shadow, 0xff, sizeof shadow);
                measure(sync_all_tree(root_of(depth), depth, whole));
                measure(sync_all_tree(TABLES, depth, whole));
                measure(sync_all_tree(root_of(depth), depth, cut));
            }
    report("guard_sync_all_tree");

    for (int user = 0; user < 2; user++) {
        prepare(user);
        for (uint64_t page = 0; page < 64; page++)
            measure(fetch(page, whole));
        measure(fetch(PAGES, whole));
        measure(fetch(0, cut));
    }
    report("guard_fetch");

    for (int user = 0; user < 2; user++) {
        prepare(user);
        for (uint64_t page = 0; page < 64; page++) {
            measure(write_bytes(4096 * page, 16, whole));
            measure(write_bytes(4096 * page + 4088, 16, whole));
        }
        measure(write_bytes(0, 0, whole));
        measure(write_bytes(4096 * (uint64_t)PAGES, 1, whole));
        measure(write_bytes(0, 1, cut));
    }
    report("guard_write");

    prepare(1);
    for (uint64_t index = 0; index <= ENTRIES; index++) {
        measure(enter(index, whole));
        put_back();
    }
    measure(enter(0, cut));
    prepare(0);
    measure(enter(0, whole));
    report("guard_enter");

    prepare(0);
    for (uint64_t page = 0; page < 64; page++) {
        measure(leave(page, whole));
        put_back();
    }
    measure(leave(PAGES, whole));
    measure(leave(0, cut));
    prepare(1);
    measure(leave(18, whole));
    report("guard_leave");

    prepare(0);
    for (uint64_t device = 0; device <= DEVICES; device++) {
        measure(device_write(device, 0, 1, whole));
        measure(device_write(device, 0, 1048576, whole));
        measure(device_write(device, 4095, 1048576, whole));
        measure(device_write(device, 4096 * (uint64_t)PAGES, 1, whole));
        measure(device_write(device, 4096 * (uint64_t)FRAMES, 1, whole));
        measure(device_write(device, 0, 0, whole));
        measure(device_write(device, 0, 1, cut));
    }
    report("guard_device_write");

    /* The kernel's entries are writable, and have frames below V: frame 0 gives 21. The first pages are approved. */
    for (int user = 0; user < 2; user++)
        for (uint64_t page = 0; page < PAGES; page += 37) {
            prepare(user);
            measure(ask(page, FRAMES - 1 - page, whole));
            measure(ask(page, 0, whole));
            measure(ask(page, FRAMES, whole));
            measure(ask(page, FRAMES - 1, cut));
        }
    report("guard_ask");

    for (int user = 0; user < 2; user++)
        for (uint64_t page = ENTRIES; page < PAGES; page += 37) {
            prepare(user);
            measure(commit(whole));
            if (map[page] != GUARD_MAP_NONE)
                continue;
            make(ask(page, FRAMES - 1, GUARD_STATE_WORDS));
            /* every eighth page is an alias */
            for (uint64_t alias = 0; alias < PAGES; alias += 8)
                kernel[alias] = GUARD_ENTRY_OF_FRAME(FRAMES - 1) | GUARD_ENTRY_PRESENT;
            if (page % 2 == 0)
                make(sync_all(GUARD_STATE_WORDS));
            measure(commit(whole));
            measure(commit(cut));
        }
    report("guard_commit");

    for (int user = 0; user < 2; user++)
        for (uint64_t frame = 0; frame < FRAMES; frame += 127) {
            prepare(user);
            measure(drop(whole));
            memset(shadow, 0, sizeof shadow);
            if (frame < PAGES || frame >= PAGES + ENTRIES)
                make(ask(PAGES - 1, frame, GUARD_STATE_WORDS));
            measure(drop(whole));
            measure(drop(cut));
        }
    report("guard_drop");
    return 0;
}
