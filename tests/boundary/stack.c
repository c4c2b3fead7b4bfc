/* Calls each function of the boundary on a stack of the size that the header states, with a page below it that cannot
 * be touched. The commands are S, and S with groups in groups: three, which makes the walk go deepest, and four (7003).
 * */
#define _GNU_SOURCE
#include <stdio.h>
#include <stdlib.h>
#include <string.h>
#include <sys/mman.h>
#include <ucontext.h>

#include "talazumir.h"

static const uint8_t S[160] = {
#include "S.inc"
};

enum { PAGE = 4096, MOST = 16 * PAGE };
static uint8_t *bottom; /* the page below lies before it */
static uint8_t octets[400], out[400];
static size_t length;
static uint8_t buffer[TALAZUMIR_LINK_BUFFER];
static uint32_t record[TALAZUMIR_RECORD_NUMBERS], log_numbers[TALAZUMIR_LOG_NUMBERS];
static uint32_t answer;

static void verdict(void) { answer = talazumir_verdict(octets, length, log_numbers).number; }
static void read_command(void) { answer = talazumir_read(octets, length, record).number; }
static void data(void) { answer = talazumir_data(record, 10, octets, length).length; }
static void search(void) { answer = talazumir_search(record, 10415, 4208, 0).position; }
static void write_draft(void) { answer = talazumir_write(record, octets, length, out, sizeof out).verdict.number; }
static void canonical(void) { answer = talazumir_canonical(octets, length, out, sizeof out).verdict.number; }
static void seconds(void) { answer = (uint32_t)talazumir_seconds(4294967295, 0); }

static void link_fresh(void) { answer = talazumir_link_fresh().held; }
static void link_take(void) {
    struct TalazumirLinkState fresh = {0, 0};
    answer = talazumir_link_take(fresh, octets, length, buffer, sizeof buffer, log_numbers).verdict.number;
}

static void on_stack(const char *name, void (*call)(void), size_t size, uint32_t expected) {
    static ucontext_t here, there;
    getcontext(&there);
    there.uc_stack.ss_sp = bottom;
    there.uc_stack.ss_size = size;
    there.uc_link = &here;
    makecontext(&there, call, 0);
    swapcontext(&here, &there);
    if (answer != expected) {
        fprintf(stderr, "tests/boundary/stack.c: %s answers %u, expected %u\n", name, answer, expected);
        exit(1);
    }
}

/* Each function on the command, which has this number. */
static void try_all(uint32_t number) {
    on_stack("verdict", verdict, TALAZUMIR_VERDICT_STACK, number);
    on_stack("read", read_command, TALAZUMIR_READ_STACK, number);
    on_stack("data", data, TALAZUMIR_DATA_STACK, number == 0 ? 4 : 0);
    on_stack("search", search, TALAZUMIR_SEARCH_STACK, number == 0 ? 10 : TALAZUMIR_NONE);
    on_stack("canonical", canonical, TALAZUMIR_CANONICAL_STACK, number);
    on_stack("seconds", seconds, TALAZUMIR_SECONDS_STACK, 1);
    on_stack("link_fresh", link_fresh, TALAZUMIR_LINK_FRESH_STACK, 0);
    on_stack("link_take", link_take, TALAZUMIR_LINK_TAKE_STACK, length == 0 ? TALAZUMIR_NO_VERDICT : number);
    /* the empty record is a draft of no AVP, whose command has neither R nor P */
    on_stack("write", write_draft, TALAZUMIR_WRITE_STACK, number == 0 ? 0 : 3008);
}

/* S with this many groups 284, each the last member of the one before, with its 280 and 33. */
static void nest(size_t groups) {
    static const uint8_t group[32] = {0, 0, 1, 0x1C, 0x40, 0, 0, 0, 0, 0, 1, 0x18, 0x40, 0, 0, 9, 'h', 0, 0, 0,
                                      0, 0, 0, 0x21, 0x40, 0, 0, 9, 'p', 0, 0, 0};
    memcpy(octets, S, sizeof S);
    for (size_t i = 0; i < groups; i++) {
        memcpy(octets + sizeof S + i * sizeof group, group, sizeof group);
        octets[sizeof S + i * sizeof group + 7] = (uint8_t)((groups - i) * sizeof group);
    }
    length = sizeof S + groups * sizeof group;
    octets[2] = (uint8_t)(length >> 8);
    octets[3] = (uint8_t)length;
}

int main(void) {
    uint8_t *memory = mmap(NULL, PAGE + MOST, PROT_READ | PROT_WRITE, MAP_PRIVATE | MAP_ANONYMOUS, -1, 0);
    if (memory == MAP_FAILED || mprotect(memory, PAGE, PROT_NONE) != 0) {
        perror("tests/boundary/stack.c");
        return 1;
    }
    bottom = memory + PAGE;
    nest(0);
    try_all(0);
    nest(3);
    try_all(0);
    nest(4);
    try_all(7003);
    length = 0;
    try_all(5015);
    puts("tests/boundary/stack.c: each call stays within the stack that the header states");
    return 0;
}
