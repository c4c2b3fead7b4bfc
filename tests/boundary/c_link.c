/* Takes document 01's commands S and H, whole, cut and with other length fields, as fragments of a link (document 02,
 * [7]), and prints what comes back: the answer, the state, and whether buffer and log are as they are to be. */
#include <inttypes.h>
#include <stdio.h>
#include <string.h>

#include "talazumir.h"

/* 01, Commands at the edges: S, from tests/commands/S.hex. */
static const uint8_t S[160] = {
#include "S.inc"
};

enum { MORE = 100 };
static uint8_t buffer[TALAZUMIR_LINK_BUFFER + MORE], due[TALAZUMIR_LINK_BUFFER + MORE];
static uint32_t log_numbers[TALAZUMIR_LOG_NUMBERS], due_log[TALAZUMIR_LOG_NUMBERS];
static uint32_t record[TALAZUMIR_RECORD_NUMBERS];

static const char *progress_name(uint32_t progress) {
    switch (progress) {
    case TALAZUMIR_UNFINISHED:
        return "unfinished";
    case TALAZUMIR_COMMAND:
        return "command";
    case TALAZUMIR_REFUSAL:
        return "refusal";
    default:
        return "?";
    }
}

/* One call with a buffer of this room; `due` and `due_log` are altered as the header says, and compared. */
static struct TalazumirLinkState take_in(size_t room, const char *name, struct TalazumirLinkState state,
                                         const uint8_t *fragment, size_t length) {
    struct TalazumirLinkStep step = talazumir_link_take(state, fragment, length, buffer, room, log_numbers);
    if (step.taken > 0) {
        memcpy(due + state.held, fragment, step.taken);
    }
    if (step.progress == TALAZUMIR_COMMAND) {
        talazumir_verdict(due, state.held + step.taken, due_log);
    }
    struct TalazumirVerdict v = step.verdict;
    printf("%s: taken %zu, %s %" PRIu32 " %" PRIu32 " %" PRIu32 " %" PRIu32, name, step.taken,
           progress_name(step.progress), v.number, v.place, v.vendor, v.code);
    printf("; held %" PRIu32 ", stopped %" PRIu32 "%s%s\n", step.state.held, step.state.stopped,
           memcmp(buffer, due, sizeof buffer) == 0 ? "" : "; the buffer is not as due",
           memcmp(log_numbers, due_log, sizeof due_log) == 0 ? "" : "; the log is not as due");
    return step.state;
}

static struct TalazumirLinkState take(const char *name, struct TalazumirLinkState state, const uint8_t *fragment,
                                      size_t length) {
    return take_in(TALAZUMIR_LINK_BUFFER, name, state, fragment, length);
}

/* A state that no run need have led to. */
static struct TalazumirLinkState made_up(uint32_t held, uint32_t stopped) {
    struct TalazumirLinkState state = {held, stopped};
    return state;
}

/* H with this length field, and 20 octets more. */
static const uint8_t *h(uint32_t field) {
    static uint8_t octets[40];
    memcpy(octets, S, 20);
    octets[1] = (uint8_t)(field >> 16);
    octets[2] = (uint8_t)(field >> 8);
    octets[3] = (uint8_t)field;
    return octets;
}

/* Makes the buffer, and what is due of it, start with H with this length field. */
static void lay(uint32_t field) {
    memcpy(buffer, h(field), 20);
    memcpy(due, buffer, 20);
}

/* A run of S, H and the first 7 octets of S, and what a caller does with a command found. */
static void run_in_fragments(void) {
    uint8_t run[187];
    memcpy(run, S, 160);
    memcpy(run + 160, h(20), 20);
    memcpy(run + 180, S, 7);
    struct TalazumirLinkState state = talazumir_link_fresh();
    state = take("no octet", state, run, 0);
    state = take("3 octets of S", state, run, 3);
    state = take("the fourth", state, run + 3, 1);
    state = take("155 more", state, run + 4, 155);
    state = take("no octet", state, run + 159, 0);
    state = take("the last of S, and 27", state, run + 159, 28);
    struct TalazumirVerdict verdict = talazumir_read(buffer, 160, record);
    printf("read: %" PRIu32 ", %" PRIu32 " AVPs\n", verdict.number, record[TALAZUMIR_COUNT]);
    state = take("the 27, H first", state, run + 160, 27);
    state = take("the last 7", state, run + 180, 7);
    state = take("no octet", state, run + 187, 0);
    take("afresh, S and H", talazumir_link_fresh(), run, 180);
}

static void stops(void) {
    struct TalazumirLinkState state = take("a length of 19", talazumir_link_fresh(), h(19), 20);
    state = take("S behind it", state, S, sizeof S);
    state = take("no octet behind it", state, S, 0);
    take("afresh, S", talazumir_link_fresh(), S, sizeof S);
    take("a length of 0 in 4 octets", talazumir_link_fresh(), h(0), 4);
    take("a length of 16,385", talazumir_link_fresh(), h(16385), 20);
    take("a length of 65,556", talazumir_link_fresh(), h(65556), 20);
    state = take("2 octets", talazumir_link_fresh(), h(16777215), 2);
    take("of a length of 16,777,215", state, h(16777215) + 2, 18);
    take("a length of 16,384", talazumir_link_fresh(), h(16384), 20);
    state = take("a length of 21", talazumir_link_fresh(), h(21), 40);
    take("H behind it", state, h(20), 20);
}

static void any_state_and_room(void) {
    take_in(TALAZUMIR_LINK_BUFFER - 1, "room for 16,383", talazumir_link_fresh(), S, sizeof S);
    take_in(0, "no room, after a stop", made_up(4294967295u, 1), S, 0);
    take_in(TALAZUMIR_LINK_BUFFER + MORE, "more room", talazumir_link_fresh(), S, sizeof S);
    lay(20);
    take("stopped by 2", made_up(0, 2), S, sizeof S);
    take("20 of 20 held", made_up(20, 0), S, sizeof S);
    take("21 of 20 held", made_up(21, 0), S, sizeof S);
    take("4,294,967,295 of 20 held", made_up(4294967295u, 0), S, sizeof S);
    take("19 of 20 held", made_up(19, 0), h(20) + 19, 1);
    lay(19);
    take("4 of 19 held", made_up(4, 0), S, 0);
    take("3 of 19 held, and the length made 24", made_up(3, 0), h(24) + 3, 17);
    lay(16385);
    take("4 of 16,385 held", made_up(4, 0), S, sizeof S);
    lay(16384);
    take("16,383 of 16,384 held, none more", made_up(16383, 0), S, 0);
    take("16,384 of 16,384 held", made_up(16384, 0), S, 0);
}

int main(void) {
    memset(buffer, 0xEE, sizeof buffer);
    memset(due, 0xEE, sizeof due);
    memset(log_numbers, 0xEE, sizeof log_numbers);
    memset(due_log, 0xEE, sizeof due_log);
    run_in_fragments();
    stops();
    any_state_and_room();
    return 0;
}
