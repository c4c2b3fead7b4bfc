/* Reads document 01's commands S, S without its last AVP, and H, and an error answer through the boundary, writes
 * drafts made from S and the canonical form of commands like S, and prints what comes back; and the seconds between
 * some times. */
#include <inttypes.h>
#include <stdio.h>
#include <string.h>

#include "talazumir.h"

/* 01, Commands at the edges: S, from tests/commands/S.hex. */
static const uint8_t S[160] = {
#include "S.inc"
};

static uint32_t record[TALAZUMIR_RECORD_NUMBERS];
static uint32_t log_numbers[TALAZUMIR_LOG_NUMBERS];

static void print_verdict(const char *name, struct TalazumirVerdict v) {
    printf("%s: %" PRIu32 " %" PRIu32 " %" PRIu32 " %" PRIu32 "\n", name, v.number, v.place, v.vendor, v.code);
}

static void print_numbers(const char *name, const uint32_t *numbers, size_t count) {
    printf("%s:", name);
    for (size_t i = 0; i < count; i++) {
        printf(" %" PRIu32, numbers[i]);
    }
    printf("\n");
}

static void print_data(size_t position, const uint8_t *octets, size_t length) {
    struct TalazumirPart part = talazumir_data(record, position, octets, length);
    printf("data of position %zu of %zu octets: start %zu length %zu:", position, length, part.start, part.length);
    for (size_t i = 0; i < part.length; i++) {
        printf(" %02X", octets[part.start + i]);
    }
    printf("\n");
}

static void print_search(uint32_t vendor, uint32_t code, size_t ordinal) {
    struct TalazumirSought sought = talazumir_search(record, vendor, code, ordinal);
    printf("search of %" PRIu32 " %" PRIu32 ", ordinal %zu: position %" PRIu32 ", number %" PRIu32 "\n", vendor, code,
           ordinal, sought.position, sought.number);
}

/* How many numbers are not 0. */
static size_t used(const uint32_t *numbers, size_t count) {
    size_t n = 0;
    for (size_t i = 0; i < count; i++) {
        n += numbers[i] != 0;
    }
    return n;
}

static uint8_t output[200];

/* An answer for the first `room` octets of an output that held 0xEE throughout, and how the output looks now. */
static void print_answer(const char *name, size_t room, struct TalazumirWritten w) {
    size_t same = 0;
    while (same < sizeof S && output[same] == S[same]) {
        same++;
    }
    size_t kept = sizeof output;
    while (kept > 0 && output[kept - 1] == 0xEE) {
        kept--;
    }
    printf("%s into %zu: %" PRIu32 " %" PRIu32 " %" PRIu32 " %" PRIu32 ", length %" PRIu32
           "; as S up to %zu, altered up to %zu\n",
           name, room, w.verdict.number, w.verdict.place, w.verdict.vendor, w.verdict.code, w.length, same, kept);
}

/* Writes the record over S. */
static void print_written(const char *name, size_t room) {
    memset(output, 0xEE, sizeof output);
    print_answer(name, room, talazumir_write(record, S, sizeof S, output, room));
}

/* Writes a command in its canonical form. */
static void print_canonical(const char *name, const uint8_t *octets, size_t length, size_t room) {
    memset(output, 0xEE, sizeof output);
    print_answer(name, room, talazumir_canonical(octets, length, output, room));
}

/* The record of S with one number altered. */
static void print_altered(const char *name, size_t index, uint32_t number) {
    talazumir_read(S, sizeof S, record);
    record[index] = number;
    print_written(name, sizeof output);
}

static void print_seconds(uint32_t start, uint32_t end) {
    printf("seconds from %" PRIu32 " to %" PRIu32 ": %" PRId64 "\n", start, end, talazumir_seconds(start, end));
}

int main(void) {
    memset(record, 0xFF, sizeof record);
    print_verdict("S", talazumir_read(S, sizeof S, record));
    print_numbers("R P E T, identifiers, count", record, 7);
    print_numbers("position 0", record + TALAZUMIR_POSITION(0), 7);
    print_numbers("position 2", record + TALAZUMIR_POSITION(2), 7);
    print_numbers("position 10", record + TALAZUMIR_POSITION(10), 7);
    printf("numbers from position 11 on that are not 0: %zu\n",
           used(record + TALAZUMIR_POSITION(11), TALAZUMIR_RECORD_NUMBERS - TALAZUMIR_POSITION(11)));
    print_data(0, S, sizeof S);
    print_data(1, S, sizeof S);
    print_data(10, S, sizeof S);
    print_data(10, S, sizeof S - 1);
    print_data(11, S, sizeof S);
    print_data(SIZE_MAX, S, sizeof S);
    print_search(10415, 4203, 0);
    print_search(10415, 4203, 1);
    print_search(0, 4203, 0);
    print_search(0, 266, 0);

    /* whatever numbers stand in a record: a count above 256 is read as 256, a part that leaves the slice is none */
    memset(record, 0xFF, sizeof record);
    print_data(255, S, sizeof S);
    print_data(256, S, sizeof S);
    print_search(UINT32_MAX, UINT32_MAX, 0);
    record[TALAZUMIR_POSITION(255) + TALAZUMIR_AVP_DEPTH] = 1;
    print_search(UINT32_MAX, UINT32_MAX, 0);
    print_search(UINT32_MAX, UINT32_MAX, SIZE_MAX);
    for (size_t i = 0; i < TALAZUMIR_MOST_AVPS; i++) {
        record[TALAZUMIR_POSITION(i) + TALAZUMIR_AVP_DEPTH] = 1;
    }
    print_search(UINT32_MAX, UINT32_MAX, 0);
    print_search(UINT32_MAX, UINT32_MAX, 255);
    print_search(UINT32_MAX, UINT32_MAX, 256);
    record[TALAZUMIR_COUNT] = 255;
    print_search(UINT32_MAX, UINT32_MAX, 255);
    record[TALAZUMIR_COUNT] = 0;
    print_search(UINT32_MAX, UINT32_MAX, 0);

    uint8_t shorter[144];
    memcpy(shorter, S, sizeof shorter);
    shorter[3] = sizeof shorter;
    print_verdict("S without 4208", talazumir_read(shorter, sizeof shorter, record));
    printf("numbers of the record that are not 0: %zu\n", used(record, TALAZUMIR_RECORD_NUMBERS));

    print_verdict("S, verdict alone", talazumir_verdict(S, sizeof S, log_numbers));
    print_numbers("log at position 10", log_numbers + 90, 9);
    print_verdict("S without 4208, verdict alone", talazumir_verdict(shorter, sizeof shorter, log_numbers));
    uint8_t h[20];
    memcpy(h, S, sizeof h);
    h[3] = sizeof h;
    print_verdict("H", talazumir_verdict(h, sizeof h, log_numbers));
    print_verdict("empty slice", talazumir_verdict(S, 0, log_numbers));
    h[4] = 0x60;
    print_verdict("H with flags 60", talazumir_verdict(h, sizeof h, log_numbers));

    /* an error answer: H with flags 20, Origin-Host and Origin-Realm of S, and Result-Code 3002 */
    static const uint8_t result[12] = {0, 0, 1, 0x0C, 0x40, 0, 0, 12, 0, 0, 0x0B, 0xBA};
    uint8_t error[56];
    memcpy(error, h, sizeof h);
    error[3] = sizeof error;
    error[4] = 0x20;
    memcpy(error + 20, S + 64, 24);
    memcpy(error + 44, result, sizeof result);
    print_verdict("error answer", talazumir_read(error, sizeof error, record));
    print_numbers("R P E T, identifiers, count", record, 7);
    print_data(2, error, sizeof error);
    error[4] = 0;
    print_verdict("the same without E", talazumir_read(error, sizeof error, record));

    talazumir_read(S, sizeof S, record);
    print_written("S", sizeof output);
    print_written("S", 160);
    print_written("S", 159);
    print_altered("T set", TALAZUMIR_T, 1);
    print_altered("T of 2", TALAZUMIR_T, 2);
    print_altered("P of 2 in an unused position", TALAZUMIR_POSITION(255) + TALAZUMIR_AVP_P, 2);
    print_altered("a count of 257", TALAZUMIR_COUNT, 257);
    print_altered("a count of 10", TALAZUMIR_COUNT, 10);
    print_altered("4208 at depth 2", TALAZUMIR_POSITION(10) + TALAZUMIR_AVP_DEPTH, 2);
    print_altered("260 with a length of 16", TALAZUMIR_POSITION(1) + TALAZUMIR_AVP_LENGTH, 16);
    print_altered("260 with another start", TALAZUMIR_POSITION(1) + TALAZUMIR_AVP_START, 4294967295);
    print_altered("4208 one octet further", TALAZUMIR_POSITION(10) + TALAZUMIR_AVP_START, 157);
    print_altered("263 with a length of 161", TALAZUMIR_POSITION(0) + TALAZUMIR_AVP_LENGTH, 161);
    print_altered("E set", TALAZUMIR_E, 1);
    talazumir_read(S, sizeof S, record);
    memset(record + TALAZUMIR_POSITION(10), 0, 7 * sizeof record[0]);
    record[TALAZUMIR_COUNT] = 10;
    print_written("S without 4208", sizeof output);

    uint8_t altered[160];
    memcpy(altered, S, sizeof altered);
    altered[4] |= 0x0F;
    memset(altered + 29, 0xFF, 3);
    memset(altered + 141, 0xFF, 3);
    print_canonical("form of S", S, sizeof S, 160);
    print_canonical("form of S with other padding and reserved bits", altered, sizeof altered, 160);
    print_canonical("form of S with other padding and reserved bits", altered, sizeof altered, sizeof output);
    print_canonical("form of S with other padding and reserved bits", altered, sizeof altered, 159);
    altered[4] |= 0x10;
    print_canonical("form of S with T set", altered, sizeof altered, 160);
    print_canonical("form of S without 4208", shorter, sizeof shorter, sizeof output);
    print_canonical("form of S without 4208", shorter, sizeof shorter, 0);

    print_seconds(4294967295, 0);
    print_seconds(2147483647, 2147483648);
    print_seconds(2147483648, 2147483647);
    print_seconds(4294944000, 63104);
    print_seconds(7, 7);
    return 0;
}
