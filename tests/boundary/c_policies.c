/* Reads an answer with three Transfer-Policies (10415, 4207), parts of it and one that is refused, and prints what a
 * search for the nth of them gives (document 02, [9]): the policies that an answer offers with what they hold, the
 * second and the third, and ordinals at which there is none. */
#include <inttypes.h>
#include <stdio.h>
#include <string.h>

#include "talazumir.h"

/* From tests/commands/three-policies.hex; the policies are at 132, 216 and 332. */
static const uint8_t THREE_POLICIES[416] = {
#include "three-policies.inc"
};

enum { VENDOR_3GPP = 10415, TRANSFER_POLICY = 4207 };
static uint8_t octets[sizeof THREE_POLICIES];
static size_t length;
static uint32_t record[TALAZUMIR_RECORD_NUMBERS];

/* The position of a group's member with this vendor and code, TALAZUMIR_NONE where it has none. The record is that of
 * an accepted command. */
static size_t member(size_t group, uint32_t vendor, uint32_t code) {
    uint32_t depth = record[TALAZUMIR_POSITION(group) + TALAZUMIR_AVP_DEPTH];
    for (size_t i = group + 1; i < record[TALAZUMIR_COUNT]; i++) {
        const uint32_t *avp = record + TALAZUMIR_POSITION(i);
        if (avp[TALAZUMIR_AVP_DEPTH] <= depth) {
            break;
        }
        if (avp[TALAZUMIR_AVP_DEPTH] == depth + 1 && avp[TALAZUMIR_AVP_VENDOR] == vendor &&
            avp[TALAZUMIR_AVP_CODE] == code) {
            return i;
        }
    }
    return TALAZUMIR_NONE;
}

/* The number in the four octets of a position's data. */
static uint32_t number_at(size_t position) {
    struct TalazumirPart part = talazumir_data(record, position, octets, length);
    uint32_t number = 0;
    for (size_t i = 0; i < part.length; i++) {
        number = number << 8 | octets[part.start + i];
    }
    return number;
}

static void print_member(const char *word, size_t group, uint32_t vendor, uint32_t code) {
    size_t position = member(group, vendor, code);
    if (position != TALAZUMIR_NONE) {
        printf(", %s %" PRIu32, word, number_at(position));
    }
}

static void print_policy(size_t ordinal, size_t position) {
    printf("%zu: position %zu", ordinal, position);
    print_member("id", position, VENDOR_3GPP, 4208);
    print_member("rating group", position, 0, 432);
    print_member("downlink", position, VENDOR_3GPP, 515);
    print_member("uplink", position, VENDOR_3GPP, 516);
    size_t window = member(position, VENDOR_3GPP, 4204);
    if (window == TALAZUMIR_NONE) { /* not in an accepted answer */
        printf("\n");
        return;
    }
    uint32_t start = number_at(member(window, VENDOR_3GPP, 4206)), end = number_at(member(window, VENDOR_3GPP, 4205));
    printf(", from %" PRIu32 " to %" PRIu32 ": %" PRId64 " seconds\n", start, end, talazumir_seconds(start, end));
}

static void print_policies(void) {
    struct TalazumirSought sought = talazumir_search(record, VENDOR_3GPP, TRANSFER_POLICY, 0);
    printf("policies: %" PRIu32 "\n", sought.number);
    for (size_t ordinal = 0; ordinal < sought.number; ordinal++) {
        print_policy(ordinal, talazumir_search(record, VENDOR_3GPP, TRANSFER_POLICY, ordinal).position);
    }
}

static void print_nth(const char *word, size_t ordinal) {
    struct TalazumirSought sought = talazumir_search(record, VENDOR_3GPP, TRANSFER_POLICY, ordinal);
    printf("%s of %" PRIu32 ": ", word, sought.number);
    if (sought.position == TALAZUMIR_NONE) {
        printf("none\n");
    } else {
        printf("id %" PRIu32 "\n", number_at(member(sought.position, VENDOR_3GPP, 4208)));
    }
}

/* An answer, which is the octets. */
static void print_answer(const char *name) {
    octets[2] = (uint8_t)(length >> 8);
    octets[3] = (uint8_t)length;
    struct TalazumirVerdict v = talazumir_read(octets, length, record);
    printf("%s: %" PRIu32 " %" PRIu32 " %" PRIu32 " %" PRIu32 "\n", name, v.number, v.place, v.vendor, v.code);
    print_policies();
    print_nth("second", 1);
    print_nth("third", 2);
    print_nth("fourth", 3);
    /* 256, 4294967297 and 9223372036854775809 would be 0 and 1 if only their low octets or bits counted */
    print_nth("ordinal 256", 256);
    print_nth("ordinal 4294967297", 4294967297u);
    print_nth("ordinal 9223372036854775809", 9223372036854775809u);
    print_nth("ordinal 18446744073709551615", SIZE_MAX);
}

/* The first octets of the answer, up to the end of an AVP of its own list. */
static void print_first(const char *name, size_t end) {
    memcpy(octets, THREE_POLICIES, end);
    length = end;
    print_answer(name);
}

int main(void) {
    print_first("three policies", sizeof THREE_POLICIES);
    print_first("the first two", 332);
    print_first("none", 132);

    memcpy(octets, THREE_POLICIES, 116);
    memcpy(octets + 116, THREE_POLICIES + 132, 284);
    length = 400;
    print_answer("three policies without 2207");
    return 0;
}
