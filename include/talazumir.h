/* Talazumir: the proved reader and writer of Nt commands, for C callers. Link with crates/boundary/out/libboundary.a,
 * which `rt lib` in crates/boundary proves and builds (x86-64 Linux).
 *
 * Each function has one answer for every content of what it is handed; there is no error besides the answers below.
 * What the caller sees to: pointers are not NULL, also where a length is 0; a slice has the octets that its length
 * says; an array has the length that its declaration says; an array that is written overlaps nothing else that is
 * handed in. The functions keep nothing between calls and allocate nothing. */
#ifndef TALAZUMIR_H
#define TALAZUMIR_H

#include <stddef.h>
#include <stdint.h>

#ifdef __cplusplus
extern "C" {
#endif

/* Room for AVPs; a count above it is read as it. */
#define TALAZUMIR_MOST_AVPS 256

/* The position in the answer of a search that finds none. It is no position: TALAZUMIR_POSITION of it lies behind the
 * record. */
#define TALAZUMIR_NONE 256

/* The numbers of a log, the scratch memory of a verdict. */
#define TALAZUMIR_LOG_NUMBERS 2304

/* The octets of the buffer that a link's commands are put together in, at least. */
#define TALAZUMIR_LINK_BUFFER 16384

/* What stopped a call for a link: the fragment's end, the end of a whole command, or a refusal. */
#define TALAZUMIR_UNFINISHED 0
#define TALAZUMIR_COMMAND 1
#define TALAZUMIR_REFUSAL 2

/* The number of the verdict while a command is unfinished, so that none takes it for an acceptance. */
#define TALAZUMIR_NO_VERDICT 4294967295u

/* The numbers of a record: seven for the command, then seven for each of 256 positions. */
#define TALAZUMIR_RECORD_NUMBERS 1799

/* The command's numbers in a record, by index. R, P, E and T are 0 or 1; `COUNT` says how many positions are used. */
#define TALAZUMIR_R 0
#define TALAZUMIR_P 1
#define TALAZUMIR_E 2
#define TALAZUMIR_T 3
#define TALAZUMIR_HOP_BY_HOP 4
#define TALAZUMIR_END_TO_END 5
#define TALAZUMIR_COUNT 6

/* The index of the first number of a position, and what stands from there on. Depth is 1 in the command's own list;
 * vendor is 0 where V is clear; M and P are 0 or 1; start and length are those of the data, counted from the command's
 * start. AVPs stand in walk order: a group, then its members. The numbers of unused positions are 0. */
#define TALAZUMIR_POSITION(position) (7 + 7 * (size_t)(position))
#define TALAZUMIR_AVP_DEPTH 0
#define TALAZUMIR_AVP_VENDOR 1
#define TALAZUMIR_AVP_CODE 2
#define TALAZUMIR_AVP_M 3
#define TALAZUMIR_AVP_P 4
#define TALAZUMIR_AVP_START 5
#define TALAZUMIR_AVP_LENGTH 6

/* The stack that a call takes at most, in octets, its return address among them: the frames along the deepest chain of
 * calls, rounded up. memcpy and memset of the C library, where the archive's code calls them, count 4,096, since the
 * dynamic linker may bind them at their first call. No proof says it: tests/boundary/stack adds up the frames of the
 * archive as built. */
#define TALAZUMIR_VERDICT_STACK 8192
#define TALAZUMIR_READ_STACK 16384
#define TALAZUMIR_DATA_STACK 256
#define TALAZUMIR_SEARCH_STACK 256
#define TALAZUMIR_WRITE_STACK 32768
#define TALAZUMIR_CANONICAL_STACK 57344
#define TALAZUMIR_SECONDS_STACK 256
#define TALAZUMIR_LINK_FRESH_STACK 256
#define TALAZUMIR_LINK_TAKE_STACK 8192

/* What comes back for a command, a draft or a fragment: the number (table below), the place, counted in octets from the
 * command's start, and the Vendor-Id and code of the AVP at fault. An accepted one has four times 0.
 *
 *      0  accepted
 *   3001  command code                3007  application
 *   3008  header bits                 3009  AVP bits
 *   5001  AVP unsupported             5004  value
 *   5005  AVP missing                 5008  AVP not allowed
 *   5009  AVP too many times          5011  version
 *   5014  AVP length                  5015  command length
 *   7001  longer than 16,384 octets   7002  257th AVP
 *   7003  group at depth 4            7004  output too short (writer), buffer too short (link)
 *   7006  malformed draft (writer)    7009  the run has stopped, or no such state (link)
 *
 * The place is the first octet of the AVP at fault; for 5005 the end of the list that lacks the AVP, with the missing
 * vendor and code. Of AVPs that exclude each other 5008 names, in an answer without E, Experimental-Result (297) beside
 * Result-Code (268), and in a request whose Transfer-Request-Type (4203) is 0 CC-Total-Octets (421) beside
 * CC-Input-Octets (412) or CC-Output-Octets (414). Where talazumir_seconds from start to end of a Time-Window (4204) is
 * not above 0, 5004 names its Transfer-End-Time (4205). Header refusals and 7002 have vendor and code 0; 7004, 7006,
 * 7009 and the writer's 7001 have place 0 too.
 *
 * An error answer, which has E set and R clear, is judged by the general form of RFC 6733, clause 7.2: Session-Id (263)
 * at most once, and first if present; Origin-Host (264), Origin-Realm (296) and Result-Code (268), of any value, once;
 * Origin-State-Id (278), Error-Message (281), Error-Reporting-Host (294), Failed-AVP (279) and Experimental-Result (297)
 * at most once; Proxy-Info (284) and any others in any number. Of the rules on 5008 and 5004 just named only that of the
 * Time-Window applies to it. P may be clear in it: 3008 is for E with R, and for a clear P without E. */
struct TalazumirVerdict {
    uint32_t number;
    uint32_t place;
    uint32_t vendor;
    uint32_t code;
};

/* What comes back for a draft, or for a command's canonical form: the verdict, and how many octets were written, 0 with
 * a refusal. */
struct TalazumirWritten {
    struct TalazumirVerdict verdict;
    uint32_t length;
};

/* A part of a slice. */
struct TalazumirPart {
    size_t start;
    size_t length;
};

/* What comes back for a search: the position of the AVP found, TALAZUMIR_NONE for none, and how many AVPs with the
 * vendor and code there are at depth 1, found or not. */
struct TalazumirSought {
    uint32_t position;
    uint32_t number;
};

/* What a caller keeps between calls for one link: how many octets of the next command the buffer holds, and whether the
 * run has stopped, 0 if not. */
struct TalazumirLinkState {
    uint32_t held;
    uint32_t stopped;
};

/* What comes back for a fragment: how many of its octets were taken, what stopped the call, its verdict
 * (TALAZUMIR_NO_VERDICT, then three times 0, while the command is unfinished), and the state for the next call. */
struct TalazumirLinkStep {
    size_t taken;
    uint32_t progress;
    struct TalazumirVerdict verdict;
    struct TalazumirLinkState state;
};

/* The verdict of the command that is the whole slice. The log is scratch memory: whatever it holds before plays no
 * part, and what it holds afterwards is no record, after a refusal least of all; talazumir_read gives the record. It is
 * written from its first number on, and its numbers behind what is written stay as they were. */
struct TalazumirVerdict talazumir_verdict(const uint8_t *octets, size_t length, uint32_t log[TALAZUMIR_LOG_NUMBERS]);

/* The verdict of the command that is the whole slice, and its record. All 1,799 numbers are written; with a refusal all
 * are 0. */
struct TalazumirVerdict talazumir_read(const uint8_t *octets, size_t length, uint32_t record[TALAZUMIR_RECORD_NUMBERS]);

/* The part of the slice that is the data of the AVP at a position, for whatever numbers the record holds and whatever
 * slice. Start 0 and length 0 where the position is unused (from the count on, or from 256 on) or where the part does
 * not lie in the slice. So start + length never exceeds `length`. Octets of the slice are not looked at. */
struct TalazumirPart talazumir_data(const uint32_t record[TALAZUMIR_RECORD_NUMBERS], size_t position,
                                    const uint8_t *octets, size_t length);

/* Of the AVPs at depth 1 with this vendor and code, the one that has exactly as many of them before it at depth 1 as
 * the ordinal says: the first for 0, the second for 1. `number` is how many there are. The position is TALAZUMIR_NONE
 * exactly where the ordinal is not below that number. Any ordinal has an answer, for whatever numbers the record holds;
 * only used positions count, and each call looks at all of them. */
struct TalazumirSought talazumir_search(const uint32_t record[TALAZUMIR_RECORD_NUMBERS], uint32_t vendor, uint32_t code,
                                        size_t ordinal);

/* Writes the draft, which is the record over the lent octets, as a command to the start of the output. Any numbers may
 * stand in the record; the first of these that applies is the answer:
 *
 *   7006  the count exceeds 256; a number of an unused position is not 0; the data of an AVP that is no group leave the
 *         octets; the first depth is not 1, a depth is 0 or above 4, or one grows by more than 1 or not right after a
 *         group; a group's length is not that of its members with padding; R, P, E, T, M or P of a position is neither
 *         0 nor 1
 *   7001  the command would be longer than 16,384 octets
 *   7004  it would be longer than the room
 *         the refusal that talazumir_read gives to the command's octets
 *      0  the command stands in the output, as many octets as the length says
 *
 * Groups are the AVPs 260, 284 and 297 without vendor, and 628, 4204 and 4207 of vendor 10415; their starts are not
 * looked at. V is set exactly where the vendor is not 0; padding and reserved bits are 0. With a refusal the whole
 * output stays as it was, else the octets past the length. */
struct TalazumirWritten talazumir_write(const uint32_t record[TALAZUMIR_RECORD_NUMBERS], const uint8_t *octets,
                                        size_t length, uint8_t *out, size_t room);

/* Writes the command that is the whole slice to the start of the output in its canonical form: its own record, written
 * over its octets, so that padding and reserved bits are 0. The first of these that applies is the answer:
 *
 *         the refusal that talazumir_read gives to the command
 *   7004  the room is less than the command's length
 *      0  the form stands in the output, as long as the command
 *
 * The form is an accepted command with the command's meaning, and its own form. Two accepted commands have the same
 * form exactly where they have the same meaning, that is, where they agree in every octet outside padding and the four
 * reserved command bits: so it names a state. With a refusal the whole output stays as it was, else the octets past the
 * length. */
struct TalazumirWritten talazumir_canonical(const uint8_t *octets, size_t length, uint8_t *out, size_t room);

/* The number of seconds from one Time value (RFC 6733, clause 4.3.1) to another, each as the number that the four
 * octets of a Transfer-Start-Time (4206) or a Transfer-End-Time (4205) say, highest octet first. From 2147483648 on a
 * value counts from the beginning of 1900, below from 7 February 2036, 06:28:16 UTC. The number is 0 exactly for equal
 * values, negative for a reversed window, and between -4294967295 and 4294967295; a window is right exactly where the
 * number is above 0. From 4294967295 to 0 it is 1, from 2147483647 to 2147483648 it is -4294967295. */
int64_t talazumir_seconds(uint32_t start, uint32_t end);

/* The state to start a run with: no octets held, not stopped. To start afresh is to take it again; it forgets what is
 * held, and a run that has stopped goes on in no other way. */
struct TalazumirLinkState talazumir_link_fresh(void);

/* Takes a fragment of a run of commands, which may end anywhere, up to the end of one whole command. The caller starts
 * with talazumir_link_fresh, hands the state of each step to the next call, lends the same buffer of at least
 * TALAZUMIR_LINK_BUFFER octets to each and writes nothing to it, and offers again what was not taken, alone or before
 * the next fragment. Then every cutting of a run, with empty fragments too, finds the same commands with the same
 * verdicts, takes as many octets in total and leaves the same octets held as the run in one piece.
 *
 * Any state and any octets of the buffer have an answer. F is the length field, octets 1 to 3 of the buffer. The first
 * of these that applies is the answer:
 *
 *   7004  TALAZUMIR_REFUSAL: the room is less than TALAZUMIR_LINK_BUFFER
 *   7009  TALAZUMIR_REFUSAL: `stopped` is not 0; or `held` is 4 or more, and F is under 20, above 16,384 or not above
 *         `held`
 *         else octets of the fragment are put into the buffer behind those held, one after the other, until
 *   5015  TALAZUMIR_REFUSAL at place 1: the fourth octet stands there, and F is under 20
 *   7001  TALAZUMIR_REFUSAL at place 1: the fourth octet stands there, and F is above 16,384
 *         TALAZUMIR_COMMAND, with the verdict that talazumir_verdict gives: F octets stand there
 *         TALAZUMIR_UNFINISHED: the fragment has no more
 *
 * 7004 and 7009 take nothing and keep the state. 5015 and 7001 take the fourth octet last and stop the run: 4 octets
 * are held, and until the caller starts afresh the answer is 7009, or 7004 where the room is too small. A command stops
 * no run, whatever its verdict, and leaves the state fresh. It stands at the start of the buffer until the next call,
 * as many octets as were held before and taken, which is F: talazumir_read over these gives its record.
 *
 * Of the buffer only as many octets change as were taken, from those held on; what lies behind the held ones is not
 * looked at. The log is scratch memory: after TALAZUMIR_COMMAND as talazumir_verdict leaves it, else as it was. */
struct TalazumirLinkStep talazumir_link_take(struct TalazumirLinkState state, const uint8_t *fragment, size_t length,
                                             uint8_t *buffer, size_t room, uint32_t log[TALAZUMIR_LOG_NUMBERS]);

#ifdef __cplusplus
}
#endif

#endif
