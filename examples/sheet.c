/*
 * A reviewer writes commit protocols down as sheets and counts nothing: the writer, fj_sheet_write,
 * finds every length. Two-phase commit with two sites is blocking; with a prepared state it is not.
 * Then a sheet is read, a slip is made in it, and the writer says which.
 *
 *     cc -Iinclude examples/sheet.c -Ltarget/staticlib -lembed -o target/sheet && target/sheet
 *
 * It prints the length of each record and its verdict, or the refusal. In Rust, where a builder takes
 * names, it is rust/fjadrimor/examples/sheet.rs.
 */
#include "fjadrimor.h"

#include <stdio.h>
#include <string.h>

/* The messages as sets. */
enum { NONE = 0, REQUEST = 1, START = 2, YES = 4, NO = 8, ABORT = 16, COMMIT = 32, PREPARE = 64, ACK = 128 };

/* The states of each site, in the order in which they are added. */
enum { Q, W, A, C, P };

/* Adds a site. */
static uint8_t site(uint8_t *parts)
{
    return ++parts[FJ_PARTS_SITES];
}

/* Adds a state to a site. */
static void state(uint8_t *parts, uint8_t site, uint8_t mark)
{
    uint8_t number = parts[FJ_PARTS_COUNTS + site - 1]++;
    parts[FJ_PARTS_MARKS + 8 * (site - 1) + number] = mark;
}

/* A set of messages as four bytes, big-endian. */
static void set(uint8_t *bytes, uint32_t messages)
{
    for (int i = 0; i < 4; i++)
        bytes[i] = messages >> (24 - 8 * i);
}

/* Adds a transition. */
static void transition(uint8_t *parts, uint8_t site, uint8_t from, uint8_t to, uint8_t vote,
                       uint32_t reads, uint32_t writes)
{
    uint8_t *t = parts + FJ_PARTS_TRANSITIONS + FJ_TRANSITION * parts[FJ_PARTS_NUMBER]++;
    t[FJ_TRANSITION_SITE] = site;
    t[FJ_TRANSITION_FROM] = from;
    t[FJ_TRANSITION_TO] = to;
    t[FJ_TRANSITION_VOTE] = vote;
    set(t + FJ_TRANSITION_READS, reads);
    set(t + FJ_TRANSITION_WRITES, writes);
}

/* Commit with a coordinator and a slave, in two phases or in three. */
static void protocol(uint8_t *parts, int phases)
{
    memset(parts, 0, FJ_SHEET_PARTS);
    uint8_t coordinator = site(parts), slave = site(parts);
    for (uint8_t i = coordinator; i <= slave; i++) {
        state(parts, i, FJ_MARK_WORKING);
        state(parts, i, FJ_MARK_WORKING);
        state(parts, i, FJ_MARK_ABORT);
        state(parts, i, FJ_MARK_COMMIT);
        if (phases == 3)
            state(parts, i, FJ_MARK_WORKING);
    }
    set(parts + FJ_PARTS_FIRST, REQUEST);
    transition(parts, coordinator, Q, W, 0, REQUEST, START);
    transition(parts, coordinator, W, A, 0, YES, ABORT);
    transition(parts, coordinator, W, A, 0, NO, NONE);
    transition(parts, slave, Q, W, 1, START, YES);
    transition(parts, slave, Q, A, 0, START, NO);
    transition(parts, slave, W, A, 0, ABORT, NONE);
    if (phases == 3) {
        transition(parts, coordinator, W, P, 1, YES, PREPARE);
        transition(parts, coordinator, P, C, 0, ACK, COMMIT);
        transition(parts, slave, W, P, 0, PREPARE, ACK);
        transition(parts, slave, P, C, 0, COMMIT, NONE);
    } else {
        transition(parts, coordinator, W, C, 1, YES, COMMIT);
        transition(parts, slave, W, C, 0, COMMIT, NONE);
    }
}

/* Writes and judges a sheet, and prints what came of it. Returns the record's length, 0 for none. */
static size_t tells(const char *name, const uint8_t *parts, uint8_t *record)
{
    static uint64_t words[FJ_WORDS];
    uint8_t verdict[FJ_VERDICT];
    uint8_t ground = fj_sheet_write(parts, FJ_SHEET_PARTS, record, FJ_SHEET_ROOM);
    size_t length = ground == 0 ? 2 + 256 * (size_t)record[0] + record[1] : 0;
    if (ground == 0)
        ground = fj_sheet_judge(record, length, words, FJ_WORDS, verdict, sizeof verdict);
    if (ground != 0)
        printf("%s: refused %d\n", name, ground);
    else if (verdict[3] == 1)
        printf("%s: %d bytes, nonblocking\n", name, (int)length);
    else
        printf("%s: %d bytes, blocking at %d.%d condition %d\n", name, (int)length, verdict[4],
               verdict[5], verdict[6]);
    return length;
}

int main(void)
{
    uint8_t parts[FJ_SHEET_PARTS], again[FJ_SHEET_PARTS], record[FJ_SHEET_ROOM];
    protocol(parts, 2);
    tells("two phases", parts, record);
    protocol(parts, 3);
    size_t length = tells("three phases", parts, record);
    uint8_t ground = fj_sheet_parts(record, length, again, sizeof again);
    if (ground != 0 || memcmp(parts, again, sizeof parts) != 0) {
        fprintf(stderr, "the record was not read back\n");
        return 1;
    }
    set(again + FJ_PARTS_TRANSITIONS + FJ_TRANSITION_READS, NONE);
    return tells("a transition that reads nothing", again, record) != 0;
}
