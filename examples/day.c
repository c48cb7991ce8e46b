/*
 * Operations hand over the journal of a close in one call, fj_run_journal. One record stands too early
 * in it. The answer says where; the record is put in its place, and the rest is handed over.
 *
 *     cc -Iinclude examples/day.c -Ltarget/staticlib -lembed -o target/day && target/day
 *
 * After each call it prints the answer and the state of every ledger. The journal is the one of
 * scenarios/one-record-early.journal. In Rust it is rust/fjadrimor/examples/day.rs.
 */
#include "fjadrimor.h"

#include <stdio.h>
#include <string.h>

enum { LEDGERS = 3, EVENTS = 13 };

/* K S O M V X of each event. Ledger 1 concludes only after both others said yes. */
static const uint8_t events[EVENTS][FJ_FIELDS] = {
    {FJ_BEGIN, 1, 0, 0, FJ_VOTE_YES, 0},
    {FJ_DELIVER, 2, 1, FJ_START, FJ_VOTE_YES, 0},
    {FJ_DELIVER, 3, 1, FJ_START, FJ_VOTE_YES, 0},
    {FJ_DELIVER, 1, 2, FJ_YES, 0, 0},
    {FJ_CONCLUDE, 1, 0, 0, 0, 0}, /* too early */
    {FJ_DELIVER, 1, 3, FJ_YES, 0, 0},
    {FJ_DELIVER, 2, 1, FJ_MOVE_P, 0, 0},
    {FJ_DELIVER, 3, 1, FJ_MOVE_P, 0, 0},
    {FJ_DELIVER, 1, 2, FJ_ACK, 0, 0},
    {FJ_DELIVER, 1, 3, FJ_ACK, 0, 0},
    {FJ_CONCLUDE, 1, 0, 0, 0, 0},
    {FJ_DELIVER, 2, 1, FJ_COMMIT, 0, 0},
    {FJ_DELIVER, 3, 1, FJ_COMMIT, 0, 0},
};

/* Writes the records of the events, one after another. */
static uint8_t keeps(uint8_t *journal, size_t length)
{
    uint8_t ground = 0;
    for (size_t i = 0; ground == 0 && i < EVENTS; i++) {
        const uint8_t *e = events[i];
        ground = fj_record_write(e[0], e[1], e[2], e[3], e[4], e[5], journal, length, i * FJ_RECORD);
    }
    return ground;
}

/* A number of eight bytes, big-endian. */
static unsigned long number(const uint8_t *bytes)
{
    unsigned long value = 0;
    for (int i = 0; i < 8; i++)
        value = value << 8 | bytes[i];
    return value;
}

/* Hands over a journal, prints what became of it, and tells its place: where the next record starts.
   Returns 0 or the refusal. */
static uint8_t hands_over(uint8_t *run, const uint8_t *journal, size_t length, size_t *place)
{
    uint8_t answer[FJ_DAY_ANSWER];
    uint8_t ground = fj_run_journal(run, FJ_RUN, journal, length, answer, sizeof answer);
    for (int i = 0; i < LEDGERS; i++)
        putchar("qwpac"[run[2 + FJ_SITE * i + FJ_SITE_STATE]]);
    printf(": %lu accepted, %lu written, %d awaited", number(answer + FJ_DAY_ACCEPTED),
           number(answer + FJ_DAY_WRITTEN), answer[FJ_DAY_AWAITED]);
    if (answer[FJ_DAY_LOWEST] != 0)
        printf(" (ring ledger %d)", answer[FJ_DAY_LOWEST]);
    if (ground != 0)
        printf("; refused %d at byte %lu", ground, number(answer + FJ_DAY_PLACE));
    putchar('\n');
    *place = number(answer + FJ_DAY_PLACE);
    return ground;
}

/* Exchanges a record with the one after it. */
static void exchanges(uint8_t *record)
{
    uint8_t kept[FJ_RECORD];
    memcpy(kept, record, FJ_RECORD);
    memcpy(record, record + FJ_RECORD, FJ_RECORD);
    memcpy(record + FJ_RECORD, kept, FJ_RECORD);
}

int main(void)
{
    uint8_t run[FJ_RUN], journal[EVENTS * FJ_RECORD];
    uint8_t ground = fj_run_fresh(LEDGERS, run, sizeof run);
    if (ground == 0)
        ground = keeps(journal, sizeof journal);
    if (ground != 0) {
        fprintf(stderr, "refused %d\n", ground);
        return 1;
    }
    size_t place, rest;
    ground = hands_over(run, journal, sizeof journal, &place);
    if (ground != 0 && sizeof journal - place >= 2 * FJ_RECORD) {
        exchanges(journal + place);
        ground = hands_over(run, journal + place, sizeof journal - place, &rest);
    }
    return ground != 0;
}
