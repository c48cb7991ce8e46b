/*
 * Three ledgers close two entries at the same time, by fj_site_step alone. Ledger 3 does not agree to
 * entry 8, and ledger 1 stops while it sends its decision on entry 7.
 *
 *     cc -Iinclude examples/close.c -Ltarget/staticlib -lembed -o target/close && target/close
 *
 * `takes` and `hears` are what a ledger needs; docs/EMBEDDING.md has them with the reasons. The rest
 * stands for its disk, for the wire, and for what stops it. After each step it prints the entry and
 * the state of every ledger, in upper case once the ledger has stopped. In Rust it is
 * rust/fjadrimor/examples/close.rs.
 */
#include "fjadrimor.h"

#include <ctype.h>
#include <stdio.h>
#include <string.h>

/* STOPPED stands beside the refusals, all of which are below it. */
enum { LEDGERS = 3, ENTRIES = 2, FIRST = 7, ROOM = 64, STOPPED = 255 };

/* What goes over the wire: the entry, the kind of the message, who sends it, and to whom. */
struct envelope {
    uint32_t entry;
    uint8_t kind, from, to;
};

/* A ledger keeps eight bytes for each entry. */
struct ledger {
    uint8_t number, stopped;
    uint8_t disk[ENTRIES][FJ_SITE];
};

static struct ledger ledgers[LEDGERS];
static struct envelope wire[ROOM];
static int first, last;

/* Puts a message on the wire. Ledger 1 stops before its tenth; then nothing leaves any more. */
static int sends(struct ledger *ledger, uint32_t entry, uint8_t kind, uint8_t to)
{
    static int sent;
    ledger->stopped = ledger->number == 1 && ++sent == 10;
    if (ledger->stopped || last == ROOM)
        return 0;
    wire[last++] = (struct envelope){entry, kind, ledger->number, to};
    return 1;
}

/* Saves a record. */
static int saves(struct ledger *ledger, uint32_t entry, const uint8_t *site)
{
    memcpy(ledger->disk[entry - FIRST], site, FJ_SITE);
    return 1;
}

/* Takes a step: the library computes it, the messages leave, the record is saved. Where it is refused
   nothing has changed, and nothing has left. One that cannot send or save any more has stopped. */
static uint8_t takes(struct ledger *ledger, uint32_t entry, uint8_t k, uint8_t o, uint8_t m, uint8_t v)
{
    uint8_t site[FJ_SITE], answer[FJ_SITE_ANSWER];
    memcpy(site, ledger->disk[entry - FIRST], FJ_SITE);
    uint8_t ground = fj_site_step(site, FJ_SITE, k, o, m, v, answer, sizeof answer);
    if (ground != 0)
        return ground;
    for (uint8_t to = 1; to <= LEDGERS; to++) {
        if ((answer[FJ_STEP_RECEIVERS] >> (to - 1) & 1) != 0 && !sends(ledger, entry, answer[FJ_STEP_KIND], to))
            return STOPPED;
    }
    return saves(ledger, entry, site) ? 0 : STOPPED;
}

/* Something is heard. Then the ledger tries what it may do of itself: to lead, where all lower ledgers
   have stopped, and as a leader to take the next decision. FJ_NOT_ALLOWED means: not yet. */
static uint8_t hears(struct ledger *ledger, uint32_t entry, uint8_t k, uint8_t o, uint8_t m, uint8_t v)
{
    uint8_t ground = takes(ledger, entry, k, o, m, v);
    while (ground == 0) {
        ground = takes(ledger, entry, FJ_TAKE_OVER, 0, 0, 0);
        if (ground == FJ_NOT_ALLOWED)
            ground = takes(ledger, entry, FJ_CONCLUDE, 0, 0, 0);
        if (ground == FJ_NOT_ALLOWED)
            return 0;
    }
    return ground;
}

/* A ledger's vote on an entry, given when it begins and when Start comes. */
static uint8_t vote(uint8_t number, uint32_t entry)
{
    return number == 3 && entry == 8 ? FJ_VOTE_NO : FJ_VOTE_YES;
}

/* Something happens to a ledger that runs, and where all stand is printed. */
static uint8_t happens(uint8_t number, uint32_t entry, uint8_t k, uint8_t o, uint8_t m, uint8_t v)
{
    if (ledgers[number - 1].stopped)
        return 0;
    uint8_t ground = hears(&ledgers[number - 1], entry, k, o, m, v);
    printf("entry %u: ", (unsigned)entry);
    for (int i = 0; i < LEDGERS; i++) {
        char letter = "qwpac"[ledgers[i].disk[entry - FIRST][FJ_SITE_STATE]];
        putchar(ledgers[i].stopped ? toupper(letter) : letter);
    }
    putchar('\n');
    return ground == STOPPED ? 0 : ground;
}

/* Delivers a message, to the record of its entry. */
static uint8_t delivers(struct envelope message)
{
    uint8_t v = message.kind == FJ_START ? vote(message.to, message.entry) : 0;
    return happens(message.to, message.entry, FJ_DELIVER, message.from, message.kind, v);
}

int main(void)
{
    uint8_t ground = 0, reported = 0;
    for (uint8_t i = 0; i < LEDGERS; i++) {
        ledgers[i].number = i + 1;
        for (int e = 0; e < ENTRIES; e++) /* n, number, state, the leader followed, four empty sets */
            memcpy(ledgers[i].disk[e], (uint8_t[FJ_SITE]){LEDGERS, i + 1, FJ_Q, 1}, FJ_SITE);
    }
    for (uint32_t entry = FIRST; ground == 0 && entry < FIRST + ENTRIES; entry++)
        ground = happens(1, entry, FJ_BEGIN, 0, 0, vote(1, entry));
    while (ground == 0 && first < last) {
        ground = delivers(wire[first++]);
        /* The stop of ledger 1 is reported to each that runs: once, for every entry. */
        if (ground != 0 || first < last || !ledgers[0].stopped || reported++)
            continue;
        for (uint8_t number = 2; number <= LEDGERS; number++) {
            for (uint32_t entry = FIRST; ground == 0 && entry < FIRST + ENTRIES; entry++)
                ground = happens(number, entry, FJ_NOTICE, 1, 0, 0);
        }
    }
    if (ground != 0)
        fprintf(stderr, "refused %d\n", ground);
    return ground != 0;
}
