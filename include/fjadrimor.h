/*
 * fjadrimor.h - a proved three-phase commit for two to eight sites, its event journal, and a judge,
 * a reader and a writer of commit protocols, on numbers and bytes.
 *
 * Link with the archive that `checks/build embed` makes, target/staticlib/libembed.a (x86-64
 * Linux). It needs memcpy and memset, and less than 64 KB of stack. No call allocates, keeps a
 * pointer, does input or output, or has state of its own: calls on different memory may be made
 * from any number of threads.
 *
 * LENT MEMORY
 * A slice is two arguments: its address and the number of its elements. All of it must be yours to
 * read, and to write unless it is const. The slices of one call must not overlap. A null pointer is
 * allowed only where the number of elements is 0.
 *
 * WHAT A CALL TAKES AND LEAVES
 * Every call takes any numbers and any bytes, and ends. What it cannot accept it refuses with a
 * number (FJ_.. below); then the site, the run, a record's room, fields and parts are as they were
 * (fj_run_fresh has one exception; fj_run_journal leaves the run as after the records before the
 * refused one). Bytes beyond those that a call is said to write are never touched, accepted or
 * refused.
 *
 * A set of sites is a byte in which site j has weight 2^(j-1): 0x01 is site 1, 0x80 is site 8.
 *
 * WHERE TO START
 * A ledger keeps the eight bytes of its site (FJ_SITE). Whatever happens to it becomes a step:
 *   1. call fj_site_step;
 *   2. send the one kind of message that the answer names to each receiver that it names;
 *   3. save the eight bytes, and only then go on.
 * In that order: a ledger that stops between 2 and 3 is then the rules' stop inside a step, and the
 * others can go on without it. After each step try FJ_CONCLUDE and FJ_TAKE_OVER, until both are
 * refused with FJ_NOT_ALLOWED: that means "not yet". Tell every running site of each one that has
 * stopped (FJ_NOTICE); one that has stopped stays stopped. Never report a site that may still run,
 * and deliver each message at most once: otherwise nothing is promised.
 *
 * A refused step has changed nothing, and nothing is to be sent. FJ_CONFLICT or FJ_WRONG_NAMES
 * means a message or a notice that the protocol cannot have sent, FJ_NOT_SOUND that the bytes are
 * no record of a site: do not post, and call a person.
 *
 * examples/close.c is that loop. The promise that this rests on is in docs/PROOF.md; what it asks of
 * a ledger, and what goes wrong otherwise, in docs/EMBEDDING.md.
 *
 * RING THIS SITE
 * The answer to a step, an event or a journal ends with how many sites the acting one still awaits,
 * and the lowest of them, 0 where it awaits nobody. At "3 awaited" a desk need not ring them all: ring
 * this site, unless the leader can conclude already (in w site 1 need not wait once it has heard a
 * No, or knows of a stop without a Yes). Once its message is heard, the answer to that step names
 * the next to ring. One that has stopped and said nothing is awaited until its stop is noticed
 * (FJ_NOTICE). Both are read off the record after the step, after a step passed over too; a site
 * that follows another awaits nobody, and one that has decided awaits nobody either.
 *
 * The zeros of a refused step, of a follower's step and of a stop say nothing of the leader: keep
 * the answer to the leader's last accepted step, until the leader stops; the next one to keep is the
 * answer to FJ_TAKE_OVER. The answer to a journal is that of its last accepted event, whichever
 * site's it was: where the desk must know, step the journal event by event.
 */
#ifndef FJADRIMOR_H
#define FJADRIMOR_H

#include <stddef.h>
#include <stdint.h>

#ifdef __cplusplus
extern "C" {
#endif

/* ---- numbers ---------------------------------------------------------------------------- */

/* States: first, wait, prepared, abort (backed out), commit (posted). */
enum { FJ_Q = 0, FJ_W = 1, FJ_P = 2, FJ_A = 3, FJ_C = 4 };

/* Kinds of message. */
enum {
    FJ_START = 1,
    FJ_YES = 2,
    FJ_NO = 3,
    FJ_MOVE_P = 4,
    FJ_MOVE_W = 5,
    FJ_ACK = 6,
    FJ_COMMIT = 7,
    FJ_ABORT = 8
};

/* K, what happens. FJ_DURING + 1 to FJ_DURING + 5 is a stop inside the step 1 to 5. */
enum {
    FJ_BEGIN = 1,
    FJ_DELIVER = 2,
    FJ_NOTICE = 3,
    FJ_TAKE_OVER = 4,
    FJ_CONCLUDE = 5,
    FJ_STOP = 6,
    FJ_DURING = 16
};

/* V, the vote at a begin and at a delivery of Start; 0 in all else. */
enum { FJ_VOTE_YES = 1, FJ_VOTE_NO = 2 };

/*
 * Outcomes. A step that is passed over writes nothing and changes at most the leader followed. In a
 * run a delivered message leaves the network all the same.
 */
enum { FJ_TAKEN = 0, FJ_PASSED = 1, FJ_REFUSED = 2 };

/* Grounds for refusal; 0 is none. */
enum {
    FJ_NOT_SOUND = 1,      /* the site or the run is not sound or no such bytes; n is not 2 to 8 */
    FJ_WRONG_NAMES = 2,    /* a site outside 1..n, a notice about itself, an unknown message, wrong ends */
    FJ_ACTOR_STOPPED = 3,  /* the acting site has stopped */
    FJ_NOT_THERE = 4,      /* no such message outstanding; noticed site not stopped or already known */
    FJ_NOT_ALLOWED = 5,    /* a begin, take over or conclude that its rule does not allow */
    FJ_CONFLICT = 6,       /* the message conflicts with the site's state */
    FJ_TOO_SHORT = 10,     /* fewer bytes than a record has */
    FJ_WRONG_LENGTH = 11,  /* the record's length is not 7 */
    FJ_WRONG_VERSION = 12, /* the record's version is not 1 */
    FJ_UNKNOWN_K = 13,     /* K is unknown */
    FJ_WRONG_FIELD = 14,   /* a field outside its range, or not 0 where K does not use it */
    FJ_NO_ROOM = 15,       /* a slice too short (or, for a fresh run, of the wrong length) */
    FJ_FEW_WORDS = 20,     /* fewer than 4,096 words are lent */
    FJ_SHEET_SIZE = 21,    /* fewer than 2 bytes, not exactly 2 + L, or L is 0 */
    FJ_SHEET_VERSION = 22, /* the sheet's version is not 1 */
    FJ_SHEET_COUNTS = 23,  /* a site or state count is missing or outside its range; in the writer also
                              parts that are not 810 bytes long, or an absent site with a count */
    FJ_SHEET_LENGTH = 24,  /* no transition count, more than 64, or L is not what the counts give; in the
                              writer also a transition beyond their number */
    FJ_SHEET_RANGE = 25,   /* a mark, site, state or vote outside its range; in the writer also a mark of
                              a state that is not there */
    FJ_READS_NOTHING = 26, /* a transition reads nothing */
    FJ_READ_TWICE = 27,    /* a message is read by two sites */
    FJ_NOT_FINAL = 28,     /* abort leads to non-abort, or commit to non-commit */
    FJ_CYCLE = 29,         /* a site's diagram has a cycle, whatever the messages allow */
    FJ_MANY_STATES = 30,   /* more than 4,096 global states are reachable */
    FJ_CLASH = 31,         /* a transition can write a message still outstanding after its reading */
    FJ_SHEET_NO_ROOM = 32  /* too little room for the whole record of a sheet */
};

/* How many bytes a site, a run, a record, a sheet's parts and a transition in them have. */
enum { FJ_SITE = 8, FJ_RUN = 138, FJ_RECORD = 9, FJ_SHEET_PARTS = 810, FJ_TRANSITION = 12 };

/* The least that answers need: bytes, and for the judge words too. */
enum {
    FJ_SITE_ANSWER = 6,
    FJ_RUN_ANSWER = 4,
    FJ_DAY_ANSWER = 26,
    FJ_FIELDS = 6,
    FJ_VERDICT = 206,
    FJ_WORDS = 4096
};

/* The least room for the texts: of a rehearsal of so many bytes, and of a report. */
#define FJ_REHEARSAL_ROOM(size) (38 + 26 * (((size) < 65536 ? (size) : 65536) / 9))
enum { FJ_REPORT_ROOM = 3731 };

/* Room for the record of every sheet: the longest has so many bytes. */
enum { FJ_SHEET_ROOM = 813 };

/* Where a site's parts stand in its bytes. */
enum {
    FJ_SITE_N = 0,
    FJ_SITE_NUMBER = 1,
    FJ_SITE_STATE = 2,
    FJ_SITE_LEADER = 3,
    FJ_SITE_KNOWN = 4,
    FJ_SITE_YES = 5,
    FJ_SITE_NO = 6,
    FJ_SITE_ACKED = 7
};

/*
 * Where the parts of a step's answer stand. The lowest site awaited is the last byte of the answer
 * to a step, an event or a journal.
 */
enum {
    FJ_STEP_OUTCOME = 0,
    FJ_STEP_KIND = 1,
    FJ_STEP_RECEIVERS = 2,
    FJ_STEP_WRITTEN = 3,
    FJ_STEP_AWAITED = 4,
    FJ_STEP_LOWEST = 5
};

/* Where the parts of an event's answer stand. */
enum { FJ_EVENT_OUTCOME = 0, FJ_EVENT_WRITTEN = 1, FJ_EVENT_AWAITED = 2, FJ_EVENT_LOWEST = 3 };

/* Where the parts of a day's answer stand: three numbers of 8 bytes, big-endian, and two bytes. */
enum {
    FJ_DAY_ACCEPTED = 0,
    FJ_DAY_WRITTEN = 8,
    FJ_DAY_PLACE = 16,
    FJ_DAY_AWAITED = 24,
    FJ_DAY_LOWEST = 25
};

/* Where a sheet's parts stand; FJ_PARTS_NUMBER is the number of transitions. */
enum {
    FJ_PARTS_SITES = 0,
    FJ_PARTS_COUNTS = 1,
    FJ_PARTS_MARKS = 5,
    FJ_PARTS_FIRST = 37,
    FJ_PARTS_NUMBER = 41,
    FJ_PARTS_TRANSITIONS = 42
};

/* Where the parts of a transition stand, in a sheet's record too. */
enum {
    FJ_TRANSITION_SITE = 0,
    FJ_TRANSITION_FROM = 1,
    FJ_TRANSITION_TO = 2,
    FJ_TRANSITION_VOTE = 3,
    FJ_TRANSITION_READS = 4,
    FJ_TRANSITION_WRITES = 8
};

/* Marks of a sheet's states. */
enum { FJ_MARK_WORKING = 0, FJ_MARK_ABORT = 1, FJ_MARK_COMMIT = 2 };

/* ---- a site ----------------------------------------------------------------------------- */

/*
 * One step of one site, where its bytes stand. Returns 0 or the refusal.
 *
 * site: 8 bytes: n, its number, its state, the leader it follows, then four sets of other sites:
 *       known stopped, yes heard, no heard, acknowledged. Site i of n before a close is
 *       { n, i, FJ_Q, 1, 0, 0, 0, 0 }.
 * k:    FJ_BEGIN to FJ_CONCLUDE.
 * o:    the sender of a delivery, or the site that a notice is about; else 0.
 * m:    the kind of a delivered message; else 0.
 * v:    the vote at a begin or a delivery of Start; else 0.
 *
 * Written to the first six bytes of answer: the outcome; the kind of the messages written, 0 for
 * none; the set of their receivers; how many messages; how many sites are still awaited, and the
 * lowest of these, 0 for none. Written to site: its bytes after the step.
 *
 * Tested in this order:
 *   15  answer has fewer than 6 bytes: nothing at all is written
 *    1  site is not 8 bytes long, or its state is above 4
 *   13  k is not 1 to 5
 *   14  v is not 1 or 2 in a begin or a delivery of Start, or a field that the step does not use
 *       is not 0
 *    1  the site is not sound
 *    2  o is not a site of 1 to n, a notice about itself, m is no message, or its ends are wrong
 *    5  a begin, take over or conclude that its rule does not allow
 *    6  a conflict
 * A refusal but 15 leaves site and writes outcome 2 and five zeros.
 */
uint8_t fj_site_step(uint8_t *site, size_t site_len, uint8_t k, uint8_t o, uint8_t m, uint8_t v,
                     uint8_t *answer, size_t answer_len);

/* ---- a run ------------------------------------------------------------------------------ */

/*
 * A run is 138 bytes: n; the set of stopped sites; eight site records of 8 bytes, site i at
 * 2 + 8 * (i - 1); 72 bytes of network, at 66 + 8 * (kind - 1) + sender - 1 the set of receivers
 * for which that message is outstanding. The last eight bytes have no kind and stay 0. Records
 * above n are handed back as they were.
 */

/*
 * The fresh run of n sites: all in q, following site 1, nothing heard, nothing outstanding. Written
 * to all 138 bytes of run. Returns 0 or the refusal:
 *   15  run is not 138 bytes long: nothing is written
 *    1  n is not 2 to 8: the same run is written with n 0 in it and in its site records, and every
 *       event on it is refused with 1
 */
uint8_t fj_run_fresh(uint8_t n, uint8_t *run, size_t run_len);

/*
 * One event of a run, where its bytes stand. Returns 0 or the refusal.
 *
 * k:  FJ_BEGIN to FJ_STOP, or FJ_DURING + 1 to FJ_DURING + 5.
 * s:  the acting site.
 * o, m, v: as in a site step.
 * x:  for a stop inside a step the set of receivers whose messages still leave, any set; else 0.
 *
 * Written to the first four bytes of answer: the outcome (an accepted stop is taken); how many
 * messages were written; how many sites the acting site still awaits, and the lowest of these, both
 * 0 after a stop. Written to run: its bytes after the event. A run that comes from fj_run_fresh
 * stays sound. Any other sound run may be left not sound by an accepted event, and then the next one
 * is refused with 1 (docs/DECISIONS.md, "Runs").
 *
 * Tested in this order:
 *   15  answer has fewer than 4 bytes: nothing at all is written
 *    1  run is not 138 bytes long, or a state is above 4 at any of the eight places
 *   13  k is unknown
 *   14  v is not 1 or 2 in a begin or a delivery of Start, or a field that k does not use is not 0
 *    1  the run is not sound
 *    2  s or o is not a site of 1 to n, a notice about itself, m is no message, wrong ends
 *    3  the acting site has stopped
 *    4  no such message is outstanding; the noticed site has not stopped, or is known to have
 *    5  a begin, take over or conclude that its rule does not allow
 *    6  a conflict
 * A refusal but 15 leaves run and writes outcome 2 and three zeros.
 */
uint8_t fj_run_event(uint8_t *run, size_t run_len, uint8_t k, uint8_t s, uint8_t o, uint8_t m,
                     uint8_t v, uint8_t x, uint8_t *answer, size_t answer_len);

/*
 * A day's journal: the events of its records, one after another, where the run's bytes stand.
 * Returns 0, or the refusal at which it ended. It comes out as fj_record_read and fj_run_event on
 * one record after another would.
 *
 * journal: event records (below), any bytes and as many as there are, with no number of sites before
 *          them: of what `fj assemble` writes, all but the first byte. They are taken from the front
 *          until one is refused or no byte is left. A journal is of one run, that is of one entry:
 *          keep one for each, since what follows behind a close is taken for events of the same run.
 *
 * Written to the first 26 bytes of answer: how many events were accepted, taken or passed over; how
 * many messages they wrote; the place, the byte at which the refused record starts, or journal_len
 * where none is refused; how many sites the acting site of the last accepted event still awaits, and
 * the lowest of these, both 0 after a stop and where none was accepted. The first three are 8 bytes
 * each, big-endian. Written to run: its bytes after the accepted events. So with a refusal, too, what
 * was accepted counts: whoever puts the record at that place right can hand over the journal from
 * there on.
 *
 * Tested in this order:
 *   15  answer has fewer than 26 bytes: nothing at all is written
 *    1  run is not 138 bytes long, or a state is above 4 at any of the eight places: before the
 *       journal is looked at, also where it is empty. Leaves run and writes 26 zeros
 * and then, for each record:
 *   10 to 14  as fj_record_read has them
 *    1 to 6   as fj_run_event has them: 1 where the run is not sound, at the start or after some
 *             accepted events
 * So a run that is not sound is refused at the first record that can be read, and with an empty
 * journal not at all: a return of 0 does not say that a run is sound. The refused record's number is
 * place / 9 + 1, counted from the slice that was handed over. Save the run and the place together:
 * records that are handed over twice meet a run that has taken them already.
 */
uint8_t fj_run_journal(uint8_t *run, size_t run_len, const uint8_t *journal, size_t journal_len,
                       uint8_t *answer, size_t answer_len);

/* ---- event records ---------------------------------------------------------------------- */

/*
 * A record is 9 bytes: the length 0 7, the version 1, then K S O M V X. In a record S and O are
 * sites 1 to 8 and M is a message 1 to 8, each only where K uses it, else 0.
 */

/*
 * Reads the record that starts at the byte `at` of a journal; `at` may be any number. Returns 0 and
 * puts K S O M V X into the first six bytes of fields, or returns the refusal and leaves fields:
 *   15  fields has fewer than 6 bytes
 *   10  fewer than 2 bytes are left, also where `at` lies past the end
 *   11  the length is not 7
 *   10  fewer than 9 bytes are left
 *   12  the version is not 1
 *   13  K is unknown
 *   14  a field is outside its range
 * The next record starts at at + FJ_RECORD.
 */
uint8_t fj_record_read(const uint8_t *journal, size_t journal_len, size_t at,
                       uint8_t *fields, size_t fields_len);

/*
 * Writes a record into the nine bytes of room from the byte `at` on; `at` may be any number.
 * Returns 0, or the refusal with the room as it was:
 *   13  k is unknown
 *   14  a field is outside its range
 *   15  fewer than 9 bytes are left from `at` on
 */
uint8_t fj_record_write(uint8_t k, uint8_t s, uint8_t o, uint8_t m, uint8_t v, uint8_t x,
                        uint8_t *room, size_t room_len, size_t at);

/*
 * Rehearses a journal: one byte n, then records. Puts the text at the front of text and returns its
 * length; there is no 0 byte at its end. It has a line for each record: its place, what became of it,
 * the sites' letters and, unless it is refused, the lowest site that the acting one awaits, or -.
 * Only the first 65,536 bytes of the input are taken. A journal that cannot be read is told in the
 * text, as docs/RULES.md has it. Returns 0, with nothing written, where text has fewer bytes than
 * FJ_REHEARSAL_ROOM(input_len); 189344 bytes are enough for every input.
 */
size_t fj_rehearse(const uint8_t *input, size_t input_len, uint8_t *text, size_t text_len);

/* ---- protocol sheets -------------------------------------------------------------------- */

/*
 * A sheet: the length L of all that follows (2 bytes, big-endian), the version 1, the number of
 * sites (2 to 4), a state count for each (1 to 8), a mark for each state (0 working, 1 abort,
 * 2 commit), the messages outstanding at first (4 bytes, big-endian), the number of transitions
 * (up to 64), then 12 bytes for each: site, from, to, vote, reads (4), writes (4).
 *
 * A global state as a word: outstanding messages + 2^32 * votes + 2^36 * (s1 + 8 * s2 + 64 * s3
 * + 512 * s4).
 */

/*
 * Judges a sheet. Returns 0 or the refusal: 15 first of all, for fewer than 206 bytes of out, with
 * nothing written; then 20 to 31 in order.
 *
 * words: at least 4,096 words, with any content. Accepted, the first 4,096 are the reachable global
 * states, ascending, and then zeros. 20 to 29 leave the words, 30 and 31 set the first 4,096 to
 * zero. Later words are never touched.
 *
 * Written to the first 206 bytes of out, all zeros after 20 to 31:
 *     0        sites
 *     1 to 2   the number of reachable states, big-endian
 *     3        1 where the sheet is nonblocking
 *     4 to 6   where it is blocking: the lowest site, its state, the condition broken
 *     7        tolerance: where three or more sites obey, their number less one; else 0, for none
 *              is stated. A site obeys when none of its states is blocked
 *     8 to 13  zeros
 *    14 to 205 six bytes for each local state, state j of site i at 14 + 6 * (8 * (i - 1) + j);
 *              zeros where the sheet has no such state:
 *                0       bit 0 reached, bit 1 committable
 *                1       decision: 0 none (not reached), 1 abort, 2 commit, 3 blocked
 *                2 to 5  the concurrency set, big-endian: state j of site i is bit 8 * (i - 1) + j
 */
uint8_t fj_sheet_judge(const uint8_t *sheet, size_t sheet_len, uint64_t *words, size_t words_len,
                       uint8_t *out, size_t out_len);

/*
 * The report on a sheet as text, at the front of text; `refused N` for a refused one, `refused 20`
 * where fewer than 4,096 words are lent. Returns its length, and leaves the words as the judge
 * leaves them; there is no 0 byte at its end. Returns 0, with nothing touched, where text has fewer
 * than FJ_REPORT_ROOM bytes.
 */
size_t fj_sheet_report(const uint8_t *sheet, size_t sheet_len, uint64_t *words, size_t words_len,
                       uint8_t *text, size_t text_len);

/*
 * A sheet's parts are 810 bytes, zeros where the sheet has nothing:
 *     0         sites
 *     1 to 4    the state count of each site
 *     5 to 36   marks, of state j of site i at 5 + 8 * (i - 1) + j
 *    37 to 40   the messages outstanding at first, big-endian
 *    41         the number of transitions
 *    42 to 809  64 transitions of 12 bytes, as in the record
 * To edit a sheet, read its parts, change them and write them: the writer finds every length. Whatever
 * is taken out must be zeroed, or it is refused: with fewer transitions the bytes behind the last one
 * (24), with fewer states the marks of those that are gone (25), with fewer sites their counts too (23).
 */

/*
 * Reads a sheet. Returns 0, and the first 810 bytes of parts are its parts; or the refusal, with
 * parts as they were: 15 first of all, for fewer than 810 bytes of parts; then 21 to 29 in order.
 * Whatever is read is written again with the same bytes.
 */
uint8_t fj_sheet_parts(const uint8_t *sheet, size_t sheet_len, uint8_t *parts, size_t parts_len);

/*
 * Writes the record of a sheet's parts at the front of room. It has 2 + L bytes, where L stands in its
 * first two, big-endian; FJ_SHEET_ROOM bytes are enough for every one. Returns 0, or the refusal with
 * the room as it was:
 *   23  parts is not 810 bytes long; the number of sites or a state count is outside its range; an
 *       absent site has a count
 *   24  more than 64 transitions, or something where a transition beyond their number would stand
 *   25  a mark, site, state or vote outside its range; a state that is not there has a mark
 *   26 to 29  as the judge has them
 *   32  room has fewer bytes than the record
 * Whatever is written is read back as the same parts. The writer does not look at reachable states:
 * fj_sheet_judge may still refuse the record with 30 or 31.
 */
uint8_t fj_sheet_write(const uint8_t *parts, size_t parts_len, uint8_t *room, size_t room_len);

#ifdef __cplusplus
}
#endif

#endif
