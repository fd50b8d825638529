/* The proved replica for a host in C. One event goes in as a record's bytes, with the memory that the host lends; an
 * answer and output records come out. The library opens nothing, allocates nothing, keeps nothing between calls and
 * calls nothing of the host's: it has no state but the memory that is lent.
 *
 * Plain C11, x86-64, no dependency. Link with libnickelhush.a (`tools/build nickelhush`).
 * docs/RUN.md follows one whole run and says what each output asks of the host. hosts/c/mast.c is an example.
 *
 * What the host owes. Every call takes pointers with lengths, and answers any lengths. Each pointer is not null (also
 * where its length is 0), is aligned for its type, and leads to as many numbers as its length says, which nothing else
 * reads or writes during the call; no two of the slices that one call writes overlap each other or the record. `used`
 * of every slot is 0 or 1. Nothing else is asked: the contents may be anything.
 */
#ifndef NICKELHUSH_H
#define NICKELHUSH_H

#include <stddef.h>
#include <stdint.h>

#ifdef __cplusplus
extern "C" {
#endif

/* How many numbers to lend, and the most slots of a table. The same numbers come from nickelhush_size(NICKELHUSH_..),
 * which is proved equal to the replica's own; hosts/test compares the two. */
#define NICKELHUSH_SEAT_LENGTH 2
#define NICKELHUSH_CORE_LENGTH 9
#define NICKELHUSH_STAKES_LENGTH 64
#define NICKELHUSH_VOTES_LENGTH 256
#define NICKELHUSH_TIMEOUTS_LENGTH 1088
#define NICKELHUSH_SLOTS_MOST 1024
#define NICKELHUSH_RECORD_MOST 4096

enum nickelhush_part {
    NICKELHUSH_SEAT,
    NICKELHUSH_CORE,
    NICKELHUSH_STAKES,
    NICKELHUSH_VOTES,
    NICKELHUSH_TIMEOUTS,
    NICKELHUSH_SLOTS,
    NICKELHUSH_RECORD
};

/* The bytes of output to lend with a table of so many slots, as nickelhush_room(slots) gives them. */
#define NICKELHUSH_ROOM(slots) (44 * (slots) + 2048)

/* A block in the table. A hash of 32 bytes is four numbers of 8 bytes, low byte first. */
struct nickelhush_slot {
    uint8_t used;
    uint64_t digest[4];
    uint64_t round;
    uint64_t parent[4];
    uint64_t parent_round;
};

#ifndef __cplusplus
_Static_assert(sizeof(struct nickelhush_slot) == 88, "a slot is 88 bytes");
_Static_assert(offsetof(struct nickelhush_slot, digest) == 8, "the digest is at 8");
_Static_assert(offsetof(struct nickelhush_slot, round) == 40, "the round is at 40");
_Static_assert(offsetof(struct nickelhush_slot, parent) == 48, "the parent is at 48");
_Static_assert(offsetof(struct nickelhush_slot, parent_round) == 80, "the parent's round is at 80");
#endif

/* A replica's memory, but for the table and the output, whose sizes the host chooses: 11,088 bytes.
 *
 *     seat      member count, own place
 *     core      round, last voted, last committed; the high QC's hash (4), round, signers (bit p for place p)
 *     stakes    a stake for each place
 *     votes     32 tallies of 8: used, round, weight, names, hash (4)
 *     timeouts  16 tallies of 68: used, round, weight, names, a high round for each place
 *
 * All zeros is a replica that is not started. */
struct nickelhush_memory {
    uint16_t seat[NICKELHUSH_SEAT_LENGTH];
    uint32_t stakes[NICKELHUSH_STAKES_LENGTH];
    uint64_t core[NICKELHUSH_CORE_LENGTH];
    uint64_t votes[NICKELHUSH_VOTES_LENGTH];
    uint64_t timeouts[NICKELHUSH_TIMEOUTS_LENGTH];
};

/* What an event is answered with. 0 to 3 are not refusals. 16 and up are, and most are early: nothing changed, nothing
 * was written. 22, 24, 27, 28, 29, 30 and 31 may be late: what was done and written before stands. */
enum nickelhush_answer_number {
    NICKELHUSH_DONE = 0,
    NICKELHUSH_STALE = 1,
    NICKELHUSH_WAIT_PARENT = 2,
    NICKELHUSH_WAIT_PAYLOAD = 3,
    NICKELHUSH_BAD_RECORD = 16,
    NICKELHUSH_BAD_SETUP = 17,
    NICKELHUSH_NO_ROOM = 18,
    NICKELHUSH_ROUND_TOO_HIGH = 19,
    NICKELHUSH_LIST_TOO_LONG = 20,
    NICKELHUSH_WRONG_LEADER = 21,
    NICKELHUSH_UNKNOWN_AUTHORITY = 22,
    NICKELHUSH_BAD_SIGNATURE = 23,
    NICKELHUSH_REUSE = 24,
    NICKELHUSH_QC_QUORUM = 25,
    NICKELHUSH_TC_QUORUM = 26,
    NICKELHUSH_PAYLOAD_INVALID = 27,
    NICKELHUSH_TABLE_FULL = 28,
    NICKELHUSH_TALLIES_FULL = 29,
    NICKELHUSH_PARENT_ABSENT = 30,
    NICKELHUSH_ROUND_NOT_BELOW = 31,
    NICKELHUSH_EMPTY_TC = 32,
    NICKELHUSH_NOT_STARTED = 33,
    NICKELHUSH_STARTED_AGAIN = 34
};

/* The kinds of records, in and out. */
enum nickelhush_kind {
    NICKELHUSH_START = 1,
    NICKELHUSH_PROPOSE = 2,
    NICKELHUSH_VOTE = 3,
    NICKELHUSH_TIMEOUT = 4,
    NICKELHUSH_TC = 5,
    NICKELHUSH_LOOPBACK = 6,
    NICKELHUSH_TICK = 7,
    NICKELHUSH_OUT_VOTE = 0x0101,
    NICKELHUSH_OUT_TIMEOUT = 0x0102,
    NICKELHUSH_OUT_TC = 0x0103,
    NICKELHUSH_OUT_MAKE = 0x0104,
    NICKELHUSH_OUT_COMMIT = 0x0105,
    NICKELHUSH_OUT_SYNC = 0x0106,
    NICKELHUSH_OUT_CLEAN_PROPOSER = 0x0107,
    NICKELHUSH_OUT_CLEAN_MEMPOOL = 0x0108,
    NICKELHUSH_OUT_TIMER_RESET = 0x0109,
    NICKELHUSH_OUT_ANSWER = 0x010A
};

/* One event. `record` is the record's kind and body, without the two bytes of its length. Output records are written
 * to the front of `out`; no byte past them changes. No ANSWER is written: it is in the result, with the number of
 * bytes written, which is at most NICKELHUSH_ROOM(slots).
 *
 * A table that is not 1 to 1,024 slots or an output too small for it is NO_ROOM. Memory of other lengths than the
 * constants above counts as not started, and START in it is NO_ROOM. */
uint32_t nickelhush_step(uint16_t *seat, size_t seat_length, uint64_t *core, size_t core_length, uint32_t *stakes,
                         size_t stakes_length, uint64_t *votes, size_t votes_length, uint64_t *timeouts,
                         size_t timeouts_length, struct nickelhush_slot *table, size_t slots, uint8_t *out, size_t room,
                         const uint8_t *record, size_t length);

/* The two parts of a result: the answer, and the bytes written. */
uint32_t nickelhush_answer(uint32_t result);
size_t nickelhush_written(uint32_t result);

/* Makes the memory that of a new replica, all zeros. START then makes table and memory new. */
void nickelhush_new(uint16_t *seat, size_t seat_length, uint64_t *core, size_t core_length, uint32_t *stakes,
                    size_t stakes_length, uint64_t *votes, size_t votes_length, uint64_t *timeouts,
                    size_t timeouts_length);

/* How many bytes the record at the front of a trace, or of an event's output, takes with the two bytes of its length:
 * 2 or more. The record itself starts at 2. 0: there is no byte left. 1: the bytes end in the middle of a record, or its
 * length is above the most; a run ends here, with BAD_RECORD. */
size_t nickelhush_record(const uint8_t *trace, size_t length);

/* The current round; the round last voted in or given up; the round of the last block delivered. */
uint64_t nickelhush_round(const uint64_t *core, size_t core_length);
uint64_t nickelhush_last_voted(const uint64_t *core, size_t core_length);
uint64_t nickelhush_last_committed(const uint64_t *core, size_t core_length);

/* The sizes above, as the library has them; 0 for another part. */
size_t nickelhush_size(uint32_t part);

/* The bytes of output to lend with a table of so many slots; 0 where no table has so many. */
size_t nickelhush_room(size_t slots);

/* nickelhush_step over a struct of the memory. */
static inline uint32_t nickelhush_step_in(struct nickelhush_memory *m, struct nickelhush_slot *table, size_t slots,
                                          uint8_t *out, size_t room, const uint8_t *record, size_t length)
{
    return nickelhush_step(m->seat, NICKELHUSH_SEAT_LENGTH, m->core, NICKELHUSH_CORE_LENGTH, m->stakes,
                           NICKELHUSH_STAKES_LENGTH, m->votes, NICKELHUSH_VOTES_LENGTH, m->timeouts,
                           NICKELHUSH_TIMEOUTS_LENGTH, table, slots, out, room, record, length);
}

#ifdef __cplusplus
}
#endif

#endif
