/* A small host: four controllers of one mast in one process, with messages passed through memory. Place 1 is lost in round
 * 4, before it can lead round 5, and is back in round 8. At the end it prints the four ledgers, which are equal.
 *
 * The host carries out what each replica writes (docs/RUN.md): it signs and sends votes, timeouts and certificates, makes
 * blocks, keeps those that have to wait for a parent, and books what is delivered. Nobody lies here, so every verdict is
 * 1, and no signature is made; a digest is worked out from the block, as it has to be. */
#include "nickelhush.h"

#include <stdio.h>
#include <stdlib.h>
#include <string.h>

enum { MEMBERS = 4, SLOTS = 64, LOST = 1, LOST_FROM = 4, LOST_TO = 8, LAST = 13, QUEUE = 4096, KEPT = 64 };

struct message {
    unsigned to;
    size_t length;
    uint8_t bytes[1024];
};

/* A controller: its replica's memory, the blocks that it holds (a PROPOSE record each), those that wait for a parent, and
 * its ledger. */
struct controller {
    struct nickelhush_memory memory;
    struct nickelhush_slot table[SLOTS];
    uint8_t out[NICKELHUSH_ROOM(SLOTS)];
    struct message held[KEPT], waiting[KEPT];
    size_t helds, waitings, syncs, books;
    uint64_t ledger[KEPT];
    uint8_t digests[KEPT][32];
};

static struct controller mast[MEMBERS];
static struct message queue[QUEUE];
static size_t first, next;

static void put(struct message *m, uint64_t number, size_t bytes)
{
    for (size_t i = 0; i < bytes; i++) m->bytes[m->length++] = (uint8_t)(number >> (8 * i));
}

static void copy(struct message *m, const uint8_t *from, size_t bytes)
{
    memcpy(m->bytes + m->length, from, bytes);
    m->length += bytes;
}

static uint64_t get(const uint8_t *at, size_t bytes)
{
    uint64_t n = 0;
    for (size_t i = 0; i < bytes; i++) n |= (uint64_t)at[i] << (8 * i);
    return n;
}

static uint64_t round_of(unsigned who)
{
    return nickelhush_round(mast[who].memory.core, NICKELHUSH_CORE_LENGTH);
}

/* Whether what a place sends, and what is sent to it, is lost. Time is the furthest round of the others. */
static int lost(unsigned who)
{
    uint64_t now = 0;
    for (unsigned p = 0; p < MEMBERS; p++)
        if (p != LOST && round_of(p) > now) now = round_of(p);
    return who == LOST && now >= LOST_FROM && now < LOST_TO;
}

static void send(unsigned from, unsigned to, const struct message *m)
{
    if (lost(from) || lost(to)) return;
    if (next == QUEUE) exit(2);
    queue[next] = *m;
    queue[next++].to = to;
}

static void send_all(unsigned from, const struct message *m)
{
    for (unsigned to = 0; to < MEMBERS; to++)
        if (to != from) send(from, to, m);
}

/* A QC as an event carries it, from the 48 bytes of an output: hash, round, signer word. */
static void put_qc(struct message *m, const uint8_t *high)
{
    uint64_t word = get(high + 40, 8);
    unsigned count = 0;
    for (unsigned p = 0; p < 64; p++) count += word >> p & 1;
    copy(m, high, 40);
    put(m, 1, 1);
    put(m, count, 2);
    for (unsigned p = 0; p < 64; p++)
        if (word >> p & 1) put(m, p, 2);
}

/* A TC: round, verdict, count, places and high rounds, from an output's round, count, .. */
static void put_tc(struct message *m, const uint8_t *tc)
{
    copy(m, tc, 8);
    put(m, 1, 1);
    copy(m, tc + 8, 2 + 10 * (size_t)get(tc + 8, 2));
}

/* A stand-in for a digest: four mixed sums of the block's bytes after its place. */
static void digest_of(struct message *m)
{
    for (size_t w = 0; w < 4; w++) {
        uint64_t h = 0xcbf29ce484222325u + w;
        for (size_t i = 34; i < m->length; i++) h = (h ^ m->bytes[i]) * 0x100000001b3u;
        for (size_t i = 0; i < 8; i++) m->bytes[2 + 8 * w + i] = (uint8_t)(h >> (8 * i));
    }
}

static void event(unsigned who, const uint8_t *record, size_t length);

/* A held block as LOOPBACK: the same bytes with another kind, without the payload's verdict. */
static void loopback(unsigned who, const struct message *m)
{
    struct message own = *m;
    own.bytes[0] = NICKELHUSH_LOOPBACK;
    event(who, own.bytes, own.length - 1);
}

/* MAKE: one block from exactly this round, QC and TC, sent to all others and handed in as LOOPBACK. */
static void make(unsigned who, const uint8_t *body)
{
    struct controller *c = &mast[who];
    struct message m = {0};
    if (get(body, 8) > LAST || c->helds == KEPT) return;
    put(&m, NICKELHUSH_PROPOSE, 2);
    m.length += 32;
    put(&m, who, 2);
    copy(&m, body, 8);
    put(&m, 1, 1);
    put_qc(&m, body + 8);
    put(&m, body[56], 1);
    if (body[56]) put_tc(&m, body + 57);
    digest_of(&m);
    put(&m, 1, 1);
    c->held[c->helds++] = m;
    send_all(who, &m);
    loopback(who, &m);
}

/* SYNC: the block of this event waits. Whoever holds the parent is asked for it, the author first; it comes as PROPOSE. */
static void sync(unsigned who, const uint8_t *body, const uint8_t *record, size_t length)
{
    struct controller *c = &mast[who];
    struct message *wait = &c->waiting[c->waitings++];
    if (c->waitings == KEPT) exit(2);
    c->syncs++;
    wait->length = 0;
    copy(wait, record, length);
    if (record[0] == NICKELHUSH_LOOPBACK) put(wait, 1, 1);
    for (unsigned i = 0; i < MEMBERS; i++) {
        unsigned asked = (unsigned)(get(body + 64, 2) + i) % MEMBERS;
        for (size_t k = 0; k < mast[asked].helds; k++)
            if (memcmp(mast[asked].held[k].bytes + 2, body, 32) == 0) {
                send(asked, who, &mast[asked].held[k]);
                return;
            }
    }
}

/* What one output record asks for. */
static void carry_out(unsigned who, const uint8_t *out, const uint8_t *record, size_t length)
{
    struct controller *c = &mast[who];
    const uint8_t *body = out + 2;
    struct message m = {0};
    switch (get(out, 2)) {
    case NICKELHUSH_OUT_VOTE:
        put(&m, NICKELHUSH_VOTE, 2);
        copy(&m, body + 2, 40);
        put(&m, who, 2);
        put(&m, 1, 1);
        if (get(body, 2) != who) send(who, (unsigned)get(body, 2), &m);
        break;
    case NICKELHUSH_OUT_TIMEOUT:
        put(&m, NICKELHUSH_TIMEOUT, 2);
        copy(&m, body, 8);
        put(&m, who, 2);
        put(&m, 1, 1);
        put_qc(&m, body + 8);
        send_all(who, &m);
        break;
    case NICKELHUSH_OUT_TC:
        put(&m, NICKELHUSH_TC, 2);
        put_tc(&m, body);
        send_all(who, &m);
        break;
    case NICKELHUSH_OUT_MAKE: make(who, body); break;
    case NICKELHUSH_OUT_SYNC: sync(who, body, record, length); break;
    case NICKELHUSH_OUT_COMMIT:
        if (c->books == KEPT) exit(2);
        memcpy(c->digests[c->books], body, 32);
        c->ledger[c->books++] = get(body + 32, 8);
        break;
    default: break; /* timers and cleaning up: nothing to do here */
    }
}

/* One event, and all that it wrote, in order. The outputs are copied first: carrying them out may bring the next event. */
static void event(unsigned who, const uint8_t *record, size_t length)
{
    struct controller *c = &mast[who];
    uint32_t result = nickelhush_step_in(&c->memory, c->table, SLOTS, c->out, sizeof c->out, record, length);
    uint32_t answer = nickelhush_answer(result);
    size_t written = nickelhush_written(result);
    uint8_t *out = malloc(written + 1);
    if (!out) exit(2);
    memcpy(out, c->out, written);
    for (size_t at = 0, taken; (taken = nickelhush_record(out + at, written - at)) >= 2; at += taken)
        carry_out(who, out + at + 2, record, length);
    free(out);
    if (answer >= NICKELHUSH_BAD_RECORD && answer != NICKELHUSH_REUSE) printf("place %u: answer %u\n", who, answer);
    if (answer == NICKELHUSH_DONE && (record[0] == NICKELHUSH_PROPOSE || record[0] == NICKELHUSH_LOOPBACK))
        for (size_t i = c->waitings; i-- > 0;) /* a block is stored: those that waited for it have their turn */
            if (memcmp(c->waiting[i].bytes + 45, record + 2, 32) == 0) {
                struct message m = c->waiting[i];
                c->waiting[i] = c->waiting[--c->waitings];
                loopback(who, &m);
                i = c->waitings;
            }
}

int main(void)
{
    for (unsigned who = 0; who < MEMBERS; who++) {
        struct message m = {0};
        put(&m, NICKELHUSH_START, 2);
        put(&m, MEMBERS, 2);
        put(&m, who, 2);
        for (unsigned p = 0; p < MEMBERS; p++) {
            m.length += 31; /* keys 0, 1, 2, 3 */
            put(&m, p, 1);
            put(&m, 1, 4);
        }
        event(who, m.bytes, m.length);
    }
    for (int idle = 0; idle < 64;) {
        for (; first < next; first++, idle = 0) {
            struct message m = queue[first];
            struct controller *c = &mast[m.to];
            if (m.bytes[0] == NICKELHUSH_PROPOSE && c->helds < KEPT) c->held[c->helds++] = m;
            event(m.to, m.bytes, m.length);
        }
        first = next = 0;
        /* nothing is under way: the timers run out */
        for (unsigned who = 0; who < MEMBERS; who++)
            if (!lost(who) && round_of(who) <= LAST) event(who, (const uint8_t[]){NICKELHUSH_TICK, 0}, 2);
        idle++;
    }
    int equal = 1;
    for (unsigned who = 0; who < MEMBERS; who++) {
        struct controller *c = &mast[who];
        printf("place %u: round %llu, asked for %zu blocks, ledger:", who, (unsigned long long)round_of(who), c->syncs);
        for (size_t i = 0; i < c->books; i++) printf(" %llu", (unsigned long long)c->ledger[i]);
        printf("\n");
        equal &= c->books > 0 && c->books == mast[0].books && memcmp(c->digests, mast[0].digests, sizeof c->digests) == 0;
    }
    printf("%s\n", equal ? "four equal ledgers" : "the ledgers differ");
    return !equal;
}
