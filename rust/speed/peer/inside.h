/* What the peer's files share. "Question" is one of document 01, and refused(n) the answer that its number n gives. */
#ifndef INSIDE_H
#define INSIDE_H

#include "peer.h"

#include <stdbool.h>
#include <string.h>

enum { NUMBER_MAX = 15 };

/* A record where it lies in the lent bytes: a cast, as the header says, but at any address. */
typedef struct cetskobi_record record __attribute__((aligned(1)));

static inline record *record_at(uint8_t *table, size_t i)
{
    return (record *)(table + CETSKOBI_RECORD_BYTES * i);
}

static inline const record *seen_at(const uint8_t *table, size_t i)
{
    return (const record *)(table + CETSKOBI_RECORD_BYTES * i);
}

/* ---- sets of replicas, and timestamps */

/* A number above 15 is in no set. */
static inline uint16_t bit(uint8_t number)
{
    return number <= NUMBER_MAX ? (uint16_t)(1u << number) : 0;
}

static inline bool has(uint16_t set, uint8_t number)
{
    return (set & bit(number)) != 0;
}

static inline bool two_or_more(uint16_t set)
{
    return (set & (set - 1)) != 0;
}

/* A timestamp as one number. */
static inline uint64_t stamp(uint32_t version, uint8_t tie)
{
    return (uint64_t)version << 8 | tie;
}

/* ---- the rule of ties (02, Wish 6); every byte is one */

static inline uint8_t rule_of(struct cetskobi_settings settings)
{
    return settings.rule == CETSKOBI_LOWER ? CETSKOBI_LOWER : CETSKOBI_HIGHER;
}

/* Is this timestamp greater than the record's by the group's rule? */
static inline bool later(uint32_t version, uint8_t tie, const record *r, struct cetskobi_settings settings)
{
    if (version != r->version)
        return version > r->version;
    return settings.rule == CETSKOBI_LOWER ? tie < r->tie : tie > r->tie;
}

/* ---- answers */

/* A refusal is the rarer case: its number is then set on the way to it alone. */
static inline bool rarely(bool refused)
{
    return __builtin_expect(refused, 0);
}

static inline struct cetskobi_answer refused(uint8_t number)
{
    return (struct cetskobi_answer){.number = number};
}

static inline struct cetskobi_answer sent(uint8_t kind, uint32_t version, uint8_t tie)
{
    return (struct cetskobi_answer){.kind = kind, .tie = tie, .version = version};
}

/* ---- questions 1 to 5; each gives 0 or the number that says no */

static inline uint8_t ask_group(uint8_t number, uint16_t view)
{
    return number <= NUMBER_MAX && two_or_more(view) ? 0 : CETSKOBI_REFUSED_NO_GROUP;
}

static inline uint8_t ask_memory(size_t table_len, size_t store_len)
{
    const size_t most = (size_t)CETSKOBI_RECORD_BYTES * CETSKOBI_COUNT_MAX;
    bool whole = table_len != 0 && table_len <= most && table_len % CETSKOBI_RECORD_BYTES == 0;
    return whole && store_len == CETSKOBI_VALUE_MAX / CETSKOBI_RECORD_BYTES * table_len ? 0 : CETSKOBI_REFUSED_LENT_MEMORY;
}

static inline uint8_t ask_member(uint8_t number, uint16_t view)
{
    return view >> number & 1 ? 0 : CETSKOBI_REFUSED_STRUCK_OFF;
}

static inline bool sound(const record *r, uint8_t number)
{
    return r->state <= CETSKOBI_REPLAY && (r->tie | r->writer | r->written_tie) <= NUMBER_MAX && r->len <= CETSKOBI_VALUE_MAX &&
           (r->acks >> number & 1) == 0;
}

static inline uint8_t ask(struct cetskobi_replica me, const uint8_t *table, size_t table_len, size_t store_len, size_t i)
{
    uint8_t no = ask_group(me.number, me.view);
    if (no)
        return no;
    no = ask_memory(table_len, store_len);
    if (no)
        return no;
    no = ask_member(me.number, me.view);
    if (no)
        return no;
    if (i >= table_len / CETSKOBI_RECORD_BYTES)
        return CETSKOBI_REFUSED_STRAY_RECORD;
    return sound(seen_at(table, i), me.number) ? 0 : CETSKOBI_REFUSED_UNSOUND_RECORD;
}

/* A write or a replay that every other replica in the view has acknowledged. */
static inline bool finished(const record *r, struct cetskobi_replica me)
{
    return r->state >= CETSKOBI_WRITE && (me.view & ~(r->acks | bit(me.number))) == 0;
}

/* ---- the store */

/* The value of record i: at most 192 bytes, and the rest of its 192 zero. What the value does not fill is zeroed first, in parts of a
 * fixed length: the compiler makes plain stores of these. */
static inline void put_value(uint8_t *store, size_t i, const uint8_t *value, size_t len)
{
    enum { PART = CETSKOBI_VALUE_MAX / 3 };
    uint8_t *place = store + CETSKOBI_VALUE_MAX * i;
    if (len < PART)
        memset(place, 0, PART);
    if (len < 2 * PART)
        memset(place + PART, 0, PART);
    if (len < 3 * PART)
        memset(place + 2 * PART, 0, PART);
    if (len)
        memcpy(place, value, len);
}

#endif
