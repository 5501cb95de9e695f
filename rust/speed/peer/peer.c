/* Events of one replica but deliveries, membership, and what leaves: see peer.h. */
#include "inside.h"

/* ---- events on a record */

struct cetskobi_reading peer_read(struct cetskobi_replica me, const uint8_t *table, size_t table_len, const uint8_t *store, size_t store_len,
                               size_t i)
{
    (void)store;
    uint8_t no = ask(me, table, table_len, store_len, i);
    if (no)
        return (struct cetskobi_reading){.number = no};
    const record *r = seen_at(table, i);
    if (r->state != CETSKOBI_VALID)
        return (struct cetskobi_reading){.number = CETSKOBI_REFUSED_NOT_READABLE};
    return (struct cetskobi_reading){.len = r->len};
}

/* The step of a write and of a commit. */
static inline struct cetskobi_answer save(struct cetskobi_replica me, record *r, uint8_t *store, size_t i, const uint8_t *value,
                                          size_t value_len)
{
    uint32_t version = r->version + 1;
    r->state = CETSKOBI_WRITE;
    r->tie = r->writer = r->written_tie = me.number;
    r->version = r->written_version = version;
    r->acks = 0;
    r->len = (uint8_t)value_len;
    put_value(store, i, value, value_len);
    return sent(CETSKOBI_INV, version, me.number);
}

struct cetskobi_answer peer_write(struct cetskobi_replica me, uint8_t *table, size_t table_len, uint8_t *store, size_t store_len, size_t i,
                                  const uint8_t *value, size_t value_len)
{
    uint8_t no = ask(me, table, table_len, store_len, i);
    if (no)
        return refused(no);
    record *r = record_at(table, i);
    if (r->state > CETSKOBI_INVALID)
        return refused(CETSKOBI_REFUSED_NOT_WRITABLE);
    if (value_len > CETSKOBI_VALUE_MAX)
        return refused(CETSKOBI_REFUSED_VALUE_TOO_LONG);
    if (r->version == UINT32_MAX)
        return refused(CETSKOBI_REFUSED_LAST_VERSION);
    return save(me, r, store, i, value, value_len);
}

/* As a read, and the timestamp with it (02, Wish 5). */
struct cetskobi_asked peer_ask(struct cetskobi_replica me, const uint8_t *table, size_t table_len, const uint8_t *store, size_t store_len,
                               size_t i)
{
    (void)store;
    uint8_t no = ask(me, table, table_len, store_len, i);
    if (no)
        return (struct cetskobi_asked){.number = no};
    const record *r = seen_at(table, i);
    if (r->state != CETSKOBI_VALID)
        return (struct cetskobi_asked){.number = CETSKOBI_REFUSED_NOT_READABLE};
    return (struct cetskobi_asked){.tie = r->tie, .version = r->version, .len = r->len};
}

/* Question 26 in the place of 7 (02, Wish 5). */
struct cetskobi_answer peer_commit(struct cetskobi_replica me, uint8_t *table, size_t table_len, uint8_t *store, size_t store_len, size_t i,
                                   uint32_t version, uint8_t tie, const uint8_t *value, size_t value_len)
{
    uint8_t no = ask(me, table, table_len, store_len, i);
    if (no)
        return refused(no);
    record *r = record_at(table, i);
    if (r->state != CETSKOBI_VALID || r->version != version || r->tie != tie)
        return refused(CETSKOBI_REFUSED_NOT_AS_OPENED);
    if (value_len > CETSKOBI_VALUE_MAX)
        return refused(CETSKOBI_REFUSED_VALUE_TOO_LONG);
    if (r->version == UINT32_MAX)
        return refused(CETSKOBI_REFUSED_LAST_VERSION);
    return save(me, r, store, i, value, value_len);
}

struct cetskobi_answer peer_replay(struct cetskobi_replica me, uint8_t *table, size_t table_len, const uint8_t *store, size_t store_len,
                                   size_t i)
{
    (void)store;
    uint8_t no = ask(me, table, table_len, store_len, i);
    if (no)
        return refused(no);
    record *r = record_at(table, i);
    /* Question 16. From invalid-write too (02, Wish 2): the own write, overtaken, is given up. */
    bool invalid = r->state == CETSKOBI_INVALID || r->state == CETSKOBI_INVALID_WRITE;
    if (!invalid || has(me.view, r->writer))
        return refused(CETSKOBI_REFUSED_NOT_REPLAYABLE);
    r->state = CETSKOBI_REPLAY;
    r->writer = me.number;
    r->written_tie = r->tie;
    r->written_version = r->version;
    r->acks = 0;
    return sent(CETSKOBI_INV, r->version, r->tie);
}

struct cetskobi_answer peer_validate(struct cetskobi_replica me, uint8_t *table, size_t table_len, const uint8_t *store, size_t store_len,
                                     size_t i)
{
    (void)store;
    uint8_t no = ask(me, table, table_len, store_len, i);
    if (no)
        return refused(no);
    record *r = record_at(table, i);
    if (!finished(r, me))
        return refused(CETSKOBI_REFUSED_NOT_FINISHED);
    r->state = CETSKOBI_VALID;
    return sent(CETSKOBI_VAL, r->version, r->tie);
}

struct cetskobi_answer peer_resend(struct cetskobi_replica me, uint8_t *table, size_t table_len, const uint8_t *store, size_t store_len,
                                   size_t i)
{
    (void)store;
    uint8_t no = ask(me, table, table_len, store_len, i);
    if (no)
        return refused(no);
    const record *r = seen_at(table, i);
    if (r->state >= CETSKOBI_WRITE)
        return sent(CETSKOBI_INV, r->version, r->tie);
    if (r->state == CETSKOBI_VALID && r->writer == me.number)
        return sent(CETSKOBI_VAL, r->version, r->tie);
    return refused(CETSKOBI_REFUSED_NOT_RESENDABLE);
}

/* ---- membership, and what leaves */

/* By words: stored field by field it would be read back at once to be returned, which stalls. */
static inline struct cetskobi_admission admission(uint8_t number, uint8_t rule, uint16_t view, uint32_t epoch, uint8_t no)
{
    struct cetskobi_admission a;
    uint64_t identity = (uint64_t)epoch << 32 | (uint32_t)view << 16 | (uint32_t)rule << 8 | number;
    uint32_t last = no;
    memcpy(&a, &identity, sizeof identity);
    memcpy((uint8_t *)&a + sizeof identity, &last, sizeof last);
    return a;
}

/* A refused one gives the identity back as it was passed, the rule's byte too. */
struct cetskobi_admission peer_view(struct cetskobi_replica me, uint32_t epoch, uint16_t set)
{
    uint8_t no = ask_group(me.number, me.view);
    if (!no)
        no = ask_member(me.number, me.view);
    if (!no && epoch <= me.epoch)
        no = CETSKOBI_REFUSED_OLD_EPOCH;
    if (!no && ((set & ~me.view) != 0 || !two_or_more(set)))
        no = CETSKOBI_REFUSED_VIEW_NOT_WITHIN;
    if (rarely(no))
        return admission(me.number, me.settings.rule, me.view, me.epoch, no);
    return admission(me.number, rule_of(me.settings), set, epoch, 0);
}

struct cetskobi_admission peer_start(uint8_t number, uint16_t view, struct cetskobi_settings settings, uint8_t *table, size_t table_len,
                                     uint8_t *store, size_t store_len)
{
    uint8_t rule = rule_of(settings);
    uint8_t no = ask_group(number, view);
    if (!no)
        no = ask_memory(table_len, store_len);
    if (!no)
        no = ask_member(number, view);
    if (no)
        return admission(number, rule, view, 0, no);
    /* Bytes 0 to 7 as one number: the lowest of the view, by both rules, is tie-breaker, last writer and last-write tie-breaker. Byte 15
     * stays. */
    uint64_t fresh = (uint64_t)__builtin_ctz(view) * 0x01010100;
    for (uint8_t *r = table; r != table + table_len; r += CETSKOBI_RECORD_BYTES) {
        memcpy(r, &fresh, sizeof fresh);
        memset(r + sizeof fresh, 0, offsetof(struct cetskobi_record, unused) - sizeof fresh);
    }
    memset(store, 0, store_len);
    return admission(number, rule, view, 0, 0);
}

size_t peer_body(const uint8_t *table, size_t table_len, const uint8_t *store, size_t store_len, size_t i, struct cetskobi_answer left)
{
    (void)store;
    if (left.kind != CETSKOBI_INV)
        return 0;
    if (table_len % CETSKOBI_RECORD_BYTES != 0 || i >= table_len / CETSKOBI_RECORD_BYTES || i >= store_len / CETSKOBI_VALUE_MAX)
        return CETSKOBI_GONE;
    const record *r = seen_at(table, i);
    bool held = r->state <= CETSKOBI_REPLAY && r->len <= CETSKOBI_VALUE_MAX && r->version == left.version && r->tie == left.tie;
    return held ? r->len : CETSKOBI_GONE;
}

uint16_t peer_recipients(struct cetskobi_replica me, uint8_t kind, uint8_t sender)
{
    switch (kind) {
    case CETSKOBI_INV:
    case CETSKOBI_VAL:
        return me.view & (uint16_t)~bit(me.number);
    case CETSKOBI_ACK:
        return bit(sender);
    default:
        return 0;
    }
}
