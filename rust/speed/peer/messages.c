/* What comes from others: deliveries, and packets. See peer.h. */
#include "inside.h"

enum { HEAD_BYTES = 4, CONTENTS_BYTES = 16 };

/* ---- delivery */

/* An ACK leaves, whether the timestamp is greater or not. */
static inline struct cetskobi_answer take_inv(record *r, struct cetskobi_replica me, uint8_t *store, size_t i, struct cetskobi_message m,
                                              const uint8_t *value, size_t value_len)
{
    if (later(m.version, m.tie, r, me.settings)) {
        bool writing = r->state == CETSKOBI_WRITE || r->state == CETSKOBI_INVALID_WRITE;
        r->state = writing ? CETSKOBI_INVALID_WRITE : CETSKOBI_INVALID;
        r->tie = m.tie;
        r->writer = m.sender;
        r->version = m.version;
        r->len = (uint8_t)value_len;
        put_value(store, i, value, value_len);
    }
    return sent(CETSKOBI_ACK, m.version, m.tie);
}

/* The last one validates a write or a replay too, and the VAL leaves; of an overtaken write it is only counted. */
static inline struct cetskobi_answer take_ack(record *r, struct cetskobi_replica me, struct cetskobi_message m)
{
    bool awaited = r->state >= CETSKOBI_INVALID_WRITE && stamp(m.version, m.tie) == stamp(r->written_version, r->written_tie);
    if (!awaited || has(r->acks, m.sender))
        return refused(CETSKOBI_REFUSED_STRAY_ACK);
    r->acks |= bit(m.sender);
    if (!finished(r, me))
        return sent(CETSKOBI_NONE, 0, 0);
    r->state = CETSKOBI_VALID;
    return sent(CETSKOBI_VAL, r->version, r->tie);
}

static inline struct cetskobi_answer take_val(record *r, struct cetskobi_message m)
{
    if (r->state == CETSKOBI_VALID || stamp(m.version, m.tie) != stamp(r->version, r->tie))
        return refused(CETSKOBI_REFUSED_STRAY_VAL);
    r->state = CETSKOBI_VALID;
    return sent(CETSKOBI_NONE, 0, 0);
}

/* Inlined in its callers: a call more would pass all of this through memory. */
__attribute__((always_inline))
static inline struct cetskobi_answer deliver(struct cetskobi_replica me, uint8_t *table, size_t table_len, uint8_t *store,
                                             size_t store_len, size_t i, struct cetskobi_message m, const uint8_t *value, size_t value_len)
{
    uint8_t no = ask(me, table, table_len, store_len, i);
    if (no)
        return refused(no);
    if (m.epoch != me.epoch)
        return refused(CETSKOBI_REFUSED_OTHER_EPOCH);
    if (m.sender == me.number || !has(me.view, m.sender))
        return refused(CETSKOBI_REFUSED_OTHER_SENDER);
    bool inv = m.kind == CETSKOBI_INV;
    if (m.tie > NUMBER_MAX || value_len > (inv ? CETSKOBI_VALUE_MAX : 0))
        return refused(CETSKOBI_REFUSED_ILL_FORMED);
    record *r = record_at(table, i);
    switch (m.kind) {
    case CETSKOBI_INV:
        return take_inv(r, me, store, i, m, value, value_len);
    case CETSKOBI_ACK:
        return take_ack(r, me, m);
    case CETSKOBI_VAL:
        return take_val(r, m);
    default:
        return refused(CETSKOBI_REFUSED_ILL_FORMED);
    }
}

struct cetskobi_answer peer_deliver(struct cetskobi_replica me, uint8_t *table, size_t table_len, uint8_t *store, size_t store_len,
                                    size_t i, struct cetskobi_message message, const uint8_t *value, size_t value_len)
{
    return deliver(me, table, table_len, store, store_len, i, message, value, value_len);
}

/* ---- packets */

/* Numbers of a packet have the most significant byte first. */
static inline uint16_t load2(const uint8_t *at)
{
    return (uint16_t)(at[0] << 8 | at[1]);
}

static inline uint32_t load4(const uint8_t *at)
{
    return (uint32_t)at[0] << 24 | (uint32_t)at[1] << 16 | (uint32_t)at[2] << 8 | at[3];
}

static inline void store2(uint8_t *at, size_t number)
{
    uint16_t n = __builtin_bswap16((uint16_t)number);
    memcpy(at, &n, sizeof n);
}

static inline void store4(uint8_t *at, uint32_t number)
{
    uint32_t n = __builtin_bswap32(number);
    memcpy(at, &n, sizeof n);
}

/* Question 22 of one entry: kind, sender, epoch (4), record (2), version (4), tie-breaker, offset (2), length. */
static inline bool good_entry(const uint8_t *e, size_t at)
{
    uint8_t kind = e[0], sender = e[1], record_high = e[6], tie = e[12], len = e[15];
    return (sender | record_high | tie) <= NUMBER_MAX && load2(e + 13) == at && kind >= CETSKOBI_INV && kind <= CETSKOBI_VAL &&
           len <= (kind == CETSKOBI_INV ? CETSKOBI_VALUE_MAX : 0);
}

/* Questions 20, 27 and 21 to 23: 0 or the number that says no. Every message is looked at. */
static inline uint8_t ask_packet(struct cetskobi_settings settings, const uint8_t *packet, size_t packet_len, size_t i)
{
    if (packet_len < HEAD_BYTES || packet_len > CETSKOBI_PACKET_MAX)
        return CETSKOBI_REFUSED_PACKET_HEAD;
    uint8_t rule = packet[0];
    size_t count = packet[1];
    if (count < 1 || count > CETSKOBI_MESSAGES_MAX || load2(packet + 2) != packet_len)
        return CETSKOBI_REFUSED_PACKET_HEAD;
    if (rule != rule_of(settings))
        return rule == CETSKOBI_HIGHER || rule == CETSKOBI_LOWER ? CETSKOBI_REFUSED_OTHER_RULE : CETSKOBI_REFUSED_PACKET_HEAD;
    size_t at = HEAD_BYTES + CONTENTS_BYTES * count;
    if (at > packet_len)
        return CETSKOBI_REFUSED_PACKET_CONTENTS;
    const uint8_t *end = packet + at;
    for (const uint8_t *e = packet + HEAD_BYTES; e != end; e += CONTENTS_BYTES) {
        if (!good_entry(e, at))
            return CETSKOBI_REFUSED_PACKET_ENTRY;
        at += e[15];
    }
    if (at != packet_len)
        return CETSKOBI_REFUSED_PACKET_ENTRY;
    return i < count ? 0 : CETSKOBI_REFUSED_PACKET_INDEX;
}

/* The entry of message i, which is there, with its bytes. */
static inline const uint8_t *entry_at(const uint8_t *packet, size_t i)
{
    return packet + HEAD_BYTES + CONTENTS_BYTES * i;
}

static inline struct cetskobi_fetched fetched(const uint8_t *e)
{
    return (struct cetskobi_fetched){
        .kind = e[0],
        .sender = e[1],
        .tie = e[12],
        .epoch = load4(e + 2),
        .version = load4(e + 8),
        .index = load2(e + 6),
        .at = load2(e + 13),
        .len = e[15],
    };
}

static inline struct cetskobi_message message_of(const uint8_t *e)
{
    return (struct cetskobi_message){.kind = e[0], .sender = e[1], .tie = e[12], .epoch = load4(e + 2), .version = load4(e + 8)};
}

struct cetskobi_fetched peer_fetch(struct cetskobi_settings settings, const uint8_t *packet, size_t packet_len, size_t i)
{
    uint8_t no = ask_packet(settings, packet, packet_len, i);
    if (no)
        return (struct cetskobi_fetched){.number = no};
    return fetched(entry_at(packet, i));
}

struct cetskobi_answer peer_deliver_packet(struct cetskobi_replica me, uint8_t *table, size_t table_len, uint8_t *store, size_t store_len,
                                           const uint8_t *packet, size_t packet_len, size_t i)
{
    uint8_t no = ask_packet(me.settings, packet, packet_len, i);
    if (no)
        return refused(no);
    const uint8_t *e = entry_at(packet, i);
    struct cetskobi_message m = message_of(e);
    return deliver(me, table, table_len, store, store_len, load2(e + 6), m, packet + load2(e + 13), e[15]);
}

/* ---- packets in one pass */

struct cetskobi_accepted peer_accept(struct cetskobi_settings settings, const uint8_t *packet, size_t packet_len)
{
    /* Every packet has a message 0: 23 is not answered. */
    uint8_t no = ask_packet(settings, packet, packet_len, 0);
    if (no)
        return (struct cetskobi_accepted){.number = no};
    return (struct cetskobi_accepted){.count = packet[1]};
}

/* What is asked of message i once its packet is accepted. The facts may be of other bytes: entry and body are to lie within these. */
static inline uint8_t ask_accepted(const uint8_t *packet, size_t packet_len, struct cetskobi_accepted accepted, size_t i)
{
    if (i >= accepted.count)
        return accepted.number ? accepted.number : CETSKOBI_REFUSED_PACKET_INDEX;
    if (HEAD_BYTES + CONTENTS_BYTES * (i + 1) > packet_len)
        return CETSKOBI_REFUSED_PACKET_CONTENTS;
    const uint8_t *e = entry_at(packet, i);
    size_t at = load2(e + 13), len = e[15];
    return at + len <= packet_len ? 0 : CETSKOBI_REFUSED_PACKET_ENTRY;
}

struct cetskobi_fetched peer_fetch_accepted(const uint8_t *packet, size_t packet_len, struct cetskobi_accepted accepted, size_t i)
{
    uint8_t no = ask_accepted(packet, packet_len, accepted, i);
    if (no)
        return (struct cetskobi_fetched){.number = no};
    return fetched(entry_at(packet, i));
}

struct cetskobi_arrival peer_deliver_accepted(struct cetskobi_replica me, uint8_t *table, size_t table_len, uint8_t *store,
                                              size_t store_len, const uint8_t *packet, size_t packet_len,
                                              struct cetskobi_accepted accepted, size_t i)
{
    uint8_t no = ask_accepted(packet, packet_len, accepted, i);
    if (no)
        return (struct cetskobi_arrival){.answer = refused(no)};
    const uint8_t *e = entry_at(packet, i);
    struct cetskobi_message m = message_of(e);
    size_t index = load2(e + 6);
    return (struct cetskobi_arrival){
        .answer = deliver(me, table, table_len, store, store_len, index, m, packet + load2(e + 13), e[15]),
        .epoch = m.epoch,
        .sender = m.sender,
        .index = index,
    };
}

/* ---- writing packets */

/* Question 24 of a message's fields. */
static inline bool good_message(const struct cetskobi_entry *e)
{
    return e->kind >= CETSKOBI_INV && e->kind <= CETSKOBI_VAL && (e->sender | e->tie) <= NUMBER_MAX && e->index < CETSKOBI_COUNT_MAX &&
           e->len <= (e->kind == CETSKOBI_INV ? CETSKOBI_VALUE_MAX : 0);
}

struct cetskobi_written peer_pack(struct cetskobi_settings settings, const uint32_t *messages, size_t messages_len, const uint8_t *bodies,
                                  size_t bodies_len, uint8_t *out, size_t out_len)
{
    struct cetskobi_written no = {.number = CETSKOBI_REFUSED_PACKET_MESSAGES};
    size_t count = messages_len / CETSKOBI_ENTRY_WORDS;
    if (messages_len % CETSKOBI_ENTRY_WORDS != 0 || count < 1 || count > CETSKOBI_MESSAGES_MAX)
        return no;
    const struct cetskobi_entry *entries = (const struct cetskobi_entry *)messages;
    size_t sum = 0;
    for (size_t k = 0; k < count; k++) {
        if (!good_message(&entries[k]))
            return no;
        sum += entries[k].len;
    }
    if (sum != bodies_len)
        return no;
    no.number = CETSKOBI_REFUSED_PACKET_ROOM;
    size_t at = HEAD_BYTES + CONTENTS_BYTES * count, total = at + sum;
    if (total > CETSKOBI_PACKET_MAX || total > out_len)
        return no;
    out[0] = rule_of(settings);
    out[1] = (uint8_t)count;
    store2(out + 2, total);
    if (sum)
        memcpy(out + at, bodies, sum);
    uint8_t *place = out + HEAD_BYTES;
    for (const struct cetskobi_entry *e = entries; e != entries + count; e++, place += CONTENTS_BYTES) {
        uint32_t len = e->len;
        place[0] = (uint8_t)e->kind;
        place[1] = (uint8_t)e->sender;
        store4(place + 2, e->epoch);
        store2(place + 6, e->index);
        store4(place + 8, e->version);
        place[12] = (uint8_t)e->tie;
        store2(place + 13, at);
        place[15] = (uint8_t)len;
        at += len;
    }
    return (struct cetskobi_written){.len = total};
}
