/* The engine's interface (include/cetskobi.h), written by hand in C for the speed table: what a good C version of the same costs.
 * Structs, parameters and answers are those of the header; only the names differ. Nothing is proved of it: rust/speed/tests compares it
 * with the engine. */
#ifndef PEER_H
#define PEER_H

#include "cetskobi.h"

struct cetskobi_answer peer_write(struct cetskobi_replica me, uint8_t *table, size_t table_len, uint8_t *store, size_t store_len, size_t i,
                                  const uint8_t *value, size_t value_len);
struct cetskobi_answer peer_deliver(struct cetskobi_replica me, uint8_t *table, size_t table_len, uint8_t *store, size_t store_len,
                                    size_t i, struct cetskobi_message message, const uint8_t *value, size_t value_len);
struct cetskobi_answer peer_replay(struct cetskobi_replica me, uint8_t *table, size_t table_len, const uint8_t *store, size_t store_len,
                                   size_t i);
struct cetskobi_answer peer_validate(struct cetskobi_replica me, uint8_t *table, size_t table_len, const uint8_t *store, size_t store_len,
                                     size_t i);
struct cetskobi_answer peer_resend(struct cetskobi_replica me, uint8_t *table, size_t table_len, const uint8_t *store, size_t store_len,
                                   size_t i);
struct cetskobi_reading peer_read(struct cetskobi_replica me, const uint8_t *table, size_t table_len, const uint8_t *store, size_t store_len,
                               size_t i);

/* 02, Wish 5. */
struct cetskobi_asked peer_ask(struct cetskobi_replica me, const uint8_t *table, size_t table_len, const uint8_t *store, size_t store_len,
                               size_t i);
struct cetskobi_answer peer_commit(struct cetskobi_replica me, uint8_t *table, size_t table_len, uint8_t *store, size_t store_len, size_t i,
                                   uint32_t version, uint8_t tie, const uint8_t *value, size_t value_len);

struct cetskobi_admission peer_view(struct cetskobi_replica me, uint32_t epoch, uint16_t set);
struct cetskobi_admission peer_start(uint8_t number, uint16_t view, struct cetskobi_settings settings, uint8_t *table, size_t table_len,
                                     uint8_t *store, size_t store_len);

/* How many bytes at 192 times i the message that left an event on record i takes along: none unless it is an INV. CETSKOBI_GONE where the
 * record no longer has its timestamp, is no record, is longer than a value, or has not its 192 bytes in the store. */
size_t peer_body(const uint8_t *table, size_t table_len, const uint8_t *store, size_t store_len, size_t i, struct cetskobi_answer left);
uint16_t peer_recipients(struct cetskobi_replica me, uint8_t kind, uint8_t sender);

struct cetskobi_fetched peer_fetch(struct cetskobi_settings settings, const uint8_t *packet, size_t packet_len, size_t i);
struct cetskobi_written peer_pack(struct cetskobi_settings settings, const uint32_t *messages, size_t messages_len, const uint8_t *bodies,
                                  size_t bodies_len, uint8_t *out, size_t out_len);
struct cetskobi_answer peer_deliver_packet(struct cetskobi_replica me, uint8_t *table, size_t table_len, uint8_t *store, size_t store_len,
                                           const uint8_t *packet, size_t packet_len, size_t i);

/* A packet in one pass. The facts may be those of other bytes, or none of any: the header says what is answered then. */
struct cetskobi_accepted peer_accept(struct cetskobi_settings settings, const uint8_t *packet, size_t packet_len);
struct cetskobi_fetched peer_fetch_accepted(const uint8_t *packet, size_t packet_len, struct cetskobi_accepted accepted, size_t i);
struct cetskobi_arrival peer_deliver_accepted(struct cetskobi_replica me, uint8_t *table, size_t table_len, uint8_t *store,
                                              size_t store_len, const uint8_t *packet, size_t packet_len,
                                              struct cetskobi_accepted accepted, size_t i);

#endif
