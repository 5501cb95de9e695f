/* The replication engine for C: that of one replica, a laptop of its group. Link with the archive that `sh tools/archive` makes:
 * cc -O2 main.c -Iinclude target/staticlib/libcetskobi.a
 * cetskobi_text.h has the refusals, states, kinds and rules as text.
 *
 * Table and store. The table is 16 bytes for each record, at 16 times its number: struct cetskobi_record says what they are. A table
 * whose length is no multiple of 16 holds no records. The store is 192 bytes for each record, no more and no less, at 192 times its
 * number.
 *
 * Pointers and lengths. Memory is passed as a pointer and a length in elements: that many elements are there, and none needs be where the
 * length is 0. What a function writes (table, store, out) overlaps nothing else passed to the same call: copy a text out of the store
 * before it is saved again. Beyond that every function takes every input.
 *
 * Answers. A number of 0, or that of the question that said no: CETSKOBI_REFUSED_.. below, and what to do about each in docs/GUIDE.md,
 * part 4. After a no nothing lent has changed, and the other fields of the answer are 0. Two answers tell more. An admission has an
 * identity: an accepted start or view the new one, a refused view the old one, as it was passed, and a refused start the one that was
 * asked for. The rule of a start and of an accepted view is 1 or 2 there, whatever byte was passed. An arrival has the message that came,
 * also where its delivery was refused.
 * cetskobi_body and cetskobi_recipients ask no question: they give a length and a set.
 *
 * Threads and stack. No function keeps anything between calls, and none allocates. One laptop's table and store take one call at a time;
 * calls on different memory may run at once. A call needs at most CETSKOBI_STACK bytes of stack, cetskobi_play CETSKOBI_PLAY_STACK;
 * measured are some 270 bytes and some 58 KiB, and 3 KiB more where the loader looks for memset or memcpy at the first call (tests/c/stack.c).
 *
 * Versions. A version is major.minor.patch. Within one major version what is here stays: names, numbers, layouts, signatures, and what is
 * accepted and refused. A minor version may add functions, refusals (28 to 37 are announced), kinds and states: have a default for numbers
 * that you do not know. While the major version is 0, a minor version may also change what is here; CHANGELOG.md says what. */
#ifndef CETSKOBI_H
#define CETSKOBI_H

#include <stddef.h>
#include <stdint.h>

#define CETSKOBI_VERSION "0.8.0"
#define CETSKOBI_VERSION_MAJOR 0
#define CETSKOBI_VERSION_MINOR 8
#define CETSKOBI_VERSION_PATCH 0

/* Bytes of stack that are enough for a call. */
#define CETSKOBI_STACK 4096
#define CETSKOBI_PLAY_STACK 98304

/* Before every function: the compiler warns where its answer is dropped unseen. An answer has the refusal, the message that is to be sent,
 * and of a start or a view the identity from then on: a laptop whose view is dropped stays at the old epoch. Who means to drop one gives it
 * to a variable. */
#if (defined __cplusplus && __cplusplus >= 201703L) || (defined __STDC_VERSION__ && __STDC_VERSION__ >= 202311L)
#define CETSKOBI_MUST_USE [[nodiscard]]
#elif defined __GNUC__
#define CETSKOBI_MUST_USE __attribute__((warn_unused_result))
#else
#define CETSKOBI_MUST_USE
#endif

#ifdef __cplusplus
extern "C" {
#endif

/* The states of a record. */
enum {
    CETSKOBI_VALID = 0,         /* it may be shown */
    CETSKOBI_INVALID = 1,       /* a newer value is known, but not that every replica has it */
    CETSKOBI_INVALID_WRITE = 2, /* overtaken while writing: another replica's write has a later timestamp */
    CETSKOBI_WRITE = 3,         /* this replica's write waits for acknowledgements */
    CETSKOBI_REPLAY = 4         /* this replica's replay, for a writer that was struck off, waits for acknowledgements */
};

/* One record, as its 16 bytes lie in the table. A number of more than a byte has the least significant first, as on x86-64, the archive's
 * only machine: there an array of this struct, passed as (uint8_t *)records, is a table. A state above 4 is no record, and question 5
 * refuses it like an unsound one; every other value of the fields is a record. */
struct cetskobi_record {
    uint8_t state;            /* byte 0: one of the five */
    uint8_t tie;              /* byte 1: the timestamp's tie-breaker */
    uint8_t writer;           /* byte 2: the last writer: whose INV was taken last; this replica since its own write or replay; at first the lowest in the view */
    uint8_t written_tie;      /* byte 3: the last-write timestamp's tie-breaker */
    uint32_t version;         /* bytes 4 to 7: the timestamp's version */
    uint32_t written_version; /* bytes 8 to 11: the last-write timestamp's version */
    uint16_t acks;            /* bytes 12 and 13: the set of replicas whose acknowledgement has come */
    uint8_t len;              /* byte 14: of the value, in bytes */
    uint8_t unused;           /* byte 15: never read and never changed, not by a fresh start either */
};

enum { CETSKOBI_RECORD_BYTES = 16, CETSKOBI_VALUE_MAX = 192, CETSKOBI_COUNT_MAX = 4096 };

/* The rules of ties (document 02, Wish 6): which of two timestamps with one version is the greater. Versions that differ are compared alike
 * under both. A group has one of the rules from its start to its end, and its packets have that rule's number as byte 0. */
enum {
    CETSKOBI_HIGHER = 1, /* the one with the higher tie-breaker: the old rule, which groups formed earlier keep to their end */
    CETSKOBI_LOWER = 2   /* the one with the lower tie-breaker: the new rule, for groups formed from next season on */
};

/* What is fixed at a group's start. All laptops of a group start with the same settings: their agreement rests on it, and no call can see
 * whether it is so. The start takes them, a view keeps them, and nothing changes them. */
struct cetskobi_settings {
    uint8_t rule; /* 2 is CETSKOBI_LOWER; every other value, 0 too, is CETSKOBI_HIGHER */
};

/* The identity of a replica, in 8 bytes. Every event compares timestamps by the rule that stands here. */
struct cetskobi_replica {
    uint8_t number;
    struct cetskobi_settings settings;
    uint16_t view;
    uint32_t epoch;
};

/* The kinds of a message. */
enum { CETSKOBI_NONE = 0, CETSKOBI_INV = 1, CETSKOBI_ACK = 2, CETSKOBI_VAL = 3 };

/* The refusals: the questions of documents 01 and 02 by number, and the player's own. */
enum {
    CETSKOBI_REFUSED_NO_GROUP = 1,         /* the laptop's number is above 15, or its view has fewer than two laptops */
    CETSKOBI_REFUSED_LENT_MEMORY = 2,      /* there are not 1 to 4,096 records, or not exactly 192 bytes of store for each record */
    CETSKOBI_REFUSED_STRUCK_OFF = 3,       /* this laptop is not in its own view: struck off, or left out of its first view */
    CETSKOBI_REFUSED_STRAY_RECORD = 4,     /* there is no record of that number */
    CETSKOBI_REFUSED_UNSOUND_RECORD = 5,   /* the record in the table is damaged */
    CETSKOBI_REFUSED_NOT_READABLE = 6,     /* the record is not valid now, so it cannot be shown */
    CETSKOBI_REFUSED_NOT_WRITABLE = 7,     /* an earlier write or replay of the record is still under way here */
    CETSKOBI_REFUSED_VALUE_TOO_LONG = 8,   /* the value is longer than 192 bytes */
    CETSKOBI_REFUSED_LAST_VERSION = 9,     /* the record has used up its versions */
    CETSKOBI_REFUSED_OTHER_EPOCH = 10,     /* the message is of another epoch than this laptop */
    CETSKOBI_REFUSED_OTHER_SENDER = 11,    /* the message's sender is not another laptop of the view */
    CETSKOBI_REFUSED_ILL_FORMED = 12,      /* the message is no INV, ACK or VAL, its tie-breaker is above 15, or its bytes do not fit it */
    CETSKOBI_REFUSED_STRAY_ACK = 13,       /* no such acknowledgement is awaited, or it is counted already */
    CETSKOBI_REFUSED_STRAY_VAL = 14,       /* the record is valid already, or the validation is for another timestamp */
    CETSKOBI_REFUSED_NOT_FINISHED = 15,    /* nothing waits to be validated, or an acknowledgement is still missing */
    CETSKOBI_REFUSED_NOT_REPLAYABLE = 16,  /* the record is neither invalid nor invalid-write, or its last writer is still in the view */
    CETSKOBI_REFUSED_NOT_RESENDABLE = 17,  /* this laptop has nothing of its own to send again for the record */
    CETSKOBI_REFUSED_OLD_EPOCH = 18,       /* the new epoch is not greater than this laptop's */
    CETSKOBI_REFUSED_VIEW_NOT_WITHIN = 19, /* the new view is not within the old one, or has fewer than two laptops */
    CETSKOBI_REFUSED_PACKET_HEAD = 20,     /* these bytes do not begin as a packet of their length */
    CETSKOBI_REFUSED_PACKET_CONTENTS = 21, /* the packet's contents table is cut short */
    CETSKOBI_REFUSED_PACKET_ENTRY = 22,    /* a message in the packet's contents table is broken */
    CETSKOBI_REFUSED_PACKET_INDEX = 23,    /* the packet has no message of that number */
    CETSKOBI_REFUSED_PACKET_MESSAGES = 24, /* there are not 1 to 64 messages, or the numbers or bytes of one do not fit */
    CETSKOBI_REFUSED_PACKET_ROOM = 25,     /* the packet would be longer than 1,400 bytes or than its room */
    CETSKOBI_REFUSED_NOT_AS_OPENED = 26,   /* the record is not valid now, or no longer has the timestamp that it was opened with */
    CETSKOBI_REFUSED_OTHER_RULE = 27,      /* the packet is of a group with the other rule of ties */
    CETSKOBI_REFUSED_PLAYER_ROOM = 255     /* the script is longer than 65,536 bytes or lacks room to print */
};

/* 0 or the number of the question that said no; and the message that leaves, with its timestamp. */
struct cetskobi_answer {
    uint8_t number;
    uint8_t kind;
    uint8_t tie;
    uint32_t version;
};

/* A message as it is delivered. */
struct cetskobi_message {
    uint8_t kind;
    uint8_t sender;
    uint8_t tie;
    uint32_t epoch;
    uint32_t version;
};

/* 0 or the number of the question that said no; and how many bytes at 192 times the record's number are its value. */
struct cetskobi_reading {
    uint8_t number;
    size_t len;
};

/* The same, and the record's timestamp, which a commit brings back. A refused ask has none: version and tie are 0. */
struct cetskobi_asked {
    uint8_t number;
    uint8_t tie;
    uint32_t version;
    size_t len;
};

/* 0 or the number of the question that said no; and message i of a packet: its bytes are the len bytes of the packet from at on. */
struct cetskobi_fetched {
    uint8_t number;
    uint8_t kind;
    uint8_t sender;
    uint8_t tie;
    uint32_t epoch;
    uint32_t version;
    size_t index; /* of the record */
    size_t at;
    size_t len;
};

/* What is known of a packet that was looked at as a whole: 0 and how many messages it has; or the number of the question that refused it,
 * 20, 27, 21 or 22, and no messages. */
struct cetskobi_accepted {
    uint8_t number;
    uint8_t count;
};

/* The answer to the delivery of a packet's message; and which message it was, also of a refused delivery: the number of the record that it
 * is about, its sender and its epoch. An epoch greater than this laptop's is the sign that it missed a view, whichever question refused the
 * message: 10, or an earlier one. Where no message was taken they are 0: by this packet's own facts, where answer.number is 20 to 23 or
 * 27. */
struct cetskobi_arrival {
    struct cetskobi_answer answer;
    uint32_t epoch;
    uint8_t sender;
    size_t index; /* of the record */
};

/* A message that goes into a packet, in the order of its CETSKOBI_ENTRY_WORDS words. */
struct cetskobi_entry {
    uint32_t kind;
    uint32_t sender;
    uint32_t epoch;
    uint32_t index; /* of the record */
    uint32_t version;
    uint32_t tie;
    uint32_t len; /* of the bytes that it takes along */
};

enum { CETSKOBI_ENTRY_WORDS = 7, CETSKOBI_MESSAGES_MAX = 64, CETSKOBI_PACKET_MAX = 1400 };

/* 0 or the number of the question that said no; and how many bytes were written. */
struct cetskobi_written {
    uint8_t number;
    size_t len;
};

/* 0 and how many bytes were printed; 255 and 0 where the script or the output is beyond the player's limits. */
struct cetskobi_played {
    uint8_t number;
    size_t len;
};

/* 0 or the number of the question that said no; and the identity from then on. */
struct cetskobi_admission {
    struct cetskobi_replica replica;
    uint8_t number;
};

/* Events on record i. A message that leaves is about record i, from me.number at me.epoch as they were passed: who sends it later keeps
 * them with it, since a view may have changed me. A delivery takes the record's number and the bytes that came with its message: other
 * bytes, or none, are accepted too, and two laptops may then show different texts for one timestamp. cetskobi_deliver_packet and
 * cetskobi_deliver_accepted take both from the packet. What an accepted event sends: write, commit and replay an INV, validate a VAL,
 * resend an INV or a VAL, deliver what stands there. */

/* Saves over whatever stands there: also over a text that nobody has looked at here, and over one that is not valid yet (invalid). For
 * what a ringer saves there is cetskobi_commit. */
CETSKOBI_MUST_USE
struct cetskobi_answer cetskobi_write(struct cetskobi_replica me, uint8_t *table, size_t table_len, uint8_t *store, size_t store_len,
                                      size_t i, const uint8_t *value, size_t value_len);
/* The answer to an INV has an ACK, which goes to the INV's sender. The answer to an ACK has nothing; but with the last one that a record in
 * state write or replay waits for, of all others in the view, the record becomes valid and the answer has its VAL, which goes to all of
 * them. In invalid-write such an ACK is counted, and nothing else. The answer to a VAL has nothing. */
CETSKOBI_MUST_USE
struct cetskobi_answer cetskobi_deliver(struct cetskobi_replica me, uint8_t *table, size_t table_len, uint8_t *store, size_t store_len,
                                        size_t i, struct cetskobi_message message, const uint8_t *value, size_t value_len);
/* For a record in state invalid or invalid-write whose last writer was struck off before its VAL came here: to be tried after a view. This
 * laptop takes that write over, with its timestamp and value: all others in the view are to acknowledge it anew, and the last ACK settles
 * it. From invalid-write too, where it had overtaken a write of this laptop's own: that one is given up. Its value was overwritten when
 * the other's INV came, and its acknowledgements no longer count. */
CETSKOBI_MUST_USE
struct cetskobi_answer cetskobi_replay(struct cetskobi_replica me, uint8_t *table, size_t table_len, const uint8_t *store, size_t store_len,
                                       size_t i);
/* For a record whose last missing acknowledgement was that of a laptop since struck off: to be tried after a view. Any other is validated by
 * the delivery of its last ACK; before it and after it the answer here is 15. */
CETSKOBI_MUST_USE
struct cetskobi_answer cetskobi_validate(struct cetskobi_replica me, uint8_t *table, size_t table_len, const uint8_t *store,
                                         size_t store_len, size_t i);
/* No byte of the table changes, although it is lent to be written. */
CETSKOBI_MUST_USE
struct cetskobi_answer cetskobi_resend(struct cetskobi_replica me, uint8_t *table, size_t table_len, const uint8_t *store, size_t store_len,
                                       size_t i);
CETSKOBI_MUST_USE
struct cetskobi_reading cetskobi_read(struct cetskobi_replica me, const uint8_t *table, size_t table_len, const uint8_t *store,
                                      size_t store_len, size_t i);

/* A ringer opens a record, and saves over what she saw (document 02, Wish 5). cetskobi_ask is cetskobi_read, and gives the record's
 * timestamp too: keep it, with a copy of the text, since what comes in later overwrites the store. Nobody else is kept from saving the
 * record. cetskobi_commit brings that timestamp back. If the record is still valid with it, this laptop took no newer save since, and the
 * commit goes on as a write. If not, the answer is 26, in place of a write's 7 and before its 8 and 9: keep her text, ask again, and show
 * her both. version and tie may be any; no record has a tie above 15. Two laptops may both commit on one timestamp: then the save with the
 * greater new one, by the group's rule, stands, as of two writes. */
CETSKOBI_MUST_USE
struct cetskobi_asked cetskobi_ask(struct cetskobi_replica me, const uint8_t *table, size_t table_len, const uint8_t *store,
                                   size_t store_len, size_t i);
CETSKOBI_MUST_USE
struct cetskobi_answer cetskobi_commit(struct cetskobi_replica me, uint8_t *table, size_t table_len, uint8_t *store, size_t store_len,
                                       size_t i, uint32_t version, uint8_t tie, const uint8_t *value, size_t value_len);

/* A change of view, which touches no record and keeps the settings. */
CETSKOBI_MUST_USE
struct cetskobi_admission cetskobi_view(struct cetskobi_replica me, uint32_t epoch, uint16_t set);
/* A fresh start: epoch 0, every record valid and empty, the store zero. Under both rules a record's first timestamp has the lowest number in
 * the view. view, settings and the count of records are the same on all laptops of the group. */
CETSKOBI_MUST_USE
struct cetskobi_admission cetskobi_start(uint8_t number, uint16_t view, struct cetskobi_settings settings, uint8_t *table, size_t table_len,
                                         uint8_t *store, size_t store_len);

/* What leaves: how many bytes at 192 times i the message takes along that left an event on record i; left is that event's answer. It is 0
 * unless left.kind is CETSKOBI_INV. Asked after more events on this table and store it still tells the text that left, or that it is gone.
 * It is CETSKOBI_GONE where the text is gone: record i no longer has left's timestamp, as after a newer text came in; or it is not there,
 * or not with at most 192 bytes and all of its room in the store. Then the message is to be dropped, as if it were lost on air: the newer
 * text must not leave under the older timestamp. No value has this length, and an entry of it makes no packet (24). */
#define CETSKOBI_GONE ((size_t)-1)
CETSKOBI_MUST_USE
size_t cetskobi_body(const uint8_t *table, size_t table_len, const uint8_t *store, size_t store_len, size_t i, struct cetskobi_answer left);
/* Who gets a message of this kind: bit n for replica n. sender is that of the delivered message, and only asked for an ACK: of an INV or a
 * VAL, also one that leaves a delivery, it may be anything. It is 0 of no message. */
CETSKOBI_MUST_USE
uint16_t cetskobi_recipients(struct cetskobi_replica me, uint8_t kind, uint8_t sender);

/* Packets. Who reads or writes them passes the group's settings, me.settings of its laptops. Byte 0 is the number of the group's rule:
 * question 20 lets it be 1 or 2, and a packet of a group with the other rule is refused by 27, which is asked right after 20. A message by
 * itself has no rule: cetskobi_deliver does not ask 27. */

/* Message i of a packet: questions 20, 27, 21, 22 and 23, in this order. The whole packet is looked at first, at each call: for more than
 * one of its messages, cetskobi_accept once and then cetskobi_fetch_accepted. */
CETSKOBI_MUST_USE
struct cetskobi_fetched cetskobi_fetch(struct cetskobi_settings settings, const uint8_t *packet, size_t packet_len, size_t i);
/* Messages as one packet of a group with these settings, at the front of the output. They are words, seven for each: an array of struct
 * cetskobi_entry, passed as (const uint32_t *)entries with CETSKOBI_ENTRY_WORDS * count for its length. By the count alone seven messages
 * would be the words of one, and the call could not tell. Their bytes come one after another in bodies. */
CETSKOBI_MUST_USE
struct cetskobi_written cetskobi_pack(struct cetskobi_settings settings, const uint32_t *messages,
                                      size_t messages_len, /* words, 7 for each message: not messages, not bytes */
                                      const uint8_t *bodies, size_t bodies_len, uint8_t *out, size_t out_len);
/* The delivery of message i of a packet: the questions of cetskobi_fetch by me.settings, then those of cetskobi_deliver; what leaves is as
 * there. The whole packet is looked at first here too: for all of it there is cetskobi_deliver_accepted. */
CETSKOBI_MUST_USE
struct cetskobi_answer cetskobi_deliver_packet(struct cetskobi_replica me, uint8_t *table, size_t table_len, uint8_t *store,
                                               size_t store_len, const uint8_t *packet, size_t packet_len, size_t i);

/* All of a packet in one pass. It is accepted once, by questions 20, 27, 21 and 22, and then each of its messages is taken in constant time,
 * those with a number below accepted.count; of a refused packet that is 0:
 *
 *     struct cetskobi_accepted all = cetskobi_accept(me.settings, packet, packet_len);
 *     for (size_t i = 0; i < all.count; i++) ... cetskobi_deliver_accepted(me, .., packet, packet_len, all, i) ...
 *
 * The loop goes by the count: a refused arrival is one message, and the next is still to be delivered.
 * The settings are those of the laptops that the messages are then delivered to: byte 0 is not looked at again.
 * For every packet and every i they answer what cetskobi_fetch and cetskobi_deliver_packet answer, if accepted is what cetskobi_accept gave
 * of these very bytes by the same settings: copy them first out of a buffer in which the radio may put its next packet. Whatever else
 * accepted is, of another packet say, they answer too, and read nothing outside the packet: where i is not below accepted.count, with
 * accepted.number, or with 23 if that is 0; else, and accepted.number is then not looked at, with 21 where entry i of the contents table
 * does not lie within the packet; with 22 where its offset and length together are past the packet's end; else with the entry as it stands
 * there, of which question 22 has not been asked. Its delivery asks all questions of its own. */
CETSKOBI_MUST_USE
struct cetskobi_accepted cetskobi_accept(struct cetskobi_settings settings, const uint8_t *packet, size_t packet_len);
CETSKOBI_MUST_USE
struct cetskobi_fetched cetskobi_fetch_accepted(const uint8_t *packet, size_t packet_len, struct cetskobi_accepted accepted, size_t i);
CETSKOBI_MUST_USE
struct cetskobi_arrival cetskobi_deliver_accepted(struct cetskobi_replica me, uint8_t *table, size_t table_len, uint8_t *store,
                                                  size_t store_len, const uint8_t *packet, size_t packet_len,
                                                  struct cetskobi_accepted accepted, size_t i);

/* The playing program on one script of at most 65,536 bytes, with room for 25 bytes for each of them, and 2. Its group has the old rule. */
CETSKOBI_MUST_USE
struct cetskobi_played cetskobi_play(const uint8_t *script, size_t script_len, uint8_t *out, size_t out_len);

#ifdef __cplusplus
}
#endif

#endif
