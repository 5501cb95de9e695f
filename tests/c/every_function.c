/* Calls every function of include/cetskobi.h and cetskobi_text.h and checks every number of the answers; few are alike, so a wrong
 * declaration shows. Run by tests/c.sh. */
#define _DEFAULT_SOURCE
#include "cetskobi_text.h"
#include <stddef.h>
#include <stdio.h>
#include <string.h>
#include <sys/mman.h>
#include <unistd.h>

/* A record has its fields at the bytes that the header names, so an array of them is a table. */
#define AT(field, byte) _Static_assert(offsetof(struct cetskobi_record, field) == (byte), #field)
_Static_assert(sizeof(struct cetskobi_record) == CETSKOBI_RECORD_BYTES, "a record");
AT(state, 0);
AT(tie, 1);
AT(writer, 2);
AT(written_tie, 3);
AT(version, 4);
AT(written_version, 8);
AT(acks, 12);
AT(len, 14);
AT(unused, 15);
/* A message has its fields at the words of their order, without gaps. */
#define WORD(field, word) _Static_assert(offsetof(struct cetskobi_entry, field) == (word) * sizeof(uint32_t), #field)
_Static_assert(sizeof(struct cetskobi_entry) == CETSKOBI_ENTRY_WORDS * sizeof(uint32_t), "a message");
WORD(kind, 0);
WORD(sender, 1);
WORD(epoch, 2);
WORD(index, 3);
WORD(version, 4);
WORD(tie, 5);
WORD(len, 6);

/* An identity is 8 bytes, without gaps. */
#define IDENTITY(field, byte) _Static_assert(offsetof(struct cetskobi_replica, field) == (byte), #field)
_Static_assert(sizeof(struct cetskobi_replica) == 8, "an identity");
_Static_assert(sizeof(struct cetskobi_settings) == 1, "settings");
IDENTITY(number, 0);
IDENTITY(settings, 1);
IDENTITY(view, 2);
IDENTITY(epoch, 4);

static int failed;

#define CHECK(fact) check((fact), #fact, __LINE__)

static void check(int holds, const char *fact, int line) {
    if (!holds) {
        printf("every_function.c:%d: not so: %s\n", line, fact);
        failed = 1;
    }
}

/* A version with four different bytes. */
#define VERSION UINT32_C(0x01020304)

/* Laptop 2 with view {1,2,5} at epoch 9, of a group with the new rule, two records. What lies in their byte 15 is to stay. */
enum { COUNT = 2, STORE = COUNT * CETSKOBI_VALUE_MAX, OLD = 9 };
#define LOWER {.rule = CETSKOBI_LOWER}
static const struct cetskobi_settings lower = LOWER, higher = {.rule = CETSKOBI_HIGHER};
static const struct cetskobi_replica me = {.number = 2, .settings = LOWER, .view = 38, .epoch = 9};
static const struct cetskobi_record fresh = {.tie = 1, .writer = 1, .written_tie = 1, .unused = OLD};
/* A record with these fields, the others 0. */
#define RECORD(...) (struct cetskobi_record){.unused = OLD, __VA_ARGS__}
static struct cetskobi_record table[COUNT];
static uint8_t store[STORE];

#define TABLE (uint8_t *)table, sizeof table
#define MEMORY TABLE, store, STORE
#define LENT me, MEMORY

/* Record 1 as given, record 0 fresh, the store all sevens. */
static void lay(struct cetskobi_record record) {
    table[0] = fresh;
    table[1] = record;
    memset(store, 7, sizeof store);
}

static int is(struct cetskobi_record record) {
    return memcmp(&table[0], &fresh, sizeof fresh) == 0 && memcmp(&table[1], &record, sizeof record) == 0;
}

/* Record 1's value, the rest of its room zero; record 0's room as it was. */
static int holds(const char *value) {
    uint8_t want[STORE] = {0};
    memset(want, 7, CETSKOBI_VALUE_MAX);
    memcpy(want + CETSKOBI_VALUE_MAX, value, strlen(value));
    return memcmp(store, want, sizeof store) == 0;
}

static int answers(struct cetskobi_answer a, int number, int kind, int tie, uint32_t version) {
    return a.number == number && a.kind == kind && a.tie == tie && a.version == version;
}

static int says(const char *text, const char *words) {
    return strcmp(text, words) == 0;
}

static int admits(struct cetskobi_admission a, int number, struct cetskobi_replica r) {
    return a.number == number && a.replica.number == r.number && a.replica.settings.rule == r.settings.rule &&
           a.replica.view == r.view && a.replica.epoch == r.epoch;
}

static void membership(void) {
    memset(table, OLD, sizeof table);
    memset(store, 7, sizeof store);
    struct cetskobi_replica newcomer = {.number = 3, .settings = LOWER, .view = 38, .epoch = 0};
    CHECK(admits(cetskobi_start(3, 38, lower, TABLE, store, STORE), 3, newcomer));
    CHECK(cetskobi_start(5, 38, lower, TABLE, store, STORE - 1).number == 2);
    CHECK(cetskobi_start(5, 38, lower, (uint8_t *)table, sizeof table - 1, store, STORE).number == 2);
    CHECK(cetskobi_start(5, 38, lower, (uint8_t *)table, CETSKOBI_RECORD_BYTES, store, CETSKOBI_VALUE_MAX + 1).number == 2);
    CHECK(table[0].state == OLD && store[0] == 7);
    newcomer.number = 5;
    CHECK(admits(cetskobi_start(5, 38, lower, TABLE, store, STORE), 0, newcomer));
    CHECK(is(fresh));
    CHECK(store[0] == 0 && store[STORE - 1] == 0);

    struct cetskobi_replica later = {.number = 2, .settings = LOWER, .view = 6, .epoch = VERSION};
    CHECK(admits(cetskobi_view(me, VERSION, 6), 0, later));
    CHECK(admits(cetskobi_view(me, 9, 6), 18, me));
    CHECK(admits(cetskobi_view(me, 10, 7), 19, me));
}

/* Record 1 has (VERSION,2), and an INV comes with this timestamp to laptop r: is it taken? An ACK leaves in any case. */
static int overtakes(struct cetskobi_replica r, uint32_t version, uint8_t tie) {
    struct cetskobi_record own = RECORD(.state = CETSKOBI_WRITE, .tie = 2, .writer = 2, .written_tie = 2, .version = VERSION,
                                        .written_version = VERSION, .len = 62);
    struct cetskobi_message inv = {.kind = CETSKOBI_INV, .sender = 5, .tie = tie, .epoch = 9, .version = version};
    lay(own);
    CHECK(answers(cetskobi_deliver(r, MEMORY, 1, inv, (const uint8_t *)"wing", 4), 0, CETSKOBI_ACK, tie, version));
    if (is(own)) return 0;
    CHECK(is(RECORD(.state = CETSKOBI_INVALID_WRITE, .tie = tie, .writer = 5, .written_tie = 2, .version = version,
                    .written_version = VERSION, .len = 4)));
    CHECK(holds("wing"));
    return 1;
}

/* Every value of the rule's byte: 2 is the new rule, and all others are the old one (02, Wish 6). */
static void rules(void) {
    for (int rule = 0; rule <= UINT8_MAX; rule++) {
        struct cetskobi_settings settings = {.rule = (uint8_t)rule};
        int is_lower = rule == CETSKOBI_LOWER;
        struct cetskobi_replica r = me, want = me;
        r.settings = settings;
        want.settings = is_lower ? lower : higher;
        CHECK(says(cetskobi_rule_name(settings.rule), is_lower ? "lower" : "higher"));

        /* The identity of a start has it as 1 or 2, accepted or refused, and so has that of an accepted view; a refused view changes
         * nothing. */
        want.epoch = 0;
        memset(table, OLD, sizeof table);
        CHECK(admits(cetskobi_start(2, 38, settings, TABLE, store, STORE - 1), 2, want) && table[1].state == OLD);
        CHECK(admits(cetskobi_start(2, 38, settings, TABLE, store, STORE), 0, want) && is(fresh));
        want.epoch = 10;
        want.view = 6;
        CHECK(admits(cetskobi_view(r, 10, 6), 0, want));
        CHECK(admits(cetskobi_view(r, 9, 6), 18, r) && admits(cetskobi_view(r, 10, 7), 19, r));

        /* A tie goes by it, and only a tie. */
        for (uint8_t tie = 0; tie < 16; tie++) {
            CHECK(overtakes(r, VERSION, tie) == (is_lower ? tie < 2 : tie > 2));
            CHECK(overtakes(r, VERSION + 1, tie) && !overtakes(r, VERSION - 1, tie));
        }
    }
}

static void writing(void) {
    const uint8_t value[CETSKOBI_VALUE_MAX + 1] = "wing";
    lay(RECORD(.state = CETSKOBI_VALID, .tie = 5, .writer = 5, .written_tie = 1, .version = VERSION - 1, .len = 62));
    struct cetskobi_reading r = cetskobi_read(LENT, 1);
    CHECK(r.number == 0 && r.len == 62);
    r = cetskobi_read(LENT, COUNT);
    CHECK(r.number == 4 && r.len == 0);
    CHECK(answers(cetskobi_write(LENT, 1, value, sizeof value), 8, CETSKOBI_NONE, 0, 0));
    CHECK(answers(cetskobi_write(LENT, 1, value, 4), 0, CETSKOBI_INV, 2, VERSION));
    CHECK(is(RECORD(.state = CETSKOBI_WRITE, .tie = 2, .writer = 2, .written_tie = 2, .version = VERSION,
                    .written_version = VERSION, .len = 4)));
    CHECK(holds("wing"));
}

static size_t along(size_t i, struct cetskobi_answer left) {
    return cetskobi_body(TABLE, store, STORE, i, left);
}

static int opens(struct cetskobi_asked a, int number, int tie, uint32_t version, size_t len) {
    return a.number == number && a.tie == tie && a.version == version && a.len == len;
}

/* Record 1 in this state with timestamp (version,5), whose last-write timestamp is (6,3). */
static struct cetskobi_record holding(uint8_t state, uint32_t version) {
    return RECORD(.state = state, .tie = 5, .writer = 4, .written_tie = 3, .version = version, .written_version = 6, .acks = 2, .len = 62);
}

/* A commit that is refused with this number: neither record nor store has changed. */
static void not_committed(struct cetskobi_record record, size_t i, uint32_t version, uint8_t tie, size_t len, int number) {
    static const uint8_t value[CETSKOBI_VALUE_MAX + 1] = "wing";
    lay(record);
    CHECK(answers(cetskobi_commit(LENT, i, version, tie, value, len), number, CETSKOBI_NONE, 0, 0));
    CHECK(is(record));
    for (size_t n = 0; n < STORE; n++) CHECK(store[n] == 7);
}

/* What a read answers, with the record's timestamp; and a save on it (02, Wish 5). */
static void asking(void) {
    const uint8_t *value = (const uint8_t *)"wing";
    struct cetskobi_record valid = holding(CETSKOBI_VALID, VERSION - 1);
    lay(valid);
    CHECK(opens(cetskobi_ask(LENT, 1), 0, 5, VERSION - 1, 62));
    CHECK(opens(cetskobi_ask(LENT, 0), 0, 1, 0, 0));
    CHECK(opens(cetskobi_ask(LENT, COUNT), 4, 0, 0, 0) && opens(cetskobi_ask(LENT, SIZE_MAX), 4, 0, 0, 0));
    CHECK(opens(cetskobi_ask(me, TABLE, store, STORE - 1, 1), 2, 0, 0, 0));
    CHECK(is(valid));
    struct cetskobi_answer inv = cetskobi_commit(LENT, 1, VERSION - 1, 5, value, 4);
    CHECK(answers(inv, 0, CETSKOBI_INV, 2, VERSION));
    CHECK(is(RECORD(.state = CETSKOBI_WRITE, .tie = 2, .writer = 2, .written_tie = 2, .version = VERSION,
                    .written_version = VERSION, .len = 4)));
    CHECK(holds("wing"));
    CHECK(along(1, inv) == 4 && cetskobi_recipients(me, inv.kind, 0) == 34);
    /* It waits for the others now. */
    CHECK(opens(cetskobi_ask(LENT, 1), CETSKOBI_REFUSED_NOT_READABLE, 0, 0, 0));
    CHECK(answers(cetskobi_commit(LENT, 1, VERSION, 2, value, 4), CETSKOBI_REFUSED_NOT_AS_OPENED, CETSKOBI_NONE, 0, 0));
    CHECK(holds("wing"));

    /* Any other timestamp: an older, a newer, the last-write one, every other tie-breaker, those of no laptop too. */
    valid = holding(CETSKOBI_VALID, VERSION);
    not_committed(valid, 1, VERSION - 1, 5, 4, 26);
    not_committed(valid, 1, VERSION + 1, 5, 4, 26);
    not_committed(valid, 1, 6, 3, 4, 26);
    for (int tie = 0; tie <= UINT8_MAX; tie++)
        if (tie != 5) not_committed(valid, 1, VERSION, (uint8_t)tie, 4, 26);
    /* Every state but valid, on the very timestamp; a write is accepted in invalid. */
    for (uint8_t state = CETSKOBI_INVALID; state <= CETSKOBI_REPLAY; state++) {
        lay(holding(state, VERSION));
        CHECK(opens(cetskobi_ask(LENT, 1), 6, 0, 0, 0));
        not_committed(holding(state, VERSION), 1, VERSION, 5, 4, 26);
        not_committed(holding(state, UINT32_MAX), 1, UINT32_MAX, 5, CETSKOBI_VALUE_MAX + 1, 26);
    }
    /* The order: 4 and 5, then 26, then 8, then 9. */
    not_committed(valid, COUNT, VERSION, 5, 4, 4);
    not_committed(RECORD(.tie = 16, .version = VERSION), 1, VERSION, 16, 4, 5);
    not_committed(valid, 1, VERSION, 4, CETSKOBI_VALUE_MAX + 1, 26);
    not_committed(valid, 1, VERSION, 5, CETSKOBI_VALUE_MAX + 1, 8);
    not_committed(holding(CETSKOBI_VALID, UINT32_MAX), 1, UINT32_MAX, 5, CETSKOBI_VALUE_MAX + 1, 8);
    not_committed(holding(CETSKOBI_VALID, UINT32_MAX), 1, UINT32_MAX, 5, 4, 9);
    not_committed(holding(CETSKOBI_VALID, UINT32_MAX), 1, UINT32_MAX, 4, 4, 26);

    /* A newer text comes between; it is asked for again, and saved over. */
    lay(valid);
    struct cetskobi_asked seen = cetskobi_ask(LENT, 1);
    struct cetskobi_message newer = {.kind = CETSKOBI_INV, .sender = 5, .tie = 5, .epoch = 9, .version = VERSION + 1};
    CHECK(answers(cetskobi_deliver(LENT, 1, newer, (const uint8_t *)"newer", 5), 0, CETSKOBI_ACK, 5, VERSION + 1));
    CHECK(cetskobi_commit(LENT, 1, seen.version, seen.tie, value, 4).number == 26);
    newer.kind = CETSKOBI_VAL;
    CHECK(answers(cetskobi_deliver(LENT, 1, newer, NULL, 0), 0, CETSKOBI_NONE, 0, 0));
    CHECK(cetskobi_commit(LENT, 1, seen.version, seen.tie, value, 4).number == 26 && holds("newer"));
    seen = cetskobi_ask(LENT, 1);
    CHECK(opens(seen, 0, 5, VERSION + 1, 5));
    CHECK(answers(cetskobi_commit(LENT, 1, seen.version, seen.tie, value, 4), 0, CETSKOBI_INV, 2, VERSION + 2) && holds("wing"));
}

/* The bytes of what left an event, as long as they are there. */
static void leaving(void) {
    const struct cetskobi_answer inv = {.kind = CETSKOBI_INV, .tie = 2, .version = VERSION};
    struct cetskobi_answer other = inv;
    lay(RECORD(.state = CETSKOBI_WRITE, .tie = 2, .writer = 2, .written_tie = 2, .version = VERSION, .written_version = VERSION,
               .len = 62));
    CHECK(along(1, inv) == 62);
    other.version--;
    CHECK(along(1, other) == CETSKOBI_GONE);
    other = inv;
    other.tie = 5;
    CHECK(along(1, other) == CETSKOBI_GONE);
    /* ACK and VAL take nothing along, whatever the record has; a refused event leaves nothing. */
    other.kind = CETSKOBI_ACK;
    CHECK(along(1, other) == 0);
    other.kind = CETSKOBI_VAL;
    CHECK(along(1, other) == 0 && along(COUNT, other) == 0);
    other.kind = CETSKOBI_NONE;
    CHECK(along(1, other) == 0);

    /* No such record, or not all of its room. */
    CHECK(along(COUNT, inv) == CETSKOBI_GONE && along(SIZE_MAX, inv) == CETSKOBI_GONE);
    CHECK(cetskobi_body(TABLE, store, STORE - 1, 1, inv) == CETSKOBI_GONE);
    CHECK(cetskobi_body((uint8_t *)table, sizeof table - 1, store, STORE, 1, inv) == CETSKOBI_GONE);
    table[1].len = CETSKOBI_VALUE_MAX;
    CHECK(along(1, inv) == CETSKOBI_VALUE_MAX);
    table[1].len++;
    CHECK(along(1, inv) == CETSKOBI_GONE);
    table[1].len = 62;
    table[1].state = 5;
    CHECK(along(1, inv) == CETSKOBI_GONE);
    table[1].state = CETSKOBI_WRITE;

    /* A newer text comes before the older one was sent. That is gone, and makes no packet. */
    struct cetskobi_message newer = {.kind = CETSKOBI_INV, .sender = 5, .tie = 1, .epoch = 9, .version = VERSION};
    struct cetskobi_answer ack = cetskobi_deliver(LENT, 1, newer, (const uint8_t *)"newer", 5);
    CHECK(answers(ack, 0, CETSKOBI_ACK, 1, VERSION));
    size_t len = along(1, inv);
    CHECK(len == CETSKOBI_GONE && along(1, ack) == 0);
    struct cetskobi_entry entry = {.kind = CETSKOBI_INV, .sender = 2, .epoch = 9, .index = 1, .version = VERSION, .tie = 2};
    entry.len = (uint32_t)len;
    uint8_t out[CETSKOBI_PACKET_MAX];
    CHECK(cetskobi_pack(lower, (const uint32_t *)&entry, CETSKOBI_ENTRY_WORDS, store, STORE, out, sizeof out).number == 24);
}

static void recipients(void) {
    CHECK(cetskobi_recipients(me, CETSKOBI_NONE, 5) == 0);
    CHECK(cetskobi_recipients(me, CETSKOBI_INV, 5) == 34);
    CHECK(cetskobi_recipients(me, CETSKOBI_ACK, 5) == 32);
    CHECK(cetskobi_recipients(me, CETSKOBI_VAL, 5) == 34);
}

static void delivery(void) {
    const uint8_t *value = (const uint8_t *)"weight";
    struct cetskobi_message inv = {.kind = CETSKOBI_INV, .sender = 5, .tie = 4, .epoch = 9, .version = VERSION};
    struct cetskobi_message other = inv;
    lay(RECORD(.state = CETSKOBI_WRITE, .tie = 2, .writer = 2, .written_tie = 2, .version = 6, .written_version = 6, .acks = 2,
               .len = 62));
    other.epoch = 4;
    CHECK(cetskobi_deliver(LENT, 1, other, value, 6).number == 10);
    other = inv;
    other.sender = 4;
    CHECK(cetskobi_deliver(LENT, 1, other, value, 6).number == 11);
    other = inv;
    other.kind = CETSKOBI_NONE;
    CHECK(cetskobi_deliver(LENT, 1, other, value, 0).number == 12);
    other.kind = CETSKOBI_VAL + 1;
    CHECK(cetskobi_deliver(LENT, 1, other, value, 6).number == 12);
    other.kind = CETSKOBI_VAL;
    CHECK(cetskobi_deliver(LENT, 1, other, value, 6).number == 12);
    CHECK(cetskobi_deliver(LENT, 1, other, value, 0).number == 14);
    CHECK(answers(cetskobi_deliver(LENT, 1, inv, value, 6), 0, CETSKOBI_ACK, 4, VERSION));
    struct cetskobi_record overtaken = RECORD(.state = CETSKOBI_INVALID_WRITE, .tie = 4, .writer = 5, .written_tie = 2,
                                              .version = VERSION, .written_version = 6, .acks = 2, .len = 6);
    CHECK(is(overtaken));
    CHECK(holds("weight"));

    /* The last ACK of an overtaken write is counted, and that is all. */
    other = (struct cetskobi_message){.kind = CETSKOBI_ACK, .sender = 5, .tie = 2, .epoch = 9, .version = 6};
    CHECK(answers(cetskobi_deliver(LENT, 1, other, value, 0), 0, CETSKOBI_NONE, 0, 0));
    overtaken.acks = 34;
    CHECK(is(overtaken));
    CHECK(answers(cetskobi_validate(LENT, 1), CETSKOBI_REFUSED_NOT_FINISHED, CETSKOBI_NONE, 0, 0));
    CHECK(answers(cetskobi_deliver(LENT, 1, other, value, 0), CETSKOBI_REFUSED_STRAY_ACK, CETSKOBI_NONE, 0, 0));
}

/* The acknowledgements of a write and of a replay, from 1 and then 5: the first is counted; with the last the record is valid, and the VAL
 * leaves to both. Then there is nothing to validate. */
static void acknowledged(uint8_t state) {
    struct cetskobi_record record = RECORD(.state = state, .tie = 4, .writer = 2, .written_tie = 4, .version = VERSION,
                                           .written_version = VERSION, .len = 62);
    struct cetskobi_message ack = {.kind = CETSKOBI_ACK, .sender = 1, .tie = 4, .epoch = 9, .version = VERSION};
    lay(record);
    CHECK(answers(cetskobi_deliver(LENT, 1, ack, NULL, 0), 0, CETSKOBI_NONE, 0, 0));
    record.acks = 2;
    CHECK(is(record));
    ack.sender = 5;
    struct cetskobi_answer val = cetskobi_deliver(LENT, 1, ack, NULL, 0);
    CHECK(answers(val, 0, CETSKOBI_VAL, 4, VERSION));
    CHECK(along(1, val) == 0 && cetskobi_recipients(me, val.kind, ack.sender) == 34);
    record.state = CETSKOBI_VALID;
    record.acks = 34;
    CHECK(is(record));
    CHECK(answers(cetskobi_validate(LENT, 1), CETSKOBI_REFUSED_NOT_FINISHED, CETSKOBI_NONE, 0, 0));
    CHECK(answers(cetskobi_deliver(LENT, 1, ack, NULL, 0), CETSKOBI_REFUSED_STRAY_ACK, CETSKOBI_NONE, 0, 0));
    CHECK(is(record));
    CHECK(answers(cetskobi_resend(LENT, 1), 0, CETSKOBI_VAL, 4, VERSION));
}

/* 5's text stands in record 1, not validated. In invalid-write it had overtaken this laptop's own write, (6,2), which 1 has acknowledged.
 * While 5 is in the view nothing is replayed. Once it is struck off, its write is taken over, from both states alike; the own one is
 * given up (02, Wish 2). */
static void taken_over(uint8_t state) {
    struct cetskobi_record record = RECORD(.state = state, .tie = 5, .writer = 5, .written_tie = 2, .version = VERSION,
                                           .written_version = 6, .acks = 2, .len = 62);
    lay(record);
    CHECK(answers(cetskobi_replay(LENT, 1), CETSKOBI_REFUSED_NOT_REPLAYABLE, CETSKOBI_NONE, 0, 0));
    CHECK(is(record));
    struct cetskobi_admission a = cetskobi_view(me, 10, 6);
    CHECK(a.number == 0);
    struct cetskobi_answer inv = cetskobi_replay(a.replica, MEMORY, 1);
    CHECK(answers(inv, 0, CETSKOBI_INV, 5, VERSION));
    CHECK(along(1, inv) == 62 && cetskobi_recipients(a.replica, inv.kind, 0) == 2);
    record = RECORD(.state = CETSKOBI_REPLAY, .tie = 5, .writer = 2, .written_tie = 5, .version = VERSION, .written_version = VERSION,
                    .len = 62);
    CHECK(is(record));
    CHECK(answers(cetskobi_replay(a.replica, MEMORY, 1), CETSKOBI_REFUSED_NOT_REPLAYABLE, CETSKOBI_NONE, 0, 0));

    /* An ACK of the own write, and then the last one of 5's. */
    struct cetskobi_message ack = {.kind = CETSKOBI_ACK, .sender = 1, .tie = 2, .epoch = 10, .version = 6};
    CHECK(answers(cetskobi_deliver(a.replica, MEMORY, 1, ack, NULL, 0), CETSKOBI_REFUSED_STRAY_ACK, CETSKOBI_NONE, 0, 0));
    CHECK(is(record));
    ack.tie = 5;
    ack.version = VERSION;
    CHECK(answers(cetskobi_deliver(a.replica, MEMORY, 1, ack, NULL, 0), 0, CETSKOBI_VAL, 5, VERSION));
    record.state = CETSKOBI_VALID;
    record.acks = 2;
    CHECK(is(record));
    struct cetskobi_reading r = cetskobi_read(a.replica, MEMORY, 1);
    CHECK(r.number == 0 && r.len == 62);
    for (size_t n = 0; n < STORE; n++) CHECK(store[n] == 7);
}

/* In these states there is nothing to take over, though the last writer, 4, is not in the view. */
static void not_taken_over(uint8_t state) {
    struct cetskobi_record record = RECORD(.state = state, .tie = 4, .writer = 4, .written_tie = 2, .version = VERSION,
                                           .written_version = 6, .acks = 2, .len = 62);
    lay(record);
    CHECK(answers(cetskobi_replay(LENT, 1), CETSKOBI_REFUSED_NOT_REPLAYABLE, CETSKOBI_NONE, 0, 0));
    CHECK(is(record));
}

static void ending(void) {
    struct cetskobi_record replayed = RECORD(.state = CETSKOBI_REPLAY, .tie = 4, .writer = 2, .written_tie = 4, .version = VERSION,
                                             .written_version = VERSION, .len = 62);
    lay(RECORD(.state = CETSKOBI_INVALID, .tie = 4, .writer = 4, .written_tie = 2, .version = VERSION, .written_version = 6, .acks = 2,
               .len = 62));
    CHECK(answers(cetskobi_replay(LENT, 0), 16, CETSKOBI_NONE, 0, 0));
    CHECK(answers(cetskobi_replay(LENT, 1), 0, CETSKOBI_INV, 4, VERSION));
    CHECK(is(replayed));
    CHECK(answers(cetskobi_resend(LENT, 1), 0, CETSKOBI_INV, 4, VERSION));
    CHECK(is(replayed));
    CHECK(answers(cetskobi_validate(LENT, 1), 15, CETSKOBI_NONE, 0, 0));

    /* 1 has acknowledged, and so have 8 and 15, which are struck off; 5 is missing. After a view without it the record is validated. */
    table[1].acks = 0x8102;
    CHECK(answers(cetskobi_validate(LENT, 1), 15, CETSKOBI_NONE, 0, 0));
    struct cetskobi_admission a = cetskobi_view(me, 10, 6);
    CHECK(a.number == 0);
    struct cetskobi_answer val = cetskobi_validate(a.replica, MEMORY, 1);
    CHECK(answers(val, 0, CETSKOBI_VAL, 4, VERSION) && cetskobi_recipients(a.replica, val.kind, 0) == 2);
    struct cetskobi_record valid = replayed;
    valid.state = CETSKOBI_VALID;
    valid.acks = 0x8102;
    CHECK(is(valid));
    CHECK(answers(cetskobi_resend(LENT, 1), 0, CETSKOBI_VAL, 4, VERSION));
}

/* A table by its bytes, at an odd address; a byte too few and one too many; a state that is none. */
static void bytes(void) {
    static const uint8_t before[] = {1, 4, 3, 5, 4, 3, 2, 1, 8, 7, 6, 5, 0x22, 0x81, 62, OLD};
    static const uint8_t after[] = {4, 4, 2, 4, 4, 3, 2, 1, 4, 3, 2, 1, 0, 0, 62, OLD};
    uint8_t room[1 + CETSKOBI_RECORD_BYTES + 1] = {0}, *record = room + 1;
    memcpy(record, before, sizeof before);
    CHECK(cetskobi_replay(me, record, sizeof before - 1, store, CETSKOBI_VALUE_MAX, 0).number == 2);
    CHECK(cetskobi_replay(me, record, sizeof before + 1, store, CETSKOBI_VALUE_MAX, 0).number == 2);
    CHECK(memcmp(record, before, sizeof before) == 0);
    CHECK(answers(cetskobi_replay(me, record, sizeof before, store, CETSKOBI_VALUE_MAX, 0), 0, CETSKOBI_INV, 4, VERSION));
    CHECK(memcmp(record, after, sizeof after) == 0);
    record[0] = 5;
    CHECK(answers(cetskobi_resend(me, record, sizeof before, store, CETSKOBI_VALUE_MAX, 0), 5, CETSKOBI_NONE, 0, 0));
    CHECK(record[0] == 5 && memcmp(record + 1, after + 1, sizeof after - 1) == 0);
}

/* An INV and an ACK, in a packet of a group with the new rule. */
static const uint8_t two_messages[40] = {2, 2, 0, 40, 1, 5, 0, 0, 0, 9, 0, 1, 1, 2, 3, 4, 4, 0,   36,  4,
                                         2, 5, 0, 0,  0, 0, 0, 7, 0, 0, 0, 1, 2, 0, 40, 0, 'w', 'i', 'n', 'g'};

static void packets(void) {
    const struct cetskobi_entry entries[2] = {
        {.kind = CETSKOBI_INV, .sender = 5, .epoch = 9, .index = 1, .version = VERSION, .tie = 4, .len = 4},
        {.kind = CETSKOBI_ACK, .sender = 5, .epoch = 0, .index = 7, .version = 1, .tie = 2, .len = 0},
    };
    const uint8_t *bodies = (const uint8_t *)"wing";
    uint8_t out[41];
    memset(out, 0xee, sizeof out);
    struct cetskobi_written w = cetskobi_pack(lower, (const uint32_t *)entries, 2 * CETSKOBI_ENTRY_WORDS, bodies, 3, out, 41);
    CHECK(w.number == 24 && w.len == 0);
    w = cetskobi_pack(lower, (const uint32_t *)entries, 2 * CETSKOBI_ENTRY_WORDS, bodies, 4, out, 39);
    CHECK(w.number == 25 && w.len == 0);
    CHECK(out[0] == 0xee);
    w = cetskobi_pack(lower, (const uint32_t *)entries, 2 * CETSKOBI_ENTRY_WORDS, bodies, 4, out, 41);
    CHECK(w.number == 0 && w.len == 40);
    CHECK(memcmp(out, two_messages, 40) == 0 && out[40] == 0xee);

    struct cetskobi_fetched f = cetskobi_fetch(lower, out, 40, 0);
    CHECK(f.number == 0 && f.kind == CETSKOBI_INV && f.sender == 5 && f.tie == 4 && f.epoch == 9);
    CHECK(f.version == VERSION && f.index == 1 && f.at == 36 && f.len == 4);
    f = cetskobi_fetch(lower, out, 40, 1);
    CHECK(f.number == 0 && f.kind == CETSKOBI_ACK && f.sender == 5 && f.tie == 2 && f.epoch == 0);
    CHECK(f.version == 1 && f.index == 7 && f.at == 40 && f.len == 0);
    f = cetskobi_fetch(lower, out, 40, 2);
    CHECK(f.number == 23 && f.at == 0 && f.len == 0);

    lay(fresh);
    CHECK(cetskobi_deliver_packet(LENT, out, 41, 0).number == 20);
    CHECK(cetskobi_deliver_packet(LENT, out, 40, 1).number == 4);
    CHECK(answers(cetskobi_deliver_packet(LENT, out, 40, 0), 0, CETSKOBI_ACK, 4, VERSION));
    CHECK(is(RECORD(.state = CETSKOBI_INVALID, .tie = 4, .writer = 5, .written_tie = 1, .version = VERSION, .len = 4)));
    CHECK(holds("wing"));
}

/* What the header asks of byte 0, by the group's rule. */
static int of_byte_0(int rule, int byte) {
    if (byte != CETSKOBI_HIGHER && byte != CETSKOBI_LOWER) return CETSKOBI_REFUSED_PACKET_HEAD;
    return (byte == CETSKOBI_LOWER) == (rule == CETSKOBI_LOWER) ? 0 : CETSKOBI_REFUSED_OTHER_RULE;
}

/* In whichever way this packet comes to a group with these settings, the answer is this number; if it is not 0, nothing is taken. */
static void packet_answers(struct cetskobi_settings settings, const uint8_t *packet, size_t len, int number) {
    struct cetskobi_replica r = me;
    r.settings = settings;
    struct cetskobi_accepted all = cetskobi_accept(settings, packet, len);
    CHECK(all.number == number && all.count == (number == 0 ? 2 : 0));
    for (size_t i = 0; i < 2 || (number != 0 && i < 4); i++) {
        struct cetskobi_fetched f = cetskobi_fetch(settings, packet, len, i);
        CHECK(f.number == number && (number == 0 || (f.kind == 0 && f.at == 0 && f.len == 0)));
        lay(fresh);
        CHECK(number == 0 || cetskobi_deliver_packet(r, MEMORY, packet, len, i).number == number);
        CHECK(number == 0 || cetskobi_deliver_accepted(r, MEMORY, packet, len, all, i).answer.number == number);
        CHECK(is(fresh) && store[CETSKOBI_VALUE_MAX] == 7);
    }
}

/* Every value of the rule's byte and of byte 0. Then the order of the questions: 20, 27, 21, 22, 23. */
static void packets_by_the_rule(void) {
    uint8_t packet[41], out[40];
    memcpy(packet, two_messages, 40);
    packet[40] = 0;
    const struct cetskobi_entry ack = {.kind = CETSKOBI_ACK, .sender = 5, .index = 7, .version = 1, .tie = 2};
    for (int rule = 0; rule <= UINT8_MAX; rule++) {
        struct cetskobi_settings settings = {.rule = (uint8_t)rule};
        for (int byte = 0; byte <= UINT8_MAX; byte++) {
            packet[0] = (uint8_t)byte;
            packet_answers(settings, packet, 40, of_byte_0(rule, byte));
        }
        struct cetskobi_written w = cetskobi_pack(settings, (const uint32_t *)&ack, CETSKOBI_ENTRY_WORDS, NULL, 0, out, sizeof out);
        CHECK(w.number == 0 && w.len == 20 && out[0] == (rule == CETSKOBI_LOWER ? 2 : 1));
    }
    packet[0] = CETSKOBI_HIGHER;
    packet_answers(lower, packet, 41, 20);
    packet[4] = CETSKOBI_VAL + 1;
    packet_answers(lower, packet, 40, 27);
    packet_answers(higher, packet, 40, 22);
    packet[1] = 3;
    packet_answers(lower, packet, 40, 27);
    packet_answers(higher, packet, 40, 21);
    packet[1] = 65;
    packet_answers(lower, packet, 40, 20);
}

static int same_fetch(struct cetskobi_fetched f, struct cetskobi_fetched g) {
    return f.number == g.number && f.kind == g.kind && f.sender == g.sender && f.tie == g.tie && f.epoch == g.epoch &&
           f.version == g.version && f.index == g.index && f.at == g.at && f.len == g.len;
}

static int tells(struct cetskobi_arrival a, int number, uint32_t epoch, int sender, size_t index) {
    return a.answer.number == number && a.epoch == epoch && a.sender == sender && a.index == index;
}

/* A packet accepted once, then its messages by their numbers. */
static void accepted_once(void) {
    uint8_t packet[41];
    memcpy(packet, two_messages, 40);
    packet[40] = 0;
    struct cetskobi_accepted all = cetskobi_accept(lower, packet, 40), no;
    CHECK(all.number == 0 && all.count == 2);
    for (size_t i = 0; i < 4; i++) CHECK(same_fetch(cetskobi_fetch_accepted(packet, 40, all, i), cetskobi_fetch(lower, packet, 40, i)));
    CHECK(cetskobi_fetch_accepted(packet, 40, all, 1).number == 0 && cetskobi_fetch_accepted(packet, 40, all, 2).number == 23);
    CHECK(cetskobi_fetch_accepted(packet, 40, all, SIZE_MAX).number == 23);

    /* A refused packet says so at once, and so does every message of it. */
    no = cetskobi_accept(lower, packet, 41);
    CHECK(no.number == 20 && no.count == 0);
    packet[1] = 3;
    no = cetskobi_accept(lower, packet, 40);
    CHECK(no.number == 21 && no.count == 0);
    packet[1] = 2;
    packet[4] = CETSKOBI_VAL + 1;
    no = cetskobi_accept(lower, packet, 40);
    CHECK(no.number == 22 && no.count == 0);
    lay(fresh);
    for (size_t i = 0; i < 3; i++) {
        CHECK(same_fetch(cetskobi_fetch_accepted(packet, 40, no, i), (struct cetskobi_fetched){.number = 22}));
        CHECK(tells(cetskobi_deliver_accepted(LENT, packet, 40, no, i), 22, 0, 0, 0));
    }
    packet[4] = CETSKOBI_INV;

    /* Which message it was is told of refused deliveries too; where there was none it is 0. */
    struct cetskobi_replica earlier = me, outside = me;
    earlier.epoch = 8;
    outside.view = 4;
    CHECK(tells(cetskobi_deliver_accepted(LENT, packet, 40, all, 2), 23, 0, 0, 0));
    CHECK(tells(cetskobi_deliver_accepted(LENT, packet, 40, all, 1), 4, 0, 5, 7));
    CHECK(tells(cetskobi_deliver_accepted(earlier, MEMORY, packet, 40, all, 0), 10, 9, 5, 1));
    CHECK(tells(cetskobi_deliver_accepted(outside, MEMORY, packet, 40, all, 0), 1, 9, 5, 1));
    CHECK(is(fresh) && store[CETSKOBI_VALUE_MAX] == 7);
    struct cetskobi_arrival a = cetskobi_deliver_accepted(LENT, packet, 40, all, 0);
    CHECK(tells(a, 0, 9, 5, 1) && answers(a.answer, 0, CETSKOBI_ACK, 4, VERSION));
    CHECK(is(RECORD(.state = CETSKOBI_INVALID, .tie = 4, .writer = 5, .written_tie = 1, .version = VERSION, .len = 4)));
    CHECK(holds("wing"));
}

/* What the header says of message i by these facts, word by word. */
static struct cetskobi_fetched by_the_header(const uint8_t *packet, size_t len, struct cetskobi_accepted facts, size_t i) {
    struct cetskobi_fetched f = {0};
    if (i >= facts.count) {
        f.number = facts.number != 0 ? facts.number : CETSKOBI_REFUSED_PACKET_INDEX;
        return f;
    }
    if (4 + 16 * (i + 1) > len) {
        f.number = CETSKOBI_REFUSED_PACKET_CONTENTS;
        return f;
    }
    const uint8_t *entry = packet + 4 + 16 * i;
    if (entry[13] * 256u + entry[14] + entry[15] > len) {
        f.number = CETSKOBI_REFUSED_PACKET_ENTRY;
        return f;
    }
    f.kind = entry[0];
    f.sender = entry[1];
    f.epoch = (uint32_t)entry[2] << 24 | (uint32_t)entry[3] << 16 | (uint32_t)entry[4] << 8 | entry[5];
    f.index = entry[6] * 256u + entry[7];
    f.version = (uint32_t)entry[8] << 24 | (uint32_t)entry[9] << 16 | (uint32_t)entry[10] << 8 | entry[11];
    f.tie = entry[12];
    f.at = entry[13] * 256u + entry[14];
    f.len = entry[15];
    return f;
}

/* Message i of a packet by facts that need not be its own: it is fetched as the header says, and delivered as what was fetched. */
static void taken(const uint8_t *packet, size_t len, struct cetskobi_accepted facts, size_t i) {
    struct cetskobi_fetched f = cetskobi_fetch_accepted(packet, len, facts, i);
    CHECK(same_fetch(f, by_the_header(packet, len, facts, i)));
    struct cetskobi_answer want = {.number = f.number};
    struct cetskobi_message message = {.kind = f.kind, .sender = f.sender, .tie = f.tie, .epoch = f.epoch, .version = f.version};
    lay(fresh);
    if (f.number == 0) want = cetskobi_deliver(LENT, f.index, message, packet + f.at, f.len);
    struct cetskobi_record records[COUNT];
    uint8_t stored[STORE];
    memcpy(records, table, sizeof table);
    memcpy(stored, store, STORE);
    lay(fresh);
    struct cetskobi_arrival a = cetskobi_deliver_accepted(LENT, packet, len, facts, i);
    CHECK(tells(a, want.number, f.epoch, f.sender, f.index) && answers(a.answer, want.number, want.kind, want.tie, want.version));
    CHECK(memcmp(table, records, sizeof table) == 0 && memcmp(store, stored, STORE) == 0);
}

/* Facts of another packet, or made up. The packet is cut short at every place and then spoilt at every byte. It lies at the end of a page,
 * and then at the beginning of one, with no memory beside it: to read outside it would end this program. */
static void foreign_facts(void) {
    size_t page = (size_t)sysconf(_SC_PAGESIZE);
    uint8_t *pages = mmap(NULL, 3 * page, PROT_NONE, MAP_PRIVATE | MAP_ANONYMOUS, -1, 0);
    if (pages == MAP_FAILED || mprotect(pages + page, page, PROT_READ | PROT_WRITE) != 0) {
        CHECK(!"memory");
        return;
    }
    static const uint8_t counts[] = {0, 1, 2, 3, 64, 255}, numbers[] = {0, 5, 22, 255}, bytes[] = {0, 3, 9, 15, 16, 37, 193, 255};
    static const size_t messages[] = {0, 1, 2, 3, 63, 64, 254, 255, SIZE_MAX / 16, SIZE_MAX};
    for (size_t len = 0; len <= sizeof two_messages; len++)
        for (int end = 0; end < 2; end++) {
            uint8_t *packet = pages + page + (end ? page - len : 0);
            size_t ways = len == sizeof two_messages ? len * sizeof bytes : 0;
            for (size_t spoilt = 0; spoilt <= ways && !failed; spoilt++) {
                memcpy(packet, two_messages, len);
                if (spoilt > 0) packet[(spoilt - 1) / sizeof bytes] = bytes[(spoilt - 1) % sizeof bytes];
                CHECK(cetskobi_accept(lower, packet, len).number == cetskobi_fetch(lower, packet, len, 0).number);
                for (size_t c = 0; c < sizeof counts; c++)
                    for (size_t n = 0; n < sizeof numbers; n++)
                        for (size_t m = 0; m < sizeof messages / sizeof *messages; m++)
                            taken(packet, len, (struct cetskobi_accepted){.number = numbers[n], .count = counts[c]}, messages[m]);
            }
        }
    munmap(pages, 3 * page);
}

static void playing(void) {
    const char script[] = "group 2\nwrite 0 A1\n";
    uint8_t out[25 * sizeof script];
    struct cetskobi_played p = cetskobi_play((const uint8_t *)script, strlen(script), out, 9);
    CHECK(p.number == 255 && p.len == 0);
    p = cetskobi_play((const uint8_t *)script, strlen(script), out, sizeof out);
    CHECK(p.number == 0 && p.len == 10 && memcmp(out, "0 W 1 0 0\n", 10) == 0);
}

/* rust/cetskobi/tests/texts.rs compares every text with Rust's. */
static void texts(void) {
    CHECK(says(cetskobi_meaning(0), "accepted"));
    CHECK(says(cetskobi_meaning(CETSKOBI_REFUSED_STRUCK_OFF),
               "this laptop is not in its own view: struck off, or left out of its first view"));
    CHECK(says(cetskobi_state_name(CETSKOBI_INVALID_WRITE), "invalid-write"));
    CHECK(says(cetskobi_kind_name(CETSKOBI_NONE), "none") && says(cetskobi_kind_name(CETSKOBI_ACK), "ACK"));
    for (int n = 0; n <= UINT8_MAX; n++) {
        int known = n <= CETSKOBI_REFUSED_OTHER_RULE || n == CETSKOBI_REFUSED_PLAYER_ROOM;
        CHECK(says(cetskobi_meaning((uint8_t)n), "unknown refusal") == !known);
        CHECK(says(cetskobi_state_name((uint8_t)n), "unknown state") == (n > CETSKOBI_REPLAY));
        CHECK(says(cetskobi_kind_name((uint8_t)n), "unknown kind") == (n > CETSKOBI_VAL));
    }
    char version[32];
    snprintf(version, sizeof version, "%d.%d.%d", CETSKOBI_VERSION_MAJOR, CETSKOBI_VERSION_MINOR, CETSKOBI_VERSION_PATCH);
    CHECK(says(version, CETSKOBI_VERSION));
}

int main(void) {
    membership();
    rules();
    writing();
    asking();
    leaving();
    recipients();
    delivery();
    acknowledged(CETSKOBI_WRITE);
    acknowledged(CETSKOBI_REPLAY);
    taken_over(CETSKOBI_INVALID);
    taken_over(CETSKOBI_INVALID_WRITE);
    not_taken_over(CETSKOBI_VALID);
    not_taken_over(CETSKOBI_WRITE);
    not_taken_over(CETSKOBI_REPLAY);
    ending();
    bytes();
    packets();
    packets_by_the_rule();
    accepted_once();
    foreign_facts();
    playing();
    texts();
    return failed;
}
