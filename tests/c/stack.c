/* How much stack each function of include/cetskobi.h takes: each is called on a stack of its own, painted before, and must stay within what
 * the header says. Run by tests/c.sh. */
#define _XOPEN_SOURCE 600
#include "cetskobi.h"
#include <stdio.h>
#include <stdlib.h>
#include <string.h>
#include <ucontext.h>

enum { STACK = 1 << 20, PAINT = 0xa5, SCRIPT = 65536, PRINTED = 25 * SCRIPT + 2 };
/* Two records are saved. */
enum { COUNT = CETSKOBI_COUNT_MAX, LAST = COUNT - 1, OPEN = LAST - 1 };

static struct cetskobi_replica me = {.number = 2, .settings = {.rule = CETSKOBI_LOWER}, .view = 38, .epoch = 0};
/* After laptop 5 was struck off. */
static const struct cetskobi_replica later = {.number = 2, .settings = {.rule = CETSKOBI_LOWER}, .view = 6, .epoch = 1};
static uint8_t table[COUNT * CETSKOBI_RECORD_BYTES], store[COUNT * CETSKOBI_VALUE_MAX];
static const uint8_t text[CETSKOBI_VALUE_MAX];
static struct cetskobi_entry entries[CETSKOBI_MESSAGES_MAX];
static const uint8_t bodies[CETSKOBI_PACKET_MAX];
static uint8_t packet[CETSKOBI_PACKET_MAX], script[SCRIPT], printed[PRINTED];
static size_t packet_len;

#define MEMORY table, sizeof table, store, sizeof store
#define LENT me, MEMORY

/* What the last call answered: each is to be accepted, and so to do its work. */
static uint8_t number;

static void nothing(void) {
    number = 0;
}

static void start(void) {
    number = cetskobi_start(me.number, me.view, me.settings, MEMORY).number;
}

static void view(void) {
    number = cetskobi_view(me, 1, 6).number;
}

static void saved(void) {
    number = cetskobi_write(LENT, LAST, text, sizeof text).number;
    number |= cetskobi_write(LENT, OPEN, text, sizeof text).number;
}

static void body(void) {
    struct cetskobi_answer left = {.kind = CETSKOBI_INV, .tie = 2, .version = 1};
    number = cetskobi_body(MEMORY, LAST, left) != sizeof text;
}

static void recipients(void) {
    number = cetskobi_recipients(me, CETSKOBI_INV, 0) != 34;
}

static void resend(void) {
    number = cetskobi_resend(LENT, LAST).number;
}

/* By laptop 1 both saves; by 5, the last, one of them, whose VAL leaves. */
static void acknowledged(void) {
    struct cetskobi_message ack = {.kind = CETSKOBI_ACK, .sender = 1, .tie = 2, .epoch = 0, .version = 1};
    number = cetskobi_deliver(LENT, LAST, ack, text, 0).number;
    number |= cetskobi_deliver(LENT, OPEN, ack, text, 0).number;
    ack.sender = 5;
    struct cetskobi_answer val = cetskobi_deliver(LENT, LAST, ack, text, 0);
    number |= val.number | (val.kind != CETSKOBI_VAL);
}

/* The other one, whose last missing laptop is struck off. */
static void validate(void) {
    number = cetskobi_validate(later, MEMORY, OPEN).number;
}

static void shown(void) {
    number = cetskobi_read(LENT, LAST).number;
}

static struct cetskobi_asked seen;

static void ask(void) {
    seen = cetskobi_ask(LENT, LAST);
    number = seen.number;
}

static void commit(void) {
    number = cetskobi_commit(LENT, LAST, seen.version, seen.tie, text, sizeof text).number;
}

/* A full text for record 0, from a laptop that is struck off then. */
static void invalidated(void) {
    struct cetskobi_message inv = {.kind = CETSKOBI_INV, .sender = 5, .tie = 5, .epoch = 0, .version = 7};
    number = cetskobi_deliver(LENT, 0, inv, text, sizeof text).number;
}

static void replay(void) {
    number = cetskobi_replay(later, MEMORY, 0).number;
}

/* The most messages, in the most bytes. */
static void pack(void) {
    for (uint32_t n = 0; n < CETSKOBI_MESSAGES_MAX; n++)
        entries[n] = (struct cetskobi_entry){.kind = CETSKOBI_INV, .sender = 5, .index = n, .version = 9, .tie = 5, .len = n < 2 ? 186 : 0};
    struct cetskobi_written w = cetskobi_pack(me.settings, (const uint32_t *)entries, CETSKOBI_ENTRY_WORDS * CETSKOBI_MESSAGES_MAX, bodies,
                                              2 * 186, packet, sizeof packet);
    number = w.number;
    packet_len = w.len;
}

static void fetch(void) {
    number = cetskobi_fetch(me.settings, packet, packet_len, CETSKOBI_MESSAGES_MAX - 1).number;
}

static void deliver_packet(void) {
    number = cetskobi_deliver_packet(LENT, packet, packet_len, 0).number;
}

static struct cetskobi_accepted all;

static void accept_packet(void) {
    all = cetskobi_accept(me.settings, packet, packet_len);
    number = all.number | (all.count != CETSKOBI_MESSAGES_MAX);
}

static void fetch_accepted(void) {
    number = cetskobi_fetch_accepted(packet, packet_len, all, CETSKOBI_MESSAGES_MAX - 1).number;
}

/* A full text, and then the last message. */
static void deliver_accepted(void) {
    number = cetskobi_deliver_accepted(LENT, packet, packet_len, all, 1).answer.number;
    number |= cetskobi_deliver_accepted(LENT, packet, packet_len, all, CETSKOBI_MESSAGES_MAX - 1).answer.number;
}

/* Lines of every kind, over and over: the log fills, and the versions grow long. */
static void play(void) {
    static const char lines[] = "write 0 A robin\ndeliver 1 0\ndeliver 0 1\nresend 0\nvalidate 0\nread 1\nreplay 3\n?\n"
                                "view 2 4294967295 14\nwrite 1 B\ndeliver 2 255\n";
    size_t len = strlen("group 4\n");
    memcpy(script, "group 4\n", len);
    for (; len + sizeof lines <= sizeof script; len += sizeof lines - 1)
        memcpy(script + len, lines, sizeof lines - 1);
    number = cetskobi_play(script, len, printed, sizeof printed).number;
}

static uint8_t stack[STACK];
static ucontext_t here, there;

/* The bytes of stack that this call takes. */
static size_t taken(void (*call)(void)) {
    size_t untouched = 0;
    memset(stack, PAINT, sizeof stack);
    getcontext(&there);
    there.uc_stack.ss_sp = stack;
    there.uc_stack.ss_size = sizeof stack;
    there.uc_link = &here;
    makecontext(&there, call, 0);
    swapcontext(&here, &there);
    while (stack[untouched] == PAINT) untouched++;
    return sizeof stack - untouched;
}

int main(int argc, char **argv) {
    struct {
        const char *name;
        void (*call)(void);
        size_t most;
    } calls[] = {
        {"start", start, CETSKOBI_STACK},
        {"view", view, CETSKOBI_STACK},
        {"write", saved, CETSKOBI_STACK},
        {"body", body, CETSKOBI_STACK},
        {"recipients", recipients, CETSKOBI_STACK},
        {"resend", resend, CETSKOBI_STACK},
        {"deliver, ACK", acknowledged, CETSKOBI_STACK},
        {"validate", validate, CETSKOBI_STACK},
        {"read", shown, CETSKOBI_STACK},
        {"ask", ask, CETSKOBI_STACK},
        {"commit", commit, CETSKOBI_STACK},
        {"deliver, INV", invalidated, CETSKOBI_STACK},
        {"replay", replay, CETSKOBI_STACK},
        {"pack", pack, CETSKOBI_STACK},
        {"fetch", fetch, CETSKOBI_STACK},
        {"deliver_packet", deliver_packet, CETSKOBI_STACK},
        {"accept", accept_packet, CETSKOBI_STACK},
        {"fetch_accepted", fetch_accepted, CETSKOBI_STACK},
        {"deliver_accepted", deliver_accepted, CETSKOBI_STACK},
        {"play", play, CETSKOBI_PLAY_STACK},
    };
    size_t beside = taken(nothing), most = 0;
    int failed = 0;
    for (size_t n = 0; n < sizeof calls / sizeof *calls; n++) {
        size_t bytes = taken(calls[n].call) - beside;
        if (argc > 1 && strcmp(argv[1], "-v") == 0) printf("%s: %zu bytes of stack\n", calls[n].name, bytes);
        if (number != 0 || bytes > calls[n].most) {
            printf("stack.c: %s: answer %d, %zu bytes of stack\n", calls[n].name, number, bytes);
            failed = 1;
        }
        if (bytes > most) most = bytes;
    }
    /* The player keeps its log there, so that a measure that sees nothing shows. */
    if (most < 256 * CETSKOBI_VALUE_MAX) {
        printf("stack.c: %zu bytes of stack are too few to be true\n", most);
        failed = 1;
    }
    return failed;
}
