/* Two laptops keep one ring record in step by packets, although one packet is lost and one comes twice. Both open it before either saves:
 * the second save is refused, and made again over the text that stands there by then. Then the other saves too before it has heard of that:
 * a tie, which goes to the lower number.
 * From the repository's root (rust/cetskobi/examples/two_laptops.rs tells the same in Rust):
 *   sh tools/archive && cc -O2 examples/c/two_laptops.c -Iinclude target/staticlib/libcetskobi.a -o target/two_laptops && target/two_laptops
 */
#include "cetskobi_text.h"
#include <stdio.h>
#include <stdlib.h>
#include <string.h>

/* The record's number, and what is saved there. */
enum { RING = 7, COUNT = 8 };
static const char WING[] = "Blue tit, wing 62", REMARK[] = "Blue tit, female", BOTH[] = "Blue tit, female, wing 62",
                  AGAIN[] = "Blue tit, wing 63";

/* The rule of ties: the same at all laptops of a group, and fixed at its start. */
static const struct cetskobi_settings SETTINGS = {.rule = CETSKOBI_LOWER};

struct laptop {
    struct cetskobi_replica me;
    uint8_t table[COUNT * CETSKOBI_RECORD_BYTES];
    uint8_t store[COUNT * CETSKOBI_VALUE_MAX];
};

struct packet {
    uint8_t bytes[CETSKOBI_PACKET_MAX];
    size_t len;
};

/* The lent memory, and what each event on a record gets first: the identity with it. */
#define MEMORY(l) (l)->table, sizeof (l)->table, (l)->store, sizeof (l)->store
#define LENT(l) (l)->me, MEMORY(l)

static void accepted(uint8_t number) {
    if (number != 0) {
        printf("refused (%d): %s\n", number, cetskobi_meaning(number));
        exit(1);
    }
}

static void start(struct laptop *l, uint8_t number) {
    struct cetskobi_admission a = cetskobi_start(number, 3, SETTINGS, MEMORY(l));
    accepted(a.number);
    l->me = a.replica;
}

/* The packet of what left an event of this laptop; sender is that of a delivered message. An ACK goes to it, the others to the view. */
static struct packet send(const struct laptop *l, struct cetskobi_answer left, uint8_t sender) {
    accepted(left.number);
    /* Never CETSKOBI_GONE here, right after the event; if it were, question 24 would say so. */
    size_t len = cetskobi_body(MEMORY(l), RING, left);
    struct cetskobi_entry entry = {.kind = left.kind,
                                   .sender = l->me.number,
                                   .epoch = l->me.epoch,
                                   .index = RING,
                                   .version = left.version,
                                   .tie = left.tie,
                                   .len = (uint32_t)len};
    struct packet p;
    struct cetskobi_written w = cetskobi_pack(l->me.settings, (const uint32_t *)&entry, CETSKOBI_ENTRY_WORDS,
                                              l->store + RING * CETSKOBI_VALUE_MAX, len, p.bytes, sizeof p.bytes);
    accepted(w.number);
    p.len = w.len;
    uint16_t to = cetskobi_recipients(l->me, left.kind, sender);
    for (int n = 0; n < 16; n++)
        if (to >> n & 1)
            printf("  %s (%u,%u) to laptop %d, %zu bytes\n", cetskobi_kind_name(left.kind), (unsigned)left.version, (unsigned)left.tie, n,
                   p.len);
    return p;
}

/* A packet comes. It is accepted as a whole, and then its messages are delivered, here one. */
static struct cetskobi_arrival take(struct laptop *l, const struct packet *p) {
    struct cetskobi_accepted all = cetskobi_accept(l->me.settings, p->bytes, p->len);
    accepted(all.number);
    return cetskobi_deliver_accepted(LENT(l), p->bytes, p->len, all, 0);
}

/* The packet of what leaves a delivery. */
static struct packet reply(const struct laptop *l, struct cetskobi_arrival a) {
    return send(l, a.answer, a.sender);
}

/* What the laptop's screen has. */
static void show(const struct laptop *l) {
    struct cetskobi_reading r = cetskobi_read(LENT(l), RING);
    if (r.number == 0)
        printf("  laptop %d shows: %.*s\n", l->me.number, (int)r.len, (const char *)l->store + RING * CETSKOBI_VALUE_MAX);
    else
        printf("  laptop %d does not show it: question %d\n", l->me.number, r.number);
}

/* A ringer opens the ring: what she sees, and the timestamp that her save brings back. */
static struct cetskobi_asked open_ring(const struct laptop *l) {
    struct cetskobi_asked a = cetskobi_ask(LENT(l), RING);
    accepted(a.number);
    printf("  laptop %d opens (%u,%u): \"%.*s\"\n", l->me.number, (unsigned)a.version, (unsigned)a.tie, (int)a.len,
           (const char *)l->store + RING * CETSKOBI_VALUE_MAX);
    return a;
}

/* She saves over what she saw. */
static struct cetskobi_answer save(struct laptop *l, struct cetskobi_asked seen, const char *text) {
    return cetskobi_commit(LENT(l), RING, seen.version, seen.tie, (const uint8_t *)text, strlen(text));
}

/* A refused event: nothing has changed. */
static void refused(struct cetskobi_answer a) {
    if (a.number != 0) printf("  refused: question %d\n", a.number);
}

int main(void) {
    /* Two laptops, both in the view, eight records each. */
    static struct laptop net, hut;
    start(&net, 0);
    start(&hut, 1);
    printf("laptops 0 and 1 start with %d records; a tie goes to the %s number\n", COUNT, cetskobi_rule_name(SETTINGS.rule));

    printf("a ringer at each opens record %d\n", RING);
    struct cetskobi_asked seen_at_net = open_ring(&net), seen_at_hut = open_ring(&hut);

    printf("laptop 0 saves over what it opened\n");
    send(&net, save(&net, seen_at_net, WING), net.me.number);
    printf("the packet is lost\n");
    show(&net);

    printf("laptop 0 sends again\n");
    struct packet inv = send(&net, cetskobi_resend(LENT(&net), RING), net.me.number);
    printf("laptop 1 takes the packet\n");
    struct packet ack = reply(&hut, take(&hut, &inv));
    show(&hut);

    /* Nobody else is missing: the record is settled here, and the VAL leaves. */
    printf("laptop 0 takes the packet\n");
    struct packet val = reply(&net, take(&net, &ack));
    show(&net);
    printf("the packet comes a second time\n");
    refused(take(&net, &ack).answer);

    printf("laptop 1 takes the packet\n");
    accepted(take(&hut, &val).answer.number);
    show(&hut);

    /* It would save over a text that its ringer never saw. She keeps her own, opens the ring again, and sees both. */
    printf("laptop 1 saves over what it opened\n");
    refused(save(&hut, seen_at_hut, REMARK));
    seen_at_hut = open_ring(&hut);
    printf("laptop 1 saves over that\n");
    struct packet inv_of_hut = send(&hut, save(&hut, seen_at_hut, BOTH), hut.me.number);

    /* Nor has the other's ringer seen that. Both saves are of version 2. */
    printf("laptop 0 saves before it takes the packet\n");
    seen_at_net = open_ring(&net);
    struct packet inv_of_net = send(&net, save(&net, seen_at_net, AGAIN), net.me.number);
    printf("each takes the other's packet\n");
    struct packet ack_of_net = reply(&net, take(&net, &inv_of_hut));
    struct packet ack_of_hut = reply(&hut, take(&hut, &inv_of_net));

    /* Laptop 1 was overtaken: its last ACK is counted, and nothing leaves. */
    printf("each takes the other's acknowledgement\n");
    accepted(take(&hut, &ack_of_net).answer.number);
    val = reply(&net, take(&net, &ack_of_hut));
    printf("laptop 1 takes the packet\n");
    accepted(take(&hut, &val).answer.number);
    show(&net);
    show(&hut);
    return 0;
}
