/* Plays the guide's worked morning with the guide's C code, then what the guide says of saves, waits and packets.
 * rust/cetskobi/tests/guide.rs does the same in Rust. Run by tests/c.sh, which takes guide_code.c out of docs/GUIDE.md. */
#include "guide_code.c"
#include <stdio.h>

static int failed;

#define CHECK(fact) check((fact), #fact, __LINE__)

static void check(int holds, const char *fact, int line) {
    if (!holds) {
        printf("tests/c/guide.c:%d: not so: %s\n", line, fact);
        failed = 1;
    }
}

/* The radio: what was sent since it was last looked at. */
struct packet {
    uint8_t bytes[CETSKOBI_PACKET_MAX];
    size_t len;
    uint16_t to;
};
static struct packet air[32];
static size_t in_air;

void radio_send(const uint8_t *packet, size_t len, uint16_t to) {
    if (in_air == sizeof air / sizeof *air) {
        CHECK(!"more packets than there is room for");
        return;
    }
    struct packet *p = &air[in_air++];
    memcpy(p->bytes, packet, len);
    p->len = len;
    p->to = to;
}

/* The one packet in the air, which goes to this set. */
static struct packet sent(uint16_t to) {
    CHECK(in_air == 1 && air[0].to == to);
    in_air = 0;
    return air[0];
}

static void silent(void) {
    CHECK(in_air == 0);
    in_air = 0;
}

static void came(struct hut *h, struct packet p) {
    packet_came(h, p.bytes, p.len);
}

static void ticks(struct hut *h, int count) {
    for (int n = 0; n < count; n++) tick(h);
}

/* The packet, of a new group, is one message of this kind with this stamp. */
static int carries(struct packet p, uint8_t kind, uint32_t version, uint8_t tie) {
    struct cetskobi_fetched m = cetskobi_fetch(SETTINGS, p.bytes, p.len, 0);
    return p.bytes[1] == 1 && m.number == 0 && m.kind == kind && m.version == version && m.tie == tie;
}

/* The ring of the morning, and sets. */
enum { RING = 7 };
enum { SET_1 = 2, SET_2 = 4, SET_5 = 32, ALL = 38 };
static struct hut one, two, five;

static int is(const struct hut *h, uint8_t state, uint32_t version, uint8_t tie, uint16_t acks) {
    const struct cetskobi_record *r = &h->table[RING];
    return r->state == state && r->version == version && r->tie == tie && r->acks == acks;
}

/* What was opened has this text, and this stamp. */
static int has(const struct opened *o, const char *text, uint32_t version, uint8_t tie) {
    return o->ring == RING && o->len == strlen(text) && memcmp(o->text, text, o->len) == 0 && o->stamp.version == version &&
           o->stamp.tie == tie;
}

static int shows(const struct hut *h, const char *text) {
    struct opened o;
    return open_ring(h, RING, &o) == 0 && has(&o, text, o.stamp.version, o.stamp.tie);
}

/* A ringer saves this text over what she opened. */
static uint8_t saves_over(struct hut *h, const struct opened *o, const char *text, struct stamp *saved) {
    return save(h, o, (const uint8_t *)text, strlen(text), saved);
}

/* Opens the ring and saves it at once. */
static struct stamp saves(struct hut *h, const char *text) {
    struct stamp saved = {0, 0};
    struct opened o = {0};
    CHECK(open_ring(h, RING, &o) == 0);
    CHECK(saves_over(h, &o, text, &saved) == 0);
    return saved;
}

static void fresh(void) {
    CHECK(begin(&one, 1, ALL) == 0 && begin(&two, 2, ALL) == 0 && begin(&five, 5, ALL) == 0);
}

/* The same of a group with this rule: of one that was formed earlier, say. */
static void fresh_by(uint8_t rule) {
    struct cetskobi_settings settings = {.rule = rule};
    struct hut *huts[] = {&one, &two, &five};
    fresh();
    for (size_t k = 0; k < 3; k++) {
        struct cetskobi_admission a = cetskobi_start(huts[k]->me.number, ALL, settings, LENT(huts[k]));
        CHECK(a.number == 0 && a.replica.settings.rule == rule);
        huts[k]->me = a.replica;
    }
}

static void a_worked_morning(void) {
    fresh();
    CHECK(is(&one, CETSKOBI_VALID, 0, 1, 0));

    /* The ring is opened at 1 and at 2. 2 saves; 5 does not hear it. */
    struct opened seen_at_one;
    CHECK(open_ring(&one, RING, &seen_at_one) == 0 && has(&seen_at_one, "", 0, 1));
    struct stamp first = saves(&two, "robin, wing 73"), none;
    struct packet inv = sent(SET_1 | SET_5), ack, val;
    CHECK(inv.len == 34 && carries(inv, CETSKOBI_INV, 1, 2));
    came(&one, inv);
    ack = sent(SET_2);
    CHECK(carries(ack, CETSKOBI_ACK, 1, 2) && is(&one, CETSKOBI_INVALID, 1, 2, 0));
    came(&two, ack);
    silent();
    CHECK(is(&two, CETSKOBI_WRITE, 1, 2, SET_1) && fate_of(&two, RING, first) == WAITING);
    CHECK(cetskobi_validate(two.me, LENT(&two), RING).number == 15);

    /* Sent again, both hear it, and 2 finishes; 1 does not hear that. */
    ticks(&two, 7);
    silent();
    tick(&two);
    inv = sent(SET_1 | SET_5);
    came(&one, inv);
    ack = sent(SET_2);
    CHECK(cetskobi_deliver_packet(two.me, LENT(&two), ack.bytes, ack.len, 0).number == 13);
    came(&five, inv);
    ack = sent(SET_2);
    static const uint8_t bytes[] = {2, 1, 0, 20, 2, 5, 0, 0, 0, 0, 0, 7, 0, 0, 0, 1, 2, 0, 20, 0};
    CHECK(ack.len == sizeof bytes && memcmp(ack.bytes, bytes, sizeof bytes) == 0);
    came(&two, ack);
    val = sent(SET_1 | SET_5);
    CHECK(carries(val, CETSKOBI_VAL, 1, 2) && is(&two, CETSKOBI_VALID, 1, 2, SET_1 | SET_5) && fate_of(&two, RING, first) == FINISHED);
    came(&five, val);
    CHECK(is(&five, CETSKOBI_VALID, 1, 2, 0));
    /* 1's ringer would save over what she saw. Her text is kept, and once the other's is shown, it says more than hers. */
    CHECK(saves_over(&one, &seen_at_one, "robin", &none) == 26);
    CHECK(open_ring(&one, seen_at_one.ring, &seen_at_one) == 6 && has(&seen_at_one, "", 0, 1));
    ticks(&two, 8);
    val = sent(SET_1 | SET_5);
    came(&one, val);
    silent();
    CHECK(is(&one, CETSKOBI_VALID, 1, 2, 0) && open_ring(&one, RING, &seen_at_one) == 0 && has(&seen_at_one, "robin, wing 73", 1, 2));

    /* 5 saves, only 1 hears it, and 5 dies. */
    saves(&five, "robin, wing 74");
    inv = sent(SET_1 | SET_2);
    came(&one, inv);
    CHECK(carries(sent(SET_5), CETSKOBI_ACK, 2, 5) && is(&one, CETSKOBI_INVALID, 2, 5, 0));
    CHECK(cetskobi_replay(one.me, LENT(&one), RING).number == 16);

    /* The warden strikes it off: 1 replays, and 2 hears of the view later. */
    CHECK(view_came(&one, 1, SET_1 | SET_2) == 0);
    inv = sent(SET_2);
    CHECK(carries(inv, CETSKOBI_INV, 2, 5) && is(&one, CETSKOBI_REPLAY, 2, 5, 0));
    CHECK(cetskobi_deliver_packet(two.me, LENT(&two), inv.bytes, inv.len, 0).number == 10);
    CHECK(missed_view(&two) == 0);
    came(&two, inv);
    silent();
    CHECK(missed_view(&two) == 1 && is(&two, CETSKOBI_VALID, 1, 2, SET_1 | SET_5));
    CHECK(view_came(&two, 1, SET_1 | SET_2) == 0 && is(&two, CETSKOBI_VALID, 1, 2, SET_1 | SET_5));
    CHECK(missed_view(&two) == 0);
    came(&one, sent(SET_1));
    silent();
    ticks(&one, 8);
    came(&two, sent(SET_2));
    CHECK(is(&two, CETSKOBI_INVALID, 2, 5, SET_1 | SET_5));
    came(&one, sent(SET_1));
    val = sent(SET_2);
    CHECK(carries(val, CETSKOBI_VAL, 2, 5) && is(&one, CETSKOBI_VALID, 2, 5, SET_2));
    came(&two, val);
    silent();
    CHECK(shows(&one, "robin, wing 74") && shows(&two, "robin, wing 74"));

    /* A view that is refused leaves the identity. */
    CHECK(view_came(&one, 1, SET_1 | SET_2) == 18 && one.me.epoch == 1 && one.me.view == (SET_1 | SET_2));
}

/* 5 is struck off at 1, under epochs 1 and then 4. 2 hears it only by messages, which it refuses; and so does 5. */
static void a_view_that_was_missed(void) {
    fresh();
    CHECK(view_came(&one, 1, SET_1 | SET_2) == 0);
    saves(&one, "robin");
    struct packet first = sent(SET_2);
    CHECK(view_came(&one, 4, SET_1 | SET_2) == 0);
    struct packet second = sent(SET_2);
    struct hut *late[] = {&two, &five};
    for (size_t k = 0; k < 2; k++) {
        CHECK(missed_view(late[k]) == 0);
        came(late[k], first);
        CHECK(missed_view(late[k]) == 1);
        came(late[k], second);
        silent();
        CHECK(missed_view(late[k]) == 4 && is(late[k], CETSKOBI_VALID, 0, 1, 0));
        /* A damaged epoch tells of a view that nobody issued, until the next message; one from outside the view tells nothing. */
        struct packet damaged = second;
        damaged.bytes[6] ^= 64;
        came(late[k], damaged);
        CHECK(missed_view(late[k]) == 1073741828);
        came(late[k], second);
        CHECK(missed_view(late[k]) == 4);
        damaged.bytes[5] = 3;
        came(late[k], damaged);
        silent();
        CHECK(missed_view(late[k]) == 4);
    }
    /* An older view is not the one that was missed, and the next message tells it again; a refused one is none. */
    CHECK(view_came(&two, 1, SET_1 | SET_2) == 0 && missed_view(&two) == 0);
    came(&two, second);
    CHECK(view_came(&two, 4, ALL) == 19 && missed_view(&two) == 4);
    CHECK(view_came(&two, 4, SET_1 | SET_2) == 0 && missed_view(&two) == 0);
    came(&two, second);
    CHECK(carries(sent(SET_1), CETSKOBI_ACK, 1, 1));
    /* A laptop that has the view without itself has missed none, whatever comes then. */
    CHECK(view_came(&five, 1, SET_1 | SET_2) == 0);
    came(&five, second);
    CHECK(missed_view(&five) == 0 && cetskobi_read(five.me, LENT(&five), RING).number == 3);
    /* Older messages tell nothing, and neither do bytes that are no packet. */
    came(&one, first);
    second.bytes[0] = 3;
    CHECK(packet_came(&one, second.bytes, second.len) == 20);
    /* Nor does a packet of a group with the other rule. */
    second.bytes[0] = 1;
    CHECK(packet_came(&one, second.bytes, second.len) == 27);
    silent();
    CHECK(one.heard == 0 && missed_view(&one) == 0);
}

/* 2 and 5 save at once, in a group with this rule; the tie goes to the winner. */
static void two_saves_at_once(uint8_t rule, struct hut *winner, struct hut *loser) {
    fresh_by(rule);
    uint8_t number = winner->me.number;
    uint16_t set_w = (uint16_t)(1 << number), set_l = (uint16_t)(1 << loser->me.number);
    struct stamp lesser = saves(loser, "loser's");
    struct packet of_loser = sent(SET_1 | set_w);
    saves(winner, "winner's");
    struct packet of_winner = sent(SET_1 | set_l);
    CHECK(of_loser.bytes[0] == rule && of_winner.bytes[0] == rule);
    /* 1 and the winner acknowledge the loser's save, so it is finished; the winner keeps its own, and that comes then. */
    came(&one, of_loser);
    came(loser, sent(set_l));
    silent();
    came(winner, of_loser);
    came(loser, sent(set_l));
    sent(SET_1 | set_w);
    CHECK(fate_of(loser, RING, lesser) == FINISHED);
    came(loser, of_winner);
    sent(set_w);
    CHECK(fate_of(loser, RING, lesser) == REPLACED && is(loser, CETSKOBI_INVALID, 1, number, SET_1 | set_w));

    /* Where it comes before, the save is overtaken. */
    fresh_by(rule);
    lesser = saves(loser, "loser's");
    sent(SET_1 | set_w);
    came(loser, of_winner);
    sent(set_w);
    CHECK(fate_of(loser, RING, lesser) == REPLACED && is(loser, CETSKOBI_INVALID_WRITE, 1, number, 0));
    CHECK(memcmp(loser->store + CETSKOBI_VALUE_MAX * RING, "winner's", 9) == 0);
}

/* Two stations on one channel, or a laptop that was started with the other rule: nothing of such a packet is taken, in either direction, and
 * the clock goes on. */
static void a_packet_of_the_other_rule(void) {
    fresh();
    saves(&two, "robin");
    struct packet ours = sent(SET_1 | SET_5), theirs;
    struct cetskobi_settings old = {.rule = CETSKOBI_HIGHER};
    one.me = cetskobi_start(1, ALL, old, LENT(&one)).replica;
    CHECK(packet_came(&one, ours.bytes, ours.len) == 27 && is(&one, CETSKOBI_VALID, 0, 1, 0));
    saves(&one, "wren");
    theirs = sent(SET_2 | SET_5);
    CHECK(ours.bytes[0] == 2 && theirs.bytes[0] == 1);
    CHECK(packet_came(&two, theirs.bytes, theirs.len) == 27 && is(&two, CETSKOBI_WRITE, 1, 2, 0) && missed_view(&two) == 0);
    silent();
    ticks(&two, 8);
    ours = sent(SET_1 | SET_5);
    /* Started anew, with its group's rule, it takes what comes. */
    CHECK(begin(&one, 1, ALL) == 0);
    came(&one, ours);
    came(&two, sent(SET_2));
    silent();
    CHECK(is(&one, CETSKOBI_INVALID, 1, 2, 0) && is(&two, CETSKOBI_WRITE, 1, 2, SET_1));
}

/* 2 and 5 saved together, and 5 was overtaken, as a tie goes to the lower number; then 2 died. What 5 sent. */
static struct packet the_winner_dies(void) {
    fresh();
    struct stamp lesser = saves(&five, "five's");
    struct packet of_five = sent(SET_1 | SET_2);
    saves(&two, "two's");
    came(&five, sent(SET_1 | SET_5));
    sent(SET_2);
    CHECK(is(&five, CETSKOBI_INVALID_WRITE, 1, 2, 0) && fate_of(&five, RING, lesser) == REPLACED);
    return of_five;
}

/* 5's replay comes to 1, and its ACK back. Both show the winner's text, and 5's ringer is told that hers was replaced. */
static void replayed(struct packet inv) {
    CHECK(carries(inv, CETSKOBI_INV, 1, 2) && is(&five, CETSKOBI_REPLAY, 1, 2, 0));
    came(&one, inv);
    struct packet ack = sent(SET_5);
    CHECK(carries(ack, CETSKOBI_ACK, 1, 2) && is(&one, CETSKOBI_INVALID, 1, 2, 0));
    came(&five, ack);
    struct packet val = sent(SET_1);
    CHECK(carries(val, CETSKOBI_VAL, 1, 2) && is(&five, CETSKOBI_VALID, 1, 2, SET_1));
    came(&one, val);
    silent();
    CHECK(shows(&one, "two's") && shows(&five, "two's") && fate_of(&five, RING, (struct stamp){1, 5}) == REPLACED);
}

/* Only 5 has the winner's text. As long as 2 is in the view it waits; once 2 is struck off it replays that text (02, Wish 2). */
static void an_overtaken_laptop_replays(void) {
    the_winner_dies();
    ticks(&five, 3000);
    go_over(&five);
    silent();
    CHECK(cetskobi_read(five.me, LENT(&five), RING).number == 6 && cetskobi_write(five.me, LENT(&five), RING, NULL, 0).number == 7);
    CHECK(cetskobi_validate(five.me, LENT(&five), RING).number == 15 && cetskobi_replay(five.me, LENT(&five), RING).number == 16);
    CHECK(cetskobi_resend(five.me, LENT(&five), RING).number == 17 && is(&five, CETSKOBI_INVALID_WRITE, 1, 2, 0));
    CHECK(view_came(&five, 1, SET_1 | SET_5) == 0);
    CHECK(carries(sent(SET_1), CETSKOBI_INV, 1, 2) && is(&five, CETSKOBI_REPLAY, 1, 2, 0));
    CHECK(fate_of(&five, RING, (struct stamp){1, 5}) == REPLACED);
    /* That was lost. 1, which had heard nothing, has the view when it comes again. */
    CHECK(view_came(&one, 1, SET_1 | SET_5) == 0 && is(&one, CETSKOBI_VALID, 0, 1, 0));
    ticks(&five, 7);
    silent();
    tick(&five);
    replayed(sent(SET_1));

    /* 1 has the text that was overtaken, and cannot help as 5 lives. What it acknowledged is late. */
    struct packet of_five = the_winner_dies();
    came(&one, of_five);
    struct packet late = sent(SET_5);
    CHECK(view_came(&one, 1, SET_1 | SET_5) == 0);
    silent();
    CHECK(is(&one, CETSKOBI_INVALID, 1, 5, 0) && view_came(&five, 1, SET_1 | SET_5) == 0);
    struct packet inv = sent(SET_1);
    CHECK(carries(late, CETSKOBI_ACK, 1, 5));
    CHECK(cetskobi_deliver_packet(five.me, LENT(&five), late.bytes, late.len, 0).number == 10);
    replayed(inv);

    /* 5 took the view and replayed nothing, as with an engine without Wish 2. Its clock is gone; going over once finds the record. */
    the_winner_dies();
    CHECK(view_came(&one, 1, SET_1 | SET_5) == 0);
    five.me = cetskobi_view(five.me, 1, SET_1 | SET_5).replica;
    memset(five.ticks, 0, sizeof five.ticks);
    ticks(&five, 3000);
    silent();
    CHECK(is(&five, CETSKOBI_INVALID_WRITE, 1, 2, 0));
    go_over(&five);
    replayed(sent(SET_1));
}

/* 1's ringer opens the ring and measures the bird; 2's save comes between. Hers is refused, and kept: she sees both texts, and saves what
 * shall stand. */
static void a_save_since_the_ring_was_opened(void) {
    fresh();
    struct opened seen;
    struct stamp saved = {0, 0};
    CHECK(open_ring(&one, RING, &seen) == 0 && has(&seen, "", 0, 1));
    saves(&two, "wing 73");
    struct packet inv = sent(SET_1 | SET_5);
    came(&one, inv);
    came(&two, sent(SET_2));
    /* The other's save is not finished here: hers stays on the screen until it is. */
    CHECK(saves_over(&one, &seen, "weight 18", &saved) == 26 && open_ring(&one, seen.ring, &seen) == 6 && has(&seen, "", 0, 1));
    came(&five, inv);
    came(&two, sent(SET_2));
    came(&one, sent(SET_1 | SET_5));
    CHECK(saves_over(&one, &seen, "weight 18", &saved) == 26 && open_ring(&one, seen.ring, &seen) == 0 && has(&seen, "wing 73", 1, 2));
    silent();
    CHECK(shows(&one, "wing 73") && saved.version == 0);
    /* She sees both, and makes one of them. It is too long; then it is not. */
    static const uint8_t full[CETSKOBI_VALUE_MAX + 1] = {0};
    CHECK(save(&one, &seen, full, sizeof full, &saved) == 8 && open_ring(&one, seen.ring, &seen) == 0 && has(&seen, "wing 73", 1, 2));
    silent();
    CHECK(saves_over(&one, &seen, "wing 73, weight 18", &saved) == 0 && saved.version == 2 && saved.tie == 1);
    CHECK(carries(sent(SET_2 | SET_5), CETSKOBI_INV, 2, 1));
    /* A ring that is none is neither opened nor saved. */
    CHECK(open_ring(&one, COUNT, &seen) == 4 && has(&seen, "wing 73", 1, 2));
    seen.ring = COUNT;
    CHECK(saves_over(&one, &seen, "wren", &saved) == 4 && saved.version == 2);
    silent();
    /* A laptop that is struck off says so before it looks at what was opened. */
    CHECK(open_ring(&five, RING, &seen) == 6 && view_came(&five, 1, SET_1 | SET_2) == 0);
    seen.ring = RING;
    CHECK(saves_over(&five, &seen, "wren", &saved) == 3 && open_ring(&five, RING, &seen) == 3);
}

/* 2's save waits for 5 alone when 5 is struck off: no ACK comes that would finish it, so the view does. */
static void a_save_that_waits_for_a_struck_off_laptop(void) {
    fresh();
    struct stamp saved = saves(&two, "robin, wing 73");
    came(&one, sent(SET_1 | SET_5));
    came(&two, sent(SET_2));
    silent();
    CHECK(is(&two, CETSKOBI_WRITE, 1, 2, SET_1));
    CHECK(view_came(&two, 1, SET_1 | SET_2) == 0);
    struct packet val = sent(SET_1);
    CHECK(carries(val, CETSKOBI_VAL, 1, 2) && is(&two, CETSKOBI_VALID, 1, 2, SET_1) && fate_of(&two, RING, saved) == FINISHED);
    CHECK(view_came(&one, 1, SET_1 | SET_2) == 0);
    came(&one, val);
    silent();
    CHECK(shows(&one, "robin, wing 73"));
}

/* 2 saves unheard, and is struck off before that save is finished. Nothing more comes of it there. */
static void a_save_that_waits_at_a_struck_off_laptop(void) {
    fresh();
    struct stamp first = saves(&two, "robin, wing 73");
    struct packet inv = sent(SET_1 | SET_5);
    came(&one, inv);
    came(&two, sent(SET_2));
    came(&five, inv);
    came(&two, sent(SET_2));
    came(&one, sent(SET_1 | SET_5));
    struct stamp saved = {0, 0}, none;
    struct opened seen, also;
    CHECK(open_ring(&two, 0, &seen) == 0 && open_ring(&two, 1, &also) == 0);
    CHECK(saves_over(&two, &seen, "wren", &saved) == 0);
    sent(SET_1 | SET_5);
    CHECK(fate_of(&two, 0, saved) == WAITING);
    CHECK(view_came(&two, 1, SET_1 | SET_5) == 0 && open_ring(&two, 0, &seen) == 3);
    CHECK(saves_over(&two, &also, "robin", &none) == 3);
    ticks(&two, 3000);
    silent();
    CHECK(fate_of(&two, 0, saved) == STRUCK_OFF);
    /* What was finished before stays so, and a text that another one replaced is not in the record. */
    CHECK(fate_of(&two, RING, first) == FINISHED && fate_of(&two, RING, (struct stamp){0, 1}) == REPLACED);
    /* Whoever stays waits. */
    saved = saves(&one, "robin, wing 74");
    sent(SET_2 | SET_5);
    CHECK(view_came(&one, 1, SET_1 | SET_5) == 0 && fate_of(&one, RING, saved) == WAITING);
    in_air = 0;
}

/* A packet leaves at these ticks and no others. */
static void leaves_at(struct hut *h, const int *at, int last) {
    for (int n = 1; n <= last; n++) {
        tick(h);
        if (in_air == 1 && *at == n) {
            in_air = 0;
            at++;
        }
        silent();
    }
    CHECK(*at == 0);
}

static void waits(void) {
    fresh();
    saves(&two, "robin");
    struct packet inv = sent(SET_1 | SET_5);
    leaves_at(&two, (const int[]){8, 24, 56, 88, 120, 0}, 130);
    came(&one, inv);
    came(&two, sent(SET_2));
    came(&five, inv);
    came(&two, sent(SET_2));
    sent(SET_1 | SET_5);
    leaves_at(&two, (const int[]){8, 24, 56, 120, 248, 504, 1016, 2040, 3064, 4088, 0}, 5000);
    leaves_at(&one, (const int[]){0}, 100);
}

static void packets_are_shared(void) {
    fresh();
    static const uint8_t text[CETSKOBI_VALUE_MAX];
    struct stamp saved;
    struct opened seen;
    for (size_t i = 0; i < 200; i++) {
        CHECK(open_ring(&one, i, &seen) == 0 && save(&one, &seen, text, i < 20 ? sizeof text : 0, &saved) == 0);
        struct packet inv = sent(SET_2 | SET_5);
        if (i < 20) continue; /* stay in state write */
        came(&two, inv);
        came(&one, sent(SET_1));
        came(&five, inv);
        came(&one, sent(SET_1));
        sent(SET_2 | SET_5);
    }
    /* 20 INVs with full texts, six in a packet, then 180 VALs: 2 and 61 share the fourth. */
    static const uint8_t counts[] = {6, 6, 6, 63, 64, 55};
    CHECK(view_came(&one, 1, SET_1 | SET_2) == 0);
    CHECK(in_air == sizeof counts);
    for (size_t n = 0; n < in_air && n < sizeof counts; n++) {
        CHECK(air[n].bytes[1] == counts[n] && air[n].to == SET_2);
        CHECK(air[n].len == air[n].bytes[2] * 256u + air[n].bytes[3]);
    }
    in_air = 0;
}

/* Those of the poor link. The last one dies, to which every tie goes. */
static struct hut *const huts[] = {&five, &two, &one};

/* What is in the air reaches whom it shall, of those awake, but every third copy is lost. */
static void poor_link(size_t awake) {
    static unsigned copies;
    static struct packet now[sizeof air / sizeof *air];
    size_t count = in_air;
    memcpy(now, air, sizeof air);
    in_air = 0;
    for (size_t n = 0; n < count; n++)
        for (size_t k = 0; k < awake; k++)
            if (now[n].to >> huts[k]->me.number & 1 && copies++ % 3 != 0) came(huts[k], now[n]);
}

/* How many records are in invalid-write, 1 being the last writer. */
static size_t overtaken_by_one(const struct hut *h) {
    size_t count = 0;
    for (size_t i = 0; i < COUNT; i++) count += h->table[i].state == CETSKOBI_INVALID_WRITE && h->table[i].writer == 1;
    return count;
}

/* A tick of those awake, over the poor link. Until tick 1,900 they save, from 1,890 on the same rings. */
static void a_tick(int now, size_t awake) {
    poor_link(awake);
    for (size_t k = 0; k < awake; k++) {
        int together = now >= 1890;
        size_t i = (together ? (size_t)now : (size_t)now / 12 + 5 * k) % 30;
        struct opened seen;
        struct stamp saved;
        const int text[] = {now, huts[k]->me.number};
        if (now < 1900 && (together || (size_t)now % 12 == 4 * k) && open_ring(huts[k], i, &seen) == 0)
            CHECK(save(huts[k], &seen, (const uint8_t *)text, sizeof text, &saved) == 0);
        tick(huts[k]);
    }
}

/* Record i is valid at 5 and 2, with one stamp. */
static int settled(size_t i) {
    const struct cetskobi_record *r = &five.table[i], *s = &two.table[i];
    return r->version > 0 && r->state == CETSKOBI_VALID && s->state == CETSKOBI_VALID && r->version == s->version && r->tie == s->tie;
}

/* 1 dies amid saves of the same rings by all three. */
static void ticks_alone_settle_every_record(void) {
    fresh();
    for (int now = 0; now < 6000; now++) {
        if (now == 2000) CHECK(overtaken_by_one(&five) > 0 && view_came(&five, 1, SET_2 | SET_5) == 0);
        if (now == 2100) {
            CHECK(missed_view(&two) == 1); /* 5's messages have told it */
            CHECK(overtaken_by_one(&two) > 0 && view_came(&two, 1, SET_2 | SET_5) == 0);
        }
        a_tick(now, now < 1900 ? 3 : 2);
    }
    for (size_t i = 0; i < 30; i++) CHECK(settled(i));
    CHECK(memcmp(five.store, two.store, sizeof five.store) == 0);
}

/* The same, but the morning breaks off there, and what is in the air is lost. 5 and 2 take the view and try nothing at first. Then each goes
 * over once, and no packet is lost any more. */
static void going_over_once_settles_every_record(void) {
    fresh();
    for (int now = 0; now < 1900; now++) a_tick(now, 3);
    in_air = 0;
    for (size_t k = 0; k < 2; k++) {
        struct cetskobi_admission a = cetskobi_view(huts[k]->me, 1, SET_2 | SET_5);
        CHECK(a.number == 0);
        huts[k]->me = a.replica;
    }
    size_t open = 0;
    for (size_t i = 0; i < 30; i++) open += !settled(i);
    CHECK(open > 0);
    for (size_t k = 0; k < 2; k++) go_over(huts[k]);
    while (in_air > 0) {
        struct packet p = air[0];
        memmove(air, air + 1, --in_air * sizeof *air);
        for (size_t k = 0; k < 2; k++)
            if (p.to >> huts[k]->me.number & 1) came(huts[k], p);
    }
    for (size_t i = 0; i < 30; i++) CHECK(settled(i));
    CHECK(memcmp(five.store, two.store, sizeof five.store) == 0);
}

int main(void) {
    a_worked_morning();
    a_view_that_was_missed();
    two_saves_at_once(CETSKOBI_HIGHER, &five, &two);
    two_saves_at_once(CETSKOBI_LOWER, &two, &five);
    a_packet_of_the_other_rule();
    an_overtaken_laptop_replays();
    a_save_since_the_ring_was_opened();
    a_save_that_waits_for_a_struck_off_laptop();
    a_save_that_waits_at_a_struck_off_laptop();
    waits();
    packets_are_shared();
    ticks_alone_settle_every_record();
    going_over_once_settles_every_record();
    return failed;
}
