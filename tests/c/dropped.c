/* Each function of include/cetskobi.h called, a call a line: its answer dropped unseen or, with USED, looked at. tests/c.sh compiles it as C
 * and as C++, and wants every dropped answer refused and no other. It is never run. */
#include "cetskobi.h"

#ifdef USED
#define CALL(type, call)                                                                                                                   \
    {                                                                                                                                      \
        type answer = call;                                                                                                                \
        (void)answer;                                                                                                                      \
    }
#else
#define CALL(type, call) call;
#endif

enum { LEN = CETSKOBI_VALUE_MAX };
static struct cetskobi_replica me;
static struct cetskobi_settings settings;
static struct cetskobi_answer left;
static struct cetskobi_message message;
static struct cetskobi_accepted accepted;
static uint8_t table[CETSKOBI_RECORD_BYTES], store[LEN], bytes[CETSKOBI_PACKET_MAX];
static const uint8_t text[LEN] = {0};
static const uint32_t words[CETSKOBI_ENTRY_WORDS] = {0};

#define MEMORY table, sizeof table, store, sizeof store
#define LENT me, MEMORY

int main(void) {
    CALL(struct cetskobi_admission, cetskobi_start(2, 38, settings, MEMORY))
    CALL(struct cetskobi_admission, cetskobi_view(me, 1, 6))
    CALL(struct cetskobi_reading, cetskobi_read(LENT, 0))
    CALL(struct cetskobi_answer, cetskobi_write(LENT, 0, text, LEN))
    CALL(struct cetskobi_asked, cetskobi_ask(LENT, 0))
    CALL(struct cetskobi_answer, cetskobi_commit(LENT, 0, 1, 2, text, LEN))
    CALL(struct cetskobi_answer, cetskobi_deliver(LENT, 0, message, text, LEN))
    CALL(struct cetskobi_answer, cetskobi_replay(LENT, 0))
    CALL(struct cetskobi_answer, cetskobi_validate(LENT, 0))
    CALL(struct cetskobi_answer, cetskobi_resend(LENT, 0))
    CALL(size_t, cetskobi_body(MEMORY, 0, left))
    CALL(uint16_t, cetskobi_recipients(me, CETSKOBI_ACK, 1))
    CALL(struct cetskobi_fetched, cetskobi_fetch(settings, text, LEN, 0))
    CALL(struct cetskobi_written, cetskobi_pack(settings, words, CETSKOBI_ENTRY_WORDS, text, LEN, bytes, sizeof bytes))
    CALL(struct cetskobi_answer, cetskobi_deliver_packet(LENT, text, LEN, 0))
    CALL(struct cetskobi_accepted, cetskobi_accept(settings, text, LEN))
    CALL(struct cetskobi_fetched, cetskobi_fetch_accepted(text, LEN, accepted, 0))
    CALL(struct cetskobi_arrival, cetskobi_deliver_accepted(LENT, text, LEN, accepted, 0))
    CALL(struct cetskobi_played, cetskobi_play(text, LEN, bytes, sizeof bytes))
    return 0;
}
