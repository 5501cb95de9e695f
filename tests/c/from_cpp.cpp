// The headers from C++, each included twice: every struct by its bare name, which no function hides; the calls link. Run by
// tests/c.sh.
#include "cetskobi.h"
#include "cetskobi.h"
#include "cetskobi_text.h"
#include "cetskobi_text.h"
#include <cstring>

int main() {
    cetskobi_record table[1];
    uint8_t store[CETSKOBI_VALUE_MAX], *bytes = reinterpret_cast<uint8_t *>(table);
    cetskobi_settings settings = {CETSKOBI_LOWER};
    cetskobi_admission admission = cetskobi_start(2, 38, settings, bytes, sizeof table, store, sizeof store);
    cetskobi_replica me = admission.replica;
    cetskobi_reading reading = cetskobi_read(me, bytes, sizeof table, store, sizeof store, 0);
    const uint8_t text[] = {'w', 'r', 'e', 'n'};
    cetskobi_asked asked = cetskobi_ask(me, bytes, sizeof table, store, sizeof store, 0);
    cetskobi_answer left =
        cetskobi_commit(me, bytes, sizeof table, store, sizeof store, 0, asked.version, asked.tie, text, sizeof text);
    size_t len = cetskobi_body(bytes, sizeof table, store, sizeof store, 0, left);

    cetskobi_entry entry = {left.kind, me.number, me.epoch, 0, left.version, left.tie, static_cast<uint32_t>(len)};
    uint8_t packet[CETSKOBI_PACKET_MAX], printed[2];
    cetskobi_written written = cetskobi_pack(me.settings, &entry.kind, CETSKOBI_ENTRY_WORDS, store, len, packet, sizeof packet);
    cetskobi_fetched fetched = cetskobi_fetch(settings, packet, written.len, 0);
    cetskobi_message echo = {fetched.kind, fetched.sender, fetched.tie, fetched.epoch, fetched.version};
    uint8_t number = cetskobi_deliver(me, bytes, sizeof table, store, sizeof store, 0, echo, packet + fetched.at, fetched.len).number;
    cetskobi_accepted accepted = cetskobi_accept(settings, packet, written.len);
    cetskobi_arrival arrival =
        cetskobi_deliver_accepted(me, bytes, sizeof table, store, sizeof store, packet, written.len, accepted, 0);
    cetskobi_played played = cetskobi_play(nullptr, 0, printed, sizeof printed);

    bool right = reading.len == 0 && asked.len == 0 && len == sizeof text && written.len == 24 && number == CETSKOBI_REFUSED_OTHER_SENDER && played.len == 2;
    right = right && std::strcmp(cetskobi_rule_name(me.settings.rule), "lower") == 0 && packet[0] == me.settings.rule;
    right = right && accepted.count == 1 && arrival.answer.number == number && arrival.sender == me.number;
    return right && std::strcmp(cetskobi_state_name(table[0].state), "write") == 0 ? 0 : 1;
}
