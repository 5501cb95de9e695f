/* The refusals, states, kinds and rules of cetskobi.h as text, for screens and logs. Every number has one, an unknown one too. */
#ifndef CETSKOBI_TEXT_H
#define CETSKOBI_TEXT_H

#include "cetskobi.h"

/* What is wrong, of the number of an answer. */
static inline const char *cetskobi_meaning(uint8_t number) {
    switch (number) {
    case 0: return "accepted";
    case CETSKOBI_REFUSED_NO_GROUP: return "the laptop's number is above 15, or its view has fewer than two laptops";
    case CETSKOBI_REFUSED_LENT_MEMORY: return "there are not 1 to 4,096 records, or not exactly 192 bytes of store for each record";
    case CETSKOBI_REFUSED_STRUCK_OFF: return "this laptop is not in its own view: struck off, or left out of its first view";
    case CETSKOBI_REFUSED_STRAY_RECORD: return "there is no record of that number";
    case CETSKOBI_REFUSED_UNSOUND_RECORD: return "the record in the table is damaged";
    case CETSKOBI_REFUSED_NOT_READABLE: return "the record is not valid now, so it cannot be shown";
    case CETSKOBI_REFUSED_NOT_WRITABLE: return "an earlier write or replay of the record is still under way here";
    case CETSKOBI_REFUSED_VALUE_TOO_LONG: return "the value is longer than 192 bytes";
    case CETSKOBI_REFUSED_LAST_VERSION: return "the record has used up its versions";
    case CETSKOBI_REFUSED_OTHER_EPOCH: return "the message is of another epoch than this laptop";
    case CETSKOBI_REFUSED_OTHER_SENDER: return "the message's sender is not another laptop of the view";
    case CETSKOBI_REFUSED_ILL_FORMED: return "the message is no INV, ACK or VAL, its tie-breaker is above 15, or its bytes do not fit it";
    case CETSKOBI_REFUSED_STRAY_ACK: return "no such acknowledgement is awaited, or it is counted already";
    case CETSKOBI_REFUSED_STRAY_VAL: return "the record is valid already, or the validation is for another timestamp";
    case CETSKOBI_REFUSED_NOT_FINISHED: return "nothing waits to be validated, or an acknowledgement is still missing";
    case CETSKOBI_REFUSED_NOT_REPLAYABLE: return "the record is neither invalid nor invalid-write, or its last writer is still in the view";
    case CETSKOBI_REFUSED_NOT_RESENDABLE: return "this laptop has nothing of its own to send again for the record";
    case CETSKOBI_REFUSED_OLD_EPOCH: return "the new epoch is not greater than this laptop's";
    case CETSKOBI_REFUSED_VIEW_NOT_WITHIN: return "the new view is not within the old one, or has fewer than two laptops";
    case CETSKOBI_REFUSED_PACKET_HEAD: return "these bytes do not begin as a packet of their length";
    case CETSKOBI_REFUSED_PACKET_CONTENTS: return "the packet's contents table is cut short";
    case CETSKOBI_REFUSED_PACKET_ENTRY: return "a message in the packet's contents table is broken";
    case CETSKOBI_REFUSED_PACKET_INDEX: return "the packet has no message of that number";
    case CETSKOBI_REFUSED_PACKET_MESSAGES: return "there are not 1 to 64 messages, or the numbers or bytes of one do not fit";
    case CETSKOBI_REFUSED_PACKET_ROOM: return "the packet would be longer than 1,400 bytes or than its room";
    case CETSKOBI_REFUSED_NOT_AS_OPENED: return "the record is not valid now, or no longer has the timestamp that it was opened with";
    case CETSKOBI_REFUSED_OTHER_RULE: return "the packet is of a group with the other rule of ties";
    case CETSKOBI_REFUSED_PLAYER_ROOM: return "the script is longer than 65,536 bytes or lacks room to print";
    default: return "unknown refusal";
    }
}

/* The name of a record's state. */
static inline const char *cetskobi_state_name(uint8_t state) {
    switch (state) {
    case CETSKOBI_VALID: return "valid";
    case CETSKOBI_INVALID: return "invalid";
    case CETSKOBI_INVALID_WRITE: return "invalid-write";
    case CETSKOBI_WRITE: return "write";
    case CETSKOBI_REPLAY: return "replay";
    default: return "unknown state";
    }
}

/* The name of a message's kind. */
static inline const char *cetskobi_kind_name(uint8_t kind) {
    switch (kind) {
    case CETSKOBI_NONE: return "none";
    case CETSKOBI_INV: return "INV";
    case CETSKOBI_ACK: return "ACK";
    case CETSKOBI_VAL: return "VAL";
    default: return "unknown kind";
    }
}

/* The name of a rule of ties: which number a tie goes to. Every value that is not CETSKOBI_LOWER is the old rule. */
static inline const char *cetskobi_rule_name(uint8_t rule) {
    switch (rule) {
    case CETSKOBI_LOWER: return "lower";
    default: return "higher";
    }
}

#endif
