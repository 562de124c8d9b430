// The words for what Unmavreth gives back, and the names of payload and notify types, for C11 and C++11. A host that
// tells a number to a person says what the program show_chain says: host/words/words.txt is the table of both.
#ifndef UNMAVRETH_WORDS_H
#define UNMAVRETH_WORDS_H

#include "unmavreth.h"

// A number that a call gives.
static inline const char *unmavreth_number_words(uint8_t number)
{
    switch (number) {
    case UNMAVRETH_DONE: return "done";
    case UNMAVRETH_BAD_ARGUMENT: return "a bad argument";
    case UNMAVRETH_OUTPUT_TOO_SHORT: return "output too short";
    case UNMAVRETH_BODY_TOO_LONG: return "body too long";
    case UNMAVRETH_NO_SUCH_RECORD: return "no such record";
    case UNMAVRETH_MOBIKE_NOT_AGREED: return "MOBIKE not agreed";
    case UNMAVRETH_UNKNOWN_CRITICAL: return "unknown critical payload";
    case UNMAVRETH_ADDRESSES_ALTERED: return "addresses altered on the way";
    case UNMAVRETH_NOT_ACCEPTABLE: return "pair not acceptable";
    case UNMAVRETH_FULL: return "all places in use";
    case UNMAVRETH_SPI_IN_USE: return "SPI in use";
    case UNMAVRETH_BAD_POLICY: return "too many rules or a prefix too long";
    case UNMAVRETH_CHECK_NOT_PENDING: return "no check under way by a request with this ID";
    case UNMAVRETH_CUT: return "a cut entry, or a number not shortest or past 64 bits";
    case UNMAVRETH_UNKNOWN_KIND: return "unknown kind of an entry";
    case UNMAVRETH_TOO_LARGE: return "too large for its field";
    case UNMAVRETH_BAD_REDIRECT: return "malformed data of a redirect, or a bad identity or nonce for one";
    case UNMAVRETH_WRONG_EXCHANGE: return "a redirect in a wrong exchange, or with a nonce in one that has none";
    case UNMAVRETH_WRONG_NONCE: return "a redirect without the nonce that was sent";
    case UNMAVRETH_TIME_BEFORE_LAST: return "a time before the last accepted redirect's";
    case UNMAVRETH_TOO_MANY_REDIRECTS: return "five accepted redirects within 300 seconds before";
    case UNMAVRETH_CLONING_NOT_AGREED: return "cloning not agreed";
    case UNMAVRETH_CANNOT_CLONE_NOW: return "the IKE SA to clone is being deleted, or all places in use";
    case UNMAVRETH_PEER_AT_LIMIT: return "the peer has four IKE records or more";
    case UNMAVRETH_OPERATOR_AT_SHARE: return "the operator has its share of the records or more";
    case UNMAVRETH_NO_CLONE_REQUEST: return "no CLONE_IKE_SA in the request";
    case UNMAVRETH_BAD_CHAIN_LENGTH: return "a payload cut short or of a length that cannot be";
    case UNMAVRETH_BAD_NOTIFY: return "a Notify of a length or with an SPI that cannot be";
    case UNMAVRETH_BAD_DATA_SIZE: return "notification data of a wrong size";
    case UNMAVRETH_REPEATED: return "a repeated or contradictory notification";
    case UNMAVRETH_OCTETS_AFTER_END: return "octets after the end";
    default: return "not a number of the library";
    }
}

// What became of an update.
static inline const char *unmavreth_update_words(uint8_t update)
{
    switch (update) {
    case UNMAVRETH_UPDATE_NONE: return "none";
    case UNMAVRETH_UPDATE_APPLIED: return "applied";
    case UNMAVRETH_UPDATE_STALE: return "stale";
    default: return "not an outcome of an update";
    }
}

// What became of a list of additional addresses.
static inline const char *unmavreth_list_words(uint8_t list)
{
    switch (list) {
    case UNMAVRETH_LIST_NONE: return "none";
    case UNMAVRETH_LIST_REPLACED: return "replaced";
    case UNMAVRETH_LIST_STALE: return "stale";
    default: return "not an outcome of a list";
    }
}

// What a response comes to.
static inline const char *unmavreth_outcome_words(uint8_t outcome)
{
    switch (outcome) {
    case UNMAVRETH_OUTCOME_NONE: return "none";
    case UNMAVRETH_OUTCOME_CLOSE: return "close the IKE SA";
    case UNMAVRETH_OUTCOME_NAT_SEEN: return "NAT seen";
    case UNMAVRETH_OUTCOME_UNACCEPTABLE: return "unacceptable";
    case UNMAVRETH_OUTCOME_FAILED: return "failed";
    case UNMAVRETH_OUTCOME_ACCEPTED: return "accepted";
    default: return "not an outcome of a response";
    }
}

// The name of a notify type; NULL for one that has none here.
static inline const char *unmavreth_notify_words(uint16_t type)
{
    switch (type) {
    case UNMAVRETH_UNSUPPORTED_CRITICAL_PAYLOAD: return "UNSUPPORTED_CRITICAL_PAYLOAD";
    case UNMAVRETH_INVALID_SYNTAX: return "INVALID_SYNTAX";
    case UNMAVRETH_NO_ADDITIONAL_SAS: return "NO_ADDITIONAL_SAS";
    case UNMAVRETH_UNACCEPTABLE_ADDRESSES: return "UNACCEPTABLE_ADDRESSES";
    case UNMAVRETH_UNEXPECTED_NAT_DETECTED: return "UNEXPECTED_NAT_DETECTED";
    case UNMAVRETH_TEMPORARY_FAILURE: return "TEMPORARY_FAILURE";
    case UNMAVRETH_NAT_DETECTION_SOURCE_IP: return "NAT_DETECTION_SOURCE_IP";
    case UNMAVRETH_NAT_DETECTION_DESTINATION_IP: return "NAT_DETECTION_DESTINATION_IP";
    case UNMAVRETH_MOBIKE_SUPPORTED: return "MOBIKE_SUPPORTED";
    case UNMAVRETH_ADDITIONAL_IP4_ADDRESS: return "ADDITIONAL_IP4_ADDRESS";
    case UNMAVRETH_ADDITIONAL_IP6_ADDRESS: return "ADDITIONAL_IP6_ADDRESS";
    case UNMAVRETH_NO_ADDITIONAL_ADDRESSES: return "NO_ADDITIONAL_ADDRESSES";
    case UNMAVRETH_UPDATE_SA_ADDRESSES: return "UPDATE_SA_ADDRESSES";
    case UNMAVRETH_COOKIE2: return "COOKIE2";
    case UNMAVRETH_NO_NATS_ALLOWED: return "NO_NATS_ALLOWED";
    case UNMAVRETH_CLONE_IKE_SA_SUPPORTED: return "CLONE_IKE_SA_SUPPORTED";
    case UNMAVRETH_CLONE_IKE_SA: return "CLONE_IKE_SA";
    default: return NULL;
    }
}

// The name of a payload type, as RFC 7296 has it in 3.2; NULL for one that has none here.
static inline const char *unmavreth_payload_words(uint8_t type)
{
    switch (type) {
    case 33: return "Security Association";
    case 34: return "Key Exchange";
    case 35: return "Identification - Initiator";
    case 36: return "Identification - Responder";
    case 37: return "Certificate";
    case 38: return "Certificate Request";
    case 39: return "Authentication";
    case 40: return "Nonce";
    case UNMAVRETH_NOTIFY_PAYLOAD: return "Notify";
    case 42: return "Delete";
    case 43: return "Vendor ID";
    case 44: return "Traffic Selector - Initiator";
    case 45: return "Traffic Selector - Responder";
    case 46: return "Encrypted and Authenticated";
    case 47: return "Configuration";
    case 48: return "Extensible Authentication";
    default: return NULL;
    }
}

#endif
