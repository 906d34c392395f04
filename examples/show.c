/* The transcript: what the library says of a message, of a call and of the states. */
#include "enrol.h"

#include <stdio.h>

const char *kind_name(uint64_t kind)
{
    static const char *const names[] = {
        "ir", "ip", "cr", "cp", "p10cr", "popdecc", "popdecr", "kur", "kup", "krr", "krp", "rr", "rp", "ccr",
        "ccp", "ckuann", "cann", "rann", "crlann", "pkiConf", "nested", "genm", "genp", "error", "certConf",
        "pollReq", "pollRep",
    };
    return kind < sizeof names / sizeof names[0] ? names[kind] : "?";
}

static const char *transaction_state(uint8_t state)
{
    static const char *const names[] = {"Free", "Asked", "Granted", "Confirmed", "Declined", "Refused", "Lapsed"};
    return state < sizeof names / sizeof names[0] ? names[state] : "?";
}

static const char *enrolment_state(uint8_t state)
{
    static const char *const names[] = {"Asked", "Confirming", "Declining", "Sure", "Declined", "Failed", "Unsettled"};
    return state < sizeof names / sizeof names[0] ? names[state] : "?";
}

static const char *rule_words(uint64_t rule)
{
    static const char *const words[] = {"", "tag", "length", "form or depth", "content", "grammar"};
    return rule < sizeof words / sizeof words[0] ? words[rule] : "?";
}

/* The first of so many bytes. */
static void show_bytes(const uint8_t *bytes, uint64_t len)
{
    const uint64_t most = 8;
    for (uint64_t i = 0; i < len && i < most; i++)
        printf(" %02X", bytes[i]);
    printf("%s\n", len > most ? " .." : "");
}

static void show_parts(const uint8_t *message, const uint64_t *fields)
{
    static const struct {
        int place;
        const char *name;
    } parts[] = {
        {DUSKSTALL_FIELD_HEADER, "header"},
        {DUSKSTALL_FIELD_SENDER, "sender"},
        {DUSKSTALL_FIELD_RECIPIENT, "recipient"},
        {DUSKSTALL_FIELD_MESSAGE_TIME, "messageTime"},
        {DUSKSTALL_FIELD_PROTECTION_ALG, "protectionAlg"},
        {DUSKSTALL_FIELD_SENDER_KID, "senderKID"},
        {DUSKSTALL_FIELD_RECIP_KID, "recipKID"},
        {DUSKSTALL_FIELD_TRANSACTION_ID, "transactionID"},
        {DUSKSTALL_FIELD_SENDER_NONCE, "senderNonce"},
        {DUSKSTALL_FIELD_RECIP_NONCE, "recipNonce"},
        {DUSKSTALL_FIELD_FREE_TEXT, "freeText"},
        {DUSKSTALL_FIELD_GENERAL_INFO, "generalInfo"},
        {DUSKSTALL_FIELD_BODY, "body"},
        {DUSKSTALL_FIELD_CA_PUBS, "caPubs"},
        {DUSKSTALL_FIELD_CERT_HASH, "certHash"},
        {DUSKSTALL_FIELD_HASH_ALG, "hashAlg"},
        {DUSKSTALL_FIELD_CERTIFICATE, "certificate"},
        {DUSKSTALL_FIELD_REQUEST, "request"},
        {DUSKSTALL_FIELD_PROTECTION, "protection"},
        {DUSKSTALL_FIELD_EXTRA_CERTS, "extraCerts"},
    };
    for (size_t i = 0; i < sizeof parts / sizeof parts[0]; i++) {
        uint64_t start = fields[parts[i].place], len = fields[parts[i].place + 1];
        if (start != 0) {
            printf("    %-13s at %3u, %3u bytes:", parts[i].name, (unsigned)start, (unsigned)len);
            show_bytes(message + start, len);
        }
    }
}

void show_message(const uint8_t *message, size_t len)
{
    uint64_t fields[DUSKSTALL_FIELDS];
    uint64_t refusal = duskstall_read(message, len, fields, DUSKSTALL_FIELDS);
    if (refusal != 0) {
        printf("  %u bytes that do not read: offset %u, rule %u (%s)\n", (unsigned)len,
               (unsigned)fields[DUSKSTALL_FIELD_FAULT_OFFSET], (unsigned)fields[DUSKSTALL_FIELD_FAULT_RULE],
               rule_words(fields[DUSKSTALL_FIELD_FAULT_RULE]));
        return;
    }
    printf("  %s, %u bytes: pvno %d", kind_name(fields[DUSKSTALL_FIELD_KIND]), (unsigned)len,
           (int)duskstall_signed(fields[DUSKSTALL_FIELD_VERSION]));
    if (fields[DUSKSTALL_FIELD_ENTRIES] == 1)
        printf(", one entry, certReqId %d", (int)duskstall_signed(fields[DUSKSTALL_FIELD_CERT_REQ_ID]));
    if (fields[DUSKSTALL_FIELD_HAS_STATUS])
        printf(", status %d", (int)duskstall_signed(fields[DUSKSTALL_FIELD_STATUS]));
    printf("\n");
    show_parts(message, fields);
}

static void show_outcome(const char *call, uint64_t code, const uint8_t *answer)
{
    printf("  %s: ", call);
    switch (code) {
    case DUSKSTALL_DONE:
        printf("done");
        break;
    case DUSKSTALL_AGAIN:
        printf("again");
        break;
    case DUSKSTALL_REFUSED:
        printf("refused %u", answer[DUSKSTALL_ANSWER_REFUSAL]);
        if (answer[DUSKSTALL_ANSWER_BIT] != DUSKSTALL_NO_BIT)
            printf(", bit %u", answer[DUSKSTALL_ANSWER_BIT]);
        printf(": %s", duskstall_refusal_words(answer[DUSKSTALL_ANSWER_REFUSAL]));
        if (answer[DUSKSTALL_ANSWER_FAULT] == DUSKSTALL_REFUSED_SYNTAX)
            printf(" (offset %u, rule %u)", (unsigned)duskstall_number(answer + DUSKSTALL_ANSWER_FAULT_OFFSET, 8),
                   answer[DUSKSTALL_ANSWER_FAULT_RULE]);
        break;
    default:
        printf("not made, code %u", (unsigned)code);
    }
}

static void show_outgoing(const uint8_t *outgoing)
{
    if (outgoing == NULL) {
        printf("; nothing to send\n");
        return;
    }
    printf("; to send: %s", kind_name(outgoing[DUSKSTALL_OUTGOING_KIND]));
    if (outgoing[DUSKSTALL_OUTGOING_HAS_CERT_REQ_ID])
        printf(", certReqId %d", (int)duskstall_signed(duskstall_number(outgoing + DUSKSTALL_OUTGOING_CERT_REQ_ID,
                                                                        DUSKSTALL_CERT_REQ_ID_BYTES)));
    if (outgoing[DUSKSTALL_OUTGOING_HAS_STATUS])
        printf(", status %u", (unsigned)duskstall_number(outgoing + DUSKSTALL_OUTGOING_STATUS, 4));
    printf("\n");
}

void show_registrar_answer(const char *call, uint64_t code, const uint8_t *answer)
{
    show_outcome(call, code, answer);
    if (code == DUSKSTALL_DONE || code == DUSKSTALL_AGAIN)
        printf(", slot %u", answer[DUSKSTALL_REGISTRAR_SLOT]);
    show_outgoing(code <= DUSKSTALL_REFUSED ? duskstall_registrar_outgoing(answer) : NULL);
}

void show_end_entity_answer(const char *call, uint64_t code, const uint8_t *answer)
{
    show_outcome(call, code, answer);
    show_outgoing(code <= DUSKSTALL_REFUSED ? duskstall_end_entity_outgoing(answer) : NULL);
}

void show_states(const uint8_t *table, const uint8_t *enrolment)
{
    unsigned used = 0;
    printf("  registrar: ");
    for (unsigned slot = 0; slot < DUSKSTALL_SLOTS; slot++) {
        const uint8_t *transaction = table + slot * DUSKSTALL_TRANSACTION_BYTES;
        uint8_t state = transaction[DUSKSTALL_TRANSACTION_STATE];
        if (state != DUSKSTALL_TRANSACTION_FREE) {
            printf("%sslot %u %s for board %u", used++ ? ", " : "", slot, transaction_state(state),
                   (unsigned)duskstall_number(transaction + DUSKSTALL_TRANSACTION_BOARD, 2));
        }
    }
    printf("%s | board 7: %s\n", used ? "" : "every slot Free", enrolment_state(enrolment[DUSKSTALL_ENROLMENT_STATE]));
}
