/*
 * Holds duskstall.h to the library that it is linked with: places and sizes fit together, and every limit and code is
 * met by a call on either side of it. C99 and C++11. Ends with 1 if anything does not hold.
 */
#include "duskstall.h"

#include <stdio.h>
#include <string.h>

/* ---- At compile time: each field follows the one before, and the last ends the record ---- */

#define HOLDS(condition) extern char duskstall_holds[(condition) ? 1 : -1]
#define FOLLOWS(next, place, bytes) HOLDS((next) == (place) + (bytes))

HOLDS(DUSKSTALL_TABLE_BYTES == DUSKSTALL_SLOTS * DUSKSTALL_TRANSACTION_BYTES);

FOLLOWS(DUSKSTALL_TRANSACTION_BOARD, DUSKSTALL_TRANSACTION_ID, DUSKSTALL_ID_BYTES);
FOLLOWS(DUSKSTALL_TRANSACTION_KIND, DUSKSTALL_TRANSACTION_BOARD, 2);
FOLLOWS(DUSKSTALL_TRANSACTION_TAKEN, DUSKSTALL_TRANSACTION_KIND, 1);
FOLLOWS(DUSKSTALL_TRANSACTION_SENT, DUSKSTALL_TRANSACTION_TAKEN, DUSKSTALL_NONCE_BYTES);
FOLLOWS(DUSKSTALL_TRANSACTION_HASH, DUSKSTALL_TRANSACTION_SENT, DUSKSTALL_NONCE_BYTES);
FOLLOWS(DUSKSTALL_TRANSACTION_STATE, DUSKSTALL_TRANSACTION_HASH, DUSKSTALL_HASH_BYTES);
FOLLOWS(DUSKSTALL_TRANSACTION_BYTES, DUSKSTALL_TRANSACTION_STATE, 1);

FOLLOWS(DUSKSTALL_ENROLMENT_KIND, DUSKSTALL_ENROLMENT_ID, DUSKSTALL_ID_BYTES);
FOLLOWS(DUSKSTALL_ENROLMENT_LAST, DUSKSTALL_ENROLMENT_KIND, 1);
FOLLOWS(DUSKSTALL_ENROLMENT_TAKEN, DUSKSTALL_ENROLMENT_LAST, DUSKSTALL_NONCE_BYTES);
FOLLOWS(DUSKSTALL_ENROLMENT_HASH, DUSKSTALL_ENROLMENT_TAKEN, DUSKSTALL_NONCE_BYTES);
FOLLOWS(DUSKSTALL_ENROLMENT_STATE, DUSKSTALL_ENROLMENT_HASH, DUSKSTALL_HASH_BYTES);
FOLLOWS(DUSKSTALL_ENROLMENT_BYTES, DUSKSTALL_ENROLMENT_STATE, 1);

FOLLOWS(DUSKSTALL_ANSWER_FAULT_RULE, DUSKSTALL_ANSWER_FAULT_OFFSET, 8);
FOLLOWS(DUSKSTALL_REGISTRAR_SLOT, DUSKSTALL_ANSWER_FAULT_RULE, 1);
FOLLOWS(DUSKSTALL_REGISTRAR_SENDS, DUSKSTALL_REGISTRAR_SLOT, 1);
FOLLOWS(DUSKSTALL_REGISTRAR_OUTGOING, DUSKSTALL_REGISTRAR_SENDS, 1);
FOLLOWS(DUSKSTALL_REGISTRAR_ANSWER_BYTES, DUSKSTALL_REGISTRAR_OUTGOING, DUSKSTALL_OUTGOING_BYTES);
FOLLOWS(DUSKSTALL_END_ENTITY_SENDS, DUSKSTALL_ANSWER_FAULT_RULE, 1);
FOLLOWS(DUSKSTALL_END_ENTITY_OUTGOING, DUSKSTALL_END_ENTITY_SENDS, 1);
FOLLOWS(DUSKSTALL_END_ENTITY_ANSWER_BYTES, DUSKSTALL_END_ENTITY_OUTGOING, DUSKSTALL_OUTGOING_BYTES);

FOLLOWS(DUSKSTALL_OUTGOING_ID, DUSKSTALL_OUTGOING_KIND, 1);
FOLLOWS(DUSKSTALL_OUTGOING_SENDER_NONCE, DUSKSTALL_OUTGOING_ID, DUSKSTALL_ID_BYTES);
FOLLOWS(DUSKSTALL_OUTGOING_HAS_RECIP_NONCE, DUSKSTALL_OUTGOING_SENDER_NONCE, DUSKSTALL_NONCE_BYTES);
FOLLOWS(DUSKSTALL_OUTGOING_RECIP_NONCE, DUSKSTALL_OUTGOING_HAS_RECIP_NONCE, 1);
FOLLOWS(DUSKSTALL_OUTGOING_HAS_STATUS, DUSKSTALL_OUTGOING_RECIP_NONCE, DUSKSTALL_NONCE_BYTES);
FOLLOWS(DUSKSTALL_OUTGOING_STATUS, DUSKSTALL_OUTGOING_HAS_STATUS, 1);
FOLLOWS(DUSKSTALL_OUTGOING_HASH, DUSKSTALL_OUTGOING_STATUS, 4);
FOLLOWS(DUSKSTALL_OUTGOING_FAILURE, DUSKSTALL_OUTGOING_HASH, DUSKSTALL_HASH_BYTES);
FOLLOWS(DUSKSTALL_OUTGOING_HAS_CERT_REQ_ID, DUSKSTALL_OUTGOING_FAILURE, 1);
FOLLOWS(DUSKSTALL_OUTGOING_CERT_REQ_ID, DUSKSTALL_OUTGOING_HAS_CERT_REQ_ID, 1);
FOLLOWS(DUSKSTALL_OUTGOING_BYTES, DUSKSTALL_OUTGOING_CERT_REQ_ID, 4);

FOLLOWS(DUSKSTALL_FIELDS, DUSKSTALL_FIELD_PROTECTED_LENGTH, 1);

FOLLOWS(DUSKSTALL_GIVEN_RECIPIENT, DUSKSTALL_GIVEN_SENDER, 2);
FOLLOWS(DUSKSTALL_GIVEN_MESSAGE_TIME, DUSKSTALL_GIVEN_RECIPIENT, 2);
FOLLOWS(DUSKSTALL_GIVEN_PROTECTION_ALG, DUSKSTALL_GIVEN_MESSAGE_TIME, 2);
FOLLOWS(DUSKSTALL_GIVEN_SENDER_KID, DUSKSTALL_GIVEN_PROTECTION_ALG, 2);
FOLLOWS(DUSKSTALL_GIVEN_RECIP_KID, DUSKSTALL_GIVEN_SENDER_KID, 2);
FOLLOWS(DUSKSTALL_GIVEN_FREE_TEXT, DUSKSTALL_GIVEN_RECIP_KID, 2);
FOLLOWS(DUSKSTALL_GIVEN_GENERAL_INFO, DUSKSTALL_GIVEN_FREE_TEXT, 2);
FOLLOWS(DUSKSTALL_GIVEN_PROTECTION, DUSKSTALL_GIVEN_GENERAL_INFO, 2);
FOLLOWS(DUSKSTALL_GIVEN_REQUEST, DUSKSTALL_GIVEN_PROTECTION, 2);
FOLLOWS(DUSKSTALL_GIVEN_CERTIFICATE, DUSKSTALL_GIVEN_REQUEST, 2);
FOLLOWS(DUSKSTALL_GIVEN, DUSKSTALL_GIVEN_CERTIFICATE, 2);

/* ---- At run time ---- */

static int failed;

static void expect(uint64_t expected, uint64_t found, const char *what)
{
    if (found != expected) {
        printf("%s: %u and not %u\n", what, (unsigned)found, (unsigned)expected);
        failed = 1;
    }
}

/* What is lent to a call, with room for one byte more than is asked for. */
enum { STATE, ID, NONCE, HASH, ANSWER, ARRAYS };

struct lent {
    uint8_t bytes[ARRAYS][DUSKSTALL_TABLE_BYTES + 1];
    size_t len[ARRAYS];
};

/* The calls that have an answer, and which of the arrays each takes. */
enum { MESSAGE, ISSUE, REFUSE, LAPSE, CLOSE, START, RESPONSE, TIME_OUT, CALLS };

static const struct {
    const char *name;
    size_t state, answer;
    int takes[ARRAYS];
} calls[CALLS] = {
    {"registrar message", DUSKSTALL_TABLE_BYTES, DUSKSTALL_REGISTRAR_ANSWER_BYTES, {1, 0, 1, 0, 1}},
    {"registrar issue", DUSKSTALL_TABLE_BYTES, DUSKSTALL_REGISTRAR_ANSWER_BYTES, {1, 1, 1, 1, 1}},
    {"registrar refuse", DUSKSTALL_TABLE_BYTES, DUSKSTALL_REGISTRAR_ANSWER_BYTES, {1, 1, 1, 0, 1}},
    {"registrar lapse", DUSKSTALL_TABLE_BYTES, DUSKSTALL_REGISTRAR_ANSWER_BYTES, {1, 1, 0, 0, 1}},
    {"registrar close", DUSKSTALL_TABLE_BYTES, DUSKSTALL_REGISTRAR_ANSWER_BYTES, {1, 1, 0, 0, 1}},
    {"end entity start", DUSKSTALL_ENROLMENT_BYTES, DUSKSTALL_END_ENTITY_ANSWER_BYTES, {1, 1, 1, 0, 1}},
    {"end entity message", DUSKSTALL_ENROLMENT_BYTES, DUSKSTALL_END_ENTITY_ANSWER_BYTES, {1, 0, 1, 1, 1}},
    {"end entity time out", DUSKSTALL_ENROLMENT_BYTES, DUSKSTALL_END_ENTITY_ANSWER_BYTES, {1, 0, 0, 0, 1}},
};

static uint64_t make(int call, struct lent *l)
{
    uint8_t *state = l->bytes[STATE], *answer = l->bytes[ANSWER];
    const uint8_t *id = l->bytes[ID], *nonce = l->bytes[NONCE], *hash = l->bytes[HASH];
    const size_t *len = l->len;
    switch (call) {
    case MESSAGE:
        return duskstall_registrar_message(state, len[STATE], id, 0, DUSKSTALL_VERDICT_BAD, 0, nonce, len[NONCE],
                                           answer, len[ANSWER]);
    case ISSUE:
        return duskstall_registrar_issue(state, len[STATE], id, len[ID], nonce, len[NONCE], hash, len[HASH], answer,
                                         len[ANSWER]);
    case REFUSE:
        return duskstall_registrar_refuse(state, len[STATE], id, len[ID], nonce, len[NONCE], answer, len[ANSWER]);
    case LAPSE:
        return duskstall_registrar_lapse(state, len[STATE], id, len[ID], answer, len[ANSWER]);
    case CLOSE:
        return duskstall_registrar_close(state, len[STATE], id, len[ID], answer, len[ANSWER]);
    case START:
        return duskstall_end_entity_start(state, len[STATE], DUSKSTALL_IR, id, len[ID], nonce, len[NONCE], answer,
                                          len[ANSWER]);
    case RESPONSE:
        return duskstall_end_entity_message(state, len[STATE], id, 0, DUSKSTALL_VERDICT_BAD,
                                            DUSKSTALL_DECISION_DECLINE, hash, len[HASH], nonce, len[NONCE], answer,
                                            len[ANSWER]);
    default:
        return duskstall_end_entity_time_out(state, len[STATE], answer, len[ANSWER]);
    }
}

/* Arrays of the right lengths; the state all zero, which is the empty table, or an enrolment that is Asked. */
static struct lent lent_for(int call)
{
    struct lent l;
    memset(&l, 0, sizeof l);
    l.len[STATE] = calls[call].state;
    l.len[ID] = DUSKSTALL_ID_BYTES;
    l.len[NONCE] = DUSKSTALL_NONCE_BYTES;
    l.len[HASH] = DUSKSTALL_HASH_BYTES;
    l.len[ANSWER] = calls[call].answer;
    return l;
}

/* For an array that is too long or too short; an answer may be longer. */
static uint64_t code_for(int array, int more, uint64_t made)
{
    if (array == STATE)
        return DUSKSTALL_NO_STATE;
    if (array != ANSWER)
        return DUSKSTALL_BAD_LENGTH;
    return more ? made : (uint64_t)DUSKSTALL_NO_ROOM;
}

/* Each length one too low and one too high. A call that is not made changes nothing. */
static void lengths(int call)
{
    struct lent l = lent_for(call);
    uint64_t made = make(call, &l);
    expect(1, made <= DUSKSTALL_REFUSED, calls[call].name);
    for (int array = 0; array < ARRAYS; array++) {
        for (int more = 0; more <= 1; more++) {
            l = lent_for(call);
            l.len[array] += more ? 1 : (size_t)-1;
            struct lent before = l;
            uint64_t code = make(call, &l);
            expect(calls[call].takes[array] ? code_for(array, more, made) : made, code, calls[call].name);
            expect(code > DUSKSTALL_REFUSED, memcmp(&l, &before, sizeof l) == 0, "a call not made changes nothing");
        }
    }
}

/* The last byte of a state is 0 to 6; of all that is wrong the lowest code is given. */
static void state_bytes(int call)
{
    struct lent l = lent_for(call);
    l.bytes[STATE][l.len[STATE] - 1] = 6;
    expect(1, make(call, &l) <= DUSKSTALL_REFUSED, calls[call].name);
    if (call == START)
        return; /* it takes any bytes */
    l.bytes[STATE][l.len[STATE] - 1] = 7;
    l.len[ID] = l.len[NONCE] = l.len[HASH] = l.len[ANSWER] = 0;
    expect(DUSKSTALL_NO_STATE, make(call, &l), calls[call].name);
}

/* Where a host's step leads from each state, in the order of their numbers; REFUSED: nowhere, and by this number. */
#define REFUSED(number) (-(number))

static void steps(int call, size_t place, const int *leads)
{
    for (int from = 0; from < 7; from++) {
        struct lent l = lent_for(call);
        l.bytes[STATE][place] = (uint8_t)from;
        uint64_t code = make(call, &l);
        expect(code, l.bytes[ANSWER][DUSKSTALL_ANSWER_CODE], calls[call].name);
        if (leads[from] < 0) {
            expect(DUSKSTALL_REFUSED, code, calls[call].name);
            expect((uint64_t)-leads[from], l.bytes[ANSWER][DUSKSTALL_ANSWER_REFUSAL], calls[call].name);
            expect(DUSKSTALL_NO_BIT, l.bytes[ANSWER][DUSKSTALL_ANSWER_BIT], calls[call].name);
        } else {
            expect(DUSKSTALL_DONE, code, calls[call].name);
            expect((uint64_t)leads[from], l.bytes[STATE][place], calls[call].name);
        }
    }
}

static void all_steps(void)
{
    enum { NO_ID = REFUSED(DUSKSTALL_REFUSED_STEP_ID), NOT_HERE = REFUSED(DUSKSTALL_REFUSED_STEP_STATE) };
    const int granted = DUSKSTALL_TRANSACTION_GRANTED, refused = DUSKSTALL_TRANSACTION_REFUSED;
    const int lapsed = DUSKSTALL_TRANSACTION_LAPSED, nothing = DUSKSTALL_TRANSACTION_FREE;
    const int failed_now = DUSKSTALL_ENROLMENT_FAILED, unsettled = DUSKSTALL_ENROLMENT_UNSETTLED;
    const int issue[] = {NO_ID, granted, NOT_HERE, NOT_HERE, NOT_HERE, NOT_HERE, NOT_HERE};
    const int refuse[] = {NO_ID, refused, NOT_HERE, NOT_HERE, NOT_HERE, NOT_HERE, NOT_HERE};
    const int lapse[] = {NO_ID, NOT_HERE, lapsed, NOT_HERE, NOT_HERE, NOT_HERE, NOT_HERE};
    const int close[] = {NO_ID, NOT_HERE, NOT_HERE, nothing, nothing, nothing, nothing};
    const int time_out[] = {failed_now, unsettled, unsettled, NOT_HERE, NOT_HERE, NOT_HERE, NOT_HERE};
    steps(ISSUE, DUSKSTALL_TRANSACTION_STATE, issue);
    steps(REFUSE, DUSKSTALL_TRANSACTION_STATE, refuse);
    steps(LAPSE, DUSKSTALL_TRANSACTION_STATE, lapse);
    steps(CLOSE, DUSKSTALL_TRANSACTION_STATE, close);
    steps(TIME_OUT, DUSKSTALL_ENROLMENT_STATE, time_out);
}

/* Exactly four kinds start an enrolment. */
static void kinds(void)
{
    for (int kind = 0; kind < 256; kind++) {
        struct lent l = lent_for(START);
        int starts = kind == DUSKSTALL_IR || kind == DUSKSTALL_CR || kind == DUSKSTALL_P10CR || kind == DUSKSTALL_KUR;
        uint64_t code = duskstall_end_entity_start(l.bytes[STATE], l.len[STATE], (uint8_t)kind, l.bytes[ID], l.len[ID],
                                                   l.bytes[NONCE], l.len[NONCE], l.bytes[ANSWER], l.len[ANSWER]);
        expect(starts ? DUSKSTALL_DONE : DUSKSTALL_REFUSED, code, "start");
        expect(starts ? 0 : DUSKSTALL_REFUSED_START_KIND, l.bytes[ANSWER][DUSKSTALL_ANSWER_REFUSAL], "start");
    }
}

/* An ip of status 0 with a certificate. Its id and its nonces are zero: it answers an enrolment of zeros. */
static const uint8_t response[] = {
    0x30, 0x67, 0x30, 0x4A, 0x02, 0x01, 0x02,                               /* message, header, pvno */
    0xA4, 0x00, 0xA4, 0x00, 0xA1, 0x05, 0x30, 0x03, 0x06, 0x01, 0x2A,       /* sender, recipient, protectionAlg */
    0xA4, 0x12, 0x04, 0x10, 0, 0, 0, 0, 0, 0, 0, 0, 0, 0, 0, 0, 0, 0, 0, 0, /* transactionID */
    0xA5, 0x12, 0x04, 0x10, 0, 0, 0, 0, 0, 0, 0, 0, 0, 0, 0, 0, 0, 0, 0, 0, /* senderNonce */
    0xA6, 0x12, 0x04, 0x10, 0, 0, 0, 0, 0, 0, 0, 0, 0, 0, 0, 0, 0, 0, 0, 0, /* recipNonce */
    0xA1, 0x14, 0x30, 0x12, 0x30, 0x10, 0x30, 0x0E, 0x02, 0x01, 0x00,       /* body, one entry, certReqId */
    0x30, 0x03, 0x02, 0x01, 0x00, 0x30, 0x04, 0xA0, 0x02, 0x30, 0x00,       /* status, certificate */
    0xA0, 0x03, 0x03, 0x01, 0x00                                            /* protection */
};

/* A bad verdict is refused by 7 at both ends. At the registrar a good one brings the ip to the next row, 8. */
static void verdict(int good)
{
    int is_good = good == DUSKSTALL_VERDICT_GOOD;
    struct lent l = lent_for(MESSAGE);
    duskstall_registrar_message(l.bytes[STATE], l.len[STATE], response, sizeof response, (uint8_t)good, 0,
                                l.bytes[NONCE], l.len[NONCE], l.bytes[ANSWER], l.len[ANSWER]);
    expect(is_good ? DUSKSTALL_REFUSED_KIND : DUSKSTALL_REFUSED_VERDICT, l.bytes[ANSWER][DUSKSTALL_ANSWER_REFUSAL],
           "verdict at the registrar");

    l = lent_for(RESPONSE);
    uint64_t code = duskstall_end_entity_message(l.bytes[STATE], l.len[STATE], response, sizeof response, (uint8_t)good,
                                                 DUSKSTALL_DECISION_ACCEPT, l.bytes[HASH], l.len[HASH], l.bytes[NONCE],
                                                 l.len[NONCE], l.bytes[ANSWER], l.len[ANSWER]);
    expect(is_good ? DUSKSTALL_DONE : DUSKSTALL_REFUSED, code, "verdict at the end entity");
    expect(is_good ? 0 : DUSKSTALL_REFUSED_VERDICT, l.bytes[ANSWER][DUSKSTALL_ANSWER_REFUSAL],
           "verdict at the end entity");
}

/* An ip that is not accepted is declined. */
static void decision(int accept)
{
    int accepted = accept == DUSKSTALL_DECISION_ACCEPT;
    struct lent l = lent_for(RESPONSE);
    uint64_t code = duskstall_end_entity_message(l.bytes[STATE], l.len[STATE], response, sizeof response,
                                                 DUSKSTALL_VERDICT_GOOD, (uint8_t)accept, l.bytes[HASH], l.len[HASH],
                                                 l.bytes[NONCE], l.len[NONCE], l.bytes[ANSWER], l.len[ANSWER]);
    expect(DUSKSTALL_DONE, code, "decision");
    expect(accepted ? DUSKSTALL_ENROLMENT_CONFIRMING : DUSKSTALL_ENROLMENT_DECLINING,
           l.bytes[STATE][DUSKSTALL_ENROLMENT_STATE], "decision");
}

/* Exactly one number is good, and exactly one accepts. */
static void verdicts_and_decisions(void)
{
    for (int number = 0; number < 256; number++) {
        verdict(number);
        decision(number);
    }
}

/* What is to be sent carries a certReqId, and this one. */
static void carries(int number, const uint8_t *outgoing, const char *what)
{
    const uint8_t *found = outgoing + DUSKSTALL_OUTGOING_CERT_REQ_ID;
    expect(1, outgoing[DUSKSTALL_OUTGOING_HAS_CERT_REQ_ID], what);
    expect((uint64_t)number, (uint64_t)duskstall_signed(duskstall_number(found, DUSKSTALL_CERT_REQ_ID_BYTES)), what);
}

/* The response to a request of this kind. */
static void response_carries(uint8_t kind, int number)
{
    struct lent l = lent_for(ISSUE);
    l.bytes[STATE][DUSKSTALL_TRANSACTION_KIND] = kind;
    l.bytes[STATE][DUSKSTALL_TRANSACTION_STATE] = DUSKSTALL_TRANSACTION_ASKED;
    expect(DUSKSTALL_DONE, make(ISSUE, &l), "issue");
    carries(number, duskstall_registrar_outgoing(l.bytes[ANSWER]), "certReqId of a response");
}

/* The request carries none. A response is taken with this number and no other, and the certConf carries the same. */
static void cert_conf_carries(uint8_t kind, uint8_t response_kind, int number)
{
    enum { BODY = 78, CERT_REQ_ID = 88 }; /* the bytes of the body's tag and of certReqId */
    for (int tried = -2; tried <= 1; tried++) {
        struct lent l = lent_for(RESPONSE);
        uint8_t message[sizeof response];
        memcpy(message, response, sizeof message);
        message[BODY] = (uint8_t)(0xA0 + response_kind);
        message[CERT_REQ_ID] = (uint8_t)tried;
        duskstall_end_entity_start(l.bytes[STATE], l.len[STATE], kind, l.bytes[ID], l.len[ID], l.bytes[NONCE],
                                   l.len[NONCE], l.bytes[ANSWER], l.len[ANSWER]);
        expect(0, duskstall_end_entity_outgoing(l.bytes[ANSWER])[DUSKSTALL_OUTGOING_HAS_CERT_REQ_ID], "a request");
        duskstall_end_entity_message(l.bytes[STATE], l.len[STATE], message, sizeof message, DUSKSTALL_VERDICT_GOOD,
                                     DUSKSTALL_DECISION_ACCEPT, l.bytes[HASH], l.len[HASH], l.bytes[NONCE],
                                     l.len[NONCE], l.bytes[ANSWER], l.len[ANSWER]);
        expect(tried == number ? 0 : DUSKSTALL_REFUSED_CERT_REQ_ID, l.bytes[ANSWER][DUSKSTALL_ANSWER_REFUSAL],
               "certReqId in a response");
        if (tried == number)
            carries(number, duskstall_end_entity_outgoing(l.bytes[ANSWER]), "certReqId of a certConf");
    }
}

/* On both sides of 0 and of the highest number. */
static void signed_numbers(void)
{
    expect(0, (uint64_t)duskstall_signed(0), "0");
    expect((uint64_t)-1, (uint64_t)duskstall_signed(0xFFFFFFFF), "-1");
    expect(INT32_MAX, (uint64_t)duskstall_signed(0x7FFFFFFF), "the highest");
    expect((uint64_t)INT32_MIN, (uint64_t)duskstall_signed(0x80000000), "the lowest");
}

/* -1 in an enrolment by p10cr, and 0 in every other. */
static void cert_req_ids(void)
{
    static const struct {
        uint8_t request, response;
        int number;
    } enrolments[] = {
        {DUSKSTALL_IR, DUSKSTALL_IP, 0},
        {DUSKSTALL_CR, DUSKSTALL_CP, 0},
        {DUSKSTALL_P10CR, DUSKSTALL_CP, -1},
        {DUSKSTALL_KUR, DUSKSTALL_KUP, 0},
    };
    for (size_t i = 0; i < sizeof enrolments / sizeof enrolments[0]; i++) {
        response_carries(enrolments[i].request, enrolments[i].number);
        cert_conf_carries(enrolments[i].request, enrolments[i].response, enrolments[i].number);
    }
}

/* What duskstall_write is lent, with room for more than is asked for. */
struct written {
    uint8_t outgoing[DUSKSTALL_OUTGOING_BYTES + 1];
    uint64_t given[DUSKSTALL_GIVEN + 1];
    uint8_t source[DUSKSTALL_MESSAGE_LIMIT + 1], buffer[DUSKSTALL_MESSAGE_LIMIT + 1];
    size_t outgoing_len, given_len, buffer_len;
};

/* Where each part lies in the source below. */
static const struct {
    int given, field;
    uint8_t start, len;
} parts[] = {
    {DUSKSTALL_GIVEN_SENDER, DUSKSTALL_FIELD_SENDER, 1, 2},
    {DUSKSTALL_GIVEN_RECIPIENT, DUSKSTALL_FIELD_RECIPIENT, 3, 3},
    {DUSKSTALL_GIVEN_MESSAGE_TIME, DUSKSTALL_FIELD_MESSAGE_TIME, 6, 1},
    {DUSKSTALL_GIVEN_PROTECTION_ALG, DUSKSTALL_FIELD_PROTECTION_ALG, 7, 5},
    {DUSKSTALL_GIVEN_SENDER_KID, DUSKSTALL_FIELD_SENDER_KID, 12, 1},
    {DUSKSTALL_GIVEN_RECIP_KID, DUSKSTALL_FIELD_RECIP_KID, 13, 2},
    {DUSKSTALL_GIVEN_FREE_TEXT, DUSKSTALL_FIELD_FREE_TEXT, 15, 4},
    {DUSKSTALL_GIVEN_GENERAL_INFO, DUSKSTALL_FIELD_GENERAL_INFO, 19, 7},
};

/* An order of this kind without values, and all parts that every message may have. */
static void to_write(struct written *w, uint8_t kind)
{
    static const uint8_t source[] = {
        0x00, 0x81, 0x00, 0x82, 0x01, 0x01, 0x54, 0x30, 0x03, 0x06, 0x01, 0x2A, /* names, time, protectionAlg */
        0x4B, 0x4C, 0x4D, 0x30, 0x02, 0x0C, 0x00,                               /* key identifiers, freeText */
        0x30, 0x05, 0x30, 0x03, 0x06, 0x01, 0x2B,                               /* generalInfo */
        0x00, 0x5A,                                                             /* protection, at 26 */
        0x30, 0x05, 0x30, 0x03, 0x02, 0x01, 0x00,                               /* a request, at 28 */
        0x30, 0x00                                                              /* a certificate, at 35 */
    };
    memset(w, 0, sizeof *w);
    w->outgoing[DUSKSTALL_OUTGOING_KIND] = kind;
    w->outgoing[DUSKSTALL_OUTGOING_FAILURE] = DUSKSTALL_NO_BIT;
    memcpy(w->source, source, sizeof source);
    for (size_t i = 0; i < sizeof parts / sizeof parts[0]; i++) {
        w->given[parts[i].given] = parts[i].start;
        w->given[parts[i].given + 1] = parts[i].len;
    }
    w->given[DUSKSTALL_GIVEN_PROTECTION] = 26;
    w->given[DUSKSTALL_GIVEN_PROTECTION + 1] = 2;
    w->outgoing_len = DUSKSTALL_OUTGOING_BYTES;
    w->given_len = DUSKSTALL_GIVEN;
    w->buffer_len = sizeof w->buffer;
}

/* The code, and the size if there is a message. What is not written is as it was. */
static unsigned write_it(struct written *w, size_t *size)
{
    static struct written before;
    memcpy(&before, w, sizeof before);
    uint64_t written = duskstall_write(w->outgoing, w->outgoing_len, 2, w->given, w->given_len, w->source,
                                       sizeof w->source, w->buffer, w->buffer_len);
    *size = duskstall_write_size(written);
    expect(duskstall_write_code(written) == 0, *size != 0, "a size or a code");
    expect(*size == 0, written > DUSKSTALL_MESSAGE_LIMIT, "a code above every size");
    memcpy(before.buffer, w->buffer, *size);
    expect(1, memcmp(&before, w, sizeof *w) == 0, "only the message's bytes change");
    return duskstall_write_code(written);
}

/* Each given part is found where the reader's places say, and nothing else in between. */
static void parts_are_read(const struct written *w, size_t size)
{
    uint64_t fields[DUSKSTALL_FIELDS];
    expect(0, duskstall_read(w->buffer, size, fields, DUSKSTALL_FIELDS), "a written message");
    expect(w->outgoing[DUSKSTALL_OUTGOING_KIND], fields[DUSKSTALL_FIELD_KIND], "its kind");
    expect(2, fields[DUSKSTALL_FIELD_VERSION], "its version");
    for (size_t i = 0; i < sizeof parts / sizeof parts[0]; i++) {
        expect(parts[i].len, fields[parts[i].field + 1], "the length of a part");
        expect(0, (uint64_t)memcmp(w->buffer + fields[parts[i].field], w->source + parts[i].start, parts[i].len),
               "the bytes of a part");
    }
    expect(6, fields[DUSKSTALL_FIELD_PROTECTION + 1], "the protection");
    expect(size, fields[DUSKSTALL_FIELD_HEADER] + fields[DUSKSTALL_FIELD_PROTECTED_LENGTH] + 6, "nothing behind it");
}

/* Without protection a message is the SEQUENCE of header and body, which are those of the message with protection. */
static void protected_part_is_written(void)
{
    static struct written whole, plain;
    uint64_t of_whole[DUSKSTALL_FIELDS], of_plain[DUSKSTALL_FIELDS];
    size_t whole_size, size;
    to_write(&whole, DUSKSTALL_PKICONF);
    expect(0, write_it(&whole, &whole_size), "a pkiConf");
    expect(0, duskstall_read(whole.buffer, whole_size, of_whole, DUSKSTALL_FIELDS), "with protection");
    to_write(&plain, DUSKSTALL_PKICONF);
    plain.given[DUSKSTALL_GIVEN_PROTECTION] = plain.given[DUSKSTALL_GIVEN_PROTECTION + 1] = 0;
    expect(0, write_it(&plain, &size), "a pkiConf without protection");
    expect(0, duskstall_read(plain.buffer, size, of_plain, DUSKSTALL_FIELDS), "without protection");
    size_t len = of_whole[DUSKSTALL_FIELD_PROTECTED_LENGTH], head = of_plain[DUSKSTALL_FIELD_HEADER];
    expect(0x30, plain.buffer[0], "a SEQUENCE");
    expect(size, head + len, "of nothing else");
    expect(0, (uint64_t)memcmp(plain.buffer + head, whole.buffer + of_whole[DUSKSTALL_FIELD_HEADER], len), "the same");
}

/* A reading's parts are handed on as they are, the message being the source; but for the protection, the whole [0]. */
static void parts_are_handed_on(void)
{
    static struct written w, again;
    uint64_t fields[DUSKSTALL_FIELDS];
    size_t size, none;
    to_write(&w, DUSKSTALL_PKICONF);
    expect(0, write_it(&w, &size), "a pkiConf");
    expect(0, duskstall_read(w.buffer, size, fields, DUSKSTALL_FIELDS), "to be handed on");
    to_write(&again, DUSKSTALL_PKICONF);
    memcpy(again.source, w.buffer, size);
    for (size_t i = 0; i < sizeof parts / sizeof parts[0]; i++)
        memcpy(again.given + parts[i].given, fields + parts[i].field, 2 * sizeof fields[0]);
    uint64_t *protection = again.given + DUSKSTALL_GIVEN_PROTECTION;
    protection[0] = fields[DUSKSTALL_FIELD_PROTECTION];
    protection[1] = fields[DUSKSTALL_FIELD_PROTECTION + 1];
    expect(DUSKSTALL_REFUSED_PART, write_it(&again, &none), "the whole [0]");
    protection[0] += 4; /* two heads of two bytes */
    protection[1] -= 4;
    expect(0, write_it(&again, &none), "the BIT STRING's content");
    expect(size, none, "the same size");
    expect(0, (uint64_t)memcmp(w.buffer, again.buffer, size), "the same message");
}

/* A pkiConf with all parts: written, then with each length one too low and too high, and refused by each number. */
static void writes(void)
{
    static struct written w;
    size_t size, none;
    to_write(&w, DUSKSTALL_PKICONF);
    expect(0, write_it(&w, &size), "a pkiConf");
    parts_are_read(&w, size);
    w.buffer_len = size;
    expect(0, write_it(&w, &none), "a buffer just long enough");
    w.buffer_len = size - 1;
    expect(DUSKSTALL_REFUSED_BUFFER, write_it(&w, &none), "a buffer too short");
    w.given[DUSKSTALL_GIVEN_SENDER + 1]--; /* a tag alone: no element, and the message as much shorter */
    expect(DUSKSTALL_REFUSED_PART, write_it(&w, &none), "a name that is no element");
    for (int more = -1; more <= 1; more += 2) {
        to_write(&w, DUSKSTALL_PKICONF);
        w.outgoing_len += (size_t)more;
        expect(DUSKSTALL_BAD_LENGTH, write_it(&w, &none), "an order of another length");
        to_write(&w, DUSKSTALL_PKICONF);
        w.given_len += (size_t)more;
        expect(DUSKSTALL_BAD_LENGTH, write_it(&w, &none), "numbers of another length");
    }
}

/* A HAS_ byte is yes by 1 alone, and what it says no to has to be zero. */
static void only_1_is_yes(void)
{
    static struct written w;
    uint64_t fields[DUSKSTALL_FIELDS];
    size_t size;
    for (int has = 0; has < 256; has++) {
        for (int last = 0; last < 2; last++) {
            to_write(&w, DUSKSTALL_PKICONF);
            w.outgoing[DUSKSTALL_OUTGOING_HAS_RECIP_NONCE] = (uint8_t)has;
            w.outgoing[DUSKSTALL_OUTGOING_RECIP_NONCE + DUSKSTALL_NONCE_BYTES - 1] = (uint8_t)last;
            expect(has == 1 || last == 0 ? 0 : DUSKSTALL_REFUSED_PART, write_it(&w, &size), "a recipNonce");
            if (size == 0)
                continue;
            expect(0, duskstall_read(w.buffer, size, fields, DUSKSTALL_FIELDS), "written with it or without");
            expect(has == 1 ? DUSKSTALL_NONCE_BYTES : 0, fields[DUSKSTALL_FIELD_RECIP_NONCE + 1], "its length");
        }
    }
}

/* A message just as long as it may be, and one that is longer by a byte, for which no buffer is long enough. */
static void longest_written(void)
{
    static struct written w;
    size_t size, none;
    to_write(&w, DUSKSTALL_PKICONF);
    w.given[DUSKSTALL_GIVEN_SENDER_KID + 1] = DUSKSTALL_MESSAGE_LIMIT / 2;
    expect(0, write_it(&w, &size), "a long pkiConf");
    w.given[DUSKSTALL_GIVEN_SENDER_KID + 1] += DUSKSTALL_MESSAGE_LIMIT - size;
    expect(0, write_it(&w, &size), "the longest");
    expect(DUSKSTALL_MESSAGE_LIMIT, size, "the longest");
    w.given[DUSKSTALL_GIVEN_SENDER_KID + 1]++;
    expect(DUSKSTALL_REFUSED_OVER_LIMIT, write_it(&w, &none), "one byte more");
    w.buffer_len = 0;
    expect(DUSKSTALL_REFUSED_OVER_LIMIT, write_it(&w, &none), "before the buffer's length");
}

/* A request goes with four kinds and a certificate with three, and with no other; ten kinds are written at all. */
static void written_kinds(void)
{
    static struct written w;
    size_t size;
    for (int kind = 0; kind < 256; kind++) {
        int request = kind == DUSKSTALL_IR || kind == DUSKSTALL_CR || kind == DUSKSTALL_P10CR || kind == DUSKSTALL_KUR;
        int response = kind == DUSKSTALL_IP || kind == DUSKSTALL_CP || kind == DUSKSTALL_KUP;
        int one = response || kind == DUSKSTALL_CERTCONF;
        for (int given = 0; given < 4; given++) {
            to_write(&w, (uint8_t)kind);
            w.given[DUSKSTALL_GIVEN_REQUEST] = given & 1 ? 28 : 0;
            w.given[DUSKSTALL_GIVEN_REQUEST + 1] = given & 1 ? 7 : 0;
            w.given[DUSKSTALL_GIVEN_CERTIFICATE] = given & 2 ? 35 : 0;
            w.given[DUSKSTALL_GIVEN_CERTIFICATE + 1] = given & 2 ? 2 : 0;
            w.outgoing[DUSKSTALL_OUTGOING_HAS_CERT_REQ_ID] = (uint8_t)one;
            w.outgoing[DUSKSTALL_OUTGOING_HAS_STATUS] = (uint8_t)(one || kind == DUSKSTALL_ERROR);
            int fits = request || one || kind == DUSKSTALL_ERROR || kind == DUSKSTALL_PKICONF;
            fits = fits && given == (request ? 1 : response ? 2 : 0);
            expect(fits ? 0 : DUSKSTALL_REFUSED_PART, write_it(&w, &size), "a kind with its part");
        }
    }
}

/* The limits of the reader, and of the empty table's length. */
static void limits(void)
{
    static uint8_t bytes[DUSKSTALL_MESSAGE_LIMIT + 1];
    uint64_t fields[DUSKSTALL_FIELDS];
    expect(DUSKSTALL_REFUSED_LENGTH, duskstall_read(bytes, 0, fields, DUSKSTALL_FIELDS), "read nothing");
    expect(DUSKSTALL_REFUSED_SYNTAX, duskstall_read(bytes, DUSKSTALL_MESSAGE_LIMIT, fields, DUSKSTALL_FIELDS), "read");
    expect(DUSKSTALL_RULE_TAG, fields[DUSKSTALL_FIELD_FAULT_RULE], "the rule of a tag 0");
    expect(DUSKSTALL_REFUSED_LENGTH, duskstall_read(bytes, sizeof bytes, fields, DUSKSTALL_FIELDS), "read too much");
    expect(DUSKSTALL_FEW_FIELDS, duskstall_read(bytes, 1, fields, DUSKSTALL_FIELDS - 1), "read into too few fields");

    expect(0, duskstall_check(bytes, 0), "no element at all");
    /* SEQUENCEs inside each other */
    for (int depth = 0; depth <= DUSKSTALL_DEPTH_LIMIT; depth++) {
        bytes[2 * depth] = 0x30;
        bytes[2 * depth + 1] = (uint8_t)(2 * (DUSKSTALL_DEPTH_LIMIT - depth));
    }
    const size_t nest = 2 * (DUSKSTALL_DEPTH_LIMIT + 1);
    expect(8 * (nest - 2) + DUSKSTALL_RULE_FORM, duskstall_check(bytes, nest), "one too deep");
    expect(0, duskstall_check(bytes + 2, nest - 2), "just as deep as it may be");

    uint8_t table[DUSKSTALL_TABLE_BYTES + 1] = {0};
    expect(DUSKSTALL_DONE, duskstall_registrar_empty(table, DUSKSTALL_TABLE_BYTES), "empty");
    expect(DUSKSTALL_NO_STATE, duskstall_registrar_empty(table, DUSKSTALL_TABLE_BYTES - 1), "empty, too short");
    expect(DUSKSTALL_NO_STATE, duskstall_registrar_empty(table, DUSKSTALL_TABLE_BYTES + 1), "empty, too long");
}

/* The sizes that the library tells. */
static void sizes(void)
{
    expect(DUSKSTALL_TABLE_BYTES, duskstall_size(DUSKSTALL_SIZE_TABLE), "size of a table");
    expect(DUSKSTALL_ENROLMENT_BYTES, duskstall_size(DUSKSTALL_SIZE_ENROLMENT), "size of an enrolment");
    expect(DUSKSTALL_REGISTRAR_ANSWER_BYTES, duskstall_size(DUSKSTALL_SIZE_REGISTRAR_ANSWER), "size of an answer");
    expect(DUSKSTALL_END_ENTITY_ANSWER_BYTES, duskstall_size(DUSKSTALL_SIZE_END_ENTITY_ANSWER), "size of its answer");
    expect(DUSKSTALL_FIELDS, duskstall_size(DUSKSTALL_SIZE_FIELDS), "how many fields");
    expect(DUSKSTALL_MESSAGE_LIMIT, duskstall_size(DUSKSTALL_SIZE_MESSAGE), "the longest message");
    expect(DUSKSTALL_GIVEN, duskstall_size(DUSKSTALL_SIZE_GIVEN), "how many numbers are given");
    expect(DUSKSTALL_OUTGOING_BYTES, duskstall_size(DUSKSTALL_SIZE_OUTGOING), "size of what is to be sent");
    expect(0, duskstall_size(DUSKSTALL_SIZE_OUTGOING + 1), "no size");
}

int main(void)
{
    for (int call = 0; call < CALLS; call++) {
        lengths(call);
        state_bytes(call);
    }
    all_steps();
    kinds();
    verdicts_and_decisions();
    signed_numbers();
    cert_req_ids();
    writes();
    protected_part_is_written();
    parts_are_handed_on();
    only_1_is_yes();
    longest_written();
    written_kinds();
    limits();
    sizes();
    if (!failed)
        printf("the header says what the library does\n");
    return failed;
}
