/*
 * Board 7 enrols at a registrar, with both ends in one program: by ir and, when that is over, by p10cr. Prints each
 * message with the parts that the library finds in it, each call's answer and the states after it, and shows three
 * refusals and a repeated certConf on the way. Ends with 1 if anything is not as expected.
 */
#include "enrol.h"

#include <stdio.h>
#include <string.h>

enum { BOARD = 7, OTHER_BOARD = 8 };

struct ends {
    uint8_t table[DUSKSTALL_TABLE_BYTES];         /* the registrar's */
    uint8_t enrolment[DUSKSTALL_ENROLMENT_BYTES]; /* board 7's */
    uint8_t answer[DUSKSTALL_REGISTRAR_ANSWER_BYTES];
    uint8_t message[DUSKSTALL_MESSAGE_LIMIT]; /* on the line */
    size_t len;
};

static int failed;

static void expect(int holds, const char *what)
{
    if (!holds) {
        printf("  NOT AS EXPECTED: %s\n", what);
        failed = 1;
    }
}

static void expect_states(const struct ends *e, int transaction, int enrolment)
{
    show_states(e->table, e->enrolment);
    expect(e->table[DUSKSTALL_TRANSACTION_STATE] == transaction, "the state of slot 0");
    expect(e->enrolment[DUSKSTALL_ENROLMENT_STATE] == enrolment, "the state of the enrolment");
}

/* ---- What the two hosts do with a message ---- */

/* The registrar's host: who protected it is the verdict. */
static uint64_t registrar_gets(struct ends *e)
{
    uint8_t nonce[DUSKSTALL_NONCE_BYTES];
    int sender = verify(e->message, e->len);
    uint8_t good = sender > REGISTRAR ? DUSKSTALL_VERDICT_GOOD : DUSKSTALL_VERDICT_BAD;
    uint16_t board = good == DUSKSTALL_VERDICT_GOOD ? (uint16_t)sender : 0;
    draw(nonce);
    show_message(e->message, e->len);
    if (good == DUSKSTALL_VERDICT_GOOD)
        printf("  verdict: good, board %d\n", sender);
    else
        printf("  verdict: bad\n");
    uint64_t code = duskstall_registrar_message(e->table, sizeof e->table, e->message, e->len, good, board, nonce,
                                                sizeof nonce, e->answer, sizeof e->answer);
    show_registrar_answer("registrar message", code, e->answer);
    return code;
}

/* The board's host: it hashes the certificate if there is one, and accepts it. */
static uint64_t board_gets(struct ends *e)
{
    uint8_t nonce[DUSKSTALL_NONCE_BYTES], hash[DUSKSTALL_HASH_BYTES] = {0};
    uint64_t fields[DUSKSTALL_FIELDS];
    uint8_t good = verify(e->message, e->len) == REGISTRAR ? DUSKSTALL_VERDICT_GOOD : DUSKSTALL_VERDICT_BAD;
    if (duskstall_read(e->message, e->len, fields, DUSKSTALL_FIELDS) == 0 && fields[DUSKSTALL_FIELD_CERTIFICATE] != 0)
        hash_of(e->message + fields[DUSKSTALL_FIELD_CERTIFICATE], fields[DUSKSTALL_FIELD_CERTIFICATE + 1], hash);
    draw(nonce);
    show_message(e->message, e->len);
    printf("  verdict: %s\n", good == DUSKSTALL_VERDICT_GOOD ? "good, the registrar" : "bad");
    uint64_t code = duskstall_end_entity_message(e->enrolment, sizeof e->enrolment, e->message, e->len, good,
                                                 DUSKSTALL_DECISION_ACCEPT, hash, sizeof hash, nonce, sizeof nonce,
                                                 e->answer, sizeof e->answer);
    show_end_entity_answer("end entity message", code, e->answer);
    return code;
}

/* Puts the message on the line. */
static void write_message(struct ends *e, const uint8_t *outgoing, const struct given *g)
{
    const uint32_t version = 2;
    uint64_t written = duskstall_write(outgoing, DUSKSTALL_OUTGOING_BYTES, version, g->parts, DUSKSTALL_GIVEN,
                                       g->source, g->len, e->message, sizeof e->message);
    e->len = duskstall_write_size(written);
    if (e->len == 0)
        printf("  refused %u: %s\n", duskstall_write_code(written),
               duskstall_refusal_words(duskstall_write_code(written)));
    expect(e->len != 0, "a message written");
}

/* Writes what the last call gave to be sent, protects these bytes, and writes it once more with the protection. */
static void send_from(struct ends *e, const uint8_t *outgoing, int sender)
{
    uint8_t protection[1 + PROTECTION_BYTES] = {0}; /* no unused bits */
    expect(outgoing != NULL, "something to send");
    e->len = 0;
    if (outgoing == NULL)
        return;
    struct given g = given_for(outgoing, sender);
    write_message(e, outgoing, &g);
    if (e->len == 0)
        return;
    protection_of(sender, e->message, e->len, protection + 1);
    give(&g, DUSKSTALL_GIVEN_PROTECTION, protection, sizeof protection);
    write_message(e, outgoing, &g);
}

/* ---- The steps of an enrolment ---- */

static void request(struct ends *e, uint8_t kind)
{
    uint8_t id[DUSKSTALL_ID_BYTES], nonce[DUSKSTALL_NONCE_BYTES];
    printf("Board %d starts an enrolment by %s\n", BOARD, kind_name(kind));
    draw(id);
    draw(nonce);
    uint64_t code = duskstall_end_entity_start(e->enrolment, sizeof e->enrolment, kind, id, sizeof id, nonce,
                                               sizeof nonce, e->answer, sizeof e->answer);
    show_end_entity_answer("end entity start", code, e->answer);
    expect(code == DUSKSTALL_DONE, "the start");
    expect_states(e, DUSKSTALL_TRANSACTION_FREE, DUSKSTALL_ENROLMENT_ASKED);
    send_from(e, duskstall_end_entity_outgoing(e->answer), BOARD);
}

/* The header says one byte less than it has: its last element sticks out. */
static void damaged_request(struct ends *e)
{
    struct ends before = *e;
    uint64_t fields[DUSKSTALL_FIELDS];
    printf("The line damages the request: the header's length is one too low\n");
    duskstall_read(e->message, e->len, fields, DUSKSTALL_FIELDS);
    e->message[fields[DUSKSTALL_FIELD_HEADER] + 1]--;
    expect(registrar_gets(e) == DUSKSTALL_REFUSED, "a refusal");
    expect(e->answer[DUSKSTALL_ANSWER_REFUSAL] == DUSKSTALL_REFUSED_SYNTAX, "refusal 2");
    expect(memcmp(before.table, e->table, sizeof e->table) == 0, "the table as it was");
    expect_states(e, DUSKSTALL_TRANSACTION_FREE, DUSKSTALL_ENROLMENT_ASKED);
    memcpy(e->message, before.message, e->len);
}

static void grant(struct ends *e)
{
    uint8_t id[DUSKSTALL_ID_BYTES], nonce[DUSKSTALL_NONCE_BYTES], hash[DUSKSTALL_HASH_BYTES], certificate[256];
    printf("The registrar gets the request\n");
    expect(registrar_gets(e) == DUSKSTALL_DONE, "the request taken");
    expect_states(e, DUSKSTALL_TRANSACTION_ASKED, DUSKSTALL_ENROLMENT_ASKED);

    printf("Its host issues a certificate\n");
    memcpy(id, e->table + DUSKSTALL_TRANSACTION_ID, sizeof id); /* a copy: the table is lent to the call */
    hash_of(certificate, issue_certificate(id, certificate), hash);
    draw(nonce);
    uint64_t code = duskstall_registrar_issue(e->table, sizeof e->table, id, sizeof id, nonce, sizeof nonce, hash,
                                              sizeof hash, e->answer, sizeof e->answer);
    show_registrar_answer("registrar issue", code, e->answer);
    expect(code == DUSKSTALL_DONE, "the request granted");
    expect_states(e, DUSKSTALL_TRANSACTION_GRANTED, DUSKSTALL_ENROLMENT_ASKED);
    send_from(e, duskstall_registrar_outgoing(e->answer), REGISTRAR);
}

/* Gives the certConf that is to be sent. */
static void accept_certificate(struct ends *e, uint8_t *outgoing)
{
    printf("Board %d gets the response, and accepts the certificate\n", BOARD);
    expect(board_gets(e) == DUSKSTALL_DONE, "the response taken");
    expect_states(e, DUSKSTALL_TRANSACTION_GRANTED, DUSKSTALL_ENROLMENT_CONFIRMING);
    memcpy(outgoing, e->answer + DUSKSTALL_END_ENTITY_OUTGOING, DUSKSTALL_OUTGOING_BYTES);
}

/* Board 8 sends board 7's certConf as its own, protected with its own key. */
static void stolen_confirmation(struct ends *e, const uint8_t *outgoing)
{
    printf("Board %d sends the same certConf, protected with its own key\n", OTHER_BOARD);
    send_from(e, outgoing, OTHER_BOARD);
    expect(registrar_gets(e) == DUSKSTALL_REFUSED, "a refusal");
    expect(e->answer[DUSKSTALL_ANSWER_REFUSAL] == DUSKSTALL_REFUSED_OTHER_BOARD, "refusal 13");
    expect_states(e, DUSKSTALL_TRANSACTION_GRANTED, DUSKSTALL_ENROLMENT_CONFIRMING);
}

/* A host that puts another certReqId into what it is given to send: in an enrolment by p10cr it is -1. */
static void other_cert_req_id(struct ends *e, const uint8_t *outgoing)
{
    uint8_t changed[DUSKSTALL_OUTGOING_BYTES];
    printf("Board %d's host writes certReqId 0 into its certConf\n", BOARD);
    memcpy(changed, outgoing, sizeof changed);
    memset(changed + DUSKSTALL_OUTGOING_CERT_REQ_ID, 0, DUSKSTALL_CERT_REQ_ID_BYTES);
    send_from(e, changed, BOARD);
    expect(registrar_gets(e) == DUSKSTALL_REFUSED, "a refusal");
    expect(e->answer[DUSKSTALL_ANSWER_REFUSAL] == DUSKSTALL_REFUSED_CERT_REQ_ID, "refusal 16");
    expect_states(e, DUSKSTALL_TRANSACTION_GRANTED, DUSKSTALL_ENROLMENT_CONFIRMING);
}

static void confirm(struct ends *e, const uint8_t *outgoing)
{
    printf("The registrar gets board %d's certConf\n", BOARD);
    send_from(e, outgoing, BOARD);
    expect(registrar_gets(e) == DUSKSTALL_DONE, "the confirmation taken");
    expect_states(e, DUSKSTALL_TRANSACTION_CONFIRMED, DUSKSTALL_ENROLMENT_CONFIRMING);
}

static void confirm_again(struct ends *e)
{
    printf("The pkiConf is lost, and the line repeats the certConf\n");
    expect(registrar_gets(e) == DUSKSTALL_AGAIN, "the same once more");
    expect_states(e, DUSKSTALL_TRANSACTION_CONFIRMED, DUSKSTALL_ENROLMENT_CONFIRMING);
}

static void finish(struct ends *e, const char *pkiconf)
{
    printf("Board %d gets %s\n", BOARD, pkiconf);
    send_from(e, duskstall_registrar_outgoing(e->answer), REGISTRAR);
    expect(board_gets(e) == DUSKSTALL_DONE, "the pkiConf taken");
    expect_states(e, DUSKSTALL_TRANSACTION_CONFIRMED, DUSKSTALL_ENROLMENT_SURE);
    expect(memcmp(e->table + DUSKSTALL_TRANSACTION_HASH, e->enrolment + DUSKSTALL_ENROLMENT_HASH,
                  DUSKSTALL_HASH_BYTES) == 0,
           "the same hash at both ends");
    if (!failed)
        printf("The registrar says Confirmed, board %d says Sure, and both hold the same hash.\n", BOARD);
}

/* The slot is Free again. */
static void close_transaction(struct ends *e)
{
    uint8_t id[DUSKSTALL_ID_BYTES];
    printf("The registrar's host closes the transaction\n");
    memcpy(id, e->table + DUSKSTALL_TRANSACTION_ID, sizeof id);
    uint64_t code = duskstall_registrar_close(e->table, sizeof e->table, id, sizeof id, e->answer, sizeof e->answer);
    show_registrar_answer("registrar close", code, e->answer);
    expect(code == DUSKSTALL_DONE, "the transaction closed");
    expect_states(e, DUSKSTALL_TRANSACTION_FREE, DUSKSTALL_ENROLMENT_SURE);
}

int main(void)
{
    static struct ends e;
    uint8_t cert_conf[DUSKSTALL_OUTGOING_BYTES];
    expect(duskstall_registrar_empty(e.table, sizeof e.table) == DUSKSTALL_DONE, "the empty table");

    request(&e, DUSKSTALL_IR);
    damaged_request(&e);
    grant(&e);
    accept_certificate(&e, cert_conf);
    stolen_confirmation(&e, cert_conf);
    confirm(&e, cert_conf);
    confirm_again(&e);
    finish(&e, "the second pkiConf");
    close_transaction(&e);

    request(&e, DUSKSTALL_P10CR);
    grant(&e);
    accept_certificate(&e, cert_conf);
    other_cert_req_id(&e, cert_conf);
    confirm(&e, cert_conf);
    finish(&e, "the pkiConf");
    return failed;
}
