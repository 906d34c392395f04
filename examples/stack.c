/* The stack that each function of the library uses on the messages of one enrolment: a thread runs the call on a
 * painted stack. The names nest as deep as they may, and the certificate has 16,000 bytes. */
#define _GNU_SOURCE
#include "duskstall.h"

#include <assert.h>
#include <pthread.h>
#include <stdio.h>
#include <stdlib.h>
#include <string.h>

enum { STACK = 1 << 20, PAINT = 0xA5, NAME_DEPTH = 14, CERTIFICATE = 16000, BOARD = 7 };

static uint8_t table[DUSKSTALL_TABLE_BYTES], enrolment[DUSKSTALL_ENROLMENT_BYTES];
static uint8_t asked[DUSKSTALL_END_ENTITY_ANSWER_BYTES], granted[DUSKSTALL_REGISTRAR_ANSWER_BYTES];
static uint8_t id[DUSKSTALL_ID_BYTES], nonce[DUSKSTALL_NONCE_BYTES], hash[DUSKSTALL_HASH_BYTES];
static uint8_t source[2 * DUSKSTALL_MESSAGE_LIMIT], message[DUSKSTALL_MESSAGE_LIMIT];
static uint64_t given[DUSKSTALL_GIVEN], fields[DUSKSTALL_FIELDS], code;
static size_t len;

static void nothing(void) { code = 0; }
static void empty(void) { code = duskstall_registrar_empty(table, sizeof table); }
static void check(void) { code = duskstall_check(message, len); }
static void reading(void) { code = duskstall_read(message, len, fields, DUSKSTALL_FIELDS); }
static void start(void)
{
    code = duskstall_end_entity_start(enrolment, sizeof enrolment, DUSKSTALL_IR, id, sizeof id, nonce, sizeof nonce,
                                      asked, sizeof asked);
}
static void registrar(void)
{
    code = duskstall_registrar_message(table, sizeof table, message, len, DUSKSTALL_VERDICT_GOOD, BOARD, nonce,
                                       sizeof nonce, granted, sizeof granted);
}
static void issue(void)
{
    code = duskstall_registrar_issue(table, sizeof table, id, sizeof id, nonce, sizeof nonce, hash, sizeof hash,
                                     granted, sizeof granted);
}
static void end_entity(void)
{
    code = duskstall_end_entity_message(enrolment, sizeof enrolment, message, len, DUSKSTALL_VERDICT_GOOD,
                                        DUSKSTALL_DECISION_ACCEPT, hash, sizeof hash, nonce, sizeof nonce, asked,
                                        sizeof asked);
}
static void writing(const uint8_t *outgoing)
{
    uint64_t written = duskstall_write(outgoing, DUSKSTALL_OUTGOING_BYTES, 2, given, DUSKSTALL_GIVEN, source,
                                       sizeof source, message, sizeof message);
    code = duskstall_write_code(written);
    len = duskstall_write_size(written);
}
static void write_ir(void) { writing(duskstall_end_entity_outgoing(asked)); }
static void write_ip(void) { writing(duskstall_registrar_outgoing(granted)); }

static void *run(void *call)
{
    (*(void (**)(void))call)();
    return NULL;
}

/* Bytes of the stack that are no longer as they were painted. */
static size_t touched(void (*call)(void))
{
    uint8_t *stack = aligned_alloc(4096, STACK);
    pthread_attr_t attr;
    pthread_t thread;
    size_t kept = 0;
    assert(stack != NULL);
    memset(stack, PAINT, STACK);
    if (pthread_attr_init(&attr) || pthread_attr_setstack(&attr, stack, STACK) ||
        pthread_create(&thread, &attr, run, &call) || pthread_join(thread, NULL))
        exit(1);
    while (stack[kept] == PAINT)
        kept++;
    free(stack);
    return STACK - kept;
}

/* What is given, from an offset of the source on: elements one in the other. Gives the offset behind them. */
static size_t nest(int place, size_t at, int tag, int depth)
{
    given[place] = at;
    given[place + 1] = (uint64_t)(2 * depth);
    for (int d = 0; d < depth; d++) {
        source[at++] = (uint8_t)(d == 0 ? tag : 0x30);
        source[at++] = (uint8_t)(2 * (depth - 1 - d));
    }
    return at;
}

static size_t bytes(int place, size_t at, const void *part, size_t size)
{
    given[place] = at;
    given[place + 1] = size;
    memcpy(source + at, part, size);
    return at + size;
}

static void show(const char *name, void (*call)(void), size_t base)
{
    size_t stack = touched(call) - base;
    printf("%-28s %6zu bytes\n", name, stack);
    if (code != 0) {
        printf("not done: %u\n", (unsigned)code);
        exit(1);
    }
}

int main(void)
{
    static const uint8_t alg[] = {0x30, 0x03, 0x06, 0x01, 0x00}, bits[] = {0x00, 0x5A};
    static const uint8_t request[] = {0x30, 0x05, 0x30, 0x03, 0x02, 0x01, 0x00};
    size_t base = touched(nothing), at = 1;
    at = nest(DUSKSTALL_GIVEN_SENDER, at, 0xA4, NAME_DEPTH);
    at = nest(DUSKSTALL_GIVEN_RECIPIENT, at, 0xA4, NAME_DEPTH);
    at = bytes(DUSKSTALL_GIVEN_PROTECTION_ALG, at, alg, sizeof alg);
    at = bytes(DUSKSTALL_GIVEN_PROTECTION, at, bits, sizeof bits);
    size_t certificate = bytes(DUSKSTALL_GIVEN_REQUEST, at, request, sizeof request);

    id[0] = nonce[0] = hash[0] = 1;
    show("duskstall_registrar_empty", empty, base);
    show("duskstall_end_entity_start", start, base);
    show("duskstall_write, ir", write_ir, base);
    nonce[0]++;
    show("duskstall_registrar_message", registrar, base);
    show("duskstall_registrar_issue", issue, base);

    given[DUSKSTALL_GIVEN_REQUEST] = given[DUSKSTALL_GIVEN_REQUEST + 1] = 0;
    given[DUSKSTALL_GIVEN_CERTIFICATE] = certificate;
    given[DUSKSTALL_GIVEN_CERTIFICATE + 1] = 4 + CERTIFICATE;
    source[certificate] = 0x30;
    source[certificate + 1] = 0x82;
    source[certificate + 2] = CERTIFICATE >> 8;
    source[certificate + 3] = CERTIFICATE & 0xFF;
    for (size_t i = 0; i < CERTIFICATE; i += 2) /* NULLs */
        source[certificate + 4 + i] = 0x05;
    show("duskstall_write, ip", write_ip, base);
    show("duskstall_check", check, base);
    show("duskstall_read", reading, base);
    nonce[0]++;
    show("duskstall_end_entity_message", end_entity, base);
    return 0;
}
