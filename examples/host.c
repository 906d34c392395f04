/*
 * Stand-ins for what a host does itself, so that the example needs nothing but the library. None of it is cryptography:
 * a real host draws at random, signs or computes a MAC, hashes with SHA-256, and issues X.509 certificates.
 */
#include "enrol.h"

#include <assert.h>
#include <string.h>

/* Numbered and not random, so that the transcript can be followed. */
void draw(uint8_t *sixteen)
{
    static uint8_t drawn;
    memset(sixteen, ++drawn, DUSKSTALL_ID_BYTES);
}

/* SEQUENCE { OCTET STRING }, with the id over and over: from outside a certificate is any SEQUENCE. */
size_t issue_certificate(const uint8_t *id, uint8_t *certificate)
{
    enum { IDS = 15, CONTENT = IDS * DUSKSTALL_ID_BYTES };
    const uint8_t head[] = {0x30, 0x81, 3 + CONTENT, 0x04, 0x81, CONTENT};
    memcpy(certificate, head, sizeof head);
    for (size_t i = 0; i < IDS; i++)
        memcpy(certificate + sizeof head + i * DUSKSTALL_ID_BYTES, id, DUSKSTALL_ID_BYTES);
    return sizeof head + CONTENT;
}

/* FNV-1a. */
static uint64_t checksum(uint64_t sum, const uint8_t *bytes, size_t len)
{
    while (len-- > 0)
        sum = (sum ^ *bytes++) * 0x100000001B3u;
    return sum;
}

static void put_number(uint64_t number, uint8_t *eight)
{
    for (int i = 0; i < 8; i++)
        eight[i] = (uint8_t)(number >> (56 - 8 * i));
}

void hash_of(const uint8_t *bytes, size_t len, uint8_t *hash)
{
    for (uint64_t i = 0; i < DUSKSTALL_HASH_BYTES / 8; i++)
        put_number(checksum(0xCBF29CE484222325u + i, bytes, len), hash + 8 * i);
}

void protection_of(int sender, const uint8_t *part, size_t len, uint8_t *protection)
{
    uint64_t key = 0x6B65790000000000u + (uint64_t)sender;
    put_number(checksum(key, part, len), protection);
}

void give(struct given *g, int place, const uint8_t *bytes, size_t len)
{
    assert(g->len + len <= sizeof g->source);
    memcpy(g->source + g->len, bytes, len);
    g->parts[place] = g->len;
    g->parts[place + 1] = len;
    g->len += len;
}

/* What only some messages have: a CertReqMsg with an empty template, anything in a p10cr, the certificate. */
static void give_contents(struct given *g, const uint8_t *outgoing)
{
    static const uint8_t request[] = {0x30, 0x07, 0x30, 0x05, 0x02, 0x01, 0x00, 0x30, 0x00};
    static const uint8_t certification_request[] = {0x30, 0x00};
    uint8_t certificate[256];
    switch (outgoing[DUSKSTALL_OUTGOING_KIND]) {
    case DUSKSTALL_IR:
    case DUSKSTALL_CR:
    case DUSKSTALL_KUR:
        give(g, DUSKSTALL_GIVEN_REQUEST, request, sizeof request);
        break;
    case DUSKSTALL_P10CR:
        give(g, DUSKSTALL_GIVEN_REQUEST, certification_request, sizeof certification_request);
        break;
    case DUSKSTALL_IP:
    case DUSKSTALL_CP:
    case DUSKSTALL_KUP:
        if (duskstall_number(outgoing + DUSKSTALL_OUTGOING_STATUS, DUSKSTALL_STATUS_BYTES) == 0)
            give(g, DUSKSTALL_GIVEN_CERTIFICATE, certificate,
                 issue_certificate(outgoing + DUSKSTALL_OUTGOING_ID, certificate));
    }
}

struct given given_for(const uint8_t *outgoing, int sender)
{
    /* directoryName with an empty Name; PasswordBasedMac, 1.2.840.113533.7.66.13 */
    static const uint8_t name[] = {0xA4, 0x02, 0x30, 0x00};
    static const uint8_t algorithm[] = {0x30, 0x0B, 0x06, 0x09, 0x2A, 0x86, 0x48, 0x86, 0xF6, 0x7D, 0x07, 0x42, 0x0D};
    const uint8_t sender_kid = (uint8_t)sender;
    struct given g = {{0}, 1, {0}}; /* no part lies at 0 */
    give(&g, DUSKSTALL_GIVEN_SENDER, name, sizeof name);
    give(&g, DUSKSTALL_GIVEN_RECIPIENT, name, sizeof name);
    give(&g, DUSKSTALL_GIVEN_PROTECTION_ALG, algorithm, sizeof algorithm);
    give(&g, DUSKSTALL_GIVEN_SENDER_KID, &sender_kid, 1);
    give_contents(&g, outgoing);
    return g;
}

/* The ProtectedPart in DER (RFC 9810 5.1.3) of a message that came, and its length: header and body stand side by side
 * there, and the head of a SEQUENCE is put before them. */
static size_t protected_part(const uint8_t *message, const uint64_t *fields, uint8_t *part)
{
    size_t len = fields[DUSKSTALL_FIELD_PROTECTED_LENGTH], head = 0;
    part[head++] = 0x30;
    if (len >= 128)
        part[head++] = len < 256 ? 0x81 : 0x82;
    if (len >= 256)
        part[head++] = (uint8_t)(len >> 8);
    part[head++] = (uint8_t)len;
    memcpy(part + head, message + fields[DUSKSTALL_FIELD_HEADER], len);
    return head + len;
}

/* The sender's number is in senderKID, one byte; the protection ends its element. */
int verify(const uint8_t *message, size_t len)
{
    uint64_t fields[DUSKSTALL_FIELDS];
    uint8_t part[DUSKSTALL_MESSAGE_LIMIT]; /* it is no longer than the message */
    uint8_t protection[PROTECTION_BYTES];
    if (duskstall_read(message, len, fields, DUSKSTALL_FIELDS) != 0)
        return NOBODY;
    uint64_t protection_len = fields[DUSKSTALL_FIELD_PROTECTION + 1];
    if (fields[DUSKSTALL_FIELD_SENDER_KID + 1] != 1 || protection_len < PROTECTION_BYTES)
        return NOBODY;
    int sender = message[fields[DUSKSTALL_FIELD_SENDER_KID]];
    const uint8_t *end = message + fields[DUSKSTALL_FIELD_PROTECTION] + protection_len;
    protection_of(sender, part, protected_part(message, fields, part), protection);
    return memcmp(end - PROTECTION_BYTES, protection, PROTECTION_BYTES) == 0 ? sender : NOBODY;
}
