/* The example's parts: stand-ins for a host's work (host.c), and the transcript (show.c). */
#ifndef ENROL_H
#define ENROL_H

#include "duskstall.h"

/* Who sends: a board by its number, from 1 up, or the registrar. */
enum { REGISTRAR = 0, NOBODY = -1 };

#define PROTECTION_BYTES 8

/* A fresh id or nonce. */
void draw(uint8_t *sixteen);

/* The certificate that belongs to a transaction, at most 256 bytes; gives its length. */
size_t issue_certificate(const uint8_t *id, uint8_t *certificate);

/* The hash of a certificate, 32 bytes. */
void hash_of(const uint8_t *bytes, size_t len, uint8_t *hash);

/* The protection by this sender of a ProtectedPart in DER: what is written without protection. */
void protection_of(int sender, const uint8_t *part, size_t len, uint8_t *protection);

/* Whose key made the protection of a message: a board's number, REGISTRAR, or NOBODY. */
int verify(const uint8_t *message, size_t len);

/* The parts of a message that the host gives: their bytes in the source, where each lies in the numbers. */
struct given {
    uint8_t source[512];
    size_t len;
    uint64_t parts[DUSKSTALL_GIVEN];
};

/* Puts a part behind the others; `place` is one of enum duskstall_given. */
void give(struct given *g, int place, const uint8_t *bytes, size_t len);

/* All that a message by this sender needs, but its protection. */
struct given given_for(const uint8_t *outgoing, int sender);

/* What RFC 9810 calls a kind of message. */
const char *kind_name(uint64_t kind);

/* Prints where the parts of a message are, or why it does not read. */
void show_message(const uint8_t *message, size_t len);

/* Prints how a call ended, and what is to be sent. */
void show_registrar_answer(const char *call, uint64_t code, const uint8_t *answer);
void show_end_entity_answer(const char *call, uint64_t code, const uint8_t *answer);

/* Prints the slots in use and the enrolment. */
void show_states(const uint8_t *table, const uint8_t *enrolment);

#endif
