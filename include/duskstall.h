/*
 * Duskstall: a CMP core (RFC 9810) for C99 and C++11. A reader and a writer of messages, the calls of a registrar and
 * the calls of an end entity, each proved to answer as is said here, whatever bytes it is given.
 *
 * Link with libduskstall.a, which `make library` makes for x86-64 Linux. It needs memcpy and memset, and
 * nothing else: no heap, no clock, no locks, no variables of its own.
 *
 * WHAT IT DOES
 *
 *     end entity (a board)                                      registrar
 *     start                       -- ir, cr, p10cr, kur -->     message: the transaction is Asked
 *     message: host accepts       <-- ip, cp, kup ---------     issue: Granted      (or refuse: Refused)
 *       it is Confirming          -- certConf ------------>     message: Confirmed  (or Declined)
 *     message: it is Sure         <-- pkiConf -------------     close: the slot is Free again
 *
 * The registrar has a table of DUSKSTALL_SLOTS transactions, each in a slot; an end entity has one enrolment. Both are
 * plain bytes that the host lends to a call. A call reads what it is handed, decides, moves the state and writes an
 * answer: how it ended and, if a message is to be sent, what it says ("outgoing"). A refused call says why, by a
 * number, and leaves the state as it was: LentDemand1 in crates/lent/specs, of whatever bytes are lent.
 *
 * WHAT THE HOST DOES ITSELF
 *
 *   - It moves the bytes and keeps time. Nothing here waits or sends again; time_out and lapse say that it gave up.
 *   - It verifies protection and hands in what it found: good, by the number 1 and no other, or bad; at the registrar,
 *     with which board's key.
 *   - It draws ids and nonces: 16 random bytes each, none of them twice.
 *   - It issues certificates and hashes them to 32 bytes: at the registrar for issue, at the end entity for a response.
 *   - It decides whether a request is granted and whether a certificate is accepted.
 *   - It protects and sends every outgoing message. duskstall_write writes it; the host gives names, the request of an
 *     ir, cr, p10cr or kur, the certificate of a response, and the protection. The request of an ir, cr or kur has the
 *     certReqId 0; a response and a certConf get theirs from what is to be sent.
 *   - It hands each call the table or the enrolment as the last call on it left it: it puts no older copy back, empties
 *     the table only at the beginning, and starts an enrolment only over bytes that no enrolment needs any more.
 *
 * If it does, and a verdict is good only for messages that the sender it names has issued, and no id or nonce is drawn
 * twice, then, whatever the line loses, repeats, reorders or makes up: an end entity that is Sure has its transaction
 * Confirmed with the same hash, one that is Declined has it Declined, until it is closed; where a transaction is
 * Confirmed, its end entity holds the same hash and is Sure, Confirming or Unsettled; one that Failed never had it so.
 * This is HeaderDemand3 in crates/lent/specs: proved of any list of these calls, at the places in the bytes that are
 * said here. Not proved are the declarations in this header, and the compiler.
 *
 * MEMORY
 *
 * The caller owns every array and lends it for the call; no pointer is kept. An array is a pointer and its length. The
 * pointer is not null, even where the length is 0. An array that is written (table, enrolment, answer, fields, buffer)
 * overlaps no other array of the same call: copy an id out of the table or of the answer before it is handed in with
 * them.
 * Between calls the bytes of a table or an enrolment may be moved and stored; the next call gets them as they are then.
 *
 * THREADS
 *
 * There are no global variables: calls on different tables and enrolments may run at the same time. On one table or one
 * enrolment one call at a time; the host locks it.
 *
 * ONE ENROLMENT, of board 7, with a line that loses nothing. The host's own are draw, issue_certificate, hash_of,
 * protection_of (of the bytes that are written without it), verify (whose key made the protection), the number
 * REGISTRAR, and given_for and give, which put parts of a message into g.source and note their places in g.parts;
 * examples/ has stand-ins for them, and a longer version that looks at every code returned, as a host does.
 *
 *     size_t compose(const uint8_t *outgoing, int sender, uint8_t *message)
 *     {
 *         struct given g = given_for(outgoing, sender);                    // names, and a request or certificate
 *         uint8_t protection[1 + PROTECTION_BYTES] = {0};                  // none of its bits is unused
 *         uint64_t written;
 *
 *         written = duskstall_write(outgoing, DUSKSTALL_OUTGOING_BYTES, 2, g.parts, DUSKSTALL_GIVEN, g.source, g.len,
 *                                   message, DUSKSTALL_MESSAGE_LIMIT);
 *         if (duskstall_write_code(written) != 0)
 *             return 0;
 *         protection_of(sender, message, duskstall_write_size(written), protection + 1);
 *         give(&g, DUSKSTALL_GIVEN_PROTECTION, protection, sizeof protection);
 *         written = duskstall_write(outgoing, DUSKSTALL_OUTGOING_BYTES, 2, g.parts, DUSKSTALL_GIVEN, g.source, g.len,
 *                                   message, DUSKSTALL_MESSAGE_LIMIT);
 *         return duskstall_write_size(written);
 *     }
 *
 *     int enrol(void)
 *     {
 *         uint8_t table[DUSKSTALL_TABLE_BYTES], enrolment[DUSKSTALL_ENROLMENT_BYTES];
 *         uint8_t answer[DUSKSTALL_REGISTRAR_ANSWER_BYTES], message[DUSKSTALL_MESSAGE_LIMIT];
 *         uint8_t id[16], nonce[16], hash[32], certificate[256];
 *         uint64_t fields[DUSKSTALL_FIELDS];
 *         uint8_t good;
 *         size_t len;
 *
 *         duskstall_registrar_empty(table, sizeof table);
 *
 *         draw(id), draw(nonce);                                           // the end entity sends an ir
 *         duskstall_end_entity_start(enrolment, sizeof enrolment, DUSKSTALL_IR, id, 16, nonce, 16,
 *                                    answer, sizeof answer);
 *         len = compose(duskstall_end_entity_outgoing(answer), 7, message);
 *
 *         draw(nonce);                                                     // the registrar takes it
 *         good = verify(message, len) == 7 ? DUSKSTALL_VERDICT_GOOD : DUSKSTALL_VERDICT_BAD;
 *         duskstall_registrar_message(table, sizeof table, message, len, good, 7, nonce, 16, answer, sizeof answer);
 *         hash_of(certificate, issue_certificate(id, certificate), hash);
 *         draw(nonce);                                                     // and grants it: an ip
 *         duskstall_registrar_issue(table, sizeof table, id, 16, nonce, 16, hash, 32, answer, sizeof answer);
 *         len = compose(duskstall_registrar_outgoing(answer), REGISTRAR, message);
 *
 *         if (duskstall_read(message, len, fields, DUSKSTALL_FIELDS) != 0)
 *             return 1;
 *         hash_of(message + fields[DUSKSTALL_FIELD_CERTIFICATE], fields[DUSKSTALL_FIELD_CERTIFICATE + 1], hash);
 *         draw(nonce);                                                     // the end entity accepts: a certConf
 *         good = verify(message, len) == REGISTRAR ? DUSKSTALL_VERDICT_GOOD : DUSKSTALL_VERDICT_BAD;
 *         duskstall_end_entity_message(enrolment, sizeof enrolment, message, len, good, DUSKSTALL_DECISION_ACCEPT,
 *                                      hash, 32, nonce, 16, answer, sizeof answer);
 *         len = compose(duskstall_end_entity_outgoing(answer), 7, message);
 *
 *         draw(nonce);                                                     // the registrar takes it: a pkiConf
 *         good = verify(message, len) == 7 ? DUSKSTALL_VERDICT_GOOD : DUSKSTALL_VERDICT_BAD;
 *         duskstall_registrar_message(table, sizeof table, message, len, good, 7, nonce, 16, answer, sizeof answer);
 *         len = compose(duskstall_registrar_outgoing(answer), REGISTRAR, message);
 *
 *         draw(nonce);                                                     // the end entity is Sure
 *         good = verify(message, len) == REGISTRAR ? DUSKSTALL_VERDICT_GOOD : DUSKSTALL_VERDICT_BAD;
 *         duskstall_end_entity_message(enrolment, sizeof enrolment, message, len, good, DUSKSTALL_DECISION_DECLINE,
 *                                      hash, 32, nonce, 16, answer, sizeof answer);
 *         return enrolment[DUSKSTALL_ENROLMENT_STATE] == DUSKSTALL_ENROLMENT_SURE ? 0 : 1;
 *     }
 */
#ifndef DUSKSTALL_H
#define DUSKSTALL_H

#include <stddef.h>
#include <stdint.h>

#ifdef __cplusplus
extern "C" {
#endif

/* ---- Sizes in bytes, and limits ---------------------------------------------------------------------------------- */

#define DUSKSTALL_MESSAGE_LIMIT 16384           /* the longest message that is read or written */
#define DUSKSTALL_DEPTH_LIMIT 16                /* elements inside each other, the message being the first */
#define DUSKSTALL_ID_BYTES 16                   /* a transactionID */
#define DUSKSTALL_NONCE_BYTES 16                /* a senderNonce or recipNonce */
#define DUSKSTALL_HASH_BYTES 32                 /* a certHash */
#define DUSKSTALL_BOARD_BYTES 2                 /* a board */
#define DUSKSTALL_STATUS_BYTES 4                /* a PKIStatus */
#define DUSKSTALL_CERT_REQ_ID_BYTES 4           /* a certReqId */
#define DUSKSTALL_OFFSET_BYTES 8                /* a fault's offset */
#define DUSKSTALL_SLOTS 16                      /* transactions in a table */
#define DUSKSTALL_TRANSACTION_BYTES                                                                                    \
    (DUSKSTALL_ID_BYTES + DUSKSTALL_BOARD_BYTES + 1 + 2 * DUSKSTALL_NONCE_BYTES + DUSKSTALL_HASH_BYTES + 1)
#define DUSKSTALL_TABLE_BYTES (DUSKSTALL_SLOTS * DUSKSTALL_TRANSACTION_BYTES) /* the slots one after the other */
#define DUSKSTALL_ENROLMENT_BYTES (DUSKSTALL_ID_BYTES + 1 + 2 * DUSKSTALL_NONCE_BYTES + DUSKSTALL_HASH_BYTES + 1)
#define DUSKSTALL_OUTGOING_BYTES                                                                                       \
    (1 + DUSKSTALL_ID_BYTES + 2 * DUSKSTALL_NONCE_BYTES + 3 + DUSKSTALL_STATUS_BYTES + DUSKSTALL_HASH_BYTES + 1 +      \
     DUSKSTALL_CERT_REQ_ID_BYTES)
#define DUSKSTALL_REGISTRAR_ANSWER_BYTES (4 + DUSKSTALL_OFFSET_BYTES + 3 + DUSKSTALL_OUTGOING_BYTES)
#define DUSKSTALL_END_ENTITY_ANSWER_BYTES (4 + DUSKSTALL_OFFSET_BYTES + 2 + DUSKSTALL_OUTGOING_BYTES)
#define DUSKSTALL_FIELDS 47                     /* numbers, of 8 bytes each, that duskstall_read writes */
#define DUSKSTALL_GIVEN 22                      /* numbers, of 8 bytes each, that duskstall_write is given */

/* ---- What the host says of a message ----------------------------------------------------------------------------- */

/*
 * 1 is yes, and every other number no, so that -1, by which other libraries tell a failure, is not good. Hand in these
 * constants and not what another library returned: a wider number is cut to its low 8 bits before the call, so that 257
 * would be good.
 */
enum duskstall_verdict {
    DUSKSTALL_VERDICT_BAD = 0, /* and every number but 1 */
    DUSKSTALL_VERDICT_GOOD = 1 /* the protection was verified */
};

enum duskstall_decision {
    DUSKSTALL_DECISION_DECLINE = 0, /* and every number but 1 */
    DUSKSTALL_DECISION_ACCEPT = 1   /* the host accepts the certificate */
};

/* ---- What a call returns ----------------------------------------------------------------------------------------- */

enum duskstall_code {
    DUSKSTALL_DONE = 0,
    DUSKSTALL_AGAIN = 1,        /* a certConf repeated: the table is as it was, and another pkiConf is to be sent */
    DUSKSTALL_REFUSED = 2,      /* the table or the enrolment is as it was; the answer has the number of the refusal */
    /* The call was not made, and no array has changed. The lowest that applies is returned. */
    DUSKSTALL_NO_STATE = 251,   /* the table or the enrolment is none: its length, or a state that is above 6 */
    DUSKSTALL_BAD_LENGTH = 252, /* an id, a nonce or a hash of another length; see duskstall_write_code, too */
    DUSKSTALL_NO_ROOM = 253,    /* the answer is too short */
    DUSKSTALL_FEW_FIELDS = 255  /* duskstall_read only: fewer than DUSKSTALL_FIELDS */
};

/*
 * The refusals: name, number, bit of PKIFailureInfo (DUSKSTALL_NO_BIT: none), and when it applies. The lowest number
 * that applies is given. The words are those of the build description and its change requests: the book is the table, a
 * place is a slot, a record is a transaction or an enrolment, an opening is an ir, cr, p10cr or kur, a board is the end
 * entity; the result is the message that is written.
 */
#define DUSKSTALL_REFUSALS(row)                                                                                        \
    row(DUSKSTALL_REFUSED_LENGTH, 1, 5, "length 0 or above 16,384")                                                    \
    row(DUSKSTALL_REFUSED_SYNTAX, 2, 5, "not DER or not the grammar") /* the answer has offset and rule */             \
    row(DUSKSTALL_REFUSED_VERSION, 3, 22, "pvno not 2 or 3")                                                           \
    row(DUSKSTALL_REFUSED_NO_ID, 4, 5, "transactionID absent or not 16 bytes")                                         \
    row(DUSKSTALL_REFUSED_NO_NONCE, 5, 18, "senderNonce absent or not 16 bytes")                                       \
    row(DUSKSTALL_REFUSED_UNPROTECTED, 6, 1, "protectionAlg or protection absent")                                     \
    row(DUSKSTALL_REFUSED_VERDICT, 7, 1, "verdict bad")                                                                \
    /* registrar: taken are 0, 2, 4, 7 and 24; end entity: 19, 23 and the response to its request */                   \
    row(DUSKSTALL_REFUSED_KIND, 8, 2, "kind not taken here")                                                           \
    row(DUSKSTALL_REFUSED_OPENING_NONCE, 9, 2, "opening with recipNonce")                                              \
    row(DUSKSTALL_REFUSED_ID_IN_USE, 10, 21, "opening, id in the book")                                                \
    row(DUSKSTALL_REFUSED_FULL, 11, 24, "opening, no free place")                                                      \
    row(DUSKSTALL_REFUSED_OTHER_ID, 12, 2, "certConf, id not in the book; board: id not its own")                      \
    row(DUSKSTALL_REFUSED_OTHER_BOARD, 13, 23, "certConf, verdict names another board than the record")                \
    row(DUSKSTALL_REFUSED_RECIP_NONCE, 14, 13, "recipNonce absent or not the last nonce this record sent")             \
    row(DUSKSTALL_REFUSED_ENTRIES, 15, 2, "not exactly one entry")                                                     \
    /* by the kind of the transaction that a certConf names, of the enrolment that a response answers */               \
    row(DUSKSTALL_REFUSED_CERT_REQ_ID, 16, 2, "certReqId in that one entry not -1 for p10cr, not 0 for the others")    \
    row(DUSKSTALL_REFUSED_HASH_ALG, 17, 2, "certConf, hashAlg with pvno 2")                                            \
    row(DUSKSTALL_REFUSED_STATUS, 18, 2,                                                                               \
        "certConf status not 0 or 2; board: response status not 0, 1, 2; error status not 2")                          \
    row(DUSKSTALL_REFUSED_HASH, 19, 4, "certHash not the record's 32 bytes, or no hash set")                           \
    row(DUSKSTALL_REFUSED_STATE, 20, 2, "the state doesn't take it") /* bit 11 if Confirmed */                         \
    row(DUSKSTALL_REFUSED_NO_CERTIFICATE, 21, 255, "status 0 or 1 and no plain certificate")                           \
    row(DUSKSTALL_REFUSED_STEP_ID, 30, 255, "host step, id not in the book")                                           \
    row(DUSKSTALL_REFUSED_STEP_STATE, 31, 255, "host step, state doesn't allow it")                                    \
    row(DUSKSTALL_REFUSED_START_KIND, 32, 255, "board start, kind not 0, 2, 4 or 7")                                   \
    row(DUSKSTALL_REFUSED_OVER_LIMIT, 34, 255, "the result is over the message limit")                                 \
    row(DUSKSTALL_REFUSED_BUFFER, 35, 255, "the buffer is too short")                                                  \
    row(DUSKSTALL_REFUSED_PART, 36, 255, "a given element or field doesn't fit the grammar at its place")

#define DUSKSTALL_ROW(name, number, bit, words) name = number,
enum duskstall_refusal { DUSKSTALL_REFUSALS(DUSKSTALL_ROW) };
#undef DUSKSTALL_ROW

/* The bits of PKIFailureInfo that go with them (RFC 9810 5.2.3). */
enum duskstall_failure {
    DUSKSTALL_BAD_MESSAGE_CHECK = 1,
    DUSKSTALL_BAD_REQUEST = 2,
    DUSKSTALL_BAD_CERT_ID = 4,
    DUSKSTALL_BAD_DATA_FORMAT = 5,
    DUSKSTALL_CERT_CONFIRMED = 11,
    DUSKSTALL_BAD_RECIPIENT_NONCE = 13,
    DUSKSTALL_BAD_SENDER_NONCE = 18,
    DUSKSTALL_TRANSACTION_ID_IN_USE = 21,
    DUSKSTALL_UNSUPPORTED_VERSION = 22,
    DUSKSTALL_NOT_AUTHORIZED = 23,
    DUSKSTALL_SYSTEM_UNAVAIL = 24,
    DUSKSTALL_NO_BIT = 255
};

/* Why a message is refused by 2: the lowest rule that is broken at the lowest offset (ITU-T X.690, narrowed).
 * The offset lies in the message or, by DUSKSTALL_RULE_GRAMMAR only, at its end. */
enum duskstall_rule {
    DUSKSTALL_RULE_TAG = 1,
    DUSKSTALL_RULE_LENGTH = 2,  /* not xx, 81 xx or 82 xx xx, not the shortest, or beyond the element around it */
    DUSKSTALL_RULE_FORM = 3,    /* primitive or constructed where it must not be, or too deep */
    DUSKSTALL_RULE_CONTENT = 4, /* of a BOOLEAN, INTEGER, BIT STRING, NULL or OBJECT IDENTIFIER */
    DUSKSTALL_RULE_GRAMMAR = 5  /* an element that cannot stand here in a PKIMessage, or one that is missing */
};

/* ---- Kinds of messages: the number of the body's tag (RFC 9810 5.1.2) -------------------------------------------- */

enum duskstall_kind {
    DUSKSTALL_IR = 0,        /* requests: they open a transaction */
    DUSKSTALL_CR = 2,
    DUSKSTALL_P10CR = 4,
    DUSKSTALL_KUR = 7,
    DUSKSTALL_IP = 1,        /* responses: to an ir, */
    DUSKSTALL_CP = 3,        /* to a cr or p10cr, */
    DUSKSTALL_KUP = 8,       /* to a kur */
    DUSKSTALL_PKICONF = 19,
    DUSKSTALL_ERROR = 23,
    DUSKSTALL_CERTCONF = 24,
    DUSKSTALL_POPDECC = 5,   /* read, and taken by neither end */
    DUSKSTALL_POPDECR = 6,
    DUSKSTALL_KRR = 9,
    DUSKSTALL_KRP = 10,
    DUSKSTALL_RR = 11,
    DUSKSTALL_RP = 12,
    DUSKSTALL_CCR = 13,
    DUSKSTALL_CCP = 14,
    DUSKSTALL_CKUANN = 15,
    DUSKSTALL_CANN = 16,
    DUSKSTALL_RANN = 17,
    DUSKSTALL_CRLANN = 18,
    DUSKSTALL_NESTED = 20,
    DUSKSTALL_GENM = 21,
    DUSKSTALL_GENP = 22,
    DUSKSTALL_POLLREQ = 25,
    DUSKSTALL_POLLREP = 26
};

/* ---- State in bytes: fields side by side, numbers big-endian, bytes that were never set zero --------------------- */

/* A transaction, in a slot of the registrar's table. */
enum duskstall_transaction_place {
    /* 16 bytes */
    DUSKSTALL_TRANSACTION_ID = 0,
    /* 2: the board that the request's verdict named */
    DUSKSTALL_TRANSACTION_BOARD = DUSKSTALL_TRANSACTION_ID + DUSKSTALL_ID_BYTES,
    /* of the request */
    DUSKSTALL_TRANSACTION_KIND = DUSKSTALL_TRANSACTION_BOARD + DUSKSTALL_BOARD_BYTES,
    /* 16: the senderNonce that was taken last */
    DUSKSTALL_TRANSACTION_TAKEN = DUSKSTALL_TRANSACTION_KIND + 1,
    /* 16: the senderNonce of the response */
    DUSKSTALL_TRANSACTION_SENT = DUSKSTALL_TRANSACTION_TAKEN + DUSKSTALL_NONCE_BYTES,
    /* 32: of the certificate that was issued */
    DUSKSTALL_TRANSACTION_HASH = DUSKSTALL_TRANSACTION_SENT + DUSKSTALL_NONCE_BYTES,
    DUSKSTALL_TRANSACTION_STATE = DUSKSTALL_TRANSACTION_HASH + DUSKSTALL_HASH_BYTES
};

enum duskstall_transaction_state {
    DUSKSTALL_TRANSACTION_FREE = 0,      /* the slot holds no transaction */
    DUSKSTALL_TRANSACTION_ASKED = 1,     /* a request was taken; the host has not decided */
    DUSKSTALL_TRANSACTION_GRANTED = 2,   /* the response is sent, and the certConf awaited */
    DUSKSTALL_TRANSACTION_CONFIRMED = 3, /* the board accepted the certificate */
    DUSKSTALL_TRANSACTION_DECLINED = 4,  /* the board rejected it */
    DUSKSTALL_TRANSACTION_REFUSED = 5,   /* the host refused the request */
    DUSKSTALL_TRANSACTION_LAPSED = 6     /* the host gave up waiting for the certConf */
};

/* An enrolment of an end entity. */
enum duskstall_enrolment_place {
    /* 16 bytes */
    DUSKSTALL_ENROLMENT_ID = 0,
    /* of the request */
    DUSKSTALL_ENROLMENT_KIND = DUSKSTALL_ENROLMENT_ID + DUSKSTALL_ID_BYTES,
    /* 16: the senderNonce that was sent last */
    DUSKSTALL_ENROLMENT_LAST = DUSKSTALL_ENROLMENT_KIND + 1,
    /* 16: the senderNonce of the response that a certConf answered */
    DUSKSTALL_ENROLMENT_TAKEN = DUSKSTALL_ENROLMENT_LAST + DUSKSTALL_NONCE_BYTES,
    /* 32: the host's, of the certificate in it */
    DUSKSTALL_ENROLMENT_HASH = DUSKSTALL_ENROLMENT_TAKEN + DUSKSTALL_NONCE_BYTES,
    DUSKSTALL_ENROLMENT_STATE = DUSKSTALL_ENROLMENT_HASH + DUSKSTALL_HASH_BYTES
};

enum duskstall_enrolment_state {
    DUSKSTALL_ENROLMENT_ASKED = 0,      /* the request is sent */
    DUSKSTALL_ENROLMENT_CONFIRMING = 1, /* the host accepted; the certConf is sent, and the pkiConf awaited */
    DUSKSTALL_ENROLMENT_DECLINING = 2,  /* the host declined; likewise */
    DUSKSTALL_ENROLMENT_SURE = 3,       /* the registrar has the acceptance */
    DUSKSTALL_ENROLMENT_DECLINED = 4,   /* the registrar has the rejection */
    DUSKSTALL_ENROLMENT_FAILED = 5,     /* over before any certConf was sent */
    DUSKSTALL_ENROLMENT_UNSETTLED = 6   /* over; the registrar may have the certConf or not */
};

/* ---- Answers ----------------------------------------------------------------------------------------------------- */

/* The first bytes are the same at both ends. */
enum duskstall_answer_place {
    /* what the call returned: 0, 1 or 2 */
    DUSKSTALL_ANSWER_CODE = 0,
    /* its number; 0 where it was not refused */
    DUSKSTALL_ANSWER_REFUSAL = DUSKSTALL_ANSWER_CODE + 1,
    /* of the refusal; DUSKSTALL_NO_BIT for none */
    DUSKSTALL_ANSWER_BIT = DUSKSTALL_ANSWER_REFUSAL + 1,
    /* 1 or 2 where the message does not read, else 0 */
    DUSKSTALL_ANSWER_FAULT = DUSKSTALL_ANSWER_BIT + 1,
    /* 8 bytes: where; 0 unless refused by 2 */
    DUSKSTALL_ANSWER_FAULT_OFFSET = DUSKSTALL_ANSWER_FAULT + 1,
    /* enum duskstall_rule; 0 unless refused by 2 */
    DUSKSTALL_ANSWER_FAULT_RULE = DUSKSTALL_ANSWER_FAULT_OFFSET + DUSKSTALL_OFFSET_BYTES,
    /* of the transaction; 0 where refused */
    DUSKSTALL_REGISTRAR_SLOT = DUSKSTALL_ANSWER_FAULT_RULE + 1,
    /* 1: a message is to be sent; 0: none, and what follows says nothing */
    DUSKSTALL_REGISTRAR_SENDS = DUSKSTALL_REGISTRAR_SLOT + 1,
    DUSKSTALL_REGISTRAR_OUTGOING = DUSKSTALL_REGISTRAR_SENDS + 1,
    DUSKSTALL_END_ENTITY_SENDS = DUSKSTALL_ANSWER_FAULT_RULE + 1,
    DUSKSTALL_END_ENTITY_OUTGOING = DUSKSTALL_END_ENTITY_SENDS + 1
};

/* A message to be sent. */
enum duskstall_outgoing_place {
    DUSKSTALL_OUTGOING_KIND = 0,
    /* 16 bytes */
    DUSKSTALL_OUTGOING_ID = DUSKSTALL_OUTGOING_KIND + 1,
    /* 16 */
    DUSKSTALL_OUTGOING_SENDER_NONCE = DUSKSTALL_OUTGOING_ID + DUSKSTALL_ID_BYTES,
    /* 1, but 0 in a request */
    DUSKSTALL_OUTGOING_HAS_RECIP_NONCE = DUSKSTALL_OUTGOING_SENDER_NONCE + DUSKSTALL_NONCE_BYTES,
    /* 16 */
    DUSKSTALL_OUTGOING_RECIP_NONCE = DUSKSTALL_OUTGOING_HAS_RECIP_NONCE + 1,
    /* 1 in a response, a certConf and an error */
    DUSKSTALL_OUTGOING_HAS_STATUS = DUSKSTALL_OUTGOING_RECIP_NONCE + DUSKSTALL_NONCE_BYTES,
    /* 4: PKIStatus, 0 accepted or 2 rejection */
    DUSKSTALL_OUTGOING_STATUS = DUSKSTALL_OUTGOING_HAS_STATUS + 1,
    /* 32: certHash, in a certConf */
    DUSKSTALL_OUTGOING_HASH = DUSKSTALL_OUTGOING_STATUS + DUSKSTALL_STATUS_BYTES,
    /* in an error, the bit for failInfo; DUSKSTALL_NO_BIT for none */
    DUSKSTALL_OUTGOING_FAILURE = DUSKSTALL_OUTGOING_HASH + DUSKSTALL_HASH_BYTES,
    /* 1 in a response and a certConf */
    DUSKSTALL_OUTGOING_HAS_CERT_REQ_ID = DUSKSTALL_OUTGOING_FAILURE + 1,
    /* 4, two's complement (duskstall_signed): 0, or -1 in an enrolment by p10cr */
    DUSKSTALL_OUTGOING_CERT_REQ_ID = DUSKSTALL_OUTGOING_HAS_CERT_REQ_ID + 1
};

/* What is to be sent, or null. */
static inline const uint8_t *duskstall_registrar_outgoing(const uint8_t *answer)
{
    return answer[DUSKSTALL_REGISTRAR_SENDS] ? answer + DUSKSTALL_REGISTRAR_OUTGOING : NULL;
}

static inline const uint8_t *duskstall_end_entity_outgoing(const uint8_t *answer)
{
    return answer[DUSKSTALL_END_ENTITY_SENDS] ? answer + DUSKSTALL_END_ENTITY_OUTGOING : NULL;
}

/* A number in so many bytes, at a place: a board, a status, a certReqId, a fault's offset. */
static inline uint64_t duskstall_number(const uint8_t *bytes, size_t len)
{
    uint64_t number = 0;
    while (len-- > 0)
        number = number << 8 | *bytes++;
    return number;
}

/* A pvno, status or certReqId as a signed number, from its low 32 bits (two's complement). */
static inline int32_t duskstall_signed(uint64_t number)
{
    uint32_t low = (uint32_t)number;
    return low > INT32_MAX ? -1 - (int32_t)(UINT32_MAX - low) : (int32_t)low;
}

/* A refusal in words. */
static inline const char *duskstall_refusal_words(unsigned number)
{
#define DUSKSTALL_ROW(name, number, bit, words) case number: return words;
    switch (number) {
        DUSKSTALL_REFUSALS(DUSKSTALL_ROW)
        default: return "no number of the table";
    }
#undef DUSKSTALL_ROW
}

/* ---- The reader -------------------------------------------------------------------------------------------------- */

/*
 * The places of the numbers that duskstall_read writes. A part is two numbers: its start in the message at the place
 * named here and its length at the next; 0 and 0 if it is absent. "Content": without tag and length.
 */
enum duskstall_field {
    DUSKSTALL_FIELD_KIND = 0,            /* number: enum duskstall_kind */
    DUSKSTALL_FIELD_VERSION = 1,         /* number: pvno, 32 bits of two's complement */
    DUSKSTALL_FIELD_ENTRIES = 2,         /* number: requests, responses or certificate statuses */
    DUSKSTALL_FIELD_HEADER = 3,          /* part, with tag and length */
    DUSKSTALL_FIELD_BODY = 5,            /* likewise; it follows the header at once */
    DUSKSTALL_FIELD_PROTECTION = 7,      /* the whole [0] */
    DUSKSTALL_FIELD_EXTRA_CERTS = 9,     /* the whole [1] */
    DUSKSTALL_FIELD_SENDER = 11,         /* with tag and length */
    DUSKSTALL_FIELD_RECIPIENT = 13,      /* likewise */
    DUSKSTALL_FIELD_MESSAGE_TIME = 15,   /* content */
    DUSKSTALL_FIELD_PROTECTION_ALG = 17, /* its SEQUENCE */
    DUSKSTALL_FIELD_SENDER_KID = 19,     /* content */
    DUSKSTALL_FIELD_RECIP_KID = 21,      /* content */
    DUSKSTALL_FIELD_TRANSACTION_ID = 23, /* content */
    DUSKSTALL_FIELD_SENDER_NONCE = 25,   /* content */
    DUSKSTALL_FIELD_RECIP_NONCE = 27,    /* content */
    DUSKSTALL_FIELD_FREE_TEXT = 29,      /* its SEQUENCE */
    DUSKSTALL_FIELD_GENERAL_INFO = 31,   /* its SEQUENCE */
    DUSKSTALL_FIELD_CA_PUBS = 33,        /* its SEQUENCE */
    /* Of the one entry; zero where there is none or more than one. */
    DUSKSTALL_FIELD_CERT_REQ_ID = 35, /* number: 32 bits of two's complement */
    DUSKSTALL_FIELD_HAS_STATUS = 36,  /* number: 1 or 0; also of an error */
    DUSKSTALL_FIELD_STATUS = 37,      /* number: 32 bits of two's complement; also of an error */
    DUSKSTALL_FIELD_CERT_HASH = 38,   /* content */
    DUSKSTALL_FIELD_HASH_ALG = 40,    /* its SEQUENCE */
    DUSKSTALL_FIELD_CERTIFICATE = 42, /* of a response, not encrypted; with tag and length */
    DUSKSTALL_FIELD_REQUEST = 44,     /* with tag and length; also of a p10cr */

    DUSKSTALL_FIELD_PROTECTED_LENGTH = 46, /* number: header and body together */
    /* Of a refused message instead: */
    DUSKSTALL_FIELD_FAULT_OFFSET = 0,
    DUSKSTALL_FIELD_FAULT_RULE = 1 /* enum duskstall_rule */
};

/*
 * Reads a message and finds its parts. To verify protection, put a SEQUENCE tag and the length PROTECTED_LENGTH before
 * header and body, which stand side by side in the message (RFC 9810 5.1.3).
 *
 *   message, message_len   any bytes, any number of them
 *   fields, fields_len     at least DUSKSTALL_FIELDS numbers; written, those after the first 47 are left
 *
 * Returns 0: it is a PKIMessage, and all fields are written. DUSKSTALL_REFUSED_LENGTH (1) or DUSKSTALL_REFUSED_SYNTAX
 * (2): it is none, and the first two fields are written. DUSKSTALL_FEW_FIELDS: nothing is written.
 */
uint64_t duskstall_read(const uint8_t *message, size_t message_len, uint64_t *fields, size_t fields_len);

/*
 * Checks that bytes are whole DER elements, one after the other, at most DUSKSTALL_DEPTH_LIMIT deep; none is all right,
 * too. Any number of them up to 4,294,967,295.
 *
 * Returns 0: they are. Else 8 times the offset of the first fault plus its rule; 7 where there are too many bytes.
 */
uint64_t duskstall_check(const uint8_t *bytes, size_t bytes_len);

/* ---- The writer -------------------------------------------------------------------------------------------------- */

/*
 * The places of the numbers that duskstall_write is given. A part is two numbers: its start in the source at the place
 * named here and its length at the next; 0 and 0 if it is absent. No part starts at the source's first byte (in a
 * reading, too, what starts at 0 is absent). "Content": without tag and length. Where the source is a message that was
 * read, the two numbers of a field can be handed on for the part of the same name, but for PROTECTION.
 */
enum duskstall_given {
    DUSKSTALL_GIVEN_SENDER = 0,         /* a GeneralName, with tag and length */
    DUSKSTALL_GIVEN_RECIPIENT = 2,      /* likewise */
    DUSKSTALL_GIVEN_MESSAGE_TIME = 4,   /* content; absent or there, as all that follows */
    DUSKSTALL_GIVEN_PROTECTION_ALG = 6, /* its SEQUENCE */
    DUSKSTALL_GIVEN_SENDER_KID = 8,     /* content */
    DUSKSTALL_GIVEN_RECIP_KID = 10,     /* content */
    DUSKSTALL_GIVEN_FREE_TEXT = 12,     /* its SEQUENCE */
    DUSKSTALL_GIVEN_GENERAL_INFO = 14,  /* its SEQUENCE */
    /* content of the BIT STRING: how many bits are unused, and the bits. Not what DUSKSTALL_FIELD_PROTECTION names: the
     * whole [0], with the BIT STRING inside, does not fit here */
    DUSKSTALL_GIVEN_PROTECTION = 16,
    /* There exactly in these messages: */
    DUSKSTALL_GIVEN_REQUEST = 18,    /* ir, cr, kur: the CertReqMsg; p10cr: any element; with tag and length */
    DUSKSTALL_GIVEN_CERTIFICATE = 20 /* ip, cp, kup of status 0: a SEQUENCE, with tag and length */
};

/*
 * Writes the message that is to be sent: header, body and, if it is given, protection, in the only DER that there is
 * for it. Reading the message gives back what it was written from, each part at its place, but that duskstall_read
 * does not tell the failure bit, and names the whole [0] of the protection. A certConf's status 0 is left out (RFC
 * 9810 5.3.18: that says acceptance) and reads as no status. No message has extraCerts: a host that adds them writes
 * [1] after the protection, and the length of the outermost SEQUENCE anew.
 *
 *   outgoing, outgoing_len   DUSKSTALL_OUTGOING_BYTES: as an answer holds it whose SENDS is 1; where it is 0 nothing is
 *                            to be sent, whatever the bytes say. A HAS_ byte is yes by 1 and no by every other number.
 *                            A value whose byte says no, and what its kind has not, has to be unset: zero, FAILURE
 *                            DUSKSTALL_NO_BIT
 *   version                  pvno, 32 bits of two's complement
 *   given, given_len         DUSKSTALL_GIVEN numbers: where the parts lie
 *   source, source_len       any bytes, any number of them, which the parts lie in
 *   buffer, buffer_len       written: the message's bytes, and no others. DUSKSTALL_MESSAGE_LIMIT bytes are always
 *                            enough. It overlaps neither source nor given nor outgoing: an answer is not written over
 *                            the message that it takes parts from
 *
 * Returns the size of the message, which is at the buffer's beginning. Or, with nothing changed, a number times 2^32:
 * DUSKSTALL_BAD_LENGTH where outgoing or given is of another length; else DUSKSTALL_REFUSED_OVER_LIMIT (34),
 * DUSKSTALL_REFUSED_BUFFER (35) or DUSKSTALL_REFUSED_PART (36), the lowest that applies. duskstall_write_size and
 * duskstall_write_code tell them apart. Taken for a length, such a number is above every size, at least 34 * 2^32; cut
 * to 32 bits it is 0.
 *
 * 36: a part with tag and length is not one element that fits the message there, by its own rule and with the depth
 * that is left, or PROTECTION is no BIT STRING's content; a part starts at the source's first byte, or reaches outside;
 * it is missing, or given where the message has none; or outgoing is of no kind that is sent, has no status or number
 * where its kind has one, or has what its kind has not. What an answer with SENDS 1 holds fits, after any calls on a
 * table and enrolments lent as they were left: 36 is then for the given parts. Not looked at: which version, which
 * bytes MESSAGE_TIME and the key identifiers have (none is a content, too: a part of length 0 that does not start at 0
 * is there), which number and bit, which status (but that 0 in an ip, cp or kup asks for a certificate), and whether
 * PROTECTION and PROTECTION_ALG go together.
 *
 * 34 and 35 are told by the message's size, whether or not the parts fit: of a part that reaches outside, as much
 * counts as the source has; one at 0 does not count; a certificate counts in an ip, cp and kup of any status; a kind
 * that is not sent counts as a pkiConf.
 *
 * To protect a message: write it with PROTECTION_ALG and without PROTECTION. What is written then is RFC 9810 5.1.3's
 * ProtectedPart in DER, the SEQUENCE of header and body: make the protection of these bytes as they are, and write
 * again with the same and PROTECTION. Header and body come out the same, so that it is verified by the same bytes. If
 * the second call is refused, the buffer still holds the message without protection: look at what it returns.
 */
uint64_t duskstall_write(const uint8_t *outgoing, size_t outgoing_len, uint32_t version, const uint64_t *given,
                         size_t given_len, const uint8_t *source, size_t source_len, uint8_t *buffer,
                         size_t buffer_len);

/* The size of the message that was written; 0 if none was. */
static inline size_t duskstall_write_size(uint64_t written)
{
    return written >> 32 == 0 ? (size_t)written : 0;
}

/* 0 if a message was written; else DUSKSTALL_BAD_LENGTH, or the number of the refusal. */
static inline unsigned duskstall_write_code(uint64_t written)
{
    return (unsigned)(written >> 32);
}

/* ---- Sizes, as the library has them ------------------------------------------------------------------------------ */

enum duskstall_sized {
    DUSKSTALL_SIZE_TABLE = 0,             /* DUSKSTALL_TABLE_BYTES */
    DUSKSTALL_SIZE_ENROLMENT = 1,         /* DUSKSTALL_ENROLMENT_BYTES */
    DUSKSTALL_SIZE_REGISTRAR_ANSWER = 2,  /* DUSKSTALL_REGISTRAR_ANSWER_BYTES */
    DUSKSTALL_SIZE_END_ENTITY_ANSWER = 3, /* DUSKSTALL_END_ENTITY_ANSWER_BYTES */
    DUSKSTALL_SIZE_FIELDS = 4,            /* DUSKSTALL_FIELDS */
    DUSKSTALL_SIZE_MESSAGE = 5,           /* DUSKSTALL_MESSAGE_LIMIT */
    DUSKSTALL_SIZE_GIVEN = 6,             /* DUSKSTALL_GIVEN */
    DUSKSTALL_SIZE_OUTGOING = 7           /* DUSKSTALL_OUTGOING_BYTES */
};

/*
 * The size that the linked library asks for, so that a host can see at its start that this header belongs to it.
 *
 *   what   enum duskstall_sized
 *
 * Returns the size; 0 for any other number.
 */
uint64_t duskstall_size(uint8_t what);

/* ---- The registrar ----------------------------------------------------------------------------------------------- */

/*
 * In every call:
 *
 *   table, table_len     DUSKSTALL_TABLE_BYTES; begun by duskstall_registrar_empty, changed by calls that are done
 *   answer, answer_len   at least DUSKSTALL_REGISTRAR_ANSWER_BYTES; written
 *   id, id_len           DUSKSTALL_ID_BYTES: the transaction that is meant
 *   nonce, nonce_len     DUSKSTALL_NONCE_BYTES: fresh, the senderNonce of what is to be sent; not used if nothing is
 *   hash, hash_len       DUSKSTALL_HASH_BYTES
 *
 * All but duskstall_registrar_empty return DONE or REFUSED, duskstall_registrar_message also AGAIN; or, with no array
 * changed, NO_STATE, NO_ROOM and, where an id, a nonce or a hash is handed in, BAD_LENGTH.
 */

/*
 * Writes the empty table: every slot Free. For the beginning only: transactions that the table held are lost. Returns
 * DONE; or NO_STATE for another length, with nothing changed.
 */
uint64_t duskstall_registrar_empty(uint8_t *table, size_t table_len);

/*
 * A message came.
 *
 *   message, message_len   any bytes, any number of them
 *   good                   DUSKSTALL_VERDICT_GOOD: the protection was made with the key of this board; every other
 *                          number: it is bad, or absent
 *   board                  its number; not used if the verdict is bad
 *
 * A request: the lowest free slot becomes Asked, for this board. Nothing is to be sent; the host goes on with issue or
 * refuse. Refused by 1 to 7, 9 to 11, 15, 16.
 *
 * A certConf with the id, the board, the response's nonce and the hash of a Granted transaction: it becomes Confirmed
 * (status 0, or none) or Declined (2); a pkiConf is to be sent. The same once more: AGAIN, with another pkiConf.
 * Refused by 1 to 7, 12 to 20.
 *
 * Any other kind is refused by 1 to 8.
 *
 * Refused by 6 or above, an error with status 2 and the bit is to be sent, to the id and the nonce that the message
 * names. Where that is a request which the line repeated (10), or a message without good protection (6, 7), the error
 * may end an enrolment that goes well: the host may hold it back.
 */
uint64_t duskstall_registrar_message(uint8_t *table, size_t table_len, const uint8_t *message, size_t message_len,
                                     uint8_t good, uint16_t board, const uint8_t *nonce, size_t nonce_len,
                                     uint8_t *answer, size_t answer_len);

/*
 * The host grants the request and has issued a certificate with this hash: Asked becomes Granted. The response (ip, cp
 * or kup) with status 0 is to be sent; the host gives the certificate to duskstall_write. Refused by 30, 31.
 */
uint64_t duskstall_registrar_issue(uint8_t *table, size_t table_len, const uint8_t *id, size_t id_len,
                                   const uint8_t *nonce, size_t nonce_len, const uint8_t *hash, size_t hash_len,
                                   uint8_t *answer, size_t answer_len);

/* The host refuses the request: Asked becomes Refused. The response with status 2 is to be sent. Refused by 30, 31. */
uint64_t duskstall_registrar_refuse(uint8_t *table, size_t table_len, const uint8_t *id, size_t id_len,
                                    const uint8_t *nonce, size_t nonce_len, uint8_t *answer, size_t answer_len);

/* The host gives up waiting for the certConf: Granted becomes Lapsed. Nothing is to be sent. Refused by 30, 31. */
uint64_t duskstall_registrar_lapse(uint8_t *table, size_t table_len, const uint8_t *id, size_t id_len,
                                   uint8_t *answer, size_t answer_len);

/*
 * The host is done with a transaction: Confirmed, Declined, Refused or Lapsed becomes Free, and the slot's bytes are as
 * in the empty table. Nothing is to be sent. Refused by 30, 31.
 */
uint64_t duskstall_registrar_close(uint8_t *table, size_t table_len, const uint8_t *id, size_t id_len,
                                   uint8_t *answer, size_t answer_len);

/* ---- The end entity ---------------------------------------------------------------------------------------------- */

/*
 * In every call:
 *
 *   enrolment, enrolment_len   DUSKSTALL_ENROLMENT_BYTES; begun by duskstall_end_entity_start, changed by calls that
 *                              are done
 *   answer, answer_len         at least DUSKSTALL_END_ENTITY_ANSWER_BYTES; written
 *   nonce, nonce_len           DUSKSTALL_NONCE_BYTES: fresh, as at the registrar
 *
 * All return DONE or REFUSED; or, with no array changed, NO_STATE, NO_ROOM and, where an id, a nonce or a hash is
 * handed in, BAD_LENGTH. An end entity never sends an error.
 */

/*
 * Starts an enrolment: it is Asked, and the request is to be sent.
 *
 *   enrolment    may hold anything before, which is lost; left as it was if the start is refused
 *   kind         DUSKSTALL_IR, DUSKSTALL_CR, DUSKSTALL_P10CR or DUSKSTALL_KUR
 *   id, id_len   DUSKSTALL_ID_BYTES: fresh, the transactionID of all its messages
 *
 * Refused by 32.
 */
uint64_t duskstall_end_entity_start(uint8_t *enrolment, size_t enrolment_len, uint8_t kind,
                                    const uint8_t *id, size_t id_len, const uint8_t *nonce, size_t nonce_len,
                                    uint8_t *answer, size_t answer_len);

/*
 * A message came.
 *
 *   message, message_len   any bytes, any number of them
 *   good                   DUSKSTALL_VERDICT_GOOD: the protection was made with the registrar's key; every other
 *                          number: it is bad, or absent
 *   accept                 DUSKSTALL_DECISION_ACCEPT: the host accepts the certificate in it; every other number: it
 *                          does not; used at a response of status 0 or 1
 *   hash, hash_len         DUSKSTALL_HASH_BYTES: of that certificate; used at a response of status 0 or 1
 *
 * The response to its request, at Asked: status 2 gives Failed; 0 or 1 gives Confirming or Declining, and a certConf
 * with status 0 or 2 and the hash is to be sent. A pkiConf: Confirming becomes Sure, Declining Declined. An error with
 * status 2: Asked becomes Failed, Confirming and Declining become Unsettled. Each has the enrolment's id and, as
 * recipNonce, the nonce that it sent last. All else is refused by 1 to 8, 12, 14, 15, 16, 18, 20, 21.
 */
uint64_t duskstall_end_entity_message(uint8_t *enrolment, size_t enrolment_len, const uint8_t *message,
                                      size_t message_len, uint8_t good, uint8_t accept, const uint8_t *hash,
                                      size_t hash_len, const uint8_t *nonce, size_t nonce_len, uint8_t *answer,
                                      size_t answer_len);

/*
 * The host gives up waiting: Asked becomes Failed, Confirming and Declining become Unsettled. Nothing is to be sent.
 * Refused by 31.
 */
uint64_t duskstall_end_entity_time_out(uint8_t *enrolment, size_t enrolment_len, uint8_t *answer, size_t answer_len);

#ifdef __cplusplus
}
#endif

#endif
