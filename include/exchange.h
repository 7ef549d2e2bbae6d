/* The engine and the check of certificates for C.
 *
 * A handle begins as EXCHANGE_SHUT, and only these calls change it. Each handle that is open holds a
 * session of its own: a ledger, the number of its next line, and its last reply. Sessions share
 * nothing, and nothing is kept outside them. A handle is used by one call at a time, and stays on
 * the thread that opened it. No pointer is null, also where its length is 0.
 *
 * What each call does is proved for what C passes as it is said here; nothing checks that C does. */
#ifndef EXCHANGE_H
#define EXCHANGE_H

#include <stdbool.h>
#include <stddef.h>
#include <stdint.h>

#ifdef __cplusplus
extern "C" {
#endif

enum exchange_status {
    EXCHANGE_DONE = 0,
    EXCHANGE_MEMORY = 1, /* memory was wanted, and nothing has changed */
    EXCHANGE_IS_SHUT = 2, /* the handle has no session */
    EXCHANGE_IS_OPEN = 3, /* the handle has a session already */
    EXCHANGE_BROKEN = 4, /* the bytes are more than one line: a newline stands among them */
    EXCHANGE_FULL = 5 /* the session has no number left for another line */
};

enum exchange_verdict {
    EXCHANGE_YES = 0,
    EXCHANGE_BAD_CERT = 1, /* the bytes are no certificate */
    EXCHANGE_BAD_ROUTE = 2, /* the legs are no leg-by-leg route of the pools */
    EXCHANGE_BAD_DELIVERED = 3, /* the legs deliver another amount */
    EXCHANGE_BAD_BOUND = 4 /* the bound is not that of the prices */
};

struct exchange {
    void *address;
    bool is_open;
};

#define EXCHANGE_SHUT {NULL, false}

struct exchange_answered {
    uint8_t status; /* enum exchange_status */
    size_t length; /* of the whole reply, also where less of it fits; 0 where there is none */
};

struct exchange_checked {
    uint8_t status; /* EXCHANGE_DONE or EXCHANGE_MEMORY */
    uint8_t verdict; /* enum exchange_verdict, where the status is EXCHANGE_DONE */
    uint64_t delivered; /* what the legs deliver, after a yes */
    size_t length; /* of the bound's digits, after a yes */
};

/* Room for the digits of any bound. */
#define EXCHANGE_BOUND_ROOM 39

/* Opens a session on the empty ledger: EXCHANGE_DONE, EXCHANGE_MEMORY or EXCHANGE_IS_OPEN. */
uint8_t exchange_open(struct exchange *handle);

/* Answers one line, given without its newline, and copies as much of the reply as fits. The reply
 * ends in a newline; that of a blank line is empty. A line that is not answered changes nothing, and
 * neither does one that the reply refuses. */
struct exchange_answered exchange_answer(struct exchange *handle, const uint8_t *line,
                                         size_t line_length, uint8_t *room, size_t room_length);

/* Copies as much of the last reply as fits, for whoever had too little room for it. */
struct exchange_answered exchange_reply(struct exchange *handle, uint8_t *room,
                                        size_t room_length);

/* Ends the session, where there is one, and gives its memory back. */
void exchange_close(struct exchange *handle);

/* Checks a certificate. After a yes, what its legs deliver is told and the digits of its bound are
 * copied: no route over its pools delivers more than the bound. */
struct exchange_checked exchange_check(const uint8_t *bytes, size_t length, uint8_t *room,
                                       size_t room_length);

#ifdef __cplusplus
}
#endif

#endif
