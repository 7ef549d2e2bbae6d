/* Answers each line of standard input on standard output, as `exchange run` does; with the word
 * `check` it takes standard input for a certificate, as `exchange check` does. */
#define _POSIX_C_SOURCE 200809L /* getline */

#include <stdio.h>
#include <stdlib.h>
#include <string.h>
#include <sys/types.h>

#include "exchange.h"

enum { NO = 1, USAGE = 2, MEMORY = 5 };

static const char *const codes[] = {"yes", "BAD_CERT", "BAD_ROUTE", "BAD_DELIVERED", "BAD_BOUND"};

static int lack(void) {
    fputs("session: out of memory\n", stderr);
    return MEMORY;
}

/* Room for a text of this length. */
static uint8_t *grown(uint8_t *room, size_t *size, size_t length) {
    uint8_t *more = realloc(room, length);
    if (more != NULL) *size = length;
    return more;
}

static int run(void) {
    struct exchange handle = EXCHANGE_SHUT;
    if (exchange_open(&handle) != EXCHANGE_DONE) return lack();
    size_t size = 0, line_size = 0;
    uint8_t *room = grown(NULL, &size, 4096);
    char *line = NULL;
    int status = room == NULL ? lack() : 0;
    ssize_t length;
    while (status == 0 && (length = getline(&line, &line_size, stdin)) >= 0) {
        if (length > 0 && line[length - 1] == '\n') length--;
        struct exchange_answered given =
            exchange_answer(&handle, (const uint8_t *)line, (size_t)length, room, size);
        if (given.status == EXCHANGE_DONE && given.length > size) {
            uint8_t *more = grown(room, &size, given.length);
            if (more != NULL) room = more;
            given = exchange_reply(&handle, room, size);
            if (more == NULL) given.status = EXCHANGE_MEMORY;
        }
        if (given.status != EXCHANGE_DONE) {
            status = lack();
        } else {
            fwrite(room, 1, given.length, stdout);
        }
    }
    free(line);
    free(room);
    exchange_close(&handle);
    return status;
}

static int check(void) {
    static uint8_t bytes[1 << 20];
    uint8_t digits[EXCHANGE_BOUND_ROOM];
    size_t length = fread(bytes, 1, sizeof bytes, stdin);
    struct exchange_checked found = exchange_check(bytes, length, digits, sizeof digits);
    if (found.status != EXCHANGE_DONE) return lack();
    if (found.verdict != EXCHANGE_YES) {
        printf("[\"no\",\"%s\"]\n", codes[found.verdict]);
        return NO;
    }
    printf("[\"yes\",%llu,\"%.*s\"]\n", (unsigned long long)found.delivered, (int)found.length,
           (const char *)digits);
    return 0;
}

int main(int count, char **words) {
    if (count == 1) return run();
    if (count == 2 && strcmp(words[1], "check") == 0) return check();
    fputs("usage: session | session check\n", stderr);
    return USAGE;
}
