/*
 * session_bytes.h - the bytes of a session (docs/LAYOUT.md) and the second model's session, one from the other; and which bytes are one.
 * The second model's own session does not hold counts and marks against each other, so the judge is here, and is the tests' own.
 */
#ifndef SESSION_BYTES_H
#define SESSION_BYTES_H

#include "dlaveth.h"
#include "second_session.h"

#include <stdbool.h>

/* Where the parts of a session begin. */
enum {
    SESSION_LAYOUT = 0, SESSION_ENDED = 1, SESSION_STOPPED = 2, SESSION_CARRIED_LEN = 3, SESSION_RECORDS = 4, SESSION_USED = 8, SESSION_WRITTEN = 12,
    SESSION_CARRIED = 16, SESSION_NOTHING = 54, SESSION_CHIP = 128
};

/* A number of 4 bytes, low byte first. */
uint32_t session_word(const uint8_t *from);
void session_put_word(uint8_t *to, uint32_t number);

/* Whether the bytes are a session. */
bool session_judge(const uint8_t *bytes);

void session_encode(const second_session *s, uint8_t bytes[DLAVETH_SESSION_BYTES]);

/* Of bytes that are a session. */
void session_decode(const uint8_t *bytes, second_session *s);

#endif
