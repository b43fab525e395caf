/* damage.h - what befalls a well-formed trace. */
#ifndef DAMAGE_H
#define DAMAGE_H

#include "random.h"
#include "trace.h"

typedef enum {
    DAMAGE_NONE,
    DAMAGE_CHANGED,         /* one byte another */
    DAMAGE_REMOVED,
    DAMAGE_INSERTED,
    DAMAGE_CUT,             /* anywhere, also between records */
    DAMAGE_LEADING_ZERO,
    DAMAGE_MINUS_ZERO,
    DAMAGE_PLUS,
    DAMAGE_SIXTH_DIGIT,
    DAMAGE_RETURN,          /* byte 13 before a newline, or before every one */
    DAMAGE_ZERO_BYTE,
    DAMAGE_SWAPPED,         /* a line and the next */
    DAMAGE_NO_NEWLINE,      /* the last one */
    DAMAGE_LINE_LOST,       /* a whole line */
    DAMAGE_LINE_TWICE,
    DAMAGES
} damage;

extern const char *const damage_names[DAMAGES];

/* Damages a trace, which is not empty if there is a damage to do. */
void damage_do(damage kind, trace *t, randoms *random);

#endif
