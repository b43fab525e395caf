/* session_bytes.c - see session_bytes.h. */
#include "session_bytes.h"
#include "chip_bytes.h"

#include <string.h>

uint32_t session_word(const uint8_t *from)
{
    return (uint32_t)from[0] | (uint32_t)from[1] << 8 | (uint32_t)from[2] << 16 | (uint32_t)from[3] << 24;
}

void session_put_word(uint8_t *to, uint32_t number)
{
    for (int i = 0; i < 4; i++)
        to[i] = (uint8_t)(number >> 8 * i);
}

/* ---- the judge ---- */

/* How much of a number's line, from its minus or first digit, stands at the start of the text: its length with the newline; 0 if the text
   ends within it; -1 if it is none, whatever comes behind. */
static int number_line(const uint8_t *text, size_t len)
{
    size_t minus = len > 0 && text[0] == '-', at = minus;

    while (at < len && at - minus < 5 && text[at] >= '0' && text[at] <= '9')
        at++;
    size_t digits = at - minus;
    if (digits > 0 && text[minus] == '0' && (minus || digits > 1))
        return -1;
    if (at == len)
        return 0;
    return digits > 0 && text[at] == '\n' ? (int)at + 1 : -1;
}

/* Whether the text is a part of a record and not all of one: more bytes could complete it. */
static bool is_part(const uint8_t *text, size_t len)
{
    static const char *const names[] = { "kind=", "a=", "b=", "c=" };

    for (int line = 0; line < 4; line++) {
        size_t name = strlen(names[line]);
        int number;

        if (memcmp(text, names[line], len < name ? len : name) != 0)
            return false;
        if (len <= name)
            return true;
        number = number_line(text + name, len - name);
        if (number <= 0)
            return number == 0;
        text += name + (size_t)number;
        len -= name + (size_t)number;
    }
    return false;
}

/* Whether `count` things of `least` to `most` bytes can be `bytes` long together. */
static bool fits(uint64_t count, uint64_t bytes, uint64_t least, uint64_t most)
{
    return least * count <= bytes && bytes <= most * count;
}

bool session_judge(const uint8_t *bytes)
{
    uint32_t records = session_word(bytes + SESSION_RECORDS);
    uint32_t used = session_word(bytes + SESSION_USED), written = session_word(bytes + SESSION_WRITTEN);
    size_t carried = bytes[SESSION_CARRIED_LEN];
    bool ended = bytes[SESSION_ENDED], stopped = bytes[SESSION_STOPPED];
    second_chip chip;

    if (bytes[SESSION_LAYOUT] != 1 || bytes[SESSION_ENDED] > 1 || bytes[SESSION_STOPPED] > 1 || carried > 38)
        return false;
    if (!fits(records, used, 19, 39) || !fits(records, written, 31, 33) || (uint64_t)used + carried > DLAVETH_MOST_BYTES)
        return false;
    if (ended && stopped != (carried > 0))
        return false;
    if (carried > 0 && !is_part(bytes + SESSION_CARRIED, carried))
        return false;
    for (size_t i = SESSION_CARRIED + carried; i < SESSION_CHIP; i++)
        if (bytes[i] != 0)
            return false;
    return chip_is_saved(bytes + SESSION_CHIP) && chip_decode(bytes + SESSION_CHIP, &chip);
}

/* ---- from and to bytes ---- */

void session_encode(const second_session *s, uint8_t bytes[DLAVETH_SESSION_BYTES])
{
    memset(bytes, 0, DLAVETH_SESSION_BYTES);
    bytes[SESSION_LAYOUT] = 1;
    bytes[SESSION_ENDED] = (uint8_t)s->ended;
    bytes[SESSION_STOPPED] = (uint8_t)s->stopped;
    bytes[SESSION_CARRIED_LEN] = (uint8_t)s->carried_len;
    session_put_word(bytes + SESSION_RECORDS, s->records);
    session_put_word(bytes + SESSION_USED, s->used);
    session_put_word(bytes + SESSION_WRITTEN, s->written);
    memcpy(bytes + SESSION_CARRIED, s->carried, sizeof s->carried);
    chip_encode(&s->chip, bytes + SESSION_CHIP);
}

void session_decode(const uint8_t *bytes, second_session *s)
{
    memset(s, 0, sizeof *s);
    s->ended = bytes[SESSION_ENDED];
    s->stopped = bytes[SESSION_STOPPED];
    s->carried_len = bytes[SESSION_CARRIED_LEN];
    s->records = session_word(bytes + SESSION_RECORDS);
    s->used = session_word(bytes + SESSION_USED);
    s->written = session_word(bytes + SESSION_WRITTEN);
    memcpy(s->carried, bytes + SESSION_CARRIED, sizeof s->carried);
    (void)chip_decode(bytes + SESSION_CHIP, &s->chip);
}
