/* chip_bytes.h - the bytes of a chip (docs/LAYOUT.md) and the second model's chip, one from the other. */
#ifndef CHIP_BYTES_H
#define CHIP_BYTES_H

#include "dlaveth.h"
#include "second.h"

#include <stdbool.h>

/* The layout's number and a channel's length; where the registers and the channels begin, and where the bytes without a meaning do. */
enum { CHIP_LAYOUT = DLAVETH_CHIP_LAYOUT, CHIP_CHANNEL = 11, CHIP_REGISTERS_AT = 6, CHIP_LOCAL_AT = 20, CHIP_REMOTE_AT = 31, CHIP_MEANING = 42 };

void chip_encode(const second_chip *c, uint8_t bytes[DLAVETH_CHIP_BYTES]);

/* Whether bytes are a saved chip: the layout's number, flags of 0 or 1, zeros behind. */
bool chip_is_saved(const uint8_t *bytes);

/* Whether the state that saved bytes hold is well formed; if so it is *c. */
bool chip_decode(const uint8_t *bytes, second_chip *c);

#endif
