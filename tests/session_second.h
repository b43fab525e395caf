/* session_second.h - the second model's session behind the calls of include/dlaveth.h, over the same bytes. */
#ifndef SESSION_SECOND_H
#define SESSION_SECOND_H

#include "session_call.h"

int32_t session_second_open(int32_t address, uint8_t *session, size_t session_len);
feed_function session_second_feed;

#endif
