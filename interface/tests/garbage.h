// Words that no call left so.
#ifndef GARBAGE_H
#define GARBAGE_H

#include <stdbool.h>
#include <stdint.h>

#include "random.h"

// Any words, most of them small; or a right header, and nodes of any kind that link to any others.
void make_garbage_card(uint32_t *card, uint32_t nodes, bool header, random_stream *random);

// Any words; or likely ones: the right N, something in progress, a plan in hand with likely places, any depth.
void make_garbage_state(uint32_t *state, uint32_t nodes, bool likely, random_stream *random);

#endif
