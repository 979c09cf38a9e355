// The hand-written table (baseline/table.c) under other names, so that it can stand beside the one under test; and one call of the
// table written for speed (baseline/expert.c).
#ifndef HAND_WRITTEN_H
#define HAND_WRITTEN_H

#include "ration_table.h"

ration_answer hand_written_start_format(const uint32_t *card, size_t card_words, uint32_t *state, size_t state_words);
ration_answer hand_written_open(const uint32_t *card, size_t card_words, uint32_t *state, size_t state_words);
ration_answer hand_written_find(const uint32_t *card, size_t card_words, uint32_t key);
ration_answer hand_written_next(const uint32_t *card, size_t card_words, uint32_t after);
ration_answer expert_next(const uint32_t *card, size_t card_words, uint32_t after);
ration_answer hand_written_start_insert(const uint32_t *card, size_t card_words, uint32_t *state, size_t state_words,
                                        uint32_t key, uint32_t value);
ration_answer hand_written_start_delete(const uint32_t *card, size_t card_words, uint32_t *state, size_t state_words,
                                        uint32_t key);
ration_answer hand_written_step(uint32_t *card, size_t card_words, uint32_t *state, size_t state_words);
ration_answer hand_written_family_total(const uint32_t *state, size_t state_words, uint32_t family);
ration_answer hand_written_read_dump(const uint8_t *dump, size_t dump_bytes, uint32_t *words, size_t words_lent);
ration_answer hand_written_write_dump(const uint32_t *card, size_t card_words, uint8_t *bytes, size_t bytes_lent);

#endif
