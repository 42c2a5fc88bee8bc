/* The Rust version's services (rust/shim), as those of galzpuna.h. */
#ifndef RUST_H
#define RUST_H

#include "../galzpuna.h"

galzpuna_answer rust_judge(const uint8_t *map, size_t map_length, const uint8_t *placing,
                           size_t placing_length, const uint8_t *plan, size_t plan_length);
galzpuna_answer rust_resolve(const uint8_t *map, size_t map_length, const uint8_t *placing,
                             size_t placing_length, const uint8_t *plan, size_t plan_length,
                             uint8_t *buffer, size_t buffer_length);
galzpuna_answer rust_draw(const uint8_t *map, size_t map_length, const uint8_t *placing,
                          size_t placing_length, const uint8_t *moves, size_t moves_length,
                          uint8_t *buffer, size_t buffer_length);
galzpuna_answer rust_rounds(const uint8_t *map, size_t map_length, const uint8_t *placing,
                            size_t placing_length, const uint8_t *moves, size_t moves_length,
                            uint8_t *buffer, size_t buffer_length);

#endif
