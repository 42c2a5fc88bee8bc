/* An input of the fuzzer: the service, three bytes of the length of the buffer,
 * two each of map and placing, lowest first, then map, placing and plan or move
 * list (rust/cases/src/calls.rs writes the same). Bit 2 of the first byte says
 * where slices are lent: last before a guard page, or first after one. */
#ifndef INPUT_H
#define INPUT_H

#include <stddef.h>
#include <stdint.h>

enum { JUDGE, RESOLVE, DRAW, ROUNDS };
enum { OF_MAP, OF_PLACING, OF_INPUT, FILES };
enum { INPUT_HEAD = 8, LONGEST_ROOM = 66236 };

struct input {
    unsigned service;
    unsigned is_at_start;
    size_t room;
    const uint8_t *files[FILES];
    size_t lengths[FILES];
};

/* Takes any bytes of at least INPUT_HEAD as an input. */
static inline struct input input_of(const uint8_t *data, size_t size) {
    struct input input;
    input.service = data[0] & 3;
    input.is_at_start = data[0] >> 2 & 1;
    size_t room = (size_t)data[1] | (size_t)data[2] << 8 | (size_t)data[3] << 16;
    input.room = room % (LONGEST_ROOM + 1);
    size_t left = size - INPUT_HEAD;
    size_t lengths[FILES] = {(size_t)data[4] | (size_t)data[5] << 8,
                             (size_t)data[6] | (size_t)data[7] << 8, left};
    const uint8_t *file = data + INPUT_HEAD;
    for (int i = 0; i < FILES; i++) {
        input.files[i] = file;
        input.lengths[i] = lengths[i] < left ? lengths[i] : left;
        file += input.lengths[i];
        left -= input.lengths[i];
    }
    return input;
}

#endif
