/* Calls with their expected answers, as rust/cases writes them
 * (rust/cases/src/calls.rs). */
#ifndef CALLS_H
#define CALLS_H

#include <stdint.h>
#include <stdio.h>
#include <stdlib.h>

#include "galzpuna.h"

enum { JUDGE, RESOLVE, DRAW, ROUNDS, SERVICES };

static const char *const service_names[SERVICES] = {"judge", "resolve", "draw", "rounds"};

/* A call's slices in one array: map, placing, input, and the buffer that is
 * expected, up to its last byte that isn't zero. */
struct call {
    uint32_t service;
    uint32_t lengths[3]; /* map, placing, input */
    uint32_t room;       /* length of the buffer */
    uint32_t number, place;
    uint32_t told; /* length of what is told of the buffer */
    uint8_t *bytes;
    size_t capacity;
};

/* The slice of a file, or what is told of the buffer (3). */
static inline const uint8_t *slice_of(const struct call *call, int index) {
    const uint8_t *bytes = call->bytes;
    for (int i = 0; i < index; i++)
        bytes += call->lengths[i];
    return bytes;
}

static inline uint32_t number_at(const uint8_t *bytes) {
    return (uint32_t)bytes[0] | (uint32_t)bytes[1] << 8 | (uint32_t)bytes[2] << 16 |
           (uint32_t)bytes[3] << 24;
}

static inline void *checked(void *memory) {
    if (memory == NULL) {
        perror("memory");
        exit(2);
    }
    return memory;
}

/* Reads the next call; 0 at the end. Ends the program if one is cut short. */
static inline int next_call(FILE *in, struct call *call) {
    uint8_t head[32];
    size_t count = fread(head, 1, sizeof head, in);
    if (count == 0 && feof(in))
        return 0;
    uint32_t numbers[8] = {0};
    for (int i = 0; i < 8; i++)
        numbers[i] = number_at(head + 4 * i);
    call->service = numbers[0];
    for (int i = 0; i < 3; i++)
        call->lengths[i] = numbers[1 + i];
    call->room = numbers[4];
    call->number = numbers[5];
    call->place = numbers[6];
    call->told = numbers[7];
    size_t length = (size_t)numbers[1] + numbers[2] + numbers[3] + call->told;
    if (count != sizeof head || call->service >= SERVICES || call->told > call->room) {
        fprintf(stderr, "not a file of calls\n");
        exit(2);
    }
    if (call->bytes == NULL || length > call->capacity) {
        free(call->bytes);
        call->bytes = checked(malloc(length + 1));
        call->capacity = length;
    }
    if (fread(call->bytes, 1, length, in) != length) {
        fprintf(stderr, "a call is cut short\n");
        exit(2);
    }
    return 1;
}

/* Calls the service over slices with the call's lengths. */
static inline galzpuna_answer perform(const struct call *call, const uint8_t *map,
                                      const uint8_t *placing, const uint8_t *input,
                                      uint8_t *buffer) {
    const uint32_t *lengths = call->lengths;
    switch (call->service) {
    case JUDGE:
        return galzpuna_judge(map, lengths[0], placing, lengths[1], input, lengths[2]);
    case RESOLVE:
        return galzpuna_resolve(map, lengths[0], placing, lengths[1], input, lengths[2], buffer,
                                call->room);
    case DRAW:
        return galzpuna_draw(map, lengths[0], placing, lengths[1], input, lengths[2], buffer,
                             call->room);
    default:
        return galzpuna_rounds(map, lengths[0], placing, lengths[1], input, lengths[2], buffer,
                               call->room);
    }
}

#endif
