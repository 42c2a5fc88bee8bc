/*
 * Makes the call of an input on the proved library and on the Rust version
 * (rust/shim), and stops at any difference in number, place or buffer, or if a
 * file was changed. Slices are lent beside guard pages.
 */
#define _GNU_SOURCE
#include <stdio.h>
#include <stdlib.h>
#include <string.h>

#include "../galzpuna.h"
#include "../pages.h"
#include "input.h"
#include "rust.h"

enum { LONGEST_FILE = 1 << 20, DIRT = 0xa5 };

static struct pages file_pages[FILES], proved_pages, rust_pages;

static uint8_t *lend(struct pages *pages, const struct input *input, size_t length) {
    return input->is_at_start ? pages->first : end_of(pages, length);
}

/* The services of one implementation. */
struct implementation {
    galzpuna_answer (*judge)(const uint8_t *, size_t, const uint8_t *, size_t, const uint8_t *,
                             size_t);
    galzpuna_answer (*resolve)(const uint8_t *, size_t, const uint8_t *, size_t, const uint8_t *,
                               size_t, uint8_t *, size_t);
    galzpuna_answer (*draw)(const uint8_t *, size_t, const uint8_t *, size_t, const uint8_t *,
                            size_t, uint8_t *, size_t);
    galzpuna_answer (*rounds)(const uint8_t *, size_t, const uint8_t *, size_t, const uint8_t *,
                              size_t, uint8_t *, size_t);
};

static const struct implementation of_proved = {galzpuna_judge, galzpuna_resolve, galzpuna_draw,
                                                galzpuna_rounds};
static const struct implementation of_rust = {rust_judge, rust_resolve, rust_draw, rust_rounds};

static galzpuna_answer call(const struct implementation *of, const struct input *input,
                            uint8_t *const files[FILES], uint8_t *buffer) {
    const size_t *lengths = input->lengths;
    if (input->service == JUDGE)
        return of->judge(files[0], lengths[0], files[1], lengths[1], files[2], lengths[2]);
    return (input->service == RESOLVE ? of->resolve
            : input->service == DRAW  ? of->draw
                                      : of->rounds)(files[0], lengths[0], files[1], lengths[1],
                                                   files[2], lengths[2], buffer, input->room);
}

/* Answers of each service, by number. */
enum { NUMBERS = 64, SERVICES = 4 };
static unsigned long tally[SERVICES][NUMBERS];

static void print_tally(void) {
    static const char *const names[SERVICES] = {"judge", "resolve", "draw", "rounds"};
    for (int service = 0; service < SERVICES; service++) {
        fprintf(stderr, "answers of %s (number:times):", names[service]);
        for (int number = 0; number < NUMBERS; number++)
            if (tally[service][number] > 0)
                fprintf(stderr, " %d:%lu", number, tally[service][number]);
        fprintf(stderr, "\n");
    }
}

int LLVMFuzzerInitialize(int *count, char ***words) {
    (void)count;
    (void)words;
    atexit(print_tally);
    for (int i = 0; i < FILES; i++) {
        reserve(file_pages + i, LONGEST_FILE);
        protect(file_pages + i, PROT_READ | PROT_WRITE);
    }
    reserve(&proved_pages, LONGEST_ROOM);
    protect(&proved_pages, PROT_READ | PROT_WRITE);
    reserve(&rust_pages, LONGEST_ROOM);
    protect(&rust_pages, PROT_READ | PROT_WRITE);
    return 0;
}

int LLVMFuzzerTestOneInput(const uint8_t *data, size_t size) {
    if (size < INPUT_HEAD || size > LONGEST_FILE)
        return -1;
    struct input input = input_of(data, size);
    uint8_t *files[FILES];
    for (int i = 0; i < FILES; i++) {
        files[i] = lend(file_pages + i, &input, input.lengths[i]);
        memcpy(files[i], input.files[i], input.lengths[i]);
    }
    uint8_t *proved = lend(&proved_pages, &input, input.room);
    uint8_t *rust = lend(&rust_pages, &input, input.room);
    memset(proved, DIRT, input.room);
    memset(rust, DIRT, input.room);

    galzpuna_answer one = call(&of_proved, &input, files, proved);
    for (int i = 0; i < FILES; i++)
        if (memcmp(files[i], input.files[i], input.lengths[i]) != 0) {
            fprintf(stderr, "file %d was changed\n", i);
            abort();
        }
    galzpuna_answer other = call(&of_rust, &input, files, rust);
#ifdef PLANTED
    /* A difference that the run must find: a rare refusal with another number. */
    if (one.number == PLANTED)
        one.number++;
#endif
    if (one.number != other.number || one.place != other.place ||
        memcmp(proved, rust, input.room) != 0) {
        fprintf(stderr, "service %u: proved %u %u, Rust %u %u%s\n", input.service, one.number,
                one.place, other.number, other.place,
                memcmp(proved, rust, input.room) == 0 ? "" : ", buffers differ");
        abort();
    }
    if (one.number < NUMBERS)
        tally[input.service][one.number]++;
    return 0;
}
