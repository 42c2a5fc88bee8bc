/*
 * Faults at the boundary: makes the calls that it reads from standard input
 * and compares number, place and the whole buffer with the Rust version's.
 * Each slice is lent where a byte too far is noticed:
 *
 *   faults heap    in a heap block of exactly its length: for AddressSanitizer
 *                  and valgrind
 *   faults ends    last before a page that can't be touched, files read-only
 *   faults starts  first after such a page, files read-only
 *
 * Ends with status 1 at a difference. The other words plant a fault, which the
 * tool must report:
 *
 *   faults past    the host reads the byte after a heap block
 *   faults overflow    the host adds past the largest int
 *   faults lie heap|ends    the map's length is told one block too long, so
 *                  that the library reads past the slice
 */
#define _GNU_SOURCE
#include <limits.h>
#include <stdio.h>
#include <stdlib.h>
#include <string.h>

#include "blocks.h"
#include "calls.h"
#include "pages.h"

enum { FILES = 3, SLICES = 4, DIRT = 0xa5 };

enum lending { HEAP, ENDS, STARTS };

/* Somewhere for so many bytes. */
static uint8_t *lend(enum lending lending, struct pages *pages, size_t length) {
    if (lending == HEAP)
        return checked(malloc(length));
    reserve(pages, length);
    protect(pages, PROT_READ | PROT_WRITE);
    return lending == STARTS ? pages->first : end_of(pages, length);
}

static void copy(uint8_t *to, const uint8_t *from, size_t length) {
    if (length > 0)
        memcpy(to, from, length);
}

static int same(const uint8_t *one, const uint8_t *other, size_t length) {
    return length == 0 || memcmp(one, other, length) == 0;
}

/* Whether the buffer is as expected: what is told, then zero. */
static int is_told(const struct call *call, const uint8_t *buffer) {
    if (!same(buffer, slice_of(call, FILES), call->told))
        return 0;
    for (size_t i = call->told; i < call->room; i++)
        if (buffer[i] != 0)
            return 0;
    return 1;
}

/* Makes a call; 0 if something differs. */
static int make(const struct call *call, enum lending lending, struct pages *pages) {
    uint8_t *lent[SLICES];
    for (int i = 0; i < FILES; i++) {
        lent[i] = lend(lending, pages + i, call->lengths[i]);
        copy(lent[i], slice_of(call, i), call->lengths[i]);
        if (lending != HEAP)
            protect(pages + i, PROT_READ);
    }
    uint8_t *buffer = lent[FILES] = lend(lending, pages + FILES, call->room);
    if (call->room > 0)
        memset(buffer, DIRT, call->room);

    galzpuna_answer answer = perform(call, lent[0], lent[1], lent[2], buffer);

    int is_same = answer.number == call->number && answer.place == call->place;
    if (!is_same)
        fprintf(stderr, "%s gives %u %u, expected %u %u\n", service_names[call->service],
                answer.number, answer.place, call->number, call->place);
    else if (!is_told(call, buffer)) {
        fprintf(stderr, "%s leaves another buffer\n", service_names[call->service]);
        is_same = 0;
    }
    for (int i = 0; i < FILES; i++)
        if (!same(lent[i], slice_of(call, i), call->lengths[i])) {
            fprintf(stderr, "%s changed a file\n", service_names[call->service]);
            is_same = 0;
        }
    if (lending == HEAP)
        for (int i = 0; i < SLICES; i++)
            free(lent[i]);
    return is_same;
}

static int run(enum lending lending) {
    struct call call = {0};
    struct pages pages[SLICES] = {{0}};
    unsigned long counts[SERVICES] = {0}, total = 0, done = 0, lent = 0;
    uint32_t longest = 0;
    for (; next_call(stdin, &call); total++) {
        if (!make(&call, lending, pages)) {
            fprintf(stderr, "call %lu differs\n", total);
            return 1;
        }
        counts[call.service]++;
        done += call.number == 0;
        lent += (unsigned long)call.lengths[0] + call.lengths[1] + call.lengths[2] + call.room;
        if (call.room > longest)
            longest = call.room;
    }
    free(call.bytes);
    printf("%lu calls agree (", total);
    for (int i = 0; i < SERVICES; i++)
        printf("%s%s %lu", i == 0 ? "" : ", ", service_names[i], counts[i]);
    printf("; %lu of them done, longest buffer %u, %lu bytes lent)\n", done, longest, lent);
    return total == 0;
}

/* Reads the byte after a heap block. */
static int read_past(void) {
    volatile size_t length = BLOCK;
    uint8_t *block = checked(malloc(length));
    memset(block, DIRT, length);
    int byte = ((volatile uint8_t *)block)[length];
    free(block);
    return byte < 0;
}

/* Adds past the largest int. */
static int overflow(void) {
    volatile int most = INT_MAX;
    most = most + 1;
    return 0;
}

/* Judges with the map told one block longer than it is: its one block is the
 * first of two by its fill, so that the library goes on to the next. */
static int lie(enum lending lending) {
    static const uint8_t payload[2 * PAYLOAD];
    uint8_t file[2 * BLOCK];
    write_file(file, MAP, payload, sizeof payload);
    struct pages pages = {0};
    uint8_t *map = lend(lending, &pages, BLOCK);
    copy(map, file, BLOCK);
    galzpuna_answer answer = galzpuna_judge(map, 2 * BLOCK, map, BLOCK, map, BLOCK);
    printf("%u %u\n", answer.number, answer.place);
    if (lending == HEAP)
        free(map);
    return 0;
}

int main(int count, char **words) {
    const char *word = count > 1 ? words[1] : "";
    const char *second = count > 2 ? words[2] : "";
    if (strcmp(word, "heap") == 0)
        return run(HEAP);
    if (strcmp(word, "ends") == 0)
        return run(ENDS);
    if (strcmp(word, "starts") == 0)
        return run(STARTS);
    if (strcmp(word, "past") == 0)
        return read_past();
    if (strcmp(word, "overflow") == 0)
        return overflow();
    if (strcmp(word, "lie") == 0 && strcmp(second, "heap") == 0)
        return lie(HEAP);
    if (strcmp(word, "lie") == 0 && strcmp(second, "ends") == 0)
        return lie(ENDS);
    fprintf(stderr,
            "faults heap|ends|starts < CALLS\nfaults past|overflow\nfaults lie heap|ends\n");
    return 2;
}
