/*
 * How much stack a call takes. Makes the calls that it reads from standard
 * input on a thread whose stack is painted below the caller before each call,
 * and looks for the lowest byte that changed. Ends with status 1 if any service
 * took more than GALZPUNA_STACK.
 */
#define _GNU_SOURCE
#include <pthread.h>
#include <stdio.h>
#include <stdlib.h>
#include <string.h>
#include <sys/mman.h>

#include "calls.h"

/* Bytes painted below the caller; far more than is needed. */
enum { PAINTED = 128 * 1024, STACK = 4 * PAINTED, ROOM = 66 * 1024 };

#define PAINT UINT64_C(0x9d3b5ac1e7f00d42)

static uint8_t buffer[ROOM];
static size_t most[SERVICES];
static unsigned long counts[SERVICES];
static uint8_t *stack;

/* Makes one call and gives the bytes from this frame down to the lowest byte
 * that changed. */
__attribute__((noinline)) static size_t depth_of(const struct call *call) {
    uint8_t *top = __builtin_frame_address(0);
    /* Below this frame, whose own bytes are few. */
    volatile uint64_t *high = (volatile uint64_t *)((uintptr_t)(top - 512) & ~(uintptr_t)7);
    volatile uint64_t *low = high - PAINTED / 8;
    if ((uint8_t *)low < stack) {
        fprintf(stderr, "the stack is too small to measure on\n");
        exit(2);
    }
    for (volatile uint64_t *word = low; word < high; word++)
        *word = PAINT;
    galzpuna_answer answer =
        perform(call, slice_of(call, 0), slice_of(call, 1), slice_of(call, 2), buffer);
    if (answer.number != call->number || answer.place != call->place) {
        fprintf(stderr, "another answer than expected\n");
        exit(1);
    }
    volatile uint64_t *word = low;
    while (word < high && *word == PAINT)
        word++;
    if (word == low) {
        fprintf(stderr, "more than is painted\n");
        exit(1);
    }
    return (size_t)(top - (uint8_t *)word);
}

static void *measure(void *in) {
    struct call call = {0};
    while (next_call(in, &call)) {
        if (call.room > ROOM) {
            fprintf(stderr, "a longer buffer than is measured with\n");
            exit(2);
        }
        size_t depth = depth_of(&call);
        if (depth > most[call.service])
            most[call.service] = depth;
        counts[call.service]++;
    }
    free(call.bytes);
    return NULL;
}

int main(void) {
    stack = mmap(NULL, STACK, PROT_READ | PROT_WRITE, MAP_PRIVATE | MAP_ANONYMOUS, -1, 0);
    pthread_attr_t attributes;
    pthread_t thread;
    if (stack == MAP_FAILED || pthread_attr_init(&attributes) != 0 ||
        pthread_attr_setstack(&attributes, stack, STACK) != 0 ||
        pthread_create(&thread, &attributes, measure, stdin) != 0 ||
        pthread_join(thread, NULL) != 0) {
        fprintf(stderr, "no thread to measure on\n");
        return 2;
    }
    int status = 0;
    for (int service = 0; service < SERVICES; service++) {
        printf("%s: %zu bytes of stack in %lu calls\n", service_names[service], most[service],
               counts[service]);
        if (counts[service] == 0 || most[service] > GALZPUNA_STACK) {
            fprintf(stderr, "%s: none measured, or more than GALZPUNA_STACK (%d)\n",
                    service_names[service], GALZPUNA_STACK);
            status = 1;
        }
    }
    return status;
}
