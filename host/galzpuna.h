/*
 * Galzpuna's services for a C host. Link target/staticlib/libgalzpuna.a,
 * which tools/staticlib writes (x86-64 Linux).
 *
 * Document 01 has the formats and the meanings. Its cart is a robot here, its
 * point a vertex, its track an edge. Files are whole blocks of 512 bytes.
 *
 * What is lent. Each slice is a pointer and its length in bytes. Any content
 * and any length of a slice is answered; nothing has to be checked before a
 * call. The host sees to three things:
 *   - pointer and length tell the truth: so many bytes can be read there, and
 *     those of the buffer written, until the call returns. A length is at most
 *     PTRDIFF_MAX. No alignment is needed.
 *   - the buffer overlaps no other slice. Slices that are only read may
 *     overlap each other.
 *   - a slice of length 0 has any pointer but NULL; nothing is read or written
 *     there. A missing file counts as one of length 0.
 *
 * What comes back. Number 0 is success, and place then is the count of bytes
 * written to the front of the buffer (0 in judging); the rest of the buffer is
 * zero. Any other number is a refusal, place says where, and the whole buffer
 * is zero. The buffer's earlier content does not matter. 65,536 bytes hold any
 * answer.
 *
 * Threads and memory. The library has no variables of its own, takes no heap,
 * keeps nothing between calls and calls nothing but memcpy, memmove and memset.
 * So calls can run at the same time in any number of threads, as long as no
 * thread writes to a slice that another call is using.
 */
#ifndef GALZPUNA_H
#define GALZPUNA_H

#include <stddef.h>
#include <stdint.h>

#ifdef __cplusplus
extern "C" {
#endif

/*
 * Stack that a call takes, in bytes, from the caller's frame down.
 * host/stack.c measures it: the stack below the caller is painted, a service is
 * called, and the lowest changed byte is looked for, over generated calls of
 * every service; host/frames adds up the frames of the deepest chain of calls
 * in the archive. host/test fails if either is more. Not in it: what the
 * dynamic linker takes when a call of memcpy is bound at its first use, and
 * signal handlers.
 */
#define GALZPUNA_STACK 16384

/* A buffer of so many bytes holds any answer. */
#define GALZPUNA_LONGEST_ANSWER 65536

/* What a service returns. */
typedef struct {
    uint32_t number; /* 0, or one of enum galzpuna_number */
    uint32_t place;  /* bytes written, or where the refusal is */
} galzpuna_answer;

/* The numbers, each with its place. n is the map's vertices, k the robots. */
enum galzpuna_number {
    GALZPUNA_DONE = 0, /* success; place: bytes written */

    /* The map. */
    GALZPUNA_MAP_LENGTH = 11,   /* length 0, not whole blocks, or over 9 blocks; place: 0 */
    GALZPUNA_MAP_CHECKSUM = 12, /* checksum wrong; place: block */
    GALZPUNA_MAP_HEAD = 13,     /* bytes 0-3 wrong: kind, zero, block number; place: block */
    GALZPUNA_MAP_FILL = 14,     /* fill or padding wrong; place: block */
    GALZPUNA_MAP_PAYLOAD = 15,  /* payload ends before the field to be read, or goes on after the
                                   last; place: payload offset of that field or surplus byte */
    GALZPUNA_MAP_RANGE = 16,    /* a count or size beyond its range, or a kind of zone not from 1
                                   to 4; place: offset */
    GALZPUNA_MAP_VERTEX = 17,   /* vertex not below n, or listed twice; place: offset. Some vertex
                                   in no zone; place: the edge count's offset */
    GALZPUNA_MAP_EDGE = 18,     /* edge ends or order wrong; place: offset of its first end */
    GALZPUNA_MAP_ZONE = 19,     /* a zone not of its kind; place: lowest such zone */

    /* The placing. */
    GALZPUNA_PLACING_LENGTH = 21,   /* length 0, not whole blocks, or over 1 block; place: 0 */
    GALZPUNA_PLACING_CHECKSUM = 22, /* as 12 */
    GALZPUNA_PLACING_HEAD = 23,     /* as 13 */
    GALZPUNA_PLACING_FILL = 24,     /* as 14 */
    GALZPUNA_PLACING_PAYLOAD = 25,  /* as 15 */
    GALZPUNA_PLACING_COUNT = 26,    /* robot count above 64 or above n; place: 0 */
    GALZPUNA_PLACING_START = 27,    /* start not below n, or repeated; place: offset */
    GALZPUNA_PLACING_GOAL = 28,     /* goal not below n, or repeated; place: offset */

    /* The plan (judging, resolving). */
    GALZPUNA_PLAN_LENGTH = 31,   /* length 0, not whole blocks, or over 64 blocks; place: 0 */
    GALZPUNA_PLAN_CHECKSUM = 32, /* as 12 */
    GALZPUNA_PLAN_HEAD = 33,     /* as 13 */
    GALZPUNA_PLAN_FILL = 34,     /* as 14 */
    GALZPUNA_PLAN_PAYLOAD = 35,  /* payload ends early; place: step, 0 in the count. Goes on after
                                    the last step; place: the step count */
    GALZPUNA_PLAN_NUMBER = 36,   /* robot not below k, or vertex not below n; place: step */
    GALZPUNA_PLAN_EDGE = 37,     /* no edge, or both ends in one zone; place: step */
    GALZPUNA_PLAN_LEAVING = 38,  /* robot can't leave there; place: step */
    GALZPUNA_PLAN_ENTERING = 39, /* target zone full; else behind or follow list unmet; place:
                                    step */

    /* The move list (drawing, rounds). */
    GALZPUNA_MOVES_LENGTH = 41,   /* length 0, not whole blocks, or over 128 blocks; place: 0 */
    GALZPUNA_MOVES_CHECKSUM = 42, /* as 12 */
    GALZPUNA_MOVES_HEAD = 43,     /* as 13 */
    GALZPUNA_MOVES_FILL = 44,     /* as 14 */
    GALZPUNA_MOVES_PAYLOAD = 45,  /* payload ends early; place: move, 0 in the count. Goes on
                                     after the last move; place: the move count */
    GALZPUNA_MOVES_NUMBER = 46,   /* robot not below k, or vertex not below n; place: move */
    GALZPUNA_MOVES_EDGE = 47,     /* no edge; place: move */
    GALZPUNA_MOVES_ILLEGAL = 48,  /* robot not at from, or to taken; place: move */

    /* Goals. */
    GALZPUNA_GOALS_UNREACHED = 50, /* goals not in the reached configuration (judging,
                                      resolving); place: lowest such zone */
    GALZPUNA_GOALS_MISSED = 51,    /* list ends off a goal (drawing, rounds); place: lowest such
                                      robot */

    /* The answer (not in judging). */
    GALZPUNA_BUFFER_SHORT = 60, /* buffer shorter than the answer; place: 0 */
    GALZPUNA_ANSWER_LONG = 61   /* answer over its kind's blocks: 128 of a move list or round
                                   sheet, 64 of a plan; place: 0. Comes before 60 */
};

/* Judging: is the plan cleared? Nothing is written. */
galzpuna_answer galzpuna_judge(const uint8_t *map, size_t map_length, const uint8_t *placing,
                               size_t placing_length, const uint8_t *plan, size_t plan_length);

/* Resolving: writes the move list of a plan that is cleared. */
galzpuna_answer galzpuna_resolve(const uint8_t *map, size_t map_length, const uint8_t *placing,
                                 size_t placing_length, const uint8_t *plan, size_t plan_length,
                                 uint8_t *buffer, size_t buffer_length);

/* Drawing: writes the plan of a move list that is legal and reaches the goals. */
galzpuna_answer galzpuna_draw(const uint8_t *map, size_t map_length, const uint8_t *placing,
                              size_t placing_length, const uint8_t *moves, size_t moves_length,
                              uint8_t *buffer, size_t buffer_length);

/* Rounds: writes the round sheet of a move list that is legal and reaches the
 * goals. */
galzpuna_answer galzpuna_rounds(const uint8_t *map, size_t map_length, const uint8_t *placing,
                                size_t placing_length, const uint8_t *moves, size_t moves_length,
                                uint8_t *buffer, size_t buffer_length);

#ifdef __cplusplus
}
#endif

#endif
