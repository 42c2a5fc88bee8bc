/*
 * A small host: Yard A of document 01 is judged, resolved, drawn back and given
 * its rounds, and printed as the listing has it. Ends with status 1 if anything
 * is not as document 01 says.
 */
#include <stdio.h>
#include <string.h>

#include "blocks.h"
#include "galzpuna.h"

/* Stack 0,1,2; hall 3,4; edges 0-1, 0-3, 1-2, 3-4. */
static const uint8_t map_payload[] = {5, 2, 1, 3, 0, 1, 2, 2, 2, 3, 4,
                                      0, 4, 0, 1, 0, 3, 1, 2, 3, 4};
/* Robot 0 from 1 to 4, robot 1 from 2 to 3. */
static const uint8_t placing_payload[] = {2, 1, 4, 2, 3};
/* Steps (0,0,3,255), (1,0,3,255). */
static const uint8_t plan_payload[] = {0, 2, 0, 0, 3, 255, 1, 0, 3, 255};

/* Robot, from, to, round. */
enum { MOVES = 6 };
static const unsigned listing[MOVES][4] = {
    {0, 1, 0, 1}, {0, 0, 3, 2}, {1, 2, 1, 1}, {1, 1, 0, 2}, {0, 3, 4, 3}, {1, 0, 3, 3},
};

static int failures;

/* Prints an answer, and notes one that is not expected. */
static void expect(const char *service, galzpuna_answer answer, uint32_t number, uint32_t place) {
    printf("%s: %u %u\n", service, answer.number, answer.place);
    if (answer.number != number || answer.place != place) {
        fprintf(stderr, "%s: expected %u %u\n", service, number, place);
        failures++;
    }
}

/* Notes something that should hold and does not. */
static void hold(int holds, const char *what) {
    if (!holds) {
        fprintf(stderr, "does not hold: %s\n", what);
        failures++;
    }
}

static int is_zero(const uint8_t *bytes, size_t length) {
    for (size_t i = 0; i < length; i++)
        if (bytes[i] != 0)
            return 0;
    return 1;
}

/* Buffers of a host: any content before the call. */
static uint8_t moves[GALZPUNA_LONGEST_ANSWER];
static uint8_t drawn[GALZPUNA_LONGEST_ANSWER];
static uint8_t sheet[GALZPUNA_LONGEST_ANSWER];

int main(void) {
    uint8_t map[BLOCK], placing[BLOCK], plan[BLOCK];
    write_file(map, MAP, map_payload, sizeof map_payload);
    write_file(placing, PLACING, placing_payload, sizeof placing_payload);
    write_file(plan, PLAN, plan_payload, sizeof plan_payload);
    memset(moves, 0xa5, sizeof moves);
    memset(drawn, 0xa5, sizeof drawn);
    memset(sheet, 0xa5, sizeof sheet);

    galzpuna_answer judged =
        galzpuna_judge(map, sizeof map, placing, sizeof placing, plan, sizeof plan);
    expect("judge", judged, GALZPUNA_DONE, 0);

    galzpuna_answer resolved = galzpuna_resolve(map, sizeof map, placing, sizeof placing, plan,
                                                sizeof plan, moves, sizeof moves);
    expect("resolve", resolved, GALZPUNA_DONE, BLOCK);
    hold(is_zero(moves + BLOCK, sizeof moves - BLOCK), "zero after the move list");

    galzpuna_answer redrawn = galzpuna_draw(map, sizeof map, placing, sizeof placing, moves,
                                            resolved.place, drawn, sizeof drawn);
    expect("draw", redrawn, GALZPUNA_DONE, BLOCK);
    hold(memcmp(drawn, plan, sizeof plan) == 0, "the plan drawn is the plan, byte for byte");
    hold(is_zero(drawn + BLOCK, sizeof drawn - BLOCK), "zero after the plan");

    galzpuna_answer rounds = galzpuna_rounds(map, sizeof map, placing, sizeof placing, moves,
                                             resolved.place, sheet, sizeof sheet);
    expect("rounds", rounds, GALZPUNA_DONE, BLOCK);
    hold(is_zero(sheet + BLOCK, sizeof sheet - BLOCK), "zero after the round sheet");

    uint8_t move_payload[2 + 3 * MOVES] = {0, MOVES};
    uint8_t sheet_payload[2 + 2 * MOVES] = {0, MOVES};
    printf("moves %u\n", word_at(moves + HEAD));
    for (unsigned i = 0; i < MOVES; i++) {
        const uint8_t *move = moves + HEAD + 2 + 3 * i;
        const uint8_t *round = sheet + HEAD + 2 + 2 * i;
        printf("%u %u %u %u\n", move[0], move[1], move[2], word_at(round));
        for (unsigned j = 0; j < 3; j++)
            move_payload[2 + 3 * i + j] = (uint8_t)listing[i][j];
        put_word(sheet_payload + 2 + 2 * i, listing[i][3]);
    }
    uint8_t expected[BLOCK];
    write_file(expected, MOVE_LIST, move_payload, sizeof move_payload);
    hold(memcmp(moves, expected, BLOCK) == 0, "the move list is document 01's");
    write_file(expected, ROUND_SHEET, sheet_payload, sizeof sheet_payload);
    hold(memcmp(sheet, expected, BLOCK) == 0, "the round sheet is document 01's");

    /* A buffer one byte short, and a map with a wrong checksum. */
    memset(moves, 0xa5, sizeof moves);
    galzpuna_answer tight = galzpuna_resolve(map, sizeof map, placing, sizeof placing, plan,
                                             sizeof plan, moves, BLOCK - 1);
    expect("resolve, 511 bytes lent", tight, GALZPUNA_BUFFER_SHORT, 0);
    hold(is_zero(moves, BLOCK - 1), "a refusal zeroes the buffer");
    hold(moves[BLOCK - 1] == 0xa5, "what is not lent is not written");
    map[BLOCK - 1] ^= 1;
    galzpuna_answer spoilt =
        galzpuna_judge(map, sizeof map, placing, sizeof placing, plan, sizeof plan);
    expect("judge, checksum of the map wrong", spoilt, GALZPUNA_MAP_CHECKSUM, 0);

    return failures != 0;
}
