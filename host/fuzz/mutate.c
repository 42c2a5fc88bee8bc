/*
 * Changes an input so that it gets past the checks of block files: payloads are
 * changed and the blocks sealed again; lists are cut, walked on by legal moves
 * and given the goals that they reach; an answer becomes the next input.
 */
#include <stddef.h>
#include <stdint.h>
#include <string.h>

#include "../blocks.h"
#include "input.h"
#include "rust.h"

size_t LLVMFuzzerMutate(uint8_t *data, size_t size, size_t max_size);

enum { MOST = 80000, VERTICES = 128, ROBOTS = 64, EDGES = 2048, NONE = 255 };

/* An input with its files copied, to be changed. */
static struct {
    unsigned service, is_at_start;
    size_t room;
    uint8_t files[FILES][MOST];
    size_t lengths[FILES];
} now;

/* The payload that is being changed, with room at its end. */
static uint8_t payload[MOST];

static uint64_t state;

static unsigned below(unsigned bound) {
    state += UINT64_C(0x9e3779b97f4a7c15);
    uint64_t mixed = state;
    mixed = (mixed ^ mixed >> 30) * UINT64_C(0xbf58476d1ce4e5b9);
    mixed = (mixed ^ mixed >> 27) * UINT64_C(0x94d049bb133111eb);
    return bound == 0 ? 0 : (unsigned)((mixed ^ mixed >> 31) % bound);
}

static int takes_plan(void) { return now.service == JUDGE || now.service == RESOLVE; }

/* The kind byte of a file. */
static unsigned kind_of(int file) {
    static const unsigned kinds[FILES] = {MAP, PLACING, PLAN};
    return file == OF_INPUT && !takes_plan() ? MOVE_LIST : kinds[file];
}

/* Copies the payload of a file; gives its length. */
static size_t take(int file, uint8_t *to) {
    size_t length = 0;
    for (size_t at = 0; at + BLOCK <= now.lengths[file]; at += BLOCK) {
        const uint8_t *block = now.files[file] + at;
        size_t fill = word_at(block + 4);
        fill = fill < PAYLOAD ? fill : PAYLOAD;
        memcpy(to + length, block + HEAD, fill);
        length += fill;
    }
    return length;
}

/* Writes a file of a payload, unless it gets too long. */
static void put(int file, const uint8_t *from, size_t length) {
    size_t whole = file_length(length);
    if (whole > MOST)
        return;
    write_file(now.files[file], kind_of(file), from, length);
    now.lengths[file] = whole;
}

/* Service or room. */
static void change_head(void) {
    static const size_t rooms[] = {0, 511, 512, 513, 1024, 65535, 65536, LONGEST_ROOM};
    if (below(2) == 0)
        now.service ^= takes_plan() ? JUDGE ^ RESOLVE : DRAW ^ ROUNDS;
    else if (below(2) == 0)
        now.room = rooms[below(sizeof rooms / sizeof *rooms)];
    else
        now.room = below(LONGEST_ROOM + 1);
    now.is_at_start = below(2);
}

/* Any bytes of a file, with its blocks sealed or not. */
static void change_bytes(int file) {
    size_t length = now.lengths[file];
    now.lengths[file] = LLVMFuzzerMutate(now.files[file], length, length + BLOCK);
    if (below(4) != 0)
        for (size_t at = 0; at + BLOCK <= now.lengths[file]; at += BLOCK)
            seal(now.files[file] + at);
}

/* Any bytes of a payload. */
static void change_payload(int file) {
    size_t length = take(file, payload);
    put(file, payload, LLVMFuzzerMutate(payload, length, length + 16));
}

/* One step, move or robot, with the count kept right. */
static void change_record(int file) {
    size_t length = take(file, payload);
    size_t head = file == OF_PLACING ? 1 : 2;
    size_t size = file == OF_PLACING ? 2 : takes_plan() ? 4 : 3;
    if (length < head)
        return;
    size_t count = (length - head) / size;
    uint8_t *records = payload + head;
    uint8_t *one = records + size * below((unsigned)count);
    size_t after = (size_t)(payload + length - one);
    switch (count == 0 ? 0 : below(5)) {
    case 0: /* a new one, or one twice */
        memmove(one + size, one, after);
        if (count == 0)
            memset(one, 0, size);
        length += size;
        count++;
        break;
    case 1: /* one less */
        memmove(one, one + size, after - size);
        length -= size;
        count--;
        break;
    case 2: /* cut */
        length -= after;
        count = (length - head) / size;
        break;
    case 3: { /* two exchanged */
        uint8_t kept[4];
        uint8_t *other = records + size * below((unsigned)count);
        memcpy(kept, one, size);
        memmove(one, other, size);
        memcpy(other, kept, size);
        break;
    }
    default: /* one byte */
        one[below((unsigned)size)] = (uint8_t)(below(8) == 0 ? NONE : below(VERTICES + 2));
    }
    if (head == 1)
        payload[0] = (uint8_t)count;
    else
        put_word(payload, (unsigned)count);
    put(file, payload, length);
}

/* What is needed of the map: where its edge count is. 0 if it can't be read. */
static size_t edges_at(const uint8_t *map, size_t length) {
    size_t at = 2;
    if (length < 2)
        return 0;
    for (unsigned zone = 0; zone < map[1]; zone++) {
        if (at + 2 > length)
            return 0;
        at += 2 + (size_t)map[at + 1];
    }
    return at + 2 + 2 * (size_t)(at + 2 <= length ? word_at(map + at) : 0) <= length ? at : 0;
}

/* An edge taken out or put in its place; or the kind of a zone. */
static void change_map(void) {
    size_t length = take(OF_MAP, payload);
    size_t at = edges_at(payload, length);
    if (at == 0)
        return;
    if (below(4) == 0) {
        size_t zone = 2;
        for (unsigned skip = below(payload[1]); skip > 0; skip--)
            zone += 2 + (size_t)payload[zone + 1];
        payload[zone] = (uint8_t)(1 + below(4));
        put(OF_MAP, payload, length);
        return;
    }
    unsigned count = word_at(payload + at), a = below(payload[0]), b = below(payload[0]);
    uint8_t edge[2] = {(uint8_t)(a < b ? a : b), (uint8_t)(a < b ? b : a)};
    if (a == b)
        return;
    uint8_t *place = payload + at + 2, *end = payload + length;
    uint8_t *last = place + 2 * (size_t)count;
    while (place < last && memcmp(place, edge, 2) < 0)
        place += 2;
    if (place < last && memcmp(place, edge, 2) == 0) {
        memmove(place, place + 2, (size_t)(end - place - 2));
        put_word(payload + at, count - 1);
        put(OF_MAP, payload, length - 2);
    } else if (count < EDGES) {
        memmove(place + 2, place, (size_t)(end - place));
        memcpy(place, edge, 2);
        put_word(payload + at, count + 1);
        put(OF_MAP, payload, length + 2);
    }
}

/* Makes the answer of a service that writes the input of the other ones. */
static int go_on(void) {
    static uint8_t buffer[65536];
    galzpuna_answer (*service)(const uint8_t *, size_t, const uint8_t *, size_t, const uint8_t *,
                               size_t, uint8_t *, size_t) = takes_plan() ? rust_resolve : rust_draw;
    galzpuna_answer answer = service(now.files[0], now.lengths[0], now.files[1], now.lengths[1],
                                     now.files[2], now.lengths[2], buffer, sizeof buffer);
    if (answer.number != 0)
        return 0;
    memcpy(now.files[OF_INPUT], buffer, answer.place);
    now.lengths[OF_INPUT] = answer.place;
    now.service = (takes_plan() ? DRAW : JUDGE) + below(2);
    return 1;
}

/* Cuts the move list where it isn't legal, walks on by some legal moves, and
 * makes the places that are reached the goals. */
static void walk(void) {
    static uint8_t map[MOST], placing[MOST];
    if (takes_plan() && !go_on())
        return;
    size_t map_length = take(OF_MAP, map), placing_length = take(OF_PLACING, placing);
    size_t at = edges_at(map, map_length), length = take(OF_INPUT, payload);
    unsigned robots = placing_length == 0 ? 0 : placing[0];
    if (at == 0 || robots == 0 || robots > ROBOTS || placing_length < 1 + 2 * (size_t)robots ||
        length < 2)
        return;
    uint8_t robot_on[256], vertex_of[ROBOTS];
    memset(robot_on, NONE, sizeof robot_on);
    for (unsigned robot = 0; robot < robots; robot++) {
        vertex_of[robot] = placing[1 + 2 * robot];
        robot_on[vertex_of[robot]] = (uint8_t)robot;
    }
    size_t end = 2;
    for (; end + 3 <= length; end += 3) {
        const uint8_t *move = payload + end;
        if (move[0] >= robots || robot_on[move[1]] != move[0] || robot_on[move[2]] != NONE)
            break;
        robot_on[move[1]] = NONE;
        robot_on[move[2]] = move[0];
        vertex_of[move[0]] = move[2];
    }
    unsigned edges = word_at(map + at);
    for (unsigned tries = 1 + below(100); tries > 0 && end + 3 < 60000; tries--) {
        const uint8_t *edge = map + at + 2 + 2 * (size_t)below(edges);
        unsigned turned = below(2);
        uint8_t from = edge[turned], to = edge[1 - turned];
        if (edges == 0 || robot_on[from] == NONE || robot_on[to] != NONE)
            continue;
        uint8_t move[3] = {robot_on[from], from, to};
        memcpy(payload + end, move, 3);
        end += 3;
        robot_on[to] = robot_on[from];
        robot_on[from] = NONE;
        vertex_of[robot_on[to]] = to;
    }
    put_word(payload, (unsigned)((end - 2) / 3));
    put(OF_INPUT, payload, end);
    for (unsigned robot = 0; robot < robots; robot++)
        placing[2 + 2 * robot] = vertex_of[robot];
    put(OF_PLACING, placing, placing_length);
}

/* Copies an input to be changed; 0 if it is none. */
static int open_input(const uint8_t *data, size_t size) {
    if (size < INPUT_HEAD || size > MOST - 2 * BLOCK)
        return 0;
    struct input input = input_of(data, size);
    now.service = input.service;
    now.is_at_start = input.is_at_start;
    now.room = input.room;
    for (int i = 0; i < FILES; i++) {
        now.lengths[i] = input.lengths[i];
        memcpy(now.files[i], input.files[i], input.lengths[i]);
    }
    return 1;
}

/* Writes what was changed; 0 if it is too long. */
static size_t close_input(uint8_t *data, size_t max_size) {
    size_t size = INPUT_HEAD + now.lengths[0] + now.lengths[1] + now.lengths[2];
    if (size > max_size || now.lengths[0] > 65535 || now.lengths[1] > 65535)
        return 0;
    data[0] = (uint8_t)(now.service | now.is_at_start << 2);
    for (int i = 0; i < 3; i++)
        data[1 + i] = (uint8_t)(now.room >> 8 * i);
    for (int i = 0; i < 2; i++) {
        data[4 + 2 * i] = (uint8_t)now.lengths[i];
        data[5 + 2 * i] = (uint8_t)(now.lengths[i] >> 8);
    }
    uint8_t *end = data + INPUT_HEAD;
    for (int i = 0; i < FILES; i++) {
        memcpy(end, now.files[i], now.lengths[i]);
        end += now.lengths[i];
    }
    return size;
}

size_t LLVMFuzzerCustomMutator(uint8_t *data, size_t size, size_t max_size, unsigned seed) {
    state = seed;
    if (below(24) == 0 || !open_input(data, size))
        return LLVMFuzzerMutate(data, size, max_size);
    int file = below(3) == 0 ? (int)below(2) : OF_INPUT;
    switch (below(16)) {
    case 0:
        change_bytes(file);
        break;
    case 1:
        change_head();
        break;
    case 2:
    case 3:
    case 4:
        change_payload((int)below(FILES));
        break;
    case 5:
    case 6:
    case 7:
        change_record(file == OF_MAP ? OF_PLACING : file);
        break;
    case 8:
    case 9:
        change_map();
        break;
    case 10:
    case 11:
        go_on();
        break;
    default:
        walk();
    }
    size_t changed = close_input(data, max_size);
    return changed != 0 ? changed : LLVMFuzzerMutate(data, size, max_size);
}

size_t LLVMFuzzerCustomCrossOver(const uint8_t *one, size_t one_size, const uint8_t *other,
                                 size_t other_size, uint8_t *data, size_t max_size, unsigned seed) {
    state = seed;
    if (other_size < INPUT_HEAD || other_size > MOST || !open_input(one, one_size))
        return 0;
    struct input input = input_of(other, other_size);
    int is_same_kind = takes_plan() == (input.service == JUDGE || input.service == RESOLVE);
    for (int i = 0; i < FILES; i++)
        if (below(2) == 0 && (i != OF_INPUT || is_same_kind)) {
            memcpy(now.files[i], input.files[i], input.lengths[i]);
            now.lengths[i] = input.lengths[i];
        }
    return close_input(data, max_size);
}
