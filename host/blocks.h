/* Block files of document 01, written and read by a host. */
#ifndef BLOCKS_H
#define BLOCKS_H

#include <stddef.h>
#include <stdint.h>
#include <string.h>

enum { BLOCK = 512, HEAD = 6, PAYLOAD = 504 };
enum { MAP = 1, PLACING = 2, PLAN = 3, MOVE_LIST = 4, ROUND_SHEET = 5 };

/* A two-byte number. */
static inline unsigned word_at(const uint8_t *bytes) { return (unsigned)bytes[0] << 8 | bytes[1]; }

static inline void put_word(uint8_t *bytes, unsigned word) {
    bytes[0] = (uint8_t)(word >> 8);
    bytes[1] = (uint8_t)word;
}

/* Writes the Internet checksum (RFC 1071) of a block's first 510 bytes. */
static inline void seal(uint8_t *block) {
    unsigned long sum = 0;
    for (int i = 0; i < BLOCK - 2; i += 2)
        sum += word_at(block + i);
    while (sum > 0xffff)
        sum = (sum & 0xffff) + (sum >> 16);
    put_word(block + BLOCK - 2, ~(unsigned)sum & 0xffff);
}

/* Bytes of the file of a payload. */
static inline size_t file_length(size_t payload_length) {
    size_t blocks = (payload_length + PAYLOAD - 1) / PAYLOAD;
    return (blocks == 0 ? 1 : blocks) * BLOCK;
}

/* Writes the file of a payload, file_length(length) bytes. */
static inline void write_file(uint8_t *file, unsigned kind, const uint8_t *payload, size_t length) {
    size_t blocks = file_length(length) / BLOCK;
    for (size_t number = 0; number < blocks; number++) {
        uint8_t *block = file + number * BLOCK;
        size_t done = number * PAYLOAD;
        size_t fill = length - done < PAYLOAD ? length - done : PAYLOAD;
        memset(block, 0, BLOCK);
        block[0] = (uint8_t)kind;
        put_word(block + 2, (unsigned)number);
        put_word(block + 4, (unsigned)fill);
        if (fill > 0)
            memcpy(block + HEAD, payload + done, fill);
        seal(block);
    }
}

#endif
