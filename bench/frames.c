/* The maker of streams of bench/frames.sh, bench/jobs.sh and bench/instructions.sh.
 *
 *   frames make BYTES   frames of 67 bytes (message 1019's size), BYTES in all or a little less, to standard output
 *   frames start BYTES  BYTES bytes D3, to standard output
 *   frames mixed BYTES  frames, noise, broken frames and false starts, always the same, to standard output
 *
 * A frame is the byte D3, 6 bits, 10 bits of length, the payload and CRC-24Q over all before it (RTCM 10403.3, section 4).
 */
#include <stdint.h>
#include <stdio.h>
#include <stdlib.h>
#include <string.h>

static uint32_t table[256];

static void fill_table(void) {
    for (uint32_t byte = 0; byte < 256; byte++) {
        uint32_t crc = byte << 16;
        for (int bit = 0; bit < 8; bit++) crc = crc << 1 ^ (crc & 0x800000 ? 0x1864CFB : 0);
        table[byte] = crc & 0xFFFFFF;
    }
}

static uint32_t crc_of(const uint8_t *bytes, size_t count) {
    uint32_t crc = 0;
    for (size_t i = 0; i < count; i++) crc = (crc << 8 & 0xFFFFFF) ^ table[crc >> 16 ^ bytes[i]];
    return crc;
}

static uint64_t state = 7;
static uint32_t draw(int bits) {
    state = 6364136223846793005u * state + 1442695040888963407u;
    return (uint32_t)(state >> (64 - bits));
}

static size_t make_frame(uint8_t *into, size_t payload) {
    into[0] = 0xD3;
    into[1] = payload >> 8;
    into[2] = payload & 255;
    for (size_t i = 0; i < payload; i++) into[3 + i] = draw(8);
    uint32_t crc = crc_of(into, payload + 3);
    into[3 + payload] = crc >> 16;
    into[4 + payload] = crc >> 8 & 255;
    into[5 + payload] = crc & 255;
    return payload + 6;
}

static void make_frames(size_t bytes) {
    uint8_t frame[1029];
    for (size_t made = 0; made + 67 <= bytes; made += 67) {
        make_frame(frame, 61);
        fwrite(frame, 1, 67, stdout);
    }
}

static void make_starts(size_t bytes) {
    for (size_t i = 0; i < bytes; i++) putchar(0xD3);
}

static void make_mixed(size_t bytes) {
    uint8_t frame[1029];
    size_t made = 0;
    while (made + 1029 <= bytes) {
        size_t size = make_frame(frame, draw(10));
        switch (draw(2)) {
        case 0: frame[size - 1] ^= 1 << draw(3); break;
        case 1: size = draw(10) < size ? draw(10) % size : size; break;
        case 2: for (size_t i = 0; i < size; i++) if (draw(3) == 0) frame[i] = 0xD3; break;
        default: break;
        }
        made += fwrite(frame, 1, size, stdout);
    }
}

int main(int count, char **words) {
    fill_table();
    size_t bytes = count > 2 ? strtoull(words[2], 0, 10) : 0;
    if (count > 2 && !strcmp(words[1], "make")) make_frames(bytes);
    else if (count > 2 && !strcmp(words[1], "start")) make_starts(bytes);
    else if (count > 2 && !strcmp(words[1], "mixed")) make_mixed(bytes);
    else return 2;
    return 0;
}
