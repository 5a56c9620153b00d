/* A frame of 312 lines in mode 1, each drawn and stepped by one call, as a host in C has it: what the bench of host/model times beside
 * the Rust wrapper. usage: frame SPRITES FRAMES, which prints the nanoseconds of so many frames and a sum over the last line. */
#define _POSIX_C_SOURCE 199309L
#include <stdio.h>
#include <stdlib.h>
#include <time.h>

#include "plus.h"

enum { LINES = 312 };

static const uint8_t unlock[] = {0x01, 0x00, 0xFF, 0x77, 0xB3, 0x51, 0xA8, 0xD4, 0x62,
                                 0x39, 0x9C, 0x46, 0x2B, 0x15, 0x8A, 0xCD, 0xEE};
static const uint8_t registers[][2] = {{1, 40}, {4, 38}, {6, 39}, {9, 7}, {12, 0x30}};
static const uint16_t words[] = {0x0738, 0x2003, 0x1002, 0x080F, 0x4001, 0x3123};

static uint8_t ram[PLUS_RAM], store[PLUS_STORE], line[PLUS_LINE];
static uint32_t places[PLUS_PLACES];

static void served(uint8_t answer) {
    if (answer != PLUS_DONE) {
        fprintf(stderr, "refused %u: %s\n", answer, plus_answer_text(answer));
        exit(1);
    }
}

static PlusChip poke(PlusChip chip, uint16_t address, uint8_t byte) {
    PlusAnswered written = plus_page_write(chip, PLUS_SONG, store, sizeof store, places, address, byte);
    served(written.answer);
    return written.chip;
}

/* A list that is all of RAM but its end, and opaque pixels. */
static void fill(void) {
    for (uint32_t i = 0; i < PLUS_RAM; i++)
        ram[i] = (uint8_t)(i * 37 + i / 256);
    for (size_t i = 0; i < 32767; i++) {
        ram[2 * i] = words[i % 6] & 0xFF;
        ram[2 * i + 1] = words[i % 6] >> 8;
    }
    ram[65532] = 0x20;
    ram[65533] = 0x40;
    for (size_t i = 0; i < PLUS_STORE; i++)
        store[i] = i % 16 < 4 ? 0 : (uint8_t)(i % 15 + 1);
}

/* 40 characters, 39 rows, sprites 40 positions apart, all channels on, and a full record. */
static PlusChip set_up(unsigned sprites) {
    PlusChip chip = plus_reset();
    for (size_t i = 0; i < sizeof unlock; i++)
        chip = plus_write_bc(chip, unlock[i]).chip;
    chip = plus_write_7f(chip, 0xB8).chip;
    for (size_t i = 0; i < sizeof registers / sizeof registers[0]; i++) {
        chip = plus_write_bc(chip, registers[i][0]).chip;
        chip = plus_write_bd(chip, registers[i][1]).chip;
    }
    chip = plus_write_7f(chip, 0x81).chip;
    for (unsigned n = 0; n < sprites; n++) {
        uint16_t at = (uint16_t)(0x6000 + 8 * n), x = (uint16_t)(40 * n);
        uint8_t bytes[] = {x & 0xFF, x >> 8, 0, 0, 0x0F};
        for (size_t i = 0; i < sizeof bytes; i++)
            chip = poke(chip, (uint16_t)(at + i), bytes[i]);
    }
    chip = poke(chip, 0x6C0F, 7);
    for (unsigned i = 0; i < PLUS_PLACES; i++)
        chip = poke(chip, (uint16_t)(0x6400 + i % 64), (uint8_t)i);
    return chip;
}

static PlusChip frame(PlusChip chip) {
    for (int n = 0; n < LINES; n++) {
        PlusStepped stepped = plus_line(chip, ram, sizeof ram, store, sizeof store, line, sizeof line, PLUS_OFF, PLUS_OFF, PLUS_OFF);
        served(stepped.answer);
        chip = stepped.chip;
    }
    return chip;
}

static unsigned long long now(void) {
    struct timespec time;
    clock_gettime(CLOCK_MONOTONIC, &time);
    return (unsigned long long)time.tv_sec * 1000000000 + (unsigned long long)time.tv_nsec;
}

int main(int count, char **arguments) {
    if (count != 3 || !plus_fits()) {
        fprintf(stderr, count != 3 ? "usage: frame SPRITES FRAMES\n" : "the library is not the header's\n");
        return 2;
    }
    unsigned long sprites = strtoul(arguments[1], NULL, 10), frames = strtoul(arguments[2], NULL, 10);
    fill();
    PlusChip chip = set_up((unsigned)sprites);
    unsigned long long start = now();
    for (unsigned long n = 0; n < frames; n++)
        chip = frame(chip);
    unsigned long long took = now() - start;
    unsigned long sum = chip.sound.channels[0].address;
    for (size_t i = 0; i < sizeof line; i++)
        sum = sum * 31 + line[i];
    printf("%llu %lu\n", took, sum & 0xFFFFFFFF);
    return 0;
}
