/* What the programs of host/ share: each function makes one call of the library and prints what came back. */
#ifndef SHOW_H
#define SHOW_H

#include "belikumba.h"

#include <inttypes.h>
#include <stdio.h>

/* A memory with its sick windows, start and length in turn. */
struct board {
    uint8_t *memory;
    size_t bytes;
    const uint32_t *windows;
    size_t window_numbers;
};

static inline const char *register_name(uint32_t offset) {
    switch (offset) {
    case BELIKUMBA_CDMACR: return "CDMACR";
    case BELIKUMBA_CDMASR: return "CDMASR";
    case BELIKUMBA_CURDESC: return "CURDESC";
    case BELIKUMBA_TAILDESC: return "TAILDESC";
    case BELIKUMBA_SA: return "SA";
    case BELIKUMBA_DA: return "DA";
    case BELIKUMBA_BTT: return "BTT";
    default: return "register";
    }
}

static inline const char *event_name(uint32_t event) {
    switch (event) {
    case BELIKUMBA_FETCH: return "fetch";
    case BELIKUMBA_MOVE: return "move";
    case BELIKUMBA_FAULT: return "fault";
    case BELIKUMBA_UPDATE: return "update";
    case BELIKUMBA_HALT: return "halt";
    default: return "none";
    }
}

/* CDMACR and CDMASR hold bits and show in hex; the other registers hold addresses and a count. */
static inline void show_register(const char *verb, uint32_t offset, uint32_t value) {
    int bits = offset == BELIKUMBA_CDMACR || offset == BELIKUMBA_CDMASR;
    printf(bits ? "%s %s 0x%08" PRIx32 : "%s %s %" PRIu32, verb, register_name(offset), value);
}

static inline void show_write(uint32_t *engine, uint32_t offset, uint32_t value) {
    uint32_t answer = belikumba_write(engine, offset, value);
    show_register("write", offset, value);
    printf(": answer %" PRIu32 "\n", answer);
}

static inline uint32_t show_read(const uint32_t *engine, uint32_t offset) {
    struct belikumba_value read = belikumba_read(engine, offset);
    show_register("read", offset, read.value);
    printf(": answer %" PRIu32 "\n", read.answer);
    return read.value;
}

static inline uint32_t show_interrupt_line(const uint32_t *engine) {
    struct belikumba_value line = belikumba_interrupt_line(engine);
    printf("interrupt line %" PRIu32 ": answer %" PRIu32 "\n", line.value, line.answer);
    return line.value;
}

static inline struct belikumba_stepped show_step(uint32_t *engine, struct board board) {
    struct belikumba_stepped stepped =
        belikumba_step(engine, board.memory, board.bytes, board.windows, board.window_numbers);
    printf("%s %" PRIu32 " %" PRIu32 ": answer %" PRIu32 "\n", event_name(stepped.event), stepped.first, stepped.second,
           stepped.answer);
    return stepped;
}

static inline void show_run(uint32_t *engine, struct board board, uint16_t most) {
    struct belikumba_ran ran =
        belikumba_run(engine, board.memory, board.bytes, board.windows, board.window_numbers, most);
    printf("ran %" PRIu32 " steps: answer %" PRIu32 "\n", ran.steps, ran.answer);
}

/* Sixteen bytes a line. */
static inline void show_memory(struct board board, uint32_t from, uint32_t bytes) {
    for (uint32_t i = 0; i < bytes; i++) {
        if (i % 16 == 0) {
            printf("memory %" PRIu32 ":", from + i);
        }
        printf(i % 16 == 15 || i == bytes - 1 ? " %02x\n" : " %02x", board.memory[from + i]);
    }
}

static inline void show_descriptor_status(struct board board, uint32_t at) {
    const uint8_t *word = board.memory + at + BELIKUMBA_DESCRIPTOR_STATUS;
    printf("status of descriptor %" PRIu32 ": 0x%02x%02x%02x%02x\n", at, word[3], word[2], word[1], word[0]);
}

/* Eight words, the lowest byte of each first: the upper halves and the status, which is the last, are 0. */
static inline void put_descriptor(struct board board, uint32_t at, uint32_t next, uint32_t source, uint32_t destination,
                                  uint32_t bytes) {
    const uint32_t words[] = {next, 0, source, 0, destination, 0, bytes, 0};
    for (uint32_t i = 0; i < sizeof words; i++) {
        board.memory[at + i] = (uint8_t)(words[i / 4] >> i % 4 * 8);
    }
}

/* Bytes 1, 2, 3 and so on, so no byte is 0, which is what every other byte is. */
static inline void put_bytes(struct board board, uint32_t from, uint32_t bytes) {
    for (uint32_t i = 0; i < bytes; i++) {
        board.memory[from + i] = (uint8_t)(i % 255 + 1);
    }
}

/* The exit status: 0 if all that was printed was written. */
static inline int written(const char *program) {
    if (fflush(stdout) != 0 || ferror(stdout)) {
        fprintf(stderr, "%s: standard output could not be written\n", program);
        return 1;
    }
    return 0;
}

#endif
