/*
 * Two engines on one memory: each has its own words, and each call is lent the same memory. One copies a block in simple
 * mode and the other by a chain of two descriptors: a step of each in turn, then again in runs of three steps. Neither writes
 * a byte that the other reads or writes, so both orders give the same memory. At the end engine 2 writes what engine 1 reads,
 * and the order decides. Each call is printed with its answer.
 *
 *     ./belikumba lib
 *     cc -Iinclude host/two_engines.c target/host/libbelikumba.a -o target/host/two_engines
 *     target/host/two_engines
 *
 * Exit status: 0, or 1 if a block was not copied or standard output could not be written.
 */
#include "belikumba.h"
#include "show.h"

#include <string.h>

/* The block that both read, and where each of them copies it to: engine 1 all of it, engine 2 its first bytes. */
enum { BLOCK = 256, BLOCK_BYTES = 200, COPY_1 = 4000, COPY_2 = 2048, COPY_2_BYTES = 96 };
enum { DESCRIPTOR_1 = 1024, DESCRIPTOR_2 = 1088 };

typedef uint32_t engine_words[BELIKUMBA_ENGINE_WORDS];

static uint8_t memory[3 * 4096];
static uint8_t after_steps[sizeof memory];
static int failed;

/* The start of a line; engines[0] is engine 1. */
static void name(int place) {
    printf("engine %d: ", place + 1);
}

static void write_register(engine_words *engines, int place, uint32_t offset, uint32_t value) {
    name(place);
    show_write(engines[place], offset, value);
}

static int busy(const uint32_t *engine) {
    return !(belikumba_read(engine, BELIKUMBA_CDMASR).value & BELIKUMBA_CDMASR_IDLE);
}

/* The same start each time: memory of zeros but for the block and the two descriptors. */
static void fill_memory(struct board board) {
    memset(board.memory, 0, board.bytes);
    put_bytes(board, BLOCK, BLOCK_BYTES);
    put_descriptor(board, DESCRIPTOR_1, DESCRIPTOR_2, BLOCK, COPY_2, 65);
    put_descriptor(board, DESCRIPTOR_2, DESCRIPTOR_1, BLOCK + 65, COPY_2 + 65, COPY_2_BYTES - 65);
}

static void start_copy(engine_words *engines, int place, uint32_t source, uint32_t destination, uint32_t bytes) {
    write_register(engines, place, BELIKUMBA_SA, source);
    write_register(engines, place, BELIKUMBA_DA, destination);
    write_register(engines, place, BELIKUMBA_BTT, bytes);
}

static void start_both(engine_words *engines) {
    start_copy(engines, 0, BLOCK, COPY_1, BLOCK_BYTES);
    write_register(engines, 1, BELIKUMBA_CDMACR, BELIKUMBA_CDMACR_SGMODE);
    write_register(engines, 1, BELIKUMBA_CURDESC, DESCRIPTOR_1);
    write_register(engines, 1, BELIKUMBA_TAILDESC, DESCRIPTOR_2);
}

static void show_copied(struct board board, uint32_t to, uint32_t bytes) {
    int same = memcmp(board.memory + BLOCK, board.memory + to, bytes) == 0;
    printf("%" PRIu32 " bytes from %d to %" PRIu32 ": %s\n", bytes, BLOCK, to, same ? "copied" : "not copied");
    failed |= !same;
}

/* Each engine that is busy makes its call in turn, until both are idle: a step, or a run of so many. */
static void take_turns(engine_words *engines, struct board board, uint32_t run) {
    fill_memory(board);
    start_both(engines);
    while (busy(engines[0]) || busy(engines[1])) {
        for (int place = 0; place < 2; place++) {
            if (!busy(engines[place])) {
                continue;
            }
            name(place);
            if (run == 0) {
                show_step(engines[place], board);
            } else {
                show_run(engines[place], board, run);
            }
        }
    }
}

static void step_in_turn(engine_words *engines, struct board board) {
    puts("a step of each in turn");
    take_turns(engines, board, 0);
    show_copied(board, COPY_1, BLOCK_BYTES);
    show_copied(board, COPY_2, COPY_2_BYTES);
    memcpy(after_steps, board.memory, board.bytes);
}

/* The same copies in another order of the same steps: not only the copies but all bytes are as after single steps. */
static void run_in_turn(engine_words *engines, struct board board) {
    puts("runs of three steps in turn");
    take_turns(engines, board, 3);
    int same = memcmp(board.memory, after_steps, board.bytes) == 0;
    puts(same ? "memory as after single steps" : "other memory than after single steps");
    failed |= !same;
}

/* Engine 2 copies over the source of engine 1, which takes its step before or after that. */
static void meet(engine_words *engines, struct board board, int earlier) {
    printf("engine 2 writes what engine 1 reads, engine %d first\n", earlier + 1);
    fill_memory(board);
    write_register(engines, 1, BELIKUMBA_CDMACR, 0);
    start_copy(engines, 0, BLOCK, 6000, 8);
    start_copy(engines, 1, BLOCK + 100, BLOCK, 8);
    for (int turn = 0; turn < 2; turn++) {
        int place = turn == 0 ? earlier : 1 - earlier;
        name(place);
        show_step(engines[place], board);
    }
    show_memory(board, 6000, 8);
}

int main(void) {
    engine_words engines[2] = {{4, 16}, {4, 16}};
    struct board board = {memory, sizeof memory, NULL, 0};
    step_in_turn(engines, board);
    run_in_turn(engines, board);
    meet(engines, board, 0);
    meet(engines, board, 1);
    return written("two_engines") || failed;
}
