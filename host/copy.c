/*
 * Copies a block by the proved engine: in simple mode, by a chain of two descriptors, and into a sick window; then
 * shows bus clocks to the monitor. Each call is printed with its answer.
 *
 *     ./belikumba lib
 *     cc -Iinclude host/copy.c target/host/libbelikumba.a -o target/host/copy
 *     target/host/copy
 *
 * Exit status: 0, or 1 if standard output could not be written.
 */
#include "belikumba.h"
#include "show.h"

/* The block that is copied: the chain copies all of it, simple mode its first bytes. */
enum { BLOCK = 256, BLOCK_BYTES = 96 };

static uint8_t memory[3 * 4096];

static void show_status(const uint32_t *engine) {
    show_read(engine, BELIKUMBA_CDMASR);
    show_interrupt_line(engine);
}

/* In simple mode: sets both addresses, and starts by the count. */
static void start(uint32_t *engine, uint32_t destination, uint32_t bytes) {
    show_write(engine, BELIKUMBA_SA, BLOCK);
    show_write(engine, BELIKUMBA_DA, destination);
    show_write(engine, BELIKUMBA_BTT, bytes);
}

/* The destination crosses a page, so it takes two bursts. */
static void copy_simply(uint32_t *engine, struct board board) {
    puts("simple mode");
    show_write(engine, BELIKUMBA_CDMACR, BELIKUMBA_CDMACR_IOC_IRQEN);
    start(engine, 4088, 16);
    show_write(engine, BELIKUMBA_SA, 0);
    show_status(engine);
    show_step(engine, board);
    show_step(engine, board);
    show_step(engine, board);
    show_status(engine);
    show_memory(board, 4087, 18);
    show_write(engine, BELIKUMBA_CDMASR, BELIKUMBA_CDMASR_IOC_IRQ);
    show_status(engine);
}

/* Two descriptors copy the block's two parts to one place, the first part in two bursts. */
static void copy_by_chain(uint32_t *engine, struct board board) {
    puts("chain mode");
    put_descriptor(board, 1024, 1088, BLOCK, 2048, 65);
    put_descriptor(board, 1088, 1024, BLOCK + 65, 2048 + 65, BLOCK_BYTES - 65);
    show_write(engine, BELIKUMBA_CDMACR, BELIKUMBA_CDMACR_SGMODE | BELIKUMBA_CDMACR_IOC_IRQEN);
    show_write(engine, BELIKUMBA_CURDESC, 1024);
    show_write(engine, BELIKUMBA_TAILDESC, 1088);
    for (int step = 0; step < 7; step++) {
        show_step(engine, board);
    }
    show_status(engine);
    show_descriptor_status(board, 1024);
    show_descriptor_status(board, 1088);
    show_memory(board, 2047, BLOCK_BYTES + 2);
    show_write(engine, BELIKUMBA_CDMASR, BELIKUMBA_CDMASR_IOC_IRQ);
}

/* The second of the two bursts meets the window: a run ends there, and only a reset lifts the error. */
static void copy_into_window(uint32_t *engine, struct board board) {
    static const uint32_t window[] = {8195, 1};
    board.windows = window;
    board.window_numbers = 2;
    puts("sick window");
    show_write(engine, BELIKUMBA_CDMACR, BELIKUMBA_CDMACR_ERR_IRQEN);
    start(engine, 8184, 16);
    show_run(engine, board, UINT16_MAX);
    show_status(engine);
    show_memory(board, 8183, 18);
    show_write(engine, BELIKUMBA_BTT, 16);
    show_write(engine, BELIKUMBA_CDMACR, BELIKUMBA_CDMACR_RESET);
    show_status(engine);
}

static void show_clock(uint32_t *monitor, struct belikumba_clock clock) {
    struct belikumba_clocked clocked = belikumba_bus_clock(monitor, 4, 16, clock);
    printf("address %" PRIu32 ": flags %" PRIu32 ", lowest %" PRIu32 ": answer %" PRIu32 "\n", clock.address,
           clocked.count, clocked.lowest, clocked.answer);
}

/* After a clock that carries nothing, a burst of 64 bytes up to a page's end, and one over it. */
static void watch_bus(void) {
    uint32_t monitor[BELIKUMBA_MONITOR_WORDS] = {0};
    struct belikumba_clock quiet = {.bits = BELIKUMBA_CLOCK_RESET_HIGH};
    struct belikumba_clock burst = {.bits = 7, .address = 0xFC0, .length = 15, .size = 2, .burst = 1};
    puts("bus clocks");
    show_clock(monitor, quiet);
    show_clock(monitor, burst);
    burst.address = 0xFC4;
    show_clock(monitor, burst);
}

int main(void) {
    uint32_t engine[BELIKUMBA_ENGINE_WORDS] = {4, 16};
    struct board board = {memory, sizeof memory, NULL, 0};
    put_bytes(board, BLOCK, BLOCK_BYTES);
    copy_simply(engine, board);
    copy_by_chain(engine, board);
    copy_into_window(engine, board);
    watch_bus();
    return written("copy");
}
