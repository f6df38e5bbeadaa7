/*
 * The register accesses by which Linux' driver xilinx_dma drives this core with scatter gather, in our own code: probe, a
 * chain of three descriptors, a chain that fails, and the reset after it. docs/DRIVERS.md has what that driver relies on and
 * where the model differs. Each access is printed with its answer.
 *
 *     ./belikumba lib
 *     cc -Iinclude host/linux_sequence.c target/host/libbelikumba.a -o target/host/linux_sequence
 *     target/host/linux_sequence
 *
 * Exit status: 0, or 1 if standard output could not be written.
 */
#include "belikumba.h"
#include "show.h"

/* The interrupts that the driver enables and acknowledges: completion, delay (bit 13, not modelled) and error. */
enum { ALL_IRQ = 7 << 12 };

/* The driver's count of descriptors for one interrupt, in CDMACR bits 23..16 (not modelled). */
enum { COALESCE_SHIFT = 16, COALESCE_MASK = 0xFF << 16 };

/* Three descriptors, 64 bytes apart, and the data that they copy. */
enum { DESCRIPTORS = 1024, COUNT = 3, SOURCE = 4096, DESTINATION = 8192, BYTES = 100 };

static uint8_t memory[3 * 4096];

/* The driver changes CDMACR by reading it and writing it back. */
static void set_control(uint32_t *engine, uint32_t bits) {
    show_write(engine, BELIKUMBA_CDMACR, show_read(engine, BELIKUMBA_CDMACR) | bits);
}

static void clear_control(uint32_t *engine, uint32_t bits) {
    show_write(engine, BELIKUMBA_CDMACR, show_read(engine, BELIKUMBA_CDMACR) & ~bits);
}

/* Resets, polls until the reset is over, and enables the interrupts. */
static void reset(uint32_t *engine) {
    set_control(engine, BELIKUMBA_CDMACR_RESET);
    while (show_read(engine, BELIKUMBA_CDMACR) & BELIKUMBA_CDMACR_RESET) {
    }
    set_control(engine, ALL_IRQ);
}

/* Looks whether the core has scatter gather. */
static void probe(uint32_t *engine) {
    puts("probe");
    reset(engine);
    puts(show_read(engine, BELIKUMBA_CDMASR) & BELIKUMBA_CDMASR_SGINCLD ? "has scatter gather" : "simple mode only");
    set_control(engine, BELIKUMBA_CDMACR_SGMODE);
}

static uint32_t descriptor(uint32_t i) {
    return DESCRIPTORS + i * BELIKUMBA_DESCRIPTOR_ALIGNMENT;
}

static void make_chain(struct board board) {
    for (uint32_t i = 0; i < COUNT; i++) {
        put_descriptor(board, descriptor(i), descriptor((i + 1) % COUNT), SOURCE + i * BYTES, DESTINATION + i * BYTES, BYTES);
    }
}

/* One interrupt is asked for after all descriptors; SGMode goes off and on so the core takes the new CURDESC. */
static void start(uint32_t *engine) {
    uint32_t control = show_read(engine, BELIKUMBA_CDMACR);
    show_write(engine, BELIKUMBA_CDMACR, (control & ~(uint32_t)COALESCE_MASK) | COUNT << COALESCE_SHIFT);
    clear_control(engine, BELIKUMBA_CDMACR_SGMODE);
    set_control(engine, BELIKUMBA_CDMACR_SGMODE);
    show_write(engine, BELIKUMBA_CURDESC, descriptor(0));
    show_write(engine, BELIKUMBA_TAILDESC, descriptor(COUNT - 1));
}

/* Reads CDMASR and writes its interrupt bits back; after an error it also reads where the engine is. */
static void handle_interrupt(uint32_t *engine) {
    puts("interrupt");
    uint32_t status = show_read(engine, BELIKUMBA_CDMASR);
    show_write(engine, BELIKUMBA_CDMASR, status & ALL_IRQ);
    if (status & BELIKUMBA_CDMASR_ERR_IRQ) {
        printf("errors 0x%08" PRIx32 "\n", status & BELIKUMBA_CDMASR_ERRORS);
        show_read(engine, BELIKUMBA_CURDESC);
        show_read(engine, BELIKUMBA_TAILDESC);
    }
}

/* Steps until the engine is idle; each interrupt is handled before the next step. */
static void let_run(uint32_t *engine, struct board board) {
    do {
        show_step(engine, board);
        if (belikumba_interrupt_line(engine).value) {
            handle_interrupt(engine);
        }
    } while (!(belikumba_read(engine, BELIKUMBA_CDMASR).value & BELIKUMBA_CDMASR_IDLE));
    for (uint32_t i = 0; i < COUNT; i++) {
        show_descriptor_status(board, descriptor(i));
    }
}

int main(void) {
    uint32_t engine[BELIKUMBA_ENGINE_WORDS] = {4, 16};
    struct board board = {memory, sizeof memory, NULL, 0};
    probe(engine);

    puts("chain");
    put_bytes(board, SOURCE, COUNT * BYTES);
    make_chain(board);
    start(engine);
    let_run(engine, board);
    show_memory(board, DESTINATION + COUNT * BYTES - 12, 16);

    /* The same chain again, with its status words cleared; a byte of the second source is sick. */
    puts("chain with an error");
    static const uint32_t window[] = {SOURCE + BYTES + 70, 1};
    board.windows = window;
    board.window_numbers = 2;
    make_chain(board);
    start(engine);
    let_run(engine, board);

    puts("reset after the error");
    show_write(engine, BELIKUMBA_TAILDESC, descriptor(COUNT - 1));
    reset(engine);
    show_read(engine, BELIKUMBA_CDMASR);
    return written("linux_sequence");
}
