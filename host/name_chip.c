/*
 * Names the chip behind a failure. The memory has two sick windows, each of one faulty chip. A copy meets both in one burst;
 * the fault tells one byte, belikumba_judge of that byte its window, and of the destination bytes what the fault did not tell.
 * Then a descriptor on a faulty chip, one past the end of memory, and the copy again as the chips are replaced. Each call is
 * printed with its answer.
 *
 *     ./belikumba lib
 *     cc -Iinclude host/name_chip.c target/host/libbelikumba.a -o target/host/name_chip
 *     target/host/name_chip
 *
 * Exit status: 0, or 1 if standard output could not be written.
 */
#include "belikumba.h"
#include "show.h"

enum { SOURCE = 4096, DESTINATION = 256, BYTES = 100 };

/* Both are multiples of 64: one lies on a faulty chip, the other begins where memory ends. */
enum { SICK_DESCRIPTOR = 4160, LOST_DESCRIPTOR = 3 * 4096 };

static uint8_t memory[3 * 4096];

/* The chips by the numbers of their windows: the first is under the destination, the second under the source. */
static const char *const chips[] = {"U4", "U9"};
static uint32_t windows[] = {330, 2, 4170, 8};

/* Asks what the bytes from `start` on answer, and names the chip if a window holds the place. */
static void show_judged(const char *what, struct board board, uint32_t start, uint32_t bytes) {
    struct belikumba_judged judged = belikumba_judge(board.bytes, board.windows, board.window_numbers, start, bytes);
    printf("%s, %" PRIu32 " byte%s from %" PRIu32 ": ", what, bytes, bytes == 1 ? "" : "s", start);
    switch (judged.verdict) {
    case BELIKUMBA_SLAVE_ERROR:
        printf("slave error at %" PRIu32 ", window %" PRIu32 ", chip %s", judged.place, judged.window, chips[judged.window]);
        break;
    case BELIKUMBA_DECODE_ERROR:
        printf("decode error at %" PRIu32, judged.place);
        break;
    default:
        printf("OKAY");
    }
    printf(": answer %" PRIu32 "\n", judged.answer);
}

/* A number of a plan: four bytes, the lowest first. */
static uint32_t place_at(const uint8_t *bytes) {
    return (uint32_t)bytes[0] | (uint32_t)bytes[1] << 8 | (uint32_t)bytes[2] << 16 | (uint32_t)bytes[3] << 24;
}

/*
 * The byte that a fault tells is asked for its window. If it is the source's, the destination may have failed too; the plan has
 * the bursts of the copy in order, so it tells which destination bytes the failed one has.
 */
static void copy(uint32_t *engine, struct board board) {
    uint8_t places[2 * 8];
    struct belikumba_planned planned = belikumba_plan(4, 16, DESTINATION, BYTES, places, sizeof places);
    show_write(engine, BELIKUMBA_SA, SOURCE);
    show_write(engine, BELIKUMBA_DA, DESTINATION);
    show_write(engine, BELIKUMBA_BTT, BYTES);
    for (uint32_t i = 0; i < planned.bursts; i++) {
        struct belikumba_stepped stepped = show_step(engine, board);
        if (stepped.event == BELIKUMBA_FAULT) {
            show_judged("failed", board, stepped.first, 1);
            show_judged("destination", board, place_at(places + 8 * i), place_at(places + 8 * i + 4));
            break;
        }
    }
    show_write(engine, BELIKUMBA_CDMACR, BELIKUMBA_CDMACR_RESET);
}

/* A halt tells the descriptor; which of its bytes failed is asked for. */
static void fetch(uint32_t *engine, struct board board, uint32_t descriptor) {
    show_write(engine, BELIKUMBA_CDMACR, BELIKUMBA_CDMACR_SGMODE);
    show_write(engine, BELIKUMBA_CURDESC, descriptor);
    show_write(engine, BELIKUMBA_TAILDESC, descriptor);
    if (show_step(engine, board).event == BELIKUMBA_HALT) {
        show_judged("descriptor", board, descriptor, BELIKUMBA_DESCRIPTOR_BYTES);
    }
    show_write(engine, BELIKUMBA_CDMACR, BELIKUMBA_CDMACR_RESET);
}

int main(void) {
    uint32_t engine[BELIKUMBA_ENGINE_WORDS] = {4, 16};
    struct board board = {memory, sizeof memory, windows, 4};
    puts("both chips faulty");
    copy(engine, board);

    puts("descriptors");
    fetch(engine, board, SICK_DESCRIPTOR);
    fetch(engine, board, LOST_DESCRIPTOR);

    /* An empty window holds nothing, and the numbers of the others stay. */
    puts("chip U9 replaced");
    windows[3] = 0;
    copy(engine, board);

    puts("chip U4 replaced too");
    windows[1] = 0;
    copy(engine, board);
    return written("name_chip");
}
