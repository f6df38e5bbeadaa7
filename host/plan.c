/*
 * Prints how the engine cuts a transfer: one burst a line, its start and its number of bytes, by the proved cutter.
 *
 *     ./belikumba lib
 *     cc -Iinclude host/plan.c target/host/libbelikumba.a -o target/host/plan
 *     target/host/plan 4 16 4088 16
 *
 * Exit status: 0 for a plan, 1 for a plan that is refused, 2 for a wrong call or a plan that could not be printed.
 */
#include "belikumba.h"

#include <inttypes.h>
#include <stdio.h>
#include <stdlib.h>

enum { PLANNED = 0, REFUSED = 1, FAILED = 2 };

/* The two places of a burst, in bytes. */
enum { BURST_BYTES = 8 };

static const char usage[] =
    "usage: plan WIDTH BEATS START COUNT\n"
    "  WIDTH of the bus in bytes, BEATS of a burst at most, START address, COUNT of bytes; decimal, or hex after 0x\n";

/* The value of a digit in the given base, or -1. */
static int digit_value(char digit, int base) {
    int value = -1;
    if (digit >= '0' && digit <= '9') {
        value = digit - '0';
    } else if (digit >= 'a' && digit <= 'f') {
        value = digit - 'a' + 10;
    } else if (digit >= 'A' && digit <= 'F') {
        value = digit - 'A' + 10;
    }
    return value < base ? value : -1;
}

/* Reads a whole word as a number of 32 bits. strtoul would also take blanks, signs, octal and wider numbers. */
static int read_number(const char *word, uint32_t *number) {
    int base = 10;
    if (word[0] == '0' && (word[1] == 'x' || word[1] == 'X')) {
        base = 16;
        word += 2;
    }
    if (*word == '\0') {
        return 0;
    }
    uint64_t value = 0;
    for (; *word != '\0'; word++) {
        int digit = digit_value(*word, base);
        if (digit < 0) {
            return 0;
        }
        value = value * (uint64_t)base + (uint64_t)digit;
        if (value > UINT32_MAX) {
            return 0;
        }
    }
    *number = (uint32_t)value;
    return 1;
}

/* The number whose four bytes stand from `bytes` on, the lowest first. */
static uint32_t place_at(const uint8_t *bytes) {
    return (uint32_t)bytes[0] | (uint32_t)bytes[1] << 8 | (uint32_t)bytes[2] << 16 | (uint32_t)bytes[3] << 24;
}

static const char *meaning_of(uint32_t answer) {
    switch (answer) {
    case BELIKUMBA_SETTINGS:
        return "the width is not 4, 8, 16, 32, 64 or 128 bytes, or the beats are not 2, 4, 8, 16, 32, 64, 128 or 256";
    case BELIKUMBA_PLAN_RANGE:
        return "the count is 0 or above 8388607, or start + count is above 4294967296";
    default:
        return "not an answer of a plan";
    }
}

static void print_bursts(const uint8_t *places, uint32_t bursts) {
    for (uint32_t burst = 0; burst < bursts; burst++) {
        const uint8_t *place = places + (size_t)burst * BURST_BYTES;
        printf("%" PRIu32 " %" PRIu32 "\n", place_at(place), place_at(place + 4));
    }
}

int main(int argc, char **argv) {
    static const char *const names[] = {"WIDTH", "BEATS", "START", "COUNT"};
    uint32_t numbers[4];
    if (argc != 5) {
        fputs(usage, stderr);
        return FAILED;
    }
    for (int i = 0; i < 4; i++) {
        if (!read_number(argv[i + 1], &numbers[i])) {
            fprintf(stderr, "plan: %s is a number from 0 to 4294967295, in decimal or in hex after 0x, and not '%s'\n",
                    names[i], argv[i + 1]);
            return FAILED;
        }
    }

    /* The count says how much room the plan needs, or why there is no plan. */
    uint8_t *places = NULL;
    struct belikumba_planned planned = belikumba_count(numbers[0], numbers[1], numbers[2], numbers[3]);
    if (planned.answer == BELIKUMBA_DONE) {
        size_t length = (size_t)planned.bursts * BURST_BYTES;
        places = malloc(length);
        if (places == NULL) {
            fprintf(stderr, "plan: no memory for %zu bytes of places\n", length);
            return FAILED;
        }
        planned = belikumba_plan(numbers[0], numbers[1], numbers[2], numbers[3], places, length);
    }

    if (planned.answer == BELIKUMBA_DONE) {
        print_bursts(places, planned.bursts);
    } else {
        printf("answer %" PRIu32 ": %s\n", planned.answer, meaning_of(planned.answer));
    }
    free(places);
    if (fflush(stdout) != 0 || ferror(stdout)) {
        fputs("plan: the plan could not be written to standard output\n", stderr);
        return FAILED;
    }
    return planned.answer == BELIKUMBA_DONE ? PLANNED : REFUSED;
}
