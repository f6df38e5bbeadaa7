/*
 * Compares belikumba_plan with a cutter written here from docs/RULES.md 3 alone: the answer, the number of bursts and
 * every lent byte. Each plan is made with room to spare, with just enough, and with too little. The number that
 * belikumba_count gives is compared with the cutter's, which walks from burst to burst.
 *
 * The lent bytes end or start at a page that may not be touched, and the bytes on their other side are watched.
 */
#define _DEFAULT_SOURCE
#include "belikumba.h"

#include <inttypes.h>
#include <signal.h>
#include <stdbool.h>
#include <stdio.h>
#include <stdlib.h>
#include <string.h>
#include <sys/mman.h>
#include <unistd.h>

#define ARRAY_LENGTH(array) (sizeof(array) / sizeof((array)[0]))

static const uint64_t page_bytes = 4096;
static const uint64_t most_bytes = 8388607;
static const uint64_t address_end = UINT64_C(1) << 32;

static const uint32_t widths[] = {4, 8, 16, 32, 64, 128};
static const uint32_t beat_counts[] = {2, 4, 8, 16, 32, 64, 128, 256};

/* ---- RULES.md 3, "Cutting a transfer", read as slowly as it is written ---- */

struct burst {
    uint64_t start;
    uint64_t stop;
};

struct transfer {
    uint32_t width;
    uint32_t beats;
    uint32_t start;
    uint32_t count;
};

static bool listed(uint32_t number, const uint32_t *list, size_t length) {
    for (size_t i = 0; i < length; i++) {
        if (list[i] == number) {
            return true;
        }
    }
    return false;
}

static bool settings_listed(struct transfer t) {
    return listed(t.width, widths, ARRAY_LENGTH(widths)) && listed(t.beats, beat_counts, ARRAY_LENGTH(beat_counts));
}

static bool in_range(struct transfer t) {
    return t.count != 0 && t.count <= most_bytes && (uint64_t)t.start + t.count <= address_end;
}

static uint64_t end_of(struct transfer t) {
    return (uint64_t)t.start + t.count;
}

/* The definition: the burst from byte a up to, not including, b. */
static bool legal(struct transfer t, uint64_t a, uint64_t b) {
    return a < b && a / page_bytes == (b - 1) / page_bytes && (b - 1) / t.width - a / t.width + 1 <= t.beats;
}

/* How far the burst from `a` reaches, a byte more at a time. */
static uint64_t reach_by_bytes(struct transfer t, uint64_t a) {
    uint64_t b = a + 1;
    while (b < end_of(t) && legal(t, a, b + 1)) {
        b++;
    }
    return b;
}

/*
 * The same for long transfers. A burst that is not legal does not become so by more bytes (both limits only rise), so
 * the last legal end can be found by halving: legal at `good`, not at `bad`.
 */
static uint64_t reach_by_halves(struct transfer t, uint64_t a) {
    uint64_t good = a + 1;
    uint64_t bad = a + page_bytes + 1;
    while (good + 1 < bad) {
        uint64_t middle = good + (bad - good) / 2;
        if (middle <= end_of(t) && legal(t, a, middle)) {
            good = middle;
        } else {
            bad = middle;
        }
    }
    return good;
}

/* ---- What is to be seen after a call ---- */

/* Up to this many bytes a transfer is cut by both readings, which have to agree; past it by halves alone. */
static const uint64_t cut_by_bytes = 70000;

/* The shortest full bursts are two words of 4 bytes, so this is about twice what the largest plan has. */
enum { MOST_BURSTS = 8388607 / 4 };

static struct burst *bursts;
static size_t burst_count;

static struct {
    uint64_t transfers;
    uint64_t calls;
    uint64_t bytes;
    uint64_t bursts;
    uint64_t answers[9];
    uint64_t counts;
    uint64_t count_answers[9];
} compared;

static void cut(struct transfer t) {
    burst_count = 0;
    compared.transfers++;
    for (uint64_t at = t.start; at < end_of(t);) {
        uint64_t stop = reach_by_halves(t, at);
        if ((t.count <= cut_by_bytes && stop != reach_by_bytes(t, at)) || burst_count == MOST_BURSTS) {
            fprintf(stderr, "tests/plan: the test's own cutter is wrong at byte %" PRIu64 "\n", at);
            exit(1);
        }
        bursts[burst_count++] = (struct burst){at, stop};
        at = stop;
    }
}

/* Answers of a count in the order of RULES.md 2.2: 1, 7. */
static uint32_t count_answer_of(struct transfer t) {
    if (!settings_listed(t)) {
        return 1;
    }
    return in_range(t) ? 0 : 7;
}

/* Answers of a plan, in the order 1, 7, 8. To be called after cut(). */
static uint32_t answer_of(struct transfer t, size_t length) {
    uint32_t answer = count_answer_of(t);
    if (answer != 0) {
        return answer;
    }
    return length / 4 < 2 * burst_count ? 8 : 0;
}

static void put_place(uint8_t *bytes, uint64_t number) {
    for (int i = 0; i < 4; i++) {
        bytes[i] = (uint8_t)(number >> (8 * i));
    }
}

static uint64_t place_at(const uint8_t *bytes) {
    uint64_t number = 0;
    for (int i = 3; i >= 0; i--) {
        number = number << 8 | bytes[i];
    }
    return number;
}

/* ---- One call, compared ---- */

/* Bytes beside the lent ones that are watched. */
enum { WATCHED = 64 };

/* The lent bytes and those beside them, between two pages that may not be touched; and what they should hold. */
static uint8_t *arena;
static uint8_t *wanted;
static size_t arena_bytes;

static uint64_t random_state = UINT64_C(0x9e3779b97f4a7c15);

static uint64_t random_number(void) {
    random_state ^= random_state << 13;
    random_state ^= random_state >> 7;
    random_state ^= random_state << 17;
    return random_state;
}

static uint64_t random_below(uint64_t limit) {
    return random_number() % limit;
}

/* Fills both with the same bytes, others at each call, so a byte that should have stayed shows if it did not. */
static void fill_alike(uint8_t *one, uint8_t *other, size_t length) {
    size_t at = 0;
    while (at < length) {
        uint64_t number = random_number();
        size_t some = length - at < sizeof number ? length - at : sizeof number;
        memcpy(one + at, &number, some);
        memcpy(other + at, &number, some);
        at += some;
    }
}

static void name_transfer(struct transfer t) {
    fprintf(stderr, "tests/plan: width %" PRIu32 " beats %" PRIu32 " start %" PRIu32 " count %" PRIu32, t.width, t.beats, t.start,
            t.count);
}

static void name_call(struct transfer t, size_t length) {
    name_transfer(t);
    fprintf(stderr, ", %zu bytes lent: ", length);
}

static void fail_with(const char *what, uint64_t wanted_number, uint64_t seen_number) {
    fprintf(stderr, "%s is %" PRIu64 " and should be %" PRIu64 "\n", what, seen_number, wanted_number);
    exit(1);
}

static void fail(struct transfer t, size_t length, const char *what, uint64_t wanted_number, uint64_t seen_number) {
    name_call(t, length);
    fail_with(what, wanted_number, seen_number);
}

static void fail_count(struct transfer t, const char *what, uint64_t wanted_number, uint64_t seen_number) {
    name_transfer(t);
    fputs(", counted: ", stderr);
    fail_with(what, wanted_number, seen_number);
}

/* The call under way, to be named if it does not come back. */
static struct transfer called;
static size_t called_length;

static void fail_outside(int signal_number) {
    name_call(called, called_length);
    fprintf(stderr, "it touched memory that was not lent (signal %d)\n", signal_number);
    exit(1);
}

/* The promise itself, seen in the library's own places: legal bursts that follow each other from start to end. */
static void check_promise(struct transfer t, size_t length, const uint8_t *places, uint32_t number) {
    uint64_t at = t.start;
    for (uint32_t burst = 0; burst < number; burst++) {
        uint64_t start = place_at(places + 8 * (size_t)burst);
        uint64_t stop = start + place_at(places + 8 * (size_t)burst + 4);
        if (start != at) {
            fail(t, length, "a burst's start", at, start);
        }
        if (!legal(t, start, stop)) {
            fail(t, length, "the legality of a burst", 1, 0);
        }
        at = stop;
    }
    if (at != end_of(t)) {
        fail(t, length, "the end of the last burst", end_of(t), at);
    }
}

/* Calls with `length` bytes lent, at the arena's end or at its start. To be called after cut(). */
static void check_at(struct transfer t, size_t length, bool at_the_end) {
    size_t spread = length + WATCHED;
    size_t from = at_the_end ? arena_bytes - spread : 0;
    size_t lent = at_the_end ? from + WATCHED : from;
    fill_alike(arena + from, wanted + from, spread);

    uint32_t answer = answer_of(t, length);
    uint32_t number = 0;
    if (answer == 0) {
        number = (uint32_t)burst_count;
        for (size_t burst = 0; burst < burst_count; burst++) {
            put_place(wanted + lent + 8 * burst, bursts[burst].start);
            put_place(wanted + lent + 8 * burst + 4, bursts[burst].stop - bursts[burst].start);
        }
    }

    called = t;
    called_length = length;
    struct belikumba_planned planned = belikumba_plan(t.width, t.beats, t.start, t.count, arena + lent, length);
    if (planned.answer != answer) {
        fail(t, length, "the answer", answer, planned.answer);
    }
    if (planned.bursts != number) {
        fail(t, length, "the number of bursts", number, planned.bursts);
    }
    if (memcmp(arena + from, wanted + from, spread) != 0) {
        size_t at = from;
        while (arena[at] == wanted[at]) {
            at++;
        }
        char what[64];
        snprintf(what, sizeof what, "byte %td from the first lent one", (ptrdiff_t)at - (ptrdiff_t)lent);
        fail(t, length, what, wanted[at], arena[at]);
    }
    if (answer == 0) {
        check_promise(t, length, arena + lent, number);
    }
    compared.calls++;
    compared.answers[answer]++;
    compared.bursts += number;
    compared.bytes += length;
}

static void check(struct transfer t, size_t length) {
    check_at(t, length, true);
    check_at(t, length, false);
}

/* One count, which is lent nothing. */
static void check_counted(struct transfer t, uint32_t answer, uint64_t number) {
    struct belikumba_planned counted = belikumba_count(t.width, t.beats, t.start, t.count);
    if (counted.answer != answer) {
        fail_count(t, "the answer", answer, counted.answer);
    }
    if (counted.bursts != number) {
        fail_count(t, "the number of bursts", number, counted.bursts);
    }
    compared.counts++;
    compared.count_answers[answer]++;
}

/* The count of the transfer that was cut last. To be called after cut(), unless the transfer is refused. */
static void check_count(struct transfer t) {
    uint32_t answer = count_answer_of(t);
    check_counted(t, answer, answer == 0 ? burst_count : 0);
}

/* ---- The plans ---- */

/* Room for nothing, too little by a byte, a place or a burst, just enough, and more, also by less than a place. */
static void check_rooms(struct transfer t) {
    if (settings_listed(t) && in_range(t)) {
        cut(t);
    } else {
        burst_count = 0;
    }
    check_count(t);
    size_t enough = 8 * burst_count;
    size_t near = enough > 8 ? enough - 8 : 0;
    for (size_t length = 0; length < near && length <= 8; length++) {
        check(t, length);
    }
    for (size_t length = near; length <= enough + 8; length++) {
        check(t, length);
    }
    check(t, enough + 8 * 5 + 3);
}

static struct transfer transfer(uint32_t width, uint32_t beats, uint64_t start, uint64_t count) {
    return (struct transfer){width, beats, (uint32_t)start, (uint32_t)count};
}

/* The worked cases of RULES.md 10, so this test's own cutter is compared with them too. */
static void check_worked_cases(void) {
    static const struct {
        struct transfer transfer;
        size_t places;
        uint32_t answer;
        uint32_t bursts;
        uint32_t written[4];
    } cases[] = {
        {{4, 16, 0, 1}, 8, 0, 1, {0, 1}},
        {{4, 16, 0, 64}, 8, 0, 1, {0, 64}},
        {{4, 16, 0, 65}, 8, 0, 2, {0, 64, 64, 1}},
        {{4, 16, 0, 65}, 4, 0, 2, {0, 64, 64, 1}},
        {{4, 16, 0, 65}, 3, 8, 0, {0}},
        {{4, 16, 3, 64}, 8, 0, 2, {3, 61, 64, 3}},
        {{4, 16, 4088, 16}, 8, 0, 2, {4088, 8, 4096, 8}},
        {{4, 16, UINT32_MAX, 1}, 8, 0, 1, {UINT32_MAX, 1}},
        {{4, 16, UINT32_MAX, 2}, 8, 7, 0, {0}},
        {{4, 16, 0, 0}, 8, 7, 0, {0}},
        {{128, 256, 0, 8192}, 8, 0, 2, {0, 4096, 4096, 4096}},
    };
    for (size_t i = 0; i < ARRAY_LENGTH(cases); i++) {
        struct transfer t = cases[i].transfer;
        uint8_t lent[32];
        size_t length = 4 * cases[i].places;
        memset(lent, 0xa5, sizeof lent);
        struct belikumba_planned planned = belikumba_plan(t.width, t.beats, t.start, t.count, lent, length);
        if (planned.answer != cases[i].answer) {
            fail(t, length, "the worked case's answer", cases[i].answer, planned.answer);
        }
        if (planned.bursts != cases[i].bursts) {
            fail(t, length, "the worked case's number of bursts", cases[i].bursts, planned.bursts);
        }
        for (size_t place = 0; place < 8; place++) {
            uint64_t number = place < 2 * cases[i].bursts ? cases[i].written[place] : 0xa5a5a5a5;
            if (place_at(lent + 4 * place) != number) {
                fail(t, length, "a place of the worked case", number, place_at(lent + 4 * place));
            }
        }
        if (cases[i].answer != 8) {
            check_counted(t, cases[i].answer, cases[i].bursts);
        }
        check_rooms(t);
    }
}

/* Every small width and beat count, and those whose low bits look like a listed one; each also with a bad range. */
static void check_settings(void) {
    static const uint32_t large[] = {512, 1024, 4096, 65536 + 4, 65536 + 16, 0x01000004, 0x80000000, 0x80000010, 0xfffffffc, 0xffffffff};
    for (uint32_t i = 0; i < 300 + ARRAY_LENGTH(large); i++) {
        uint32_t width = i < 300 ? i : large[i - 300];
        for (uint32_t j = 0; j < 300 + ARRAY_LENGTH(large); j++) {
            uint32_t beats = j < 300 ? j : large[j - 300];
            struct transfer good = transfer(width, beats, 4090, 70);
            struct transfer empty = transfer(width, beats, 4090, 0);
            struct transfer outside = transfer(width, beats, UINT32_MAX, 2);
            if (settings_listed(good)) {
                continue; /* every plan below has these */
            }
            burst_count = 0;
            check_at(good, 64, (i + j) % 2 == 0);
            check_at(good, 0, true);
            check_at(empty, 64, (i + j) % 2 == 1);
            check_at(outside, 7, true);
            check_count(good);
            check_count(empty);
            check_count(outside);
        }
    }
}

/* Null in place of nothing lent. */
static void check_null(void) {
    struct transfer good = transfer(4, 16, 0, 1);
    struct belikumba_planned planned = belikumba_plan(good.width, good.beats, good.start, good.count, NULL, 0);
    if (planned.answer != 8 || planned.bursts != 0) {
        fail(good, 0, "the answer to a null pointer", 8, planned.answer);
    }
}

/* Counts and starts at the edge of what is in range, on both sides of it. */
static void check_ranges(uint32_t width, uint32_t beats) {
    static const uint64_t counts[] = {0, 1, 2, 64, 4096, 4097, 8388606, 8388607, 8388608, 8388609, 16777216, 0x80000000, 0xffffffff};
    for (size_t i = 0; i < ARRAY_LENGTH(counts); i++) {
        uint64_t last = address_end - counts[i];
        uint64_t starts[] = {0, 1, 4095, last - 1, last, last + 1, 0x80000000, UINT32_MAX};
        for (size_t j = 0; j < ARRAY_LENGTH(starts); j++) {
            struct transfer t = transfer(width, beats, starts[j], counts[i]);
            if (starts[j] >= address_end || (settings_listed(t) && in_range(t) && t.count > cut_by_bytes)) {
                continue; /* no address, or one of the long plans */
            }
            check_rooms(t);
        }
    }
}

/* Starts and ends near each kind of edge: of a word, of a full burst, of a page, of the addresses. */
static void check_edges(uint32_t width, uint32_t beats) {
    uint64_t span = (uint64_t)width * beats;
    uint64_t bases[] = {0, width, span, page_bytes - span % page_bytes, page_bytes, 0x7ffff000, address_end - 2 * page_bytes, address_end};
    uint64_t sizes[] = {1, width, 2 * width, span - width, span, span + width, 2 * span, page_bytes, 2 * page_bytes + span % page_bytes};
    static const int64_t offsets[] = {-5, -4, -3, -2, -1, 0, 1, 2, 3, 4, 7};
    for (size_t i = 0; i < ARRAY_LENGTH(bases) * ARRAY_LENGTH(sizes); i++) {
        int64_t base = (int64_t)bases[i % ARRAY_LENGTH(bases)];
        int64_t size = (int64_t)sizes[i / ARRAY_LENGTH(bases)];
        for (size_t j = 0; j < ARRAY_LENGTH(offsets); j++) {
            int64_t start = base + offsets[j];
            int64_t count = size + offsets[random_below(ARRAY_LENGTH(offsets))];
            if (start >= 0 && start < (int64_t)address_end && count >= 0 && count <= (int64_t)cut_by_bytes) {
                check_rooms(transfer(width, beats, (uint64_t)start, (uint64_t)count));
            }
        }
    }
}

/* Any start and count, most of them good. */
static void check_random(uint32_t width, uint32_t beats) {
    for (int i = 0; i < 400; i++) {
        uint64_t count = random_below(i % 8 == 0 ? cut_by_bytes : 3 * page_bytes);
        check_rooms(transfer(width, beats, random_below(address_end), count));
    }
}

/* The largest transfers, from starts of every kind. */
static void check_long(uint32_t width, uint32_t beats) {
    uint64_t starts[] = {0, 1, page_bytes - 1, page_bytes - width - 1, address_end - most_bytes, random_below(address_end - most_bytes)};
    for (size_t i = 0; i < ARRAY_LENGTH(starts); i++) {
        uint64_t count = i % 2 == 0 ? most_bytes : most_bytes - random_below(page_bytes);
        struct transfer t = transfer(width, beats, starts[i], count);
        cut(t);
        check_count(t);
        size_t enough = 8 * burst_count;
        check_at(t, enough, true);
        check_at(t, enough + 7, false);
        check_at(t, enough - 1, true);
        check_at(t, 3, false);
    }
}

static uint8_t *make_arena(size_t bytes) {
    size_t guard = (size_t)sysconf(_SC_PAGESIZE);
    size_t whole = bytes + 2 * guard;
    uint8_t *memory = mmap(NULL, whole, PROT_NONE, MAP_PRIVATE | MAP_ANONYMOUS, -1, 0);
    if (memory == MAP_FAILED || mprotect(memory + guard, bytes, PROT_READ | PROT_WRITE) != 0) {
        perror("tests/plan: no memory");
        exit(2);
    }
    return memory + guard;
}

int main(void) {
    size_t pages = (size_t)sysconf(_SC_PAGESIZE);
    arena_bytes = (8 * (size_t)MOST_BURSTS + 2 * WATCHED + pages) / pages * pages;
    arena = make_arena(arena_bytes);
    wanted = make_arena(arena_bytes);
    bursts = malloc(MOST_BURSTS * sizeof *bursts);
    if (bursts == NULL) {
        perror("tests/plan: no memory");
        return 2;
    }

    /* A call that leaves the lent bytes ends at one of the pages beside the arena. */
    signal(SIGSEGV, fail_outside);
    signal(SIGBUS, fail_outside);
    check_worked_cases();
    check_null();
    check_settings();
    for (size_t i = 0; i < ARRAY_LENGTH(widths); i++) {
        for (size_t j = 0; j < ARRAY_LENGTH(beat_counts); j++) {
            check_ranges(widths[i], beat_counts[j]);
            check_edges(widths[i], beat_counts[j]);
            check_random(widths[i], beat_counts[j]);
            check_long(widths[i], beat_counts[j]);
        }
    }
    printf("plan: %" PRIu64 " calls on %" PRIu64 " transfers gave the answer, the count and each of the %" PRIu64
           " lent bytes that docs/RULES.md says\n"
           "plan: %" PRIu64 " plans of %" PRIu64 " bursts in all, legal and each following the last; answer 1 %" PRIu64
           " times, 7 %" PRIu64 " times, 8 %" PRIu64 " times\n"
           "plan: %" PRIu64 " counts gave the answer and the number of bursts of the cutter that walks; answer 0 %" PRIu64
           " times, 1 %" PRIu64 " times, 7 %" PRIu64 " times\n",
           compared.calls, compared.transfers, compared.bytes, compared.answers[0], compared.bursts, compared.answers[1],
           compared.answers[7], compared.answers[8], compared.counts, compared.count_answers[0], compared.count_answers[1],
           compared.count_answers[7]);
    return 0;
}
