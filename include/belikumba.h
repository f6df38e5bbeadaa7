/*
 * Belikumba for C and C++: the functions of libbelikumba, which `./belikumba lib` proves and builds, as an archive and as a
 * shared library. The rules are in docs/RULES.md.
 *
 * Each function takes any numbers and any lent bytes, and always ends. What it cannot do it refuses with a status code,
 * called the answer (RULES.md 2). If the answer is not 0, every other number handed back is 0 and nothing that was lent
 * changes. No function keeps what it was lent, has a state of its own or makes a system call: it may be called from any
 * thread. What is lent to one call must not overlap, except for parts that are only read.
 *
 * A copy of 16 bytes from address 256 to 4088, in memory of 8,192 bytes:
 *
 *     static uint8_t memory[8192];
 *     uint32_t engine[BELIKUMBA_ENGINE_WORDS] = {4, 16};                  // a fresh engine: 4 bytes wide, 16 beats
 *     belikumba_write(engine, BELIKUMBA_CDMACR, BELIKUMBA_CDMACR_IOC_IRQEN);
 *     belikumba_write(engine, BELIKUMBA_SA, 256);
 *     belikumba_write(engine, BELIKUMBA_DA, 4088);
 *     belikumba_write(engine, BELIKUMBA_BTT, 16);                         // starts
 *     belikumba_run(engine, memory, sizeof memory, NULL, 0, 65535);       // two steps: a page ends at 4096
 *     uint32_t status = belikumba_read(engine, BELIKUMBA_CDMASR).value;
 *     if (status & BELIKUMBA_CDMASR_IOC_IRQ) puts("copied");
 *     if (status & BELIKUMBA_CDMASR_ERRORS) puts("failed");
 *
 * Build: cc -Iinclude program.c target/host/libbelikumba.a, or after `./belikumba lib --prefix DIR` with pkg-config belikumba.
 */
#ifndef BELIKUMBA_H
#define BELIKUMBA_H

#include <stddef.h>
#include <stdint.h>

#ifdef __cplusplus
extern "C" {
#endif

/* The answers that the functions below give (RULES.md 2.1). */
enum belikumba_answer {
    BELIKUMBA_DONE = 0,
    BELIKUMBA_SETTINGS = 1,     /* width not 4, 8, 16, 32, 64 or 128, or beats not 2, 4, 8, 16, 32, 64, 128 or 256 */
    BELIKUMBA_MEMORY_SIZE = 2,  /* memory longer than 16,777,216 bytes */
    BELIKUMBA_OFFSET = 3,       /* there is no register at this offset */
    BELIKUMBA_BUSY = 4,         /* write ignored: the engine is busy, or in the wrong mode */
    BELIKUMBA_ERROR_SET = 5,    /* write ignored: an error bit is set */
    BELIKUMBA_WINDOW_COUNT = 6, /* more than 16 windows */
    BELIKUMBA_PLAN_RANGE = 7,   /* count 0 or above 8,388,607, or start + count above 2^32 */
    BELIKUMBA_PLAN_ROOM = 8,    /* the plan needs more places than were lent: belikumba_count says how many bursts it has */
    BELIKUMBA_STATE = 9,        /* the words are not those of a well-formed engine, or of no monitor */
    BELIKUMBA_CLOCK = 13        /* a field of the bus clock is out of range */
};

/* ---- Plan (RULES.md 3) ---- */

struct belikumba_planned {
    uint32_t answer; /* 0, 1 or 7; from belikumba_plan also 8 */
    uint32_t bursts; /* the number of bursts; 0 if the answer is not 0 */
};

/*
 * Cuts the transfer of `count` bytes from address `start` into bursts, for a bus of `width` bytes and bursts of at
 * most `beats` beats. Each burst reaches as far as is legal, or to the transfer's end: it stays within one page of
 * 4,096 bytes and touches at most `beats` aligned words of `width` bytes. So the bursts cover each byte once, in
 * rising order, and no list of legal bursts that covers these bytes is shorter. The engine cuts so if its destination
 * increments; a fixed one (RULES.md 6.10) takes pieces of one length, for which belikumba_count, below, has the formula.
 *
 * The bursts are written to `places`, of which `length` bytes are lent. A place is four bytes, the lowest first, and
 * length / 4 places are lent. Burst k, counted from 0, takes two:
 *
 *     bytes 8k to 8k + 3        its start
 *     bytes 8k + 4 to 8k + 7    its number of bytes
 *
 * The answer is the first of these that holds:
 *
 *     1    width or beats is not one of those listed above
 *     7    count is 0 or above 8,388,607, or start + count is above 2^32 (equal to 2^32 is allowed)
 *     8    length / 4 is less than twice the number of bursts; belikumba_count, below, says how many there are
 *     0    done
 *
 * On 0, the first 8 * bursts bytes are written and those past them keep what they held. On 1, 7 and 8 all `length`
 * bytes keep it. `places` needs no alignment, and may be a null pointer if `length` is 0.
 */
struct belikumba_planned belikumba_plan(uint32_t width, uint32_t beats, uint32_t start, uint32_t count, uint8_t *places,
                                        size_t length);

/*
 * The number of bursts of the same transfer, without its plan. If belikumba_plan is lent 8 * bursts bytes for it, it
 * answers 0 and writes them all. The number is worked out by division: the time does not grow with the number of bursts.
 *
 * The engine cuts a transfer by its destination alone. For the number of its moves count from the address in DA: the count
 * from SA may be another number. If the destination is fixed (RULES.md 6.10), the moves are the count divided by
 * width * (the smaller of beats and 16), rounded up.
 *
 * The answer is the first of these that holds; it is never 8, since nothing is lent:
 *
 *     1    width or beats is not one of those listed above
 *     7    count is 0 or above 8,388,607, or start + count is above 2^32 (equal to 2^32 is allowed)
 *     0    done
 */
struct belikumba_planned belikumba_count(uint32_t width, uint32_t beats, uint32_t start, uint32_t count);

/* ---- Registers (RULES.md 5) ---- */

enum belikumba_register {
    BELIKUMBA_CDMACR = 0x00,
    BELIKUMBA_CDMASR = 0x04,
    BELIKUMBA_CURDESC = 0x08,
    BELIKUMBA_CURDESC_MSB = 0x0C, /* the upper halves: written without effect, read 0 */
    BELIKUMBA_TAILDESC = 0x10,
    BELIKUMBA_TAILDESC_MSB = 0x14,
    BELIKUMBA_SA = 0x18,
    BELIKUMBA_SA_MSB = 0x1C,
    BELIKUMBA_DA = 0x20,
    BELIKUMBA_DA_MSB = 0x24,
    BELIKUMBA_BTT = 0x28
};

enum belikumba_cdmacr {
    BELIKUMBA_CDMACR_TAILPNTREN = 1 << 1, /* always reads 1 */
    BELIKUMBA_CDMACR_RESET = 1 << 2,
    BELIKUMBA_CDMACR_SGMODE = 1 << 3,         /* chain mode */
    BELIKUMBA_CDMACR_KEY_HOLE_READ = 1 << 4,  /* the source stays at its first `width` bytes (RULES.md 6.10) */
    BELIKUMBA_CDMACR_KEY_HOLE_WRITE = 1 << 5, /* the destination does */
    BELIKUMBA_CDMACR_IOC_IRQEN = 1 << 12,
    BELIKUMBA_CDMACR_ERR_IRQEN = 1 << 14,
    BELIKUMBA_CDMACR_IRQTHRESHOLD = 0xFF << 16 /* a field that always reads 1 */
};

enum belikumba_cdmasr {
    BELIKUMBA_CDMASR_IDLE = 1 << 1,
    BELIKUMBA_CDMASR_SGINCLD = 1 << 3,    /* always reads 1 */
    BELIKUMBA_CDMASR_DMAINTERR = 1 << 4,  /* a count of 0, or a fixed side whose start or count is no multiple of the width */
    BELIKUMBA_CDMASR_DMASLVERR = 1 << 5,  /* slave error in a burst */
    BELIKUMBA_CDMASR_DMADECERR = 1 << 6,  /* decode error in a burst */
    BELIKUMBA_CDMASR_SGINTERR = 1 << 8,   /* a descriptor that was complete already */
    BELIKUMBA_CDMASR_SGSLVERR = 1 << 9,   /* slave error in a descriptor */
    BELIKUMBA_CDMASR_SGDECERR = 1 << 10,  /* decode error in a descriptor */
    BELIKUMBA_CDMASR_IOC_IRQ = 1 << 12,   /* write 1 to clear */
    BELIKUMBA_CDMASR_ERR_IRQ = 1 << 14,   /* write 1 to clear */
    BELIKUMBA_CDMASR_ERRORS = 0x770,      /* the six error bits; only a reset clears them */
    BELIKUMBA_CDMASR_IRQTHRESHOLDSTS = 0xFF << 16 /* a field that always reads 1 */
};

/* ---- Descriptor (RULES.md 6.1) ---- */

/* 32 bytes at a multiple of 64; each field is a word, its lowest byte first. */
enum belikumba_descriptor {
    BELIKUMBA_DESCRIPTOR_NEXT = 0x00,
    BELIKUMBA_DESCRIPTOR_SOURCE = 0x08,
    BELIKUMBA_DESCRIPTOR_DESTINATION = 0x10,
    BELIKUMBA_DESCRIPTOR_CONTROL = 0x18, /* the byte count, in bits 22..0 */
    BELIKUMBA_DESCRIPTOR_STATUS = 0x1C,
    BELIKUMBA_DESCRIPTOR_BYTES = 32,
    BELIKUMBA_DESCRIPTOR_ALIGNMENT = 64
};

/* The status word of a descriptor, by the number of the one bit that an update sets: 1u << BELIKUMBA_STATUS_COMPLETE. */
enum belikumba_status {
    BELIKUMBA_STATUS_INTERNAL = 28,
    BELIKUMBA_STATUS_SLAVE = 29,
    BELIKUMBA_STATUS_DECODE = 30,
    BELIKUMBA_STATUS_COMPLETE = 31
};

/* ---- Memory (RULES.md 4) ---- */

/* What a group of bytes answers. Decode error outweighs slave error, and slave error outweighs OKAY. */
enum belikumba_verdict {
    BELIKUMBA_OKAY = 0,
    BELIKUMBA_SLAVE_ERROR = 1, /* a byte of the group is in memory, and in a sick window */
    BELIKUMBA_DECODE_ERROR = 2 /* a byte of the group is at or past the end of memory */
};

struct belikumba_judged {
    uint32_t answer;  /* 0, 2 or 6 */
    uint32_t verdict; /* one of the verdicts above */
    uint32_t place;   /* the lowest address that gave the verdict; 0 if it is OKAY */
    uint32_t window;  /* the number of the window that holds the place; 0 if the verdict is no slave error */
};

/*
 * What the `bytes` bytes from address `start` on answer, in memory of `memory_bytes` bytes from address 0 on, and where. The
 * sick windows, that is faulty regions, are in `windows`: start and length in turn, in `window_numbers` numbers, two a window;
 * an odd last number is of no use. A window holds the bytes from its start up to, not including, start + length. Windows are
 * numbered from 0 in their order here.
 *
 *     OKAY            no byte is in a window or past the end of memory; 0 bytes are OKAY
 *     slave error     `place` is the lowest byte that is in a window, and `window` the first window that holds this byte. An
 *                     empty window holds nothing, but has its number.
 *     decode error    `place` is the lowest byte at or past the end of memory. Sick bytes are not named, even if lower.
 *
 * Byte 0 and window 0 are a place and a window like any other: look at the verdict first.
 *
 * The answer is the first of these that holds:
 *
 *     2    memory_bytes is above 16,777,216
 *     6    there are more than 16 windows; an empty one counts
 *     0    done
 *
 * `start` and `bytes` may be any numbers: no sum wraps, so bytes past 2^32 are past the end of memory. No memory is lent, as
 * what bytes answer does not depend on what they hold. `windows` may be a null pointer if `window_numbers` is 0.
 *
 * A step judges by the same rules. To find where it failed, ask with the length and the windows that the step was lent:
 *
 *     BELIKUMBA_FAULT    the first number is the place. For its window judge the 1 byte at the place. If the place is the
 *                        source's, judge the burst's destination bytes too: they may have failed as well, and the fault does not
 *                        tell. host/name_chip.c does both.
 *     BELIKUMBA_HALT     judge the 32 bytes at CURDESC if the step was a fetch, or the 4 bytes at CURDESC + 28 if it was an
 *                        update; word 15 of the engine before the step says which. If the event's second number is 8, the
 *                        descriptor was complete already, and no byte failed.
 */
struct belikumba_judged belikumba_judge(size_t memory_bytes, const uint32_t *windows, size_t window_numbers, uint32_t start,
                                        uint32_t bytes);

/* ---- Engine (RULES.md 5 and 6) ---- */

/*
 * An engine is kept by its caller, in 22 numbers that each call is lent:
 *
 *      0  width of the bus in bytes           8  CURDESC, the current pointer
 *      1  beats of a burst at most            9  TAILDESC
 *      2  SGMode, 0 or 1                     10  the next pointer
 *      3  IOC_IrqEn, 0 or 1                  11  the next pointer that the fetched descriptor holds
 *      4  Err_IrqEn, 0 or 1                  12  SA
 *      5  the number of the CDMASR error     13  DA
 *         bit that is set, 4, 5, 6, 8, 9     14  BTT
 *         or 10; 0 if none is                15  the phase: 0 idle, 1 fetch, 2 move, 28 to 31 update, which
 *      6  IOC_Irq, 0 or 1                        is to write the status word with this bit alone set
 *      7  Err_Irq, 0 or 1                    16  of the transfer that moves: its source
 *                                            17  its destination
 *                                            18  its bytes in all
 *                                            19  its bytes moved so far; 16 to 19 are 0 in any other phase
 *     20  Key Hole Read, 0 or 1              21  Key Hole Write, 0 or 1
 *
 * A fresh engine has its width and beats and 0 in all other words: uint32_t engine[BELIKUMBA_ENGINE_WORDS] = {4, 16};
 *
 * Two engines that share a memory are two such lists; each call is lent the one that it is for, and memory and windows as
 * they stand, one call at a time. If one writes what the other reads or writes, the order of their steps matters; else it does
 * not (RULES.md 11). host/two_engines.c has an example.
 *
 * Any numbers may be lent. Words that no engine has, and those of an engine that is not well formed, get answer 9.
 * Each engine has one list of words: two engines are the same if their words are.
 */
#define BELIKUMBA_ENGINE_WORDS 22

/*
 * Rises whenever the words of an engine or a monitor change, or a function's arguments do. The shared library is named
 * after it (libbelikumba.so.2), so a program never meets a library of another number; one that is linked with the
 * archive is compiled again with its header. Keep this number beside words that are stored:
 *
 *     1  an engine has 20 words
 *     2  it has 22. The words of 1 and then 0, 0 are the same engine.
 *
 * It does not rise if a function is added, or if an event tells another number. What a caller of 2 notices since version 2.3:
 * BELIKUMBA_FAULT tells the byte that failed, where it told the start of the burst's destination bytes; and there is one
 * function more, belikumba_judge.
 */
#define BELIKUMBA_INTERFACE 2

struct belikumba_value {
    uint32_t answer; /* 0, 1, 3 or 9 */
    uint32_t value;  /* the register's value, or 1 if the line is high; 0 if the answer is not 0 */
};

/* Reads the register at `offset`: answers 1, 9, 3, the first that holds, or 0 beside its value. */
struct belikumba_value belikumba_read(const uint32_t engine[BELIKUMBA_ENGINE_WORDS], uint32_t offset);

/*
 * Writes `value` to the register at `offset`, and hands back the answer: 1, 9, 3, 5, 4, the first that holds, or 0.
 * A BTT write is answered 0, sets DMAIntErr and Err_Irq and starts nothing if the count is 0, or if a side is fixed and its
 * start or the count is no multiple of the width.
 */
uint32_t belikumba_write(uint32_t engine[BELIKUMBA_ENGINE_WORDS], uint32_t offset, uint32_t value);

/* The interrupt line: answers 1 and 9 in this order, or 0 beside 1 if the line is high. */
struct belikumba_value belikumba_interrupt_line(const uint32_t engine[BELIKUMBA_ENGINE_WORDS]);

/* What a step did, and the two numbers that a listing has for it (RULES.md 6.7). */
enum belikumba_event {
    BELIKUMBA_NONE = 0,   /* the engine was idle, or the step was refused: 0, 0 */
    BELIKUMBA_FETCH = 1,  /* current pointer, 0 */
    BELIKUMBA_MOVE = 2,   /* destination (a fixed one's start), bytes */
    BELIKUMBA_FAULT = 3,  /* address of the byte that failed (see below), number of the CDMASR bit */
    BELIKUMBA_UPDATE = 4, /* current pointer, status word */
    BELIKUMBA_HALT = 5    /* current pointer, number of the CDMASR bit */
};

struct belikumba_stepped {
    uint32_t answer; /* 0, 1, 2, 6 or 9 */
    uint32_t event;  /* one of the events above */
    uint32_t first;
    uint32_t second;
};

/*
 * One step over the `memory_bytes` bytes of memory. `windows` holds sick windows, that is faulty regions, which answer
 * slave error, as for belikumba_judge above: start and length in turn, in `window_numbers` numbers, two a window; an odd last
 * number is of no use. The answer is 1, 2, 6, 9, the first that holds, or 0. Memory and windows may be null pointers if their
 * length is 0, and may change between two steps.
 *
 * A fault tells the lowest byte that gave the error, as belikumba_judge does, of the burst's source bytes or of its
 * destination bytes. If both gave this error, it is the source's byte, even if the destination's is lower. Of a fixed side
 * (RULES.md 6.10) it is the lowest byte of those that the burst uses, not the first that it comes to.
 */
struct belikumba_stepped belikumba_step(uint32_t engine[BELIKUMBA_ENGINE_WORDS], uint8_t *memory, size_t memory_bytes,
                                        const uint32_t *windows, size_t window_numbers);

struct belikumba_ran {
    uint32_t answer; /* 0, 1, 2, 6 or 9 */
    uint32_t steps;  /* the number of steps taken; 0 if the answer is not 0 */
};

/*
 * Steps until the engine is idle or `most` steps are taken; refused as a step is, once, at its start.
 *
 * Runs of 100 and then of 200 steps over the same memory and windows, with nothing in between that changes engine or
 * memory, are one run of 300: the same words and bytes at the end, and their steps add up to its steps. To read registers
 * or the interrupt line in between changes nothing. If the first run is refused, the second and the one of 300 get the
 * same answer (RULES.md 6.8).
 */
struct belikumba_ran belikumba_run(uint32_t engine[BELIKUMBA_ENGINE_WORDS], uint8_t *memory, size_t memory_bytes,
                                   const uint32_t *windows, size_t window_numbers, uint16_t most);

/* ---- Monitor (RULES.md 7) ---- */

/*
 * A monitor of the read-address bus is kept by its caller, in 14 numbers that each call is lent:
 *
 *     0, 1    the flags: flag n is bit n % 32 of word n / 32
 *     2, 3    the snapshot, in the same way
 *     4..13   the clock before, in the order of struct belikumba_clock
 *
 * A fresh monitor has 0 in all words. Any numbers may be lent; a word 4 above 7, which no monitor has, gets answer 9.
 */
#define BELIKUMBA_MONITOR_WORDS 14

/* The bits of a clock's `bits`. */
enum belikumba_clock_bit {
    BELIKUMBA_CLOCK_RESET_HIGH = 1 << 0, /* out of reset */
    BELIKUMBA_CLOCK_VALID = 1 << 1,
    BELIKUMBA_CLOCK_READY = 1 << 2
};

struct belikumba_clock {
    uint32_t bits; /* of enum belikumba_clock_bit; at most 7 */
    uint32_t address;
    uint32_t length; /* beats less 1, at most 255 */
    uint32_t size;   /* a beat has 2^size bytes; at most 7 */
    uint32_t burst;  /* 0 fixed, 1 incrementing, 2 wrapping; at most 3 */
    uint32_t cache;  /* at most 15 */
    uint32_t prot;   /* at most 7 */
    uint32_t qos;    /* at most 15 */
    uint32_t region; /* at most 15 */
    uint32_t id;
};

struct belikumba_clocked {
    uint32_t answer; /* 0, 1, 9 or 13 */
    uint32_t count;  /* how many flags are up; 0 if the answer is not 0 */
    uint32_t lowest; /* the number of the lowest flag that is up, or 0 */
};

/*
 * One bus clock, on a bus of `width` bytes and bursts of at most `beats` beats: answers 1, 9, 13, the first that
 * holds, or 0. A refused clock is no clock: the next one's clock before is still the one that was taken last.
 */
struct belikumba_clocked belikumba_bus_clock(uint32_t monitor[BELIKUMBA_MONITOR_WORDS], uint32_t width, uint32_t beats,
                                             struct belikumba_clock clock);

#ifdef __cplusplus
}
#endif

#endif
