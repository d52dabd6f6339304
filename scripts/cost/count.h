/* count.h: one call counted under a name, and the octets that both sides read. */
#ifndef COUNT_H
#define COUNT_H

#include <stdint.h>

/* Callgrind collects only within the functions that cost.sh names, so that what prepares a call or checks its answer adds nothing.
 * Where it can't run, TRACED is defined, and trace.py counts between the marks. */
#ifdef TRACED
#include <stdio.h>

__attribute__((noinline)) static void mark(void)
{
    __asm__ volatile("");
}

#define COUNT(name, call) \
    do { \
        mark(); \
        call; \
        mark(); \
        puts(name); \
    } while (0)
#else
#include <valgrind/callgrind.h>

#define COUNT(name, call) \
    do { \
        CALLGRIND_ZERO_STATS; \
        call; \
        CALLGRIND_DUMP_STATS_AT(name); \
    } while (0)
#endif

#define MASTER 0x00, 0xa0, 0xc2, 0xff, 0xfe, 0x00, 0x00, 0x01
#define OWN 0x00, 0x80, 0xa1, 0xff, 0xfe, 0x00, 0x00, 0x07
#define HEADER(kind, length, flag, control) \
    kind, 0x12, 0, length, 0, 0, flag, 0, 0, 0, 0, 0, 0, 0, 0, 0, 0, 0, 0, 0, MASTER, 0, 1, 0, 1, control, 0
#define STAMP 0x00, 0x00, 0x65, 0x53, 0x7f, 0x00, 0x1d, 0xcd, 0x65, 0x00

static const uint8_t announce[64] = { HEADER(0x0b, 64, 0, 5), STAMP, 0, 37, 0, 128, 6, 0x21, 0x4e, 0x5d, 128, MASTER, 0, 0, 0x20 };
static const uint8_t sync[44] = { HEADER(0x00, 44, 2, 0), STAMP };
static const uint8_t follow_up[44] = { HEADER(0x08, 44, 0, 2), STAMP };
static const uint8_t delay_resp[54] = { HEADER(0x09, 54, 0, 3), STAMP, OWN, 0, 1 };

#endif
