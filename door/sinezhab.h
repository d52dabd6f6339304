/* sinezhab.h: the door of the proved PTP slave core for C and C++.
 *
 * Which call when. Each is told in full at its declaration, and examples/loop.c is a main loop to start from.
 *
 *     make      once, with the settings: it gives a fresh unit and its servo. A fresh table and a fresh watch are all zeros
 *     receive   every PTP message that has come, with the stamp of its arrival
 *     time      once a second or so, whatever else comes: it alone notices that the master has fallen silent
 *     request   once a Sync has its t1; send the frame
 *     sent      as soon as the hardware gives the stamp t3 of that frame's departure
 *     tick      at every second pulse, with its two stamps
 *     line      when somebody wants the drift
 *     show      when somebody wants to know how the unit does
 *     reset     when the operator says so; it alone ends FAULTY
 *     then      after every call that was not refused, set the clock's rate to servo.output: ppb, positive slows it, a wipe has made it 0
 *
 * Link with libdoor.a. Every call ends, waits for nothing, allocates nothing and keeps nothing beside what you lend it. Of the C library
 * it asks memcpy, memmove, memset or memcmp, as any freestanding code may, and nothing else.
 *
 * What the caller owes:
 *
 * - One call at a time for each unit. Parts that are lent to two calls at once lose an update. Two units can work at once.
 * - No pointer to a struct is null, and each is aligned as its type asks: 8 octets. Octets, a suffix, a part, a frame or a table of
 *   length 0 may have any pointer.
 * - Nothing that is lent to one call overlaps anything else that is lent to it.
 * - Unit, servo, table and watch are lent as the call before left them. Any octets in them are answered without harm, but only these
 *   have the answers that are proved.
 * - Stack, from the call on: 2,048 octets for receive and time, 1,024 for every other call (docs/COST.md has the figures).
 * - Calls use the xmm registers, and the red zone, which is the 128 octets below the stack pointer. An interrupt handler or a kernel
 *   that makes a call saves the xmm registers around it; whatever interrupts a call on its own stack steps over the red zone.
 * - The rounding mode is to nearest (as every program starts), or ppm of a line is not the nearest f64.
 * - time is called regularly, once a second or so; else a lost master is not noticed.
 * - The 14 octets of Ethernet header are the caller's: receive and read take the octets behind them. The frame that is lent to request
 *   includes them, and they stay as they are.
 * - Local stamps, t2 of a Sync and t3 of a request, are handed over in the order in which they were taken. One below the last wipes.
 *
 * Nothing else: no value of any argument is a mistake, it is answered or refused. A refusal gives its number only: unit, servo, table,
 * watch, part and frame are then as before, octet by octet. */
#ifndef SINEZHAB_H
#define SINEZHAB_H

/* libdoor.a is for x86-64 with the calling convention of System V: 64-bit pointers, little-endian. */
#if !defined(__x86_64__) || defined(_WIN32) || defined(__CYGWIN__) || defined(__ILP32__)
#error "sinezhab.h: libdoor.a is for x86-64 System V only"
#elif __SIZEOF_POINTER__ != 8 || __SIZEOF_LONG__ != 8 || __BYTE_ORDER__ != __ORDER_LITTLE_ENDIAN__
#error "sinezhab.h: libdoor.a is for 64-bit pointers, 64-bit long and little-endian numbers only"
#endif

#include <stddef.h>
#include <stdint.h>

#ifdef __cplusplus
extern "C" {
#endif

/* Major, minor and patch: 16, 8 and 8 bits. Another major number means other structs or calls. */
#define SINEZHAB_VERSION 0x00020000u

uint32_t sinezhab_version(void);                                        /* of the library: SINEZHAB_VERSION where the two belong together */

/* The numbers of refusal (docs/RULES.md, section 3). 0 means none. */
enum sinezhab_refusal {
    SINEZHAB_REFUSAL_SHORT = 1,  /* too few octets for a header, or for messageLength */
    SINEZHAB_REFUSAL_VERSION,    /* version is not 2 */
    SINEZHAB_REFUSAL_KIND,       /* none of the five kinds, or a Delay_Req handed to the unit */
    SINEZHAB_REFUSAL_LENGTH,     /* messageLength is less than the kind needs, or too long to be written */
    SINEZHAB_REFUSAL_FIELD,      /* a stamp or a four-bit field out of its range */
    SINEZHAB_REFUSAL_SUFFIX,     /* what stands behind the fixed part is no row of even TLVs */
    SINEZHAB_REFUSAL_ROOM,       /* the message does not fit into what is lent */
    SINEZHAB_REFUSAL_SETTINGS,   /* a setting is out of its range, or the table is not of five */
    SINEZHAB_REFUSAL_NOW,        /* now is less than the unit's */
    SINEZHAB_REFUSAL_DOMAIN,     /* not the set domain */
    SINEZHAB_REFUSAL_OWN,        /* an Announce of the own clock */
    SINEZHAB_REFUSAL_ALTERNATE,  /* an Announce of an alternate master */
    SINEZHAB_REFUSAL_STEPS,      /* an Announce from 255 steps away, or more */
    SINEZHAB_REFUSAL_REPEAT,     /* the sequenceId of this live sender's last Announce */
    SINEZHAB_REFUSAL_FULL,       /* a new sender, and all five places are live */
    SINEZHAB_REFUSAL_NOT_MASTER, /* from another than the master, or there is none */
    SINEZHAB_REFUSAL_UNMATCHED,  /* nothing waits for it */
    SINEZHAB_REFUSAL_FAULTY,     /* a call of the exchange while the unit is faulty */
    SINEZHAB_REFUSAL_CORRECTION, /* a correction of a second or more */
    SINEZHAB_REFUSAL_TICK,       /* a stamp of a pulse is negative, or 2^62 or more */
    SINEZHAB_REFUSAL_NOT_READY   /* the line is not due */
};

/* The state: place it where you like. Unit, record and watch are not to be looked into; the servo may be read. */

#define SINEZHAB_TABLE 5
#define SINEZHAB_UNIT_SIZE 208
#define SINEZHAB_RECORD_SIZE 96
#define SINEZHAB_WATCH_SIZE 1680

struct sinezhab_unit { uint64_t storage[SINEZHAB_UNIT_SIZE / 8]; };
struct sinezhab_record { uint64_t storage[SINEZHAB_RECORD_SIZE / 8]; }; /* of one master: the table is five of them, zeros at first */
struct sinezhab_watch { uint64_t storage[SINEZHAB_WATCH_SIZE / 8]; };   /* zeros at first */

struct sinezhab_ten { int32_t offsets[10]; uint64_t count; };           /* in ns, the newest first; how many are held */

struct sinezhab_servo {
    int64_t integral;                                                   /* I, in 1/128,000 ppb */
    struct sinezhab_ten ten;
    int32_t output;                                                     /* ppb, the rate to set; positive slows the clock */
    uint16_t kp, ki;                                                    /* in thousandths */
};

struct sinezhab_stamp { uint64_t seconds; uint32_t nanoseconds; };
struct sinezhab_port { uint64_t clock; uint16_t number; };              /* a clock identity as the number its 8 octets are */

struct sinezhab_given {                                                 /* the settings: words of any size, refused where out of range */
    uint8_t domain;
    struct sinezhab_port own;
    int64_t announce, sync;                                             /* exponents: 0 to 4, 0 to 7 */
    int64_t kp, ki;                                                     /* thousandths: 100 to 1,000, 10 to 500 */
    int64_t limit;                                                      /* ppb: 1 to 100,000 */
    int64_t window, minimum, holdoff;                                   /* samples: 2 to 128, 2 to window, 0 to 10 */
    int64_t tolerance, spike;                                           /* ns: 0 to 100,000,000, 1 to 999,999,998 */
    int64_t jump;                                                       /* ns: over spike, to 999,999,999 */
};

struct sinezhab_made {
    uint64_t refused;                                                   /* 0 or 8; where it is 8, unit and servo are of no use */
    struct sinezhab_unit unit;
    struct sinezhab_servo servo;
};

struct sinezhab_made sinezhab_make(struct sinezhab_given given);

/* Answers: a code, and in brackets the fields that it carries. The others are 0. Where it says "wiped", exchange, servo and watch are
 * as fresh after it, and the output is 0. */

enum sinezhab_answer_code {
    SINEZHAB_ANSWER_REFUSED,     /* (refused) */
    SINEZHAB_ANSWER_CHOSE,       /* (master) the master as before, or still none */
    SINEZHAB_ANSWER_CHANGED,     /* (master) a new or lost master: wiped */
    SINEZHAB_ANSWER_HELD,        /* the Sync is held */
    SINEZHAB_ANSWER_PAIRED,      /* the Follow_Up gave t1 */
    SINEZHAB_ANSWER_ASKED,       /* (sequence) the frame has the request of this sequenceId */
    SINEZHAB_ANSWER_STAMPED,     /* t3 is given */
    SINEZHAB_ANSWER_BACK,        /* a t2 or t3 went back: wiped */
    SINEZHAB_ANSWER_MEASURED,    /* (delay, used, offset, output) an accepted measurement */
    SINEZHAB_ANSWER_NEG,         /* sum below 0 */
    SINEZHAB_ANSWER_LONG,        /* sum over 19,999,998 */
    SINEZHAB_ANSWER_HUGE,        /* forward less the delay is a second or more */
    SINEZHAB_ANSWER_HUGE_FAULTY, /* the third in a row: the unit is faulty */
    SINEZHAB_ANSWER_PATH,        /* the delay is far from the last accepted one */
    SINEZHAB_ANSWER_PATH_WIPED,  /* the third in a row: wiped */
    SINEZHAB_ANSWER_STEP,        /* (offset) beyond 100,000,000: wiped */
    SINEZHAB_ANSWER_WIPED,       /* the operator's reset: wiped */
    SINEZHAB_ANSWER_VALID,       /* the sample is taken */
    SINEZHAB_ANSWER_INVALID,     /* the sample is taken, and marked invalid */
    SINEZHAB_ANSWER_TICK_BACK,   /* reference not above the previous: wiped */
    SINEZHAB_ANSWER_RANGE,       /* y of a second or more: wiped */
    SINEZHAB_ANSWER_JUMP,        /* y over jump from the previous: wiped */
    SINEZHAB_ANSWER_LINE,        /* (line, wipes) the drift line */
    SINEZHAB_ANSWER_SHOWS        /* (port, servo, output, now, master, wipes, sequence) */
};

enum sinezhab_port_state { SINEZHAB_PORT_FAULTY, SINEZHAB_PORT_LISTENING, SINEZHAB_PORT_UNCALIBRATED, SINEZHAB_PORT_SLAVE };
enum sinezhab_servo_state { SINEZHAB_SERVO_HOLDOVER, SINEZHAB_SERVO_TRACKING, SINEZHAB_SERVO_ADJUSTING };

struct sinezhab_master {
    uint64_t clock;                                                     /* of the sender, and its port's number */
    uint16_t number;
    uint16_t some;                                                      /* 0: there is no master */
    uint32_t spare;
};

struct sinezhab_drift {                                                 /* y in ns at place x: (level + slope x) / over */
    int64_t level, slope, over;
    int64_t n;                                                          /* of so many valid samples */
    double ppm;                                                         /* the slope in ppm, the f64 nearest to it */
};

struct sinezhab_answer {
    uint8_t code, refused;                                              /* sinezhab_answer_code, sinezhab_refusal */
    uint8_t port, servo;                                                /* sinezhab_port_state, sinezhab_servo_state */
    int32_t output;                                                     /* ppb */
    uint32_t wipes;                                                     /* the wipe count, modulo 2^32 */
    uint16_t sequence;                                                  /* of the request, or of the next one */
    uint16_t spare;
    uint64_t now;
    struct sinezhab_master master;
    int64_t delay, used, offset;                                        /* ns */
    struct sinezhab_drift line;
};

/* Calls. `now` is a count of ms from any moment, never below an earlier one. Each call writes the whole answer, and reads nothing of it. */

/* A message without its Ethernet header, and the stamp of its arrival, which of a Sync is t2 and of others is not looked at. What is
 * refused, in this order: 1 to 6, what can't be read; 3, a Delay_Req; 8, a table of another count than 5; then what its kind may be
 * refused with. An Announce is answered CHOSE or CHANGED, a Sync HELD or BACK, a Follow_Up PAIRED, a Delay_Resp MEASURED to STEP. */
void sinezhab_receive(struct sinezhab_unit *unit, struct sinezhab_servo *servo, struct sinezhab_record *table, size_t count,
                      struct sinezhab_watch *watch, const uint8_t *octets, size_t length, uint64_t now, struct sinezhab_stamp arrival,
                      struct sinezhab_answer *answer);

/* Time goes on: CHOSE or CHANGED. */
void sinezhab_time(struct sinezhab_unit *unit, struct sinezhab_servo *servo, struct sinezhab_record *table, size_t count,
                   struct sinezhab_watch *watch, uint64_t now, struct sinezhab_answer *answer);

/* The unit's own Delay_Req into the frame, behind its 14 octets of Ethernet header: ASKED. Only 44 octets from 14 on are written, and
 * only when asked; so the frame has 58 octets or more. Send it, then give its stamp with `sent`. */
void sinezhab_request(struct sinezhab_unit *unit, uint8_t *frame, size_t length, uint64_t now, struct sinezhab_answer *answer);

/* The stamp t3 of the request with this sequenceId: STAMPED or BACK. */
void sinezhab_sent(struct sinezhab_unit *unit, struct sinezhab_servo *servo, struct sinezhab_watch *watch, uint64_t now,
                   uint16_t sequence, struct sinezhab_stamp t3, struct sinezhab_answer *answer);

/* The operator's reset: WIPED. Never refused. */
void sinezhab_reset(struct sinezhab_unit *unit, struct sinezhab_servo *servo, struct sinezhab_watch *watch,
                    struct sinezhab_answer *answer);

/* The second pulse's two stamps, in ns, each counted from any moment of its own: VALID to JUMP. */
void sinezhab_tick(struct sinezhab_unit *unit, struct sinezhab_servo *servo, struct sinezhab_watch *watch, int64_t reference,
                   int64_t clock, struct sinezhab_answer *answer);

/* The drift line: LINE. Changes nothing. */
void sinezhab_line(struct sinezhab_unit *unit, struct sinezhab_watch *watch, struct sinezhab_answer *answer);

/* What the unit shows: SHOWS. Never refused, changes nothing. */
void sinezhab_show(struct sinezhab_unit *unit, struct sinezhab_servo *servo, struct sinezhab_answer *answer);

/* Messages by themselves: no unit is asked, and the loop above needs none of it. */

struct sinezhab_header {
    uint8_t sdo, minor, domain, minorsdo;
    uint16_t flags;                                                     /* octet 6 is the high one: 0x0100 alternate, 0x0200 two-step */
    int64_t correction;                                                 /* in 1/65,536 ns */
    uint32_t specific;
    struct sinezhab_port source;
    uint16_t sequence;
    uint8_t control;
    int8_t interval;
};

struct sinezhab_offer {                                                 /* what an Announce has behind its timestamp */
    int16_t utc;
    uint8_t reserved, priority1, clockclass, accuracy;
    uint16_t variance;
    uint8_t priority2;
    uint64_t grandmaster;
    uint16_t steps;
    uint8_t time;                                                       /* the time source */
};

struct sinezhab_message {
    uint8_t refused;                                                    /* 0, or why there is no message: then all else is 0 */
    uint8_t kind;                                                       /* 0 Sync, 1 Delay_Req, 8 Follow_Up, 9 Delay_Resp, 11 Announce */
    struct sinezhab_header header;
    struct sinezhab_stamp stamp;
    struct sinezhab_port requester;                                     /* of kind 9, else zeros */
    struct sinezhab_offer offer;                                        /* of kind 11, else zeros */
    size_t from, to;                                                    /* the TLV suffix is octets[from] to octets[to - 1] of those read */
};

struct sinezhab_written { uint8_t refused; size_t length; };

/* The octets of a message, without the Ethernet header. Padding behind messageLength is passed over. */
struct sinezhab_message sinezhab_read(const uint8_t *octets, size_t length);

/* The message and its suffix into the lent part; octets past `length` keep their values. `from` and `to` are not looked at; a message
 * with `refused` set is none, and refused with 3. */
struct sinezhab_written sinezhab_write(struct sinezhab_message message, const uint8_t *suffix, size_t count, uint8_t *part, size_t room);

/* The layout that libdoor.a was made for; door/layout.c asks the library. */
#if defined(__cplusplus) && __cplusplus >= 201103L
#define SINEZHAB_HOLDS(name, condition) static_assert(condition, #name)
#elif defined(__STDC_VERSION__) && __STDC_VERSION__ >= 201112L
#define SINEZHAB_HOLDS(name, condition) _Static_assert(condition, #name)
#else
#define SINEZHAB_HOLDS(name, condition) typedef char sinezhab_holds_##name[(condition) ? 1 : -1]
#endif

SINEZHAB_HOLDS(unit, sizeof(struct sinezhab_unit) == SINEZHAB_UNIT_SIZE);
SINEZHAB_HOLDS(record, sizeof(struct sinezhab_record) == SINEZHAB_RECORD_SIZE);
SINEZHAB_HOLDS(watch, sizeof(struct sinezhab_watch) == SINEZHAB_WATCH_SIZE);
SINEZHAB_HOLDS(servo, sizeof(struct sinezhab_servo) == 64 && offsetof(struct sinezhab_servo, output) == 56);
SINEZHAB_HOLDS(stamp, sizeof(struct sinezhab_stamp) == 16 && sizeof(struct sinezhab_port) == 16);
SINEZHAB_HOLDS(given, sizeof(struct sinezhab_given) == 112 && offsetof(struct sinezhab_given, announce) == 24);
SINEZHAB_HOLDS(made, sizeof(struct sinezhab_made) == 280 && offsetof(struct sinezhab_made, servo) == 216);
SINEZHAB_HOLDS(answer, sizeof(struct sinezhab_answer) == 104 && offsetof(struct sinezhab_answer, line) == 64);
SINEZHAB_HOLDS(message, sizeof(struct sinezhab_message) == 136 && offsetof(struct sinezhab_message, from) == 120);
SINEZHAB_HOLDS(written, sizeof(struct sinezhab_written) == 16 && offsetof(struct sinezhab_written, length) == 8);
#undef SINEZHAB_HOLDS

#ifdef __cplusplus
}
#endif

#endif
