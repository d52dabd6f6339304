/* loop.c: a main loop to start from, fed with a recorded hall.
 *
 * Firmware takes its events from queues and timers and turns hardware; here they come on standard input, a line each, in the order in which
 * they are handed over, and what would be done is printed. NOW is the card's count of milliseconds when the event is handled.
 *
 *     NOW frame SECONDS NANOS OCTETS   a PTP message without its Ethernet header, and the hardware's stamp of its arrival
 *     NOW timer                        the card's own timer: it is time to ask for the delay, right after a Sync (docs/USE.md says why)
 *     NOW left SECONDS NANOS           the hardware's stamp of the departure of the request that was sent last
 *     NOW pulse REFERENCE CLOCK        the second pulse: the stamps of free oscillator and steered clock, in ns
 *
 *     scripts/libdoor.sh
 *     gcc -Idoor examples/loop.c target/staticlib/libdoor.a -o loop && ./loop <examples/hall.events
 */
#include "sinezhab.h"

#include <inttypes.h>
#include <stdio.h>
#include <string.h>

/* All state of the core; a fresh table and a fresh watch are zeros, as static memory is. */
static struct sinezhab_unit unit;
static struct sinezhab_servo servo;
static struct sinezhab_record table[SINEZHAB_TABLE];
static struct sinezhab_watch watch;
static struct sinezhab_answer answer; /* of the last call */

static uint64_t now;          /* ms: read when a call is made, so that it never goes back */
static uint64_t due = 1000;   /* when to call `time` next */
static uint16_t sequence;     /* of the request that was sent last */
static uint8_t early[64];     /* a Delay_Resp that came before its request's t3, of early_length octets */
static size_t early_length;
static int32_t rate;          /* as the clock is set, ppb */

static void say(const char *what) { printf("%" PRIu64 " %s\n", now, what); }

/* What every answer asks for, whichever call it answers: docs/USE.md has the whole list. */
static void act(void)
{
    switch (answer.code) {
    case SINEZHAB_ANSWER_REFUSED: printf("%" PRIu64 " refused %u: nothing has changed\n", now, answer.refused); return;
    case SINEZHAB_ANSWER_CHOSE: return; /* the master is as before */
    case SINEZHAB_ANSWER_CHANGED:
        if (answer.master.some) printf("%" PRIu64 " new master %016" PRIx64 "-%u: wiped\n", now, answer.master.clock, answer.master.number);
        else say("no master any more: wiped");
        break;
    case SINEZHAB_ANSWER_HELD: say("Sync held"); break;
    case SINEZHAB_ANSWER_PAIRED: say("Sync has its t1"); break;
    case SINEZHAB_ANSWER_STAMPED: say("request has its t3"); break;
    case SINEZHAB_ANSWER_MEASURED: printf("%" PRIu64 " delay %" PRId64 ", offset %" PRId64 " ns\n", now, answer.used, answer.offset); break;
    case SINEZHAB_ANSWER_STEP: printf("%" PRIu64 " set the clock by %" PRId64 " ns: wiped\n", now, -answer.offset); break;
    case SINEZHAB_ANSWER_HUGE: say("the clock is off by a second or more: set it from a Sync"); break;
    case SINEZHAB_ANSWER_HUGE_FAULTY:
        say("the same the third time, faulty: set the clock, then reset");
        sinezhab_reset(&unit, &servo, &watch, &answer);
        break;
    case SINEZHAB_ANSWER_NEG:
    case SINEZHAB_ANSWER_LONG:
    case SINEZHAB_ANSWER_PATH: say("measurement dropped"); break;
    case SINEZHAB_ANSWER_VALID: break;
    case SINEZHAB_ANSWER_INVALID: say("pulse marked invalid"); break;
    default: say("wiped"); /* BACK, PATH_WIPED, WIPED, and a pulse's TICK_BACK, RANGE, JUMP */
    }
    /* A wipe has made the output 0. So this one line is all the steering there is. */
    if (servo.output != rate) printf("%" PRIu64 " steer: %" PRId32 " ppb\n", now, servo.output);
    rate = servo.output;
}

static void frame(const uint8_t *octets, size_t length, struct sinezhab_stamp arrival)
{
    sinezhab_receive(&unit, &servo, table, SINEZHAB_TABLE, &watch, octets, length, now, arrival, &answer);
    /* The answer to a request can be here before the stamp of its departure: it is kept and handed over again behind that. */
    if (answer.refused == SINEZHAB_REFUSAL_UNMATCHED && (octets[0] & 15) == 9 && length <= sizeof early)
        memmove(early, octets, length), early_length = length;
    act();
}

static void timer(void)
{
    static uint8_t out[60] = { 0x01, 0x1b, 0x19, 0, 0, 0, 0x00, 0x80, 0xa1, 0, 0, 0x07, 0x88, 0xf7 }; /* to all, from here, PTP */
    sinezhab_request(&unit, out, sizeof out, now, &answer);
    if (answer.code != SINEZHAB_ANSWER_ASKED) {
        act(); /* there is no master, as a rule */
        return;
    }
    sequence = answer.sequence;
    early_length = 0; /* what may be kept belongs to the request before */
    printf("%" PRIu64 " send request %u, a frame of %zu octets\n", now, sequence, sizeof out);
}

static void left(struct sinezhab_stamp t3)
{
    sinezhab_sent(&unit, &servo, &watch, now, sequence, t3, &answer);
    act();
    if (answer.code != SINEZHAB_ANSWER_STAMPED || early_length == 0) return;
    frame(early, early_length, t3);
    early_length = 0;
}

static void pulse(int64_t reference, int64_t clock)
{
    sinezhab_tick(&unit, &servo, &watch, reference, clock, &answer);
    act();
    sinezhab_line(&unit, &watch, &answer);
    if (answer.code == SINEZHAB_ANSWER_LINE)
        printf("%" PRIu64 " drift %.6f ppm over %" PRId64 " pulses, wipe %" PRIu32 "\n", now, answer.line.ppm, answer.line.n, answer.wipes);
}

/* `time` once a second: nothing else notices that the master has fallen silent. */
static void pass(uint64_t until)
{
    for (; due <= until; due += 1000) {
        now = due;
        sinezhab_time(&unit, &servo, table, SINEZHAB_TABLE, &watch, now, &answer);
        act();
    }
    now = until;
}

static size_t octets_of(const char *hex, uint8_t *octets, size_t room)
{
    size_t n = 0;
    while (n < room && sscanf(hex + 2 * n, "%2" SCNx8, &octets[n]) == 1) n++;
    return n;
}

int main(void)
{
    static const char *ports[] = { "faulty", "listening", "uncalibrated", "slave" };
    static char text[1024];
    static uint8_t octets[256];
    struct sinezhab_given given = { .own = { 0x0080a1fffe000007, 1 }, .kp = 700, .ki = 300, .limit = 100000, .window = 120, .minimum = 3 };
    given.tolerance = 2000000, given.spike = 1000000, given.jump = 2000000;
    struct sinezhab_made made = sinezhab_make(given);
    if (sinezhab_version() != SINEZHAB_VERSION || made.refused) return 1;
    unit = made.unit, servo = made.servo;
    while (fgets(text, sizeof text, stdin)) {
        uint64_t at, a = 0, b = 0;
        char what[16], hex[512] = "";
        if (text[0] == '#' || text[0] == '\n') continue;
        if (sscanf(text, "%" SCNu64 " %15s %" SCNu64 " %" SCNu64 " %511s", &at, what, &a, &b, hex) < 2) return 1;
        pass(at);
        if (strcmp(what, "frame") == 0) frame(octets, octets_of(hex, octets, sizeof octets), (struct sinezhab_stamp){ a, (uint32_t)b });
        if (strcmp(what, "timer") == 0) timer();
        if (strcmp(what, "left") == 0) left((struct sinezhab_stamp){ a, (uint32_t)b });
        if (strcmp(what, "pulse") == 0) pulse((int64_t)a, (int64_t)b);
    }
    sinezhab_show(&unit, &servo, &answer);
    printf("at the end: port %s, output %" PRId32 " ppb, wipes %" PRIu32 "\n", ports[answer.port], answer.output, answer.wipes);
    return 0;
}
