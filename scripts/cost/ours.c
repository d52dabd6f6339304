/* ours.c: each call of the door, counted on fixed states.
 *
 * At work, a unit has the bench's settings, five masters that announced twice and a full window of 120 samples; the exchange is counted
 * at its tenth measurement. Each case starts from a copy of that state, or follows the one before it. */
#include "sinezhab.h"

#include "count.h"

#include <stdbool.h>
#include <stdio.h>
#include <stdlib.h>
#include <string.h>

struct hall {
    struct sinezhab_unit unit;
    struct sinezhab_servo servo;
    struct sinezhab_watch watch;
    struct sinezhab_record table[SINEZHAB_TABLE];
    uint64_t now, second;
    uint16_t sequence;
};

/* A message as it comes. */
struct frame {
    uint8_t octets[64];
    size_t length;
    struct sinezhab_stamp arrival;
};

static struct sinezhab_answer answer;

static void need(bool holds, const char *what)
{
    if (holds) return;
    fprintf(stderr, "ours: %s: code %u, refused %u\n", what, answer.code, answer.refused);
    exit(1);
}

/* Calls, counted where they have a name. Each must be answered with its code. */

#define CALL(name, expected, call) \
    do { \
        const char *called = name; \
        if (called) \
            COUNT(called, call); \
        else \
            call; \
        need(answer.code == (expected), called ? called : #call); \
    } while (0)

static void receive(struct hall *h, const char *name, struct frame f, unsigned code)
{
    CALL(name, code,
         sinezhab_receive(&h->unit, &h->servo, h->table, SINEZHAB_TABLE, &h->watch, f.octets, f.length, h->now, f.arrival, &answer));
}

static void pass(struct hall *h, const char *name, unsigned code)
{
    CALL(name, code, sinezhab_time(&h->unit, &h->servo, h->table, SINEZHAB_TABLE, &h->watch, h->now, &answer));
}

static void request(struct hall *h, const char *name)
{
    static uint8_t frame[60];
    CALL(name, SINEZHAB_ANSWER_ASKED, sinezhab_request(&h->unit, frame, sizeof frame, h->now, &answer));
}

static void sent(struct hall *h, const char *name, uint16_t sequence, struct sinezhab_stamp t3)
{
    CALL(name, SINEZHAB_ANSWER_STAMPED, sinezhab_sent(&h->unit, &h->servo, &h->watch, h->now, sequence, t3, &answer));
}

static void reset(struct hall *h, const char *name)
{
    CALL(name, SINEZHAB_ANSWER_WIPED, sinezhab_reset(&h->unit, &h->servo, &h->watch, &answer));
}

static void tick(struct hall *h, const char *name, int second, int64_t y, unsigned code)
{
    int64_t reference = (int64_t)second * 1000000000;
    CALL(name, code, sinezhab_tick(&h->unit, &h->servo, &h->watch, reference, reference + y, &answer));
}

static void line(struct hall *h, const char *name, unsigned code) { CALL(name, code, sinezhab_line(&h->unit, &h->watch, &answer)); }
static void show(struct hall *h, const char *name) { CALL(name, SINEZHAB_ANSWER_SHOWS, sinezhab_show(&h->unit, &h->servo, &answer)); }

/* Messages */

static void put(uint8_t *octets, uint64_t value, size_t n)
{
    for (size_t i = 0; i < n; i++) octets[i] = (uint8_t)(value >> 8 * (n - 1 - i));
}

/* The Announce of one of five masters, each its own grandmaster; a smaller priority1 or a smaller identity is better. */
static struct frame announced(struct hall *h, unsigned master, uint8_t priority1)
{
    struct frame f = { .length = sizeof announce };
    memcpy(f.octets, announce, sizeof announce);
    f.octets[27] += (uint8_t)master; /* the last octet of the sender's identity, and of the grandmaster's */
    f.octets[60] += (uint8_t)master;
    f.octets[47] = priority1;
    put(f.octets + 30, ++h->sequence, 2);
    return f;
}

/* One of the exchange's messages from the first master. */
static struct frame exchanged(const uint8_t *octets, size_t length, uint16_t sequence, uint64_t seconds, int64_t ns)
{
    struct frame f = { .length = length };
    memcpy(f.octets, octets, length);
    put(f.octets + 30, sequence, 2);
    put(f.octets + 34, seconds, 6);
    put(f.octets + 40, (uint64_t)ns, 4);
    return f;
}

/* An exchange up to its Delay_Resp, which is answered: its t4. Names are given where the steps are to be counted. */
static struct frame halves(struct hall *h, bool named, int64_t forward, int64_t back)
{
    const int64_t half = 500000000; /* t1, in its second; t3 a quarter of a second later than t2 */
    uint16_t own;
    h->second++;
    h->now += 1000;
    struct frame s = exchanged(sync, sizeof sync, (uint16_t)h->second, 0, 0);
    s.arrival = (struct sinezhab_stamp){ h->second, (uint32_t)(half + forward) };
    receive(h, named ? "receive: Sync" : NULL, s, SINEZHAB_ANSWER_HELD);
    receive(h, named ? "receive: Follow_Up" : NULL, exchanged(follow_up, sizeof follow_up, (uint16_t)h->second, h->second, half),
            SINEZHAB_ANSWER_PAIRED);
    request(h, named ? "request" : NULL);
    own = answer.sequence;
    sent(h, named ? "sent" : NULL, own, (struct sinezhab_stamp){ h->second, (uint32_t)(half + forward + half / 2) });
    return exchanged(delay_resp, sizeof delay_resp, own, h->second, half + forward + half / 2 + back);
}

/* States */

static struct hall fresh(int64_t window)
{
    struct hall h = { 0 };
    struct sinezhab_given g = { .own = { 0x0080a1fffe000007, 1 }, .kp = 700, .ki = 300, .limit = 100000, .window = window, .minimum = 30 };
    g.tolerance = 2000000;
    g.spike = 1000000;
    g.jump = 2000000;
    struct sinezhab_made made = sinezhab_make(g);
    need(made.refused == 0, "make");
    h.unit = made.unit;
    h.servo = made.servo;
    return h; /* a fresh watch and a fresh table are zeros */
}

/* Five masters, each with two Announces; the first is chosen. `step` is from one's priority1 to the next. */
static void announce_five(struct hall *h, uint8_t step)
{
    for (unsigned i = 0; i < 10; i++) {
        h->now += 100;
        receive(h, NULL, announced(h, i % 5, (uint8_t)(100 + step * (i % 5))), i == 5 ? SINEZHAB_ANSWER_CHANGED : SINEZHAB_ANSWER_CHOSE);
    }
}

static struct hall at_work(int64_t window, uint8_t step)
{
    struct hall h = fresh(window);
    announce_five(&h, step);
    for (int i = 0; i < window; i++) tick(&h, NULL, i, 50 * i, SINEZHAB_ANSWER_VALID);
    return h;
}

/* Nine accepted measurements, with offsets of 20, or of 250 with changing sign: the tenth then halves the gains. */
static void measure_nine(struct hall *h, bool swings)
{
    for (int i = 0; i < 9; i++) {
        int64_t offset = swings ? (i % 2 ? -250 : 250) : 20;
        struct frame resp = halves(h, false, 10250 + offset, 10250 - offset);
        receive(h, NULL, announced(h, 0, 100), SINEZHAB_ANSWER_CHOSE);
        receive(h, NULL, resp, SINEZHAB_ANSWER_MEASURED);
    }
}

/* What is counted */

static void count_messages(void)
{
    static uint8_t octets[1500], part[1500]; /* an Announce with as many TLVs as an Ethernet frame can hold: 359 empty ones */
    struct sinezhab_message m;
    struct sinezhab_written w;
    memcpy(octets, announce, sizeof announce);
    octets[2] = sizeof octets >> 8;
    octets[3] = sizeof octets & 255;
    COUNT("read Sync", m = sinezhab_read(sync, sizeof sync));
    need(m.refused == 0, "read");
    COUNT("read Follow_Up", m = sinezhab_read(follow_up, sizeof follow_up));
    need(m.refused == 0, "read");
    COUNT("read Delay_Resp", m = sinezhab_read(delay_resp, sizeof delay_resp));
    need(m.refused == 0, "read");
    COUNT("read Announce", m = sinezhab_read(announce, sizeof announce));
    need(m.refused == 0 && m.kind == 11, "read");
    COUNT("write Announce", w = sinezhab_write(m, octets, 0, part, sizeof part));
    need(w.refused == 0 && !memcmp(part, announce, sizeof announce), "write");
    COUNT("read Announce of 1,500 octets, 359 TLVs", m = sinezhab_read(octets, sizeof octets));
    need(m.refused == 0 && m.to == 1500, "read");
    COUNT("write Announce of 1,500 octets, 359 TLVs", w = sinezhab_write(m, octets + m.from, 1436, part, sizeof part));
    need(w.refused == 0 && !memcmp(part, octets, sizeof part), "write");
}

static void count_making(void)
{
    struct sinezhab_given g = { .announce = 5 };
    struct sinezhab_made made;
    COUNT("make, refused", made = sinezhab_make(g));
    need(made.refused == 8, "make");
    g = (struct sinezhab_given){ .kp = 700, .ki = 300, .limit = 1, .window = 2, .minimum = 2, .spike = 1, .jump = 2 };
    COUNT("make", made = sinezhab_make(g));
    need(made.refused == 0, "make");
}

/* Announces and time. With a step of 0 identities decide: the dearest comparison. */
static void count_masters(const struct hall *work, const struct hall *alike)
{
    struct hall h = *work;
    receive(&h, "receive: Announce", announced(&h, 0, 100), SINEZHAB_ANSWER_CHOSE);
    h = *alike;
    receive(&h, "receive: Announce, identities decide, last place", announced(&h, 4, 100), SINEZHAB_ANSWER_CHOSE);
    h = *work;
    receive(&h, "receive: Announce, better master: wiped", announced(&h, 4, 1), SINEZHAB_ANSWER_CHANGED);
    h = *work;
    receive(&h, "receive: Announce, refused (15, a sixth master)", announced(&h, 5, 1), SINEZHAB_ANSWER_REFUSED);
    need(answer.refused == SINEZHAB_REFUSAL_FULL, "full");
    h = *work;
    pass(&h, "time", SINEZHAB_ANSWER_CHOSE);
    h = *alike;
    pass(&h, "time, identities decide", SINEZHAB_ANSWER_CHOSE);
    h = fresh(120);
    pass(&h, "time, no master", SINEZHAB_ANSWER_CHOSE);
    h = *work;
    h.now += 100000;
    pass(&h, "time, master lost: wiped", SINEZHAB_ANSWER_CHANGED);
}

static void count_exchange(const struct hall *work)
{
    struct hall h = *work;
    measure_nine(&h, false);
    receive(&h, "receive: Delay_Resp, measured", halves(&h, true, 10270, 10230), SINEZHAB_ANSWER_MEASURED);
    show(&h, "show, tracking");
    need(answer.servo == SINEZHAB_SERVO_TRACKING, "show");
    h = *work;
    measure_nine(&h, true);
    receive(&h, "receive: Delay_Resp, measured, median, gains halved", halves(&h, false, 12500, 12500), SINEZHAB_ANSWER_MEASURED);
    need(answer.used == 10250 && h.servo.kp == 350, "median");
    h = *work;
    measure_nine(&h, false);
    receive(&h, "receive: Delay_Resp, negative sum", halves(&h, false, 10, -20), SINEZHAB_ANSWER_NEG);
    receive(&h, "receive: Delay_Resp, step: wiped", halves(&h, false, 200000000, -199980000), SINEZHAB_ANSWER_STEP);
    h = *work;
    struct frame other = exchanged(sync, sizeof sync, 1, 0, 0);
    other.octets[27]++;
    receive(&h, "receive: Sync, refused (16, not the master)", other, SINEZHAB_ANSWER_REFUSED);
    need(answer.refused == SINEZHAB_REFUSAL_NOT_MASTER, "not the master");
}

static void count_watch(const struct hall *work)
{
    struct hall h = *work;
    tick(&h, "tick, valid", 120, 50 * 120, SINEZHAB_ANSWER_VALID);
    line(&h, "line of 120 samples", SINEZHAB_ANSWER_LINE);
    need(answer.line.n == 120 && answer.line.slope == 50 * answer.line.over, "line");
    tick(&h, "tick, invalid", 121, 1500000, SINEZHAB_ANSWER_INVALID);
    tick(&h, "tick, jump: wiped", 122, 5000000, SINEZHAB_ANSWER_JUMP);
    line(&h, "line, refused", SINEZHAB_ANSWER_REFUSED);
    reset(&h, "reset: wiped");
    h = at_work(128, 1);
    line(&h, "line of 128 samples", SINEZHAB_ANSWER_LINE);
    need(answer.line.n == 128, "line");
}

int main(void)
{
    struct hall work = at_work(120, 1), alike = at_work(120, 0);
    count_messages();
    count_making();
    count_masters(&work, &alike);
    count_exchange(&work);
    count_watch(&work);
    return 0;
}
