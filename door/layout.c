/* layout.c: whether every number of sinezhab.h is the library's: version, sizes, places of fields, refusals, answers.
 *
 * Sizes are measured: a call is lent more room than the header says, and what it changes there is counted. Places are tried: each field
 * is given a value of its own and found under its name. Each refusal and each answer is brought about once, by the call that the header
 * names. All that is lent stands between guard octets, which are looked at after each call. */
#include "sinezhab.h"

#include <stdbool.h>
#include <stdio.h>
#include <string.h>

#define GUARD 0xc3
#define OWN 0x0080a1fffe000007
#define MASTER 0x00a0c2fffe000001
#define SECOND 1000000000

static struct {
    uint8_t guard0[256];
    struct sinezhab_unit unit;
    uint8_t guard1[256];
    struct sinezhab_servo servo;
    uint8_t guard2[256];
    struct sinezhab_record table[SINEZHAB_TABLE];
    uint8_t guard3[256];
    struct sinezhab_watch watch;
    uint8_t guard4[256];
    struct sinezhab_answer answer;
    uint8_t guard5[256];
} lent;

static uint64_t now;
static unsigned checks, wrong;
static bool answered[SINEZHAB_ANSWER_SHOWS + 1], refused[SINEZHAB_REFUSAL_NOT_READY + 1];

static void need(bool holds, const char *what)
{
    checks++;
    if (holds) return;
    wrong++;
    printf("%s: not as in the header\n", what);
}

static bool all(const uint8_t *octets, size_t n, uint8_t value)
{
    for (size_t i = 0; i < n; i++)
        if (octets[i] != value) return false;
    return true;
}

static bool guarded(void)
{
    return all(lent.guard0, 256, GUARD) && all(lent.guard1, 256, GUARD) && all(lent.guard2, 256, GUARD) && all(lent.guard3, 256, GUARD) &&
           all(lent.guard4, 256, GUARD) && all(lent.guard5, 256, GUARD);
}

/* The last call's answer has this code. */
static void code(unsigned expected, const char *what)
{
    need(lent.answer.code == expected && lent.answer.refused == 0, what);
    need(guarded(), "what lies around the lent structs");
    answered[expected] = true;
}

/* The last call was refused with this number. */
static void refusal(unsigned expected, const char *what)
{
    need(lent.answer.code == SINEZHAB_ANSWER_REFUSED && lent.answer.refused == expected, what);
    need(guarded(), "what lies around the lent structs");
    answered[SINEZHAB_ANSWER_REFUSED] = refused[expected] = true;
}

/* Calls */

static struct sinezhab_given settings(void)
{
    struct sinezhab_given g = { .domain = 3, .own = { OWN, 9 }, .announce = 4, .kp = 700, .ki = 300, .limit = 100000, .window = 4 };
    g.minimum = 3;
    g.tolerance = 2000000;
    g.spike = 1000000;
    g.jump = 2000000;
    return g;
}

static void fresh(void)
{
    struct sinezhab_made made = sinezhab_make(settings());
    memset(&lent, GUARD, sizeof lent);
    lent.unit = made.unit;
    lent.servo = made.servo;
    memset(lent.table, 0, sizeof lent.table);
    memset(&lent.watch, 0, sizeof lent.watch);
    now = 0;
}

static struct sinezhab_stamp stamp(int64_t ns) { return (struct sinezhab_stamp){ (uint64_t)(ns / SECOND), (uint32_t)(ns % SECOND) }; }

static void receive(const uint8_t *octets, size_t length, int64_t arrival)
{
    sinezhab_receive(&lent.unit, &lent.servo, lent.table, SINEZHAB_TABLE, &lent.watch, octets, length, ++now, stamp(arrival), &lent.answer);
}

static void request(size_t length)
{
    static uint8_t frame[60];
    sinezhab_request(&lent.unit, frame, length, ++now, &lent.answer);
}

static void sent(uint16_t sequence, int64_t t3)
{
    sinezhab_sent(&lent.unit, &lent.servo, &lent.watch, ++now, sequence, stamp(t3), &lent.answer);
}

static void pass(uint64_t ms)
{
    now += ms;
    sinezhab_time(&lent.unit, &lent.servo, lent.table, SINEZHAB_TABLE, &lent.watch, now, &lent.answer);
}

static void tick(int64_t reference, int64_t y)
{
    sinezhab_tick(&lent.unit, &lent.servo, &lent.watch, reference, reference + y, &lent.answer);
}

static void line(void) { sinezhab_line(&lent.unit, &lent.watch, &lent.answer); }
static void show(void) { sinezhab_show(&lent.unit, &lent.servo, &lent.answer); }
static void reset(void) { sinezhab_reset(&lent.unit, &lent.servo, &lent.watch, &lent.answer); }

/* Messages */

static void put(uint8_t *octets, uint64_t value, size_t n)
{
    for (size_t i = 0; i < n; i++) octets[i] = (uint8_t)(value >> 8 * (n - 1 - i));
}

/* One of the five kinds in domain 3, from MASTER, with its timestamp in ns: its length. */
static size_t message(uint8_t *octets, uint8_t kind, uint16_t sequence, int64_t ns)
{
    size_t length = kind == 11 ? 64 : kind == 9 ? 54 : 44;
    memset(octets, 0, length);
    octets[0] = kind;
    octets[1] = 2;
    octets[3] = (uint8_t)length;
    octets[4] = 3;
    octets[6] = kind == 0 ? 2 : 0; /* a Sync is two-step */
    put(octets + 20, MASTER, 8);
    put(octets + 28, 6, 2);
    put(octets + 30, sequence, 2);
    put(octets + 34, (uint64_t)(ns / SECOND), 6);
    put(octets + 40, (uint64_t)(ns % SECOND), 4);
    if (kind == 9) put(octets + 44, OWN, 8), put(octets + 52, 9, 2);
    if (kind == 11) put(octets + 53, MASTER, 8);
    return length;
}

static void hear(uint8_t kind, uint16_t sequence, int64_t ns, int64_t arrival)
{
    uint8_t octets[64];
    size_t length = message(octets, kind, sequence, ns);
    receive(octets, length, arrival);
}

/* The same with some octets of its own. */
static void hear_with(uint8_t kind, size_t at, uint64_t value, size_t n)
{
    uint8_t octets[64];
    size_t length = message(octets, kind, 500, 5);
    put(octets + at, value, n);
    receive(octets, length, 0);
}

static void choose(void)
{
    hear(11, 1, 0, 0);
    code(SINEZHAB_ANSWER_CHOSE, "CHOSE by a first Announce");
    hear(11, 2, 0, 0);
    code(SINEZHAB_ANSWER_CHANGED, "CHANGED by a second Announce");
}

/* A whole exchange, both ways in ns; its Delay_Resp is the last call. */
static void exchange(int64_t forward, int64_t back)
{
    static int64_t t1 = 5000000000000;
    t1 += 10 * (int64_t)SECOND;
    hear(0, 77, 0, t1 + forward);
    code(SINEZHAB_ANSWER_HELD, "HELD by a Sync");
    hear(8, 77, t1, 0);
    code(SINEZHAB_ANSWER_PAIRED, "PAIRED by a Follow_Up");
    request(60);
    code(SINEZHAB_ANSWER_ASKED, "ASKED by a request");
    uint16_t own = lent.answer.sequence;
    sent(own, t1 + forward + 5000);
    code(SINEZHAB_ANSWER_STAMPED, "STAMPED by a t3");
    hear(9, own, t1 + forward + 5000 + back, 0);
}

/* Sizes: how many octets from the start on the call changes. What it leaves at one filling it changes at the other. */

static uint64_t room[8192];

void made_into(void *room, struct sinezhab_given given) __asm__("sinezhab_make"); /* as the ABI has them: the result goes to a pointer */
void message_into(void *room, const uint8_t *octets, size_t length) __asm__("sinezhab_read");

static void fill_made(void) { made_into(room, settings()); }
static void fill_watch(void) { sinezhab_reset(&lent.unit, &lent.servo, (void *)room, &lent.answer); }
static void fill_servo(void) { sinezhab_reset(&lent.unit, (void *)room, &lent.watch, &lent.answer); }
static void fill_answer(void) { sinezhab_show(&lent.unit, &lent.servo, (void *)room); }

static void fill_message(void)
{
    uint8_t octets[64];
    size_t length = message(octets, 11, 1, 0);
    message_into(room, octets, length);
}

/* `gaps`: there are octets between or behind the fields that need not be written. */
static void size(const char *name, void (*fill)(void), size_t expected, bool gaps)
{
    static uint8_t changed[sizeof room];
    size_t n = 0, last = 0;
    memset(changed, 0, sizeof changed);
    for (int filling = 0x5a; filling <= 0xa5; filling += 0x4b) {
        memset(room, filling, sizeof room);
        fill();
        for (size_t i = 0; i < sizeof room; i++) changed[i] |= ((uint8_t *)room)[i] != filling;
    }
    for (size_t i = 0; i < sizeof room; i++)
        if (changed[i]) n++, last = i + 1;
    checks++;
    if (gaps ? last <= expected && expected < last + 8 : n == expected && last == expected) return;
    wrong++;
    printf("%s: the header has %zu octets, the library fills %zu up to the %zuth\n", name, expected, n, last);
}

static void check_sizes(void)
{
    fresh();
    size("made", fill_made, sizeof(struct sinezhab_made), true);
    size("message", fill_message, sizeof(struct sinezhab_message), true);
    size("watch", fill_watch, sizeof(struct sinezhab_watch), false);
    size("servo", fill_servo, sizeof(struct sinezhab_servo), false);
    size("answer", fill_answer, sizeof(struct sinezhab_answer), false);
}

/* Five senders, whose Announces have the same mark in their correction: it is found five times, a record apart. */
static void check_records(void)
{
    const int64_t mark = 0x1234567890abcdef;
    const uint8_t *table = (const uint8_t *)lent.table;
    size_t found = 0, last = 0;
    fresh();
    for (uint8_t i = 0; i < SINEZHAB_TABLE; i++) {
        uint8_t octets[64];
        size_t length = message(octets, 11, 1, 0);
        octets[27] = i;
        put(octets + 8, (uint64_t)mark, 8);
        receive(octets, length, 0);
        code(SINEZHAB_ANSWER_CHOSE, "CHOSE by an Announce of each place");
    }
    for (size_t i = 0; i + sizeof mark <= sizeof lent.table; i++) {
        if (memcmp(table + i, &mark, sizeof mark) != 0) continue;
        if (found++ > 0) need(i - last == SINEZHAB_RECORD_SIZE, "the size of a record");
        last = i;
    }
    need(found == SINEZHAB_TABLE, "the records of the table");
    hear_with(11, 27, 99, 1);
    refusal(SINEZHAB_REFUSAL_FULL, "FULL by a sixth sender");
}

/* The settings: each is taken at both ends of its range and refused beyond them, so each stands at its place. */
static void check_settings(void)
{
    const struct sinezhab_given base = { .kp = 700, .ki = 300, .limit = 1, .window = 128, .minimum = 2, .spike = 1, .jump = 999999999 };
    struct sinezhab_given g = base;
    const struct { int64_t *field, low, high; } ranges[] = {
        { &g.announce, 0, 4 },  { &g.sync, 0, 7 },     { &g.kp, 100, 1000 },           { &g.ki, 10, 500 },
        { &g.limit, 1, 100000 }, { &g.window, 2, 128 }, { &g.minimum, 2, 128 },         { &g.holdoff, 0, 10 },
        { &g.tolerance, 0, 100000000 }, { &g.spike, 1, 999999998 }, { &g.jump, 2, 999999999 },
    };
    for (size_t i = 0; i < sizeof ranges / sizeof *ranges; i++) {
        const int64_t tried[] = { ranges[i].low, ranges[i].high, ranges[i].low - 1, ranges[i].high + 1 };
        for (int k = 0; k < 4; k++) {
            g = base;
            *ranges[i].field = tried[k];
            need(sinezhab_make(g).refused == (k < 2 ? 0 : SINEZHAB_REFUSAL_SETTINGS), "the range of a setting");
        }
    }
    refused[SINEZHAB_REFUSAL_SETTINGS] = true;
    struct sinezhab_made made = sinezhab_make(settings());
    need(made.servo.kp == 700 && made.servo.ki == 300 && made.servo.output == 0 && made.servo.integral == 0, "the servo of what is made");
}

/* Every field of a message under its name, and written again. */
static void check_messages(void)
{
    static const uint8_t announce[72] = {
        0x4b, 0x12, 0,  70, 3,    5,  6,  7,  0xff, 9,  10, 11, 12, 13, 14, 15, 16, 17, 18, 19, 20, 21, 22, 23,
        24,   25,   26, 27, 28,   29, 30, 31, 32,   0xfd, 34, 35, 36, 37, 38, 39, 0x20, 41, 42, 43, 0xff, 45, 46, 47,
        48,   49,   50, 51, 52,   53, 54, 55, 56,   57, 58, 59, 60, 61, 62, 63, 0, 3, 0, 2, 68, 69, 70, 71,
    };
    uint8_t octets[54], part[72] = { 0 };
    struct sinezhab_message m = sinezhab_read(announce, sizeof announce);
    const struct sinezhab_header *h = &m.header;
    const struct sinezhab_offer *o = &m.offer;
    need(m.refused == 0 && m.kind == 11 && m.from == 64 && m.to == 70, "a message's kind and suffix");
    need(h->sdo == 4 && h->minor == 1 && h->domain == 3 && h->minorsdo == 5 && h->flags == 0x0607, "a header's first fields");
    need(h->correction == (int64_t)0xff090a0b0c0d0e0f && h->specific == 0x10111213, "a header's correction and specific word");
    need(h->source.clock == 0x1415161718191a1b && h->source.number == 0x1c1d, "a header's source");
    need(h->sequence == 0x1e1f && h->control == 32 && h->interval == -3, "a header's last fields");
    need(m.stamp.seconds == 0x222324252627 && m.stamp.nanoseconds == 0x20292a2b, "a message's stamp");
    need(o->utc == (int16_t)0xff2d && o->reserved == 46 && o->priority1 == 47 && o->clockclass == 48, "an offer's first fields");
    need(o->accuracy == 49 && o->variance == 0x3233 && o->priority2 == 52, "an offer's quality");
    need(o->grandmaster == 0x35363738393a3b3c && o->steps == 0x3d3e && o->time == 63, "an offer's last fields");
    struct sinezhab_written w = sinezhab_write(m, announce + m.from, m.to - m.from, part, sizeof part);
    need(w.refused == 0 && w.length == 70 && memcmp(part, announce, 70) == 0 && part[70] == 0, "a message that is written again");
    w = sinezhab_write(m, announce + m.from, m.to - m.from, part, 69);
    need(w.refused == SINEZHAB_REFUSAL_ROOM && w.length == 0, "ROOM of a message that does not fit");
    m = sinezhab_read(octets, message(octets, 9, 1, 0));
    need(m.kind == 9 && m.requester.clock == OWN && m.requester.number == 9, "a Delay_Resp's requester");
}

/* The refusals of octets, and of whatever needs no master. */
static void check_refusals(void)
{
    uint8_t octets[64], frame[60] = { 0 };
    fresh();
    receive(octets, 0, 0);
    refusal(SINEZHAB_REFUSAL_SHORT, "SHORT of no octets");
    hear_with(0, 1, 1, 1);
    refusal(SINEZHAB_REFUSAL_VERSION, "VERSION 1");
    hear_with(0, 0, 2, 1);
    refusal(SINEZHAB_REFUSAL_KIND, "KIND 2");
    hear_with(0, 3, 43, 1);
    refusal(SINEZHAB_REFUSAL_LENGTH, "LENGTH of 43 octets");
    hear_with(0, 40, SECOND, 4);
    refusal(SINEZHAB_REFUSAL_FIELD, "FIELD of a second of nanoseconds");
    size_t length = message(octets, 0, 1, 0);
    octets[3] = 45;
    receive(octets, length + 1, 0);
    refusal(SINEZHAB_REFUSAL_SUFFIX, "SUFFIX of one octet");
    sinezhab_time(&lent.unit, &lent.servo, lent.table, 4, &lent.watch, 1, &lent.answer);
    refusal(SINEZHAB_REFUSAL_SETTINGS, "SETTINGS of a table of four");
    hear_with(0, 27, 1, 1);
    refusal(SINEZHAB_REFUSAL_NOT_MASTER, "NOT_MASTER without one");
    hear_with(11, 4, 4, 1);
    refusal(SINEZHAB_REFUSAL_DOMAIN, "DOMAIN 4");
    hear_with(11, 20, OWN, 8);
    refusal(SINEZHAB_REFUSAL_OWN, "OWN by the own Announce");
    hear_with(11, 6, 1, 1);
    refusal(SINEZHAB_REFUSAL_ALTERNATE, "ALTERNATE by its flag");
    hear_with(11, 61, 255, 2);
    refusal(SINEZHAB_REFUSAL_STEPS, "STEPS of 255");
    choose();
    hear(11, 2, 0, 0);
    refusal(SINEZHAB_REFUSAL_REPEAT, "REPEAT of an Announce");
    hear_with(0, 8, 0x7fffffffffffffff, 8);
    refusal(SINEZHAB_REFUSAL_CORRECTION, "CORRECTION of a second");
    hear(8, 1, 0, 0);
    refusal(SINEZHAB_REFUSAL_UNMATCHED, "UNMATCHED without a Sync");
    request(57);
    refusal(SINEZHAB_REFUSAL_ROOM, "ROOM of a frame of 57");
    sinezhab_request(&lent.unit, frame, sizeof frame, 0, &lent.answer);
    refusal(SINEZHAB_REFUSAL_NOW, "NOW of an earlier call");
    tick(-1, 0);
    refusal(SINEZHAB_REFUSAL_TICK, "TICK below 0");
    line();
    refusal(SINEZHAB_REFUSAL_NOT_READY, "NOT_READY without samples");
    sinezhab_request(&lent.unit, frame, sizeof frame, ++now, &lent.answer);
    code(SINEZHAB_ANSWER_ASKED, "ASKED by a request");
    need(frame[13] == 0 && frame[14] == 1 && frame[18] == 3 && frame[58] == 0, "a request's domain in its frame");
    need(sinezhab_read(frame + 14, 44).header.source.clock == OWN && frame[43] == 9, "a request's sender in its frame");
}

static void shows(unsigned port, unsigned servo, const char *what)
{
    show();
    code(SINEZHAB_ANSWER_SHOWS, "SHOWS by show");
    need(lent.answer.port == port && lent.answer.servo == servo, what);
}

/* The exchange, with a value of its own in each field that an answer or the servo has. */
static void check_exchange(void)
{
    const struct sinezhab_answer *a = &lent.answer;
    const struct sinezhab_servo *s = &lent.servo;
    fresh();
    shows(SINEZHAB_PORT_LISTENING, SINEZHAB_SERVO_ADJUSTING, "LISTENING");
    need(a->master.some == 0, "no master");
    choose();
    need(a->master.some == 1 && a->master.clock == MASTER && a->master.number == 6, "the chosen master");
    shows(SINEZHAB_PORT_UNCALIBRATED, SINEZHAB_SERVO_ADJUSTING, "UNCALIBRATED");
    exchange(10500, 10000);
    code(SINEZHAB_ANSWER_MEASURED, "MEASURED by a Delay_Resp");
    exchange(15000, 13000);
    code(SINEZHAB_ANSWER_MEASURED, "MEASURED by a Delay_Resp");
    need(a->delay == 14000 && a->used == 10250 && a->offset == 4750 && a->output == 4825, "delay, used, offset and output");
    need(s->integral == 192000000 && s->output == 4825 && s->kp == 700 && s->ki == 300, "a servo's integral, output and gains");
    need(s->ten.offsets[0] == 4750 && s->ten.offsets[1] == 250 && s->ten.count == 2, "a servo's offsets");
    shows(SINEZHAB_PORT_SLAVE, SINEZHAB_SERVO_ADJUSTING, "SLAVE");
    need(a->output == 4825 && a->now == now && a->wipes == 1 && a->sequence == 2, "output, now, wipes and sequence");
    need(a->master.some == 1 && a->master.clock == MASTER && a->master.number == 6, "the master shown");
    for (int i = 0; i < 10; i++) exchange(10250, 10250);
    shows(SINEZHAB_PORT_SLAVE, SINEZHAB_SERVO_TRACKING, "TRACKING");
    pass(10001);
    code(SINEZHAB_ANSWER_CHOSE, "CHOSE by time");
    shows(SINEZHAB_PORT_SLAVE, SINEZHAB_SERVO_HOLDOVER, "HOLDOVER");
}

static void check_verdicts(void)
{
    fresh();
    choose();
    exchange(10, -20);
    code(SINEZHAB_ANSWER_NEG, "NEG by a negative sum");
    exchange(20000000, 0);
    code(SINEZHAB_ANSWER_LONG, "LONG by 20 ms");
    exchange(10000, 10000);
    for (int i = 0; i < 3; i++) {
        exchange(2000000, 2000000);
        code(i < 2 ? SINEZHAB_ANSWER_PATH : SINEZHAB_ANSWER_PATH_WIPED, "PATH, and PATH_WIPED the third time");
    }
    exchange(200000000, -199980000);
    code(SINEZHAB_ANSWER_STEP, "STEP by 200 ms");
    need(lent.answer.offset == 199990000, "the offset of a STEP");
    exchange(10000, 10000);
    hear(0, 78, 0, 1);
    code(SINEZHAB_ANSWER_BACK, "BACK by an earlier t2");
    for (int i = 0; i < 3; i++) {
        exchange(2000000000, -1999980000);
        code(i < 2 ? SINEZHAB_ANSWER_HUGE : SINEZHAB_ANSWER_HUGE_FAULTY, "HUGE, and HUGE_FAULTY the third time");
    }
    request(60);
    refusal(SINEZHAB_REFUSAL_FAULTY, "FAULTY while it is");
    shows(SINEZHAB_PORT_FAULTY, SINEZHAB_SERVO_ADJUSTING, "FAULTY");
    reset();
    code(SINEZHAB_ANSWER_WIPED, "WIPED by a reset");
    pass(100000);
    code(SINEZHAB_ANSWER_CHANGED, "CHANGED by time");
    need(lent.answer.master.some == 0, "the lost master");
}

static void check_watch(void)
{
    const struct sinezhab_drift *l = &lent.answer.line;
    fresh();
    reset();
    tick(1 * (int64_t)SECOND, 0);
    code(SINEZHAB_ANSWER_VALID, "VALID by a first pulse");
    tick(2 * (int64_t)SECOND, 100);
    tick(3 * (int64_t)SECOND, 110);
    line();
    code(SINEZHAB_ANSWER_LINE, "LINE by three pulses");
    need(l->level == 90 && l->slope == 330 && l->over == 6 && l->n == 3 && l->ppm == 0.055, "the line's fields");
    need(lent.answer.wipes == 1, "the line's wipe count");
    tick(4 * (int64_t)SECOND, 1000111);
    code(SINEZHAB_ANSWER_INVALID, "INVALID by a spike");
    tick(4 * (int64_t)SECOND, 0);
    code(SINEZHAB_ANSWER_TICK_BACK, "TICK_BACK by the same reference");
    tick(5 * (int64_t)SECOND, 0);
    tick(6 * (int64_t)SECOND, SECOND);
    code(SINEZHAB_ANSWER_RANGE, "RANGE by a second");
    tick(7 * (int64_t)SECOND, 0);
    tick(8 * (int64_t)SECOND, 2000001);
    code(SINEZHAB_ANSWER_JUMP, "JUMP by more than set");
}

int main(void)
{
    unsigned codes = 0, numbers = 0;
    need(sinezhab_version() == SINEZHAB_VERSION, "the version");
    check_sizes();
    check_settings();
    check_messages();
    check_records();
    check_refusals();
    check_exchange();
    check_verdicts();
    check_watch();
    for (size_t i = 0; i < sizeof answered / sizeof *answered; i++) codes += answered[i];
    for (size_t i = 1; i < sizeof refused / sizeof *refused; i++) numbers += refused[i];
    need(codes == 24 && numbers == 21, "the number of answers and refusals that were brought about");
    printf("layout: version %u.%u; unit %d, servo %zu, record %d, watch %d, answer %zu octets", SINEZHAB_VERSION >> 16,
           SINEZHAB_VERSION >> 8 & 255, SINEZHAB_UNIT_SIZE, sizeof(struct sinezhab_servo), SINEZHAB_RECORD_SIZE, SINEZHAB_WATCH_SIZE,
           sizeof(struct sinezhab_answer));
    printf("; %u refusals, %u answers: %u of %u checks hold\n", numbers, codes, checks - wrong, checks);
    return wrong != 0;
}
