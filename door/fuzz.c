/* fuzz.c: random calls of every function of the door, and what must hold after each, whatever the octets that were lent.
 *
 *     fuzz SEED CALLS [LIST]
 *
 * makes at least CALLS calls of each function. All that is lent stands in a page of its own, at its start or at its end, between two pages
 * that nobody may touch; octets that are only read stand in a page that nobody may write. A round begins with a fresh unit. In a sound
 * round the parts are lent as the last call left them, and calls follow each other as in a hall, more or less; in a spoilt one the parts
 * get random octets, ones and flipped bits between the calls.
 *
 * After each call: its answer is one of its function's and has nothing in the fields that its code does not carry; a refusal left
 * every lent octet as it was; nothing beside what was lent has changed; a wiping answer left the watch as zeros and the servo as fresh.
 *
 * LIST is a file that gets the calls of the sound rounds, as a list of docs/BENCH.md: scripts/fuzz.sh plays it to other programs. */
#define _DEFAULT_SOURCE /* mmap, tmpfile's fileno */
#include "sinezhab.h"

#include <inttypes.h>
#include <signal.h>
#include <stdbool.h>
#include <stdio.h>
#include <stdlib.h>
#include <string.h>
#include <sys/mman.h>
#include <unistd.h>

#define PAGE 4096
#define CANARY 0xc7
#define RECORDS 8     /* of the largest table */
#define OCTETS 80     /* of the longest message or frame */
#define LISTED 200000 /* calls in LIST, at most */
#define SECOND 1000000000

enum function { MAKE, READ, WRITE, RECEIVE, TIME, REQUEST, SENT, RESET, TICK, LINE, SHOW, FUNCTIONS };
static const char *const names[] = { "make", "read", "write", "receive", "time", "request", "sent", "reset", "tick", "line", "show" };

static uint64_t seed, calls[FUNCTIONS], all_calls, rounds, listed;
static uint64_t refusals[22], codes[SINEZHAB_ANSWER_SHOWS + 1];
static enum function asked; /* the function that is being called */
static FILE *list;

static void fail(const char *what)
{
    printf("fuzz: seed %" PRIu64 ", call %" PRIu64 ", %s: %s\n", seed, all_calls, names[asked], what);
    fflush(stdout);
    _exit(1);
}

static void need(bool holds, const char *what)
{
    if (!holds) fail(what);
}

static void fault(int signal)
{
    (void)signal;
    fail("touched a page that was not lent, or wrote into one that was lent for reading");
}

/* Chance */

static uint64_t chance;

static uint64_t roll(void) /* splitmix64 */
{
    uint64_t z = chance += 0x9e3779b97f4a7c15;
    z = (z ^ z >> 30) * 0xbf58476d1ce4e5b9;
    z = (z ^ z >> 27) * 0x94d049bb133111eb;
    return z ^ z >> 31;
}

static uint64_t below(uint64_t n) { return roll() % n; }
static bool once_in(uint64_t n) { return below(n) == 0; }
static int64_t between(int64_t low, int64_t high) { return low + (int64_t)below((uint64_t)(high - low) + 1); }

static void random_octets(uint8_t *octets, size_t n)
{
    for (size_t i = 0; i < n; i++) octets[i] = (uint8_t)roll();
}

static void flip(uint8_t *octets, size_t n, uint64_t times)
{
    for (; n > 0 && times > 0; times--) octets[below(n)] ^= (uint8_t)(1 << below(8));
}

/* Places: a page each, between pages that nobody may touch. `lent` is the same page, and where it is lent for reading only another view
 * of it that can't be written. */

struct place {
    uint8_t *page, *lent;
    uint8_t *at;   /* what is lent, in `page` */
    size_t size;   /* and how much of it */
    uint8_t before[PAGE]; /* what it was before the call */
};

static struct place unit, servo, table, watch, answer, input, part;
static struct place *const places[] = { &unit, &servo, &table, &watch, &answer, &input, &part };
static uint8_t canary[PAGE];

static uint8_t *view(int file, off_t at, int allowed)
{
    uint8_t *room = mmap(NULL, 3 * PAGE, PROT_NONE, MAP_PRIVATE | MAP_ANONYMOUS, -1, 0);
    need(room != MAP_FAILED, "no room");
    need(mmap(room + PAGE, PAGE, allowed, MAP_SHARED | MAP_FIXED, file, at) != MAP_FAILED, "no room");
    return room + PAGE;
}

static void make_places(void)
{
    FILE *file = tmpfile();
    size_t n = sizeof places / sizeof *places;
    need(file && ftruncate(fileno(file), (off_t)(n * PAGE)) == 0, "no file for the pages");
    memset(canary, CANARY, sizeof canary);
    for (size_t i = 0; i < n; i++) {
        off_t at = (off_t)(i * PAGE);
        places[i]->page = view(fileno(file), at, PROT_READ | PROT_WRITE);
        places[i]->lent = places[i] == &input ? view(fileno(file), at, PROT_READ) : places[i]->page;
    }
}

/* Room for so much at the start or the end of its page, and canaries in the rest. */
static void place(struct place *p, size_t size)
{
    memset(p->page, CANARY, PAGE);
    p->size = size;
    p->at = once_in(2) ? p->page : p->page + PAGE - size;
}

/* As the library sees it. Of nothing any pointer may be lent: here one that leads to no memory. */
static void *lend(const struct place *p) { return p->size == 0 ? p->lent + PAGE : p->lent + (p->at - p->page); }

static void keep(struct place *p) { memcpy(p->before, p->at, p->size); }
static bool kept(const struct place *p) { return memcmp(p->before, p->at, p->size) == 0; }

static bool alone(const struct place *p)
{
    size_t front = (size_t)(p->at - p->page);
    return memcmp(p->page, canary, front) == 0 && memcmp(p->at + p->size, canary, PAGE - front - p->size) == 0;
}

static bool zeros(const void *octets, size_t n)
{
    static const uint8_t none[PAGE];
    return memcmp(octets, none, n) == 0;
}

/* The round: what its calls are made from. */

static struct {
    bool sound;
    int theme; /* 0 calls of all functions alike, 1 an exchange after the other, 2 pulses */
    struct sinezhab_given given;
    size_t count;         /* records in the table */
    uint32_t wipes;
    uint64_t now, master; /* the one that was chosen last */
    int next;             /* step of the exchange */
    bool aside;           /* the next message is none of the exchange */
    int64_t clock;        /* the local clock, ns */
    int64_t delay, ahead; /* as the net and the clock are at the moment */
    int64_t t1, t3;
    uint16_t sync, asked, announce;
    int64_t reference, y;
} hall;

static const uint64_t senders[] = { 0x00a0c2fffe000001, 0x00b7d4fffe000002, 0x0c, 0x0d, 0x0e, 0x0f, 0x0080a1fffe000007 };

static struct sinezhab_given settings(bool any)
{
    static const int64_t lowest[] = { 0, 0, 100, 10, 1, 2, 2, 0, 0, 1, 2 };
    static const int64_t highest[] = { 4, 7, 1000, 500, 100000, 128, 128, 10, 100000000, 999999998, 999999999 };
    struct sinezhab_given g = { .domain = (uint8_t)below(3), .own = { senders[6], 1 } };
    int64_t *fields[] = { &g.announce, &g.sync,    &g.kp,        &g.ki,    &g.limit, &g.window,
                          &g.minimum,  &g.holdoff, &g.tolerance, &g.spike, &g.jump };
    for (size_t i = 0; i < 11; i++) {
        *fields[i] = between(lowest[i], highest[i]);
        if (once_in(4)) *fields[i] = once_in(2) ? lowest[i] : highest[i];
        if (any && once_in(16)) *fields[i] = once_in(2) ? (int64_t)roll() : once_in(2) ? lowest[i] - 1 : highest[i] + 1;
    }
    if (once_in(2)) g.minimum = between(2, 6), g.spike = 1000000, g.jump = 2000000, g.tolerance = 2000000;
    return g;
}

static bool within(int64_t value, int64_t low, int64_t high) { return low <= value && value <= high; }

/* The ranges of the settings, once more. */
static bool in_range(const struct sinezhab_given *g)
{
    return within(g->announce, 0, 4) && within(g->sync, 0, 7) && within(g->kp, 100, 1000) && within(g->ki, 10, 500) &&
           within(g->limit, 1, 100000) && within(g->window, 2, 128) && within(g->minimum, 2, g->window) && within(g->holdoff, 0, 10) &&
           within(g->tolerance, 0, 100000000) && within(g->spike, 1, 999999998) && within(g->jump, g->spike + 1, 999999999);
}

static void say_unit(void)
{
    const struct sinezhab_given *g = &hall.given;
    fprintf(list, "lend %zu\nunit %u %016" PRIx64 " %u", hall.count, g->domain, g->own.clock, g->own.number);
    fprintf(list, " %" PRId64 " %" PRId64 " %" PRId64 " %" PRId64 " %" PRId64, g->announce, g->sync, g->kp, g->ki, g->limit);
    fprintf(list, " %" PRId64 " %" PRId64 " %" PRId64, g->window, g->minimum, g->holdoff);
    fprintf(list, " %" PRId64 " %" PRId64 " %" PRId64 "\n", g->tolerance, g->spike, g->jump);
}

static bool told(void) { return list && hall.sound && listed < LISTED; }

static void begin(void)
{
    struct sinezhab_made made;
    memset(&hall, 0, sizeof hall);
    hall.sound = once_in(2);
    hall.theme = once_in(3) ? 1 : once_in(5) ? 2 : 0;
    hall.count = once_in(8) ? below(RECORDS + 1) : SINEZHAB_TABLE;
    hall.now = 10000; /* so that one below it is not far above it */
    hall.clock = between(0, 100) * SECOND;
    hall.delay = between(0, 20000);
    hall.reference = between(0, 100) * SECOND;
    hall.master = senders[0];
    asked = MAKE;
    do {
        hall.given = settings(false);
        made = sinezhab_make(hall.given);
    } while (made.refused);
    place(&unit, sizeof made.unit);
    place(&servo, sizeof made.servo);
    place(&table, hall.count * sizeof(struct sinezhab_record));
    place(&watch, sizeof(struct sinezhab_watch));
    memcpy(unit.at, &made.unit, unit.size);
    memcpy(servo.at, &made.servo, servo.size);
    memset(table.at, 0, table.size);
    memset(watch.at, 0, watch.size);
    rounds++;
    if (told()) say_unit();
}

/* Any octets into one of the parts. As often as not the calls go on from what the unit then shows; else it would refuse most of them. */
static void spoil(void)
{
    struct sinezhab_answer shown;
    struct place *p = places[below(4)];
    switch (below(5)) {
    case 0: random_octets(p->at, p->size); break;
    case 1: memset(p->at, 0xff, p->size); break;
    case 2: memset(p->at, 0, p->size); break;
    default: flip(p->at, p->size, 1 + below(8));
    }
    sinezhab_show(lend(&unit), lend(&servo), &shown);
    if (once_in(2)) hall.now = shown.now, hall.master = shown.master.clock;
}

/* Messages, each more or less what would come in this hall. */

static void put(uint8_t *octets, uint64_t value, size_t n)
{
    for (size_t i = 0; i < n; i++) octets[i] = (uint8_t)(value >> 8 * (n - 1 - i));
}

static void put_stamp(uint8_t *octets, int64_t ns)
{
    put(octets + 34, (uint64_t)(ns / SECOND), 6);
    put(octets + 40, (uint64_t)(ns % SECOND), 4);
}

static size_t fixed(unsigned kind) { return kind == 0 || kind == 1 || kind == 8 ? 44 : kind == 9 ? 54 : kind == 11 ? 64 : 0; }

static void put_announce(uint8_t *octets, uint64_t sender)
{
    octets[47] = (uint8_t)(sender + (once_in(32) ? below(9) : 0)); /* priority1 */
    put(octets + 53, once_in(4) ? senders[0] : sender, 8);
    put(octets + 61, once_in(64) ? 255 : below(4), 2);
    put(octets + 30, once_in(16) ? hall.announce : ++hall.announce, 2);
}

/* One of the five kinds: its length. */
static size_t message(uint8_t *octets, unsigned kind)
{
    uint64_t sender = once_in(16) ? senders[below(7)] : hall.master;
    size_t length = fixed(kind);
    memset(octets, 0, OCTETS);
    octets[0] = (uint8_t)(kind | below(2) << 4);
    octets[1] = 0x12;
    octets[4] = once_in(64) ? 9 : hall.given.domain;
    octets[6] = once_in(64) ? 1 : kind == 0 && once_in(2) ? 2 : 0;
    put(octets + 8, once_in(64) ? roll() : once_in(8) ? (uint64_t)between(-1000000, 1000000) : 0, 8);
    put(octets + 20, sender, 8);
    put(octets + 28, 1, 2);
    put(octets + 30, kind == 9 ? hall.asked : hall.sync, 2);
    put_stamp(octets, kind == 9 ? hall.t3 - hall.ahead + hall.delay : hall.t1);
    if (kind == 9) put(octets + 44, once_in(32) ? roll() : hall.given.own.clock, 8), put(octets + 52, hall.given.own.number, 2);
    if (kind == 11) put_announce(octets, sender);
    if (once_in(6)) { /* a TLV */
        size_t value = below(OCTETS - length - 3) & ~(size_t)1;
        put(octets + length + 2, value, 2);
        length += 4 + value;
    }
    put(octets + 2, length, 2);
    if (once_in(8)) length += below(OCTETS - length + 1); /* padding */
    return length;
}

/* The next message of the exchange, or any. Its arrival is `clock`. */
static unsigned next_kind(void)
{
    static const unsigned kinds[] = { 0, 8, 9, 11, 11, 11, 11, 1 };
    if (hall.announce < 2) return 11; /* so that there is a master soon */
    if (hall.theme != 1 || hall.aside) return kinds[below(8)];
    return hall.next == 0 ? 0 : hall.next == 1 ? 8 : 9;
}

/* A new Sync is on its way. The net and the clock change now and then, so that verdicts come in rows. */
static void depart(void)
{
    const int64_t far = once_in(2) ? between(-3, 3) * SECOND : between(-300000000, 300000000);
    const int64_t near = once_in(2) ? between(-300, 300) : between(-20, 20);
    if (once_in(12)) hall.delay = once_in(3) ? between(-100, 12000000) : between(0, 20000);
    if (once_in(12)) hall.ahead = once_in(3) ? far : near;
    if (once_in(2)) hall.ahead = -hall.ahead;
    hall.clock += once_in(128) ? -between(0, SECOND) : between(0, SECOND);
    if (hall.clock < 0) hall.clock = 0;
    hall.t1 = hall.clock - hall.ahead - hall.delay;
    if (hall.t1 < 0) hall.t1 = 0;
    if (!once_in(16)) hall.sync++;
}

/* A message is there, in `input`. */
static void hear(void)
{
    uint8_t octets[OCTETS];
    unsigned kind = next_kind();
    if (kind == 0) depart();
    size_t length = message(octets, kind);
    if (once_in(16)) flip(octets, length, 1 + below(3));
    if (once_in(24)) length = below(OCTETS + 1);
    if (once_in(24)) random_octets(octets, OCTETS);
    place(&input, length);
    memcpy(input.at, octets, length);
}

/* What reading must answer, once more: 0 or the number of its refusal. */
static unsigned unread(const uint8_t *o, size_t n)
{
    if (n < 34) return 1;
    if ((o[1] & 15) != 2) return 2;
    size_t need = fixed(o[0] & 15), length = (size_t)(o[2] << 8 | o[3]);
    if (need == 0) return 3;
    if (length < need) return 4;
    if (n < length) return 1;
    if (((uint32_t)o[40] << 24 | (uint32_t)o[41] << 16 | (uint32_t)o[42] << 8 | o[43]) >= SECOND) return 5;
    for (size_t at = need; at < length; at += 4 + (size_t)(o[at + 2] << 8 | o[at + 3]))
        if (length < at + 4 || o[at + 3] % 2 != 0 || length < at + 4 + (size_t)(o[at + 2] << 8 | o[at + 3])) return 6;
    return 0;
}

/* The list */

static void say_octets(const uint8_t *octets, size_t n)
{
    if (n == 0) putc('-', list);
    for (size_t i = 0; i < n; i++) fprintf(list, "%02x", octets[i]);
}

static void say_message(const struct sinezhab_message *m)
{
    const struct sinezhab_header *h = &m->header;
    const struct sinezhab_offer *o = &m->offer;
    fprintf(list, "write %u %u %u %u %u %u %" PRId64, m->kind, h->sdo, h->minor, h->domain, h->minorsdo, h->flags, h->correction);
    fprintf(list, " %" PRIu32 " %016" PRIx64 " %u %u", h->specific, h->source.clock, h->source.number, h->sequence);
    fprintf(list, " %u %d %" PRIu64 " %" PRIu32, h->control, h->interval, m->stamp.seconds, m->stamp.nanoseconds);
    if (m->kind == 9) fprintf(list, " %016" PRIx64 " %u", m->requester.clock, m->requester.number);
    if (m->kind != 11) return;
    fprintf(list, " %d %u %u %u %u %u", o->utc, o->reserved, o->priority1, o->clockclass, o->accuracy, o->variance);
    fprintf(list, " %u %016" PRIx64 " %u %u", o->priority2, o->grandmaster, o->steps, o->time);
}

/* Answers */

#define BIT(code) (1u << SINEZHAB_ANSWER_##code)
#define WIPING (BIT(CHANGED) | BIT(BACK) | BIT(PATH_WIPED) | BIT(STEP) | BIT(WIPED) | BIT(TICK_BACK) | BIT(RANGE) | BIT(JUMP))

static const unsigned answers[FUNCTIONS] = {
    [RECEIVE] = BIT(REFUSED) | BIT(CHOSE) | BIT(CHANGED) | BIT(HELD) | BIT(PAIRED) | BIT(BACK) | BIT(MEASURED) | BIT(NEG) | BIT(LONG) |
                BIT(HUGE) | BIT(HUGE_FAULTY) | BIT(PATH) | BIT(PATH_WIPED) | BIT(STEP),
    [TIME] = BIT(REFUSED) | BIT(CHOSE) | BIT(CHANGED),
    [REQUEST] = BIT(REFUSED) | BIT(ASKED),
    [SENT] = BIT(REFUSED) | BIT(STAMPED) | BIT(BACK),
    [RESET] = BIT(WIPED),
    [TICK] = BIT(REFUSED) | BIT(VALID) | BIT(INVALID) | BIT(TICK_BACK) | BIT(RANGE) | BIT(JUMP),
    [LINE] = BIT(REFUSED) | BIT(LINE),
    [SHOW] = BIT(SHOWS),
};

/* The answer without what its code carries: nothing is left. */
static bool carries_no_more(struct sinezhab_answer a)
{
    struct sinezhab_master *m = &a.master;
    switch (a.code) {
    case SINEZHAB_ANSWER_REFUSED: a.refused = 0; break;
    case SINEZHAB_ANSWER_CHOSE:
    case SINEZHAB_ANSWER_CHANGED: m->clock = m->number = m->some = 0; break;
    case SINEZHAB_ANSWER_ASKED: a.sequence = 0; break;
    case SINEZHAB_ANSWER_MEASURED: a.delay = a.used = a.offset = a.output = 0; break;
    case SINEZHAB_ANSWER_STEP: a.offset = 0; break;
    case SINEZHAB_ANSWER_LINE: memset(&a.line, 0, sizeof a.line), a.wipes = 0; break;
    case SINEZHAB_ANSWER_SHOWS:
        a.port = a.servo = 0, a.output = 0, a.now = 0, a.wipes = 0, a.sequence = 0;
        m->clock = m->number = m->some = 0;
    }
    a.code = 0;
    return zeros(&a, sizeof a);
}

static struct sinezhab_answer got(void)
{
    struct sinezhab_answer a;
    memcpy(&a, answer.at, sizeof a);
    return a;
}

static void check_answer(const struct sinezhab_answer *a)
{
    need(a->code <= SINEZHAB_ANSWER_SHOWS && (answers[asked] >> a->code & 1), "an answer that is not of this function");
    need((a->code == SINEZHAB_ANSWER_REFUSED) == (a->refused != 0) && a->refused <= SINEZHAB_REFUSAL_NOT_READY, "refused by no number");
    need(a->port <= SINEZHAB_PORT_SLAVE && a->servo <= SINEZHAB_SERVO_ADJUSTING, "a state that is none");
    need(carries_no_more(*a), "a field that its code does not carry");
    codes[a->code]++;
    refusals[a->refused]++;
}

static void check_wiped(void)
{
    struct sinezhab_servo s;
    memcpy(&s, servo.at, sizeof s);
    need(zeros(watch.at, watch.size), "wiped, and the watch is not zeros");
    need(s.integral == 0 && s.output == 0 && zeros(&s.ten, sizeof s.ten), "wiped, and the servo is not as fresh");
    need(!hall.sound || (s.kp == hall.given.kp && s.ki == hall.given.ki), "wiped, and the gains are not the set ones");
}

/* What the unit shows, after a call of a sound round. */
static void check_shown(const struct sinezhab_answer *a)
{
    struct sinezhab_answer shown;
    struct sinezhab_servo s;
    memcpy(&s, servo.at, sizeof s);
    sinezhab_show(lend(&unit), lend(&servo), &shown);
    hall.wipes += WIPING >> a->code & 1;
    need(shown.wipes == hall.wipes, "the wipe count is not that of the answers");
    need(shown.output == s.output, "the output that is shown is not the servo's");
    need(within(s.output, -hall.given.limit, hall.given.limit), "the output is beyond its limit");
    need(a->code != SINEZHAB_ANSWER_LINE || (a->line.n >= hall.given.minimum && a->line.over > 0), "a line that was not due");
}

/* After a call of the unit. */
static void check_call(void)
{
    static const bool announced[SINEZHAB_ANSWER_SHOWS + 1] = { [SINEZHAB_ANSWER_CHOSE] = true, [SINEZHAB_ANSWER_CHANGED] = true };
    struct sinezhab_answer a = got();
    check_answer(&a);
    if (a.master.some) hall.master = a.master.clock;
    bool nothing = a.code == SINEZHAB_ANSWER_REFUSED || asked == LINE || asked == SHOW, wiped = WIPING >> a.code & 1;
    need(!nothing || (kept(&unit) && kept(&servo) && kept(&table) && kept(&watch)), "refused or only asked, and a part has changed");
    need(asked == TICK || wiped || kept(&watch), "the watch has changed without a wipe");
    need(asked == RECEIVE ? kept(&table) || announced[a.code] : kept(&table), "the table has changed without an Announce");
    if (wiped) check_wiped();
    if (hall.sound) check_shown(&a);
}

/* Calls: each lends its parts, is told to the list and is looked at. */

static void call_make(void)
{
    struct sinezhab_given g = settings(true);
    if (once_in(16)) random_octets((uint8_t *)&g, sizeof g);
    struct sinezhab_made made = sinezhab_make(g);
    need(made.refused == (in_range(&g) ? 0 : SINEZHAB_REFUSAL_SETTINGS), "settings are not judged by their ranges");
    if (made.refused) return;
    struct sinezhab_servo fresh = { .kp = (uint16_t)g.kp, .ki = (uint16_t)g.ki };
    need(memcmp(&made.servo, &fresh, sizeof fresh) == 0, "the servo is not fresh");
}

static bool blank(const struct sinezhab_message *m)
{
    const struct sinezhab_header *h = &m->header;
    const struct sinezhab_offer *o = &m->offer;
    return !(m->kind | h->sdo | h->minor | h->domain | h->minorsdo | h->flags | h->correction | h->specific | h->source.clock |
             h->source.number | h->sequence | h->control | h->interval | m->stamp.seconds | m->stamp.nanoseconds | m->requester.clock |
             m->requester.number | o->utc | o->reserved | o->priority1 | o->clockclass | o->accuracy | o->variance | o->priority2 |
             o->grandmaster | o->steps | o->time | m->from | m->to);
}

/* What was read is written again, octet by octet. */
static void call_read(void)
{
    hear();
    const uint8_t *octets = lend(&input);
    if (told()) listed++, fputs("read ", list), say_octets(input.at, input.size), putc('\n', list);
    struct sinezhab_message m = sinezhab_read(octets, input.size);
    need(m.refused == unread(input.at, input.size), "reading is not refused as it must be");
    need(m.refused == 0 || blank(&m), "refused, and not blank");
    if (m.refused) return;
    need(m.kind == (input.at[0] & 15) && m.from == fixed(m.kind) && m.from <= m.to && m.to <= input.size, "the suffix is somewhere else");
    place(&part, m.to);
    struct sinezhab_written w = sinezhab_write(m, octets + m.from, m.to - m.from, lend(&part), m.to);
    need(w.refused == 0 && w.length == m.to && memcmp(part.at, input.at, m.to) == 0, "what was read is not written again");
}

/* A message of any fields, with a suffix that may be a row of TLVs. */
static void call_write(void)
{
    struct sinezhab_message m;
    uint8_t octets[OCTETS];
    random_octets((uint8_t *)&m, sizeof m);
    if (!once_in(8)) {
        memset(&m, 0, sizeof m);
        m = sinezhab_read(octets, message(octets, next_kind()));
        m.header.sdo = (uint8_t)below(once_in(8) ? 256 : 16);
        m.header.flags = (uint16_t)roll();
        m.stamp.seconds = once_in(16) ? roll() : roll() >> 16;
        if (once_in(16)) m.stamp.nanoseconds = (uint32_t)roll();
    }
    place(&input, once_in(2) ? 0 : once_in(8) ? below(20) : 2 * below(10));
    memset(input.at, 0, input.size);
    if (input.size >= 4) put(input.at + 2, input.size - 4 - 4 * (input.size >= 8 && once_in(2)), 2);
    if (once_in(8)) flip(input.at, input.size, 1);
    place(&part, once_in(4) ? below(OCTETS + 1) : fixed(m.kind) + input.size + below(4));
    keep(&part);
    if (told() && m.refused == 0 && fixed(m.kind) != 0) {
        listed++, say_message(&m), putc(' ', list), say_octets(input.at, input.size);
        fprintf(list, " %zu\n", part.size);
    }
    struct sinezhab_written w = sinezhab_write(m, lend(&input), input.size, lend(&part), part.size);
    need(!m.refused || w.refused == SINEZHAB_REFUSAL_KIND, "a refused message, and not KIND");
    need(w.refused == 0 || (w.length == 0 && kept(&part)), "refused, and the part has changed");
    if (w.refused) return;
    need(w.length == fixed(m.kind) + input.size && w.length <= part.size, "not as long as it must be");
    need(memcmp(part.at + w.length, part.before + w.length, part.size - w.length) == 0, "octets behind the message have changed");
    need(unread(part.at, part.size) == 0 && memcmp(part.at + fixed(m.kind), input.at, input.size) == 0, "what was written is no message");
}

/* Refusals of reading come first, then that of a Delay_Req, then that of the table. */
static unsigned first_refusal(void)
{
    unsigned number = unread(input.at, input.size);
    if (number) return number;
    return (input.at[0] & 15) == 1 ? SINEZHAB_REFUSAL_KIND : hall.count != SINEZHAB_TABLE ? SINEZHAB_REFUSAL_SETTINGS : 0;
}

static struct sinezhab_stamp stamp(int64_t ns)
{
    struct sinezhab_stamp t = { (uint64_t)(ns / SECOND), (uint32_t)(ns % SECOND) };
    if (once_in(64)) t.nanoseconds = (uint32_t)roll();
    if (once_in(64)) t.seconds = once_in(2) ? roll() : roll() >> 16;
    return t;
}

static uint64_t now_of_call(void)
{
    if (once_in(64)) return hall.now - below(3000); /* one that went back, or wrapped around */
    hall.now += once_in(64) ? below(20000) : below(200);
    return once_in(16384) ? roll() : hall.now;
}

static void call_receive(void)
{
    hear();
    uint64_t now = now_of_call();
    struct sinezhab_stamp arrival = stamp(hall.clock);
    if (told()) {
        listed++, fprintf(list, "receive %" PRIu64 " %" PRIu64 " %" PRIu32 " ", now, arrival.seconds, arrival.nanoseconds);
        say_octets(input.at, input.size), putc('\n', list);
    }
    sinezhab_receive(lend(&unit), lend(&servo), lend(&table), hall.count, lend(&watch), lend(&input), input.size, now, arrival,
                     lend(&answer));
    unsigned first = first_refusal(), number = got().refused;
    need(first ? number == first : number == 5 || number == 0 || number > 8, "not the refusal that comes first");
}

static void call_time(void)
{
    uint64_t now = now_of_call();
    if (told()) listed++, fprintf(list, "time %" PRIu64 "\n", now);
    sinezhab_time(lend(&unit), lend(&servo), lend(&table), hall.count, lend(&watch), now, lend(&answer));
    need(hall.count == SINEZHAB_TABLE || got().refused == SINEZHAB_REFUSAL_SETTINGS, "a table of another size, and not refused with 8");
}

static void call_request(void)
{
    uint64_t now = now_of_call();
    place(&part, once_in(4) ? below(OCTETS + 1) : 58 + below(4));
    memset(part.at, 0xee, part.size);
    keep(&part);
    if (told()) listed++, fprintf(list, "request %" PRIu64 " %zu\n", now, part.size);
    sinezhab_request(lend(&unit), lend(&part), part.size, now, lend(&answer));
    struct sinezhab_answer a = got();
    need(a.code == SINEZHAB_ANSWER_ASKED || kept(&part), "refused, and the frame has changed");
    if (a.code != SINEZHAB_ANSWER_ASKED) return;
    hall.asked = a.sequence;
    need(part.size >= 58 && memcmp(part.at, part.before, 14) == 0, "the Ethernet header has changed");
    need(memcmp(part.at + 58, part.before + 58, part.size - 58) == 0, "octets behind the request have changed");
    need(unread(part.at + 14, 44) == 0 && part.at[14] == 1 && (part.at[44] << 8 | part.at[45]) == a.sequence, "no request in the frame");
}

static void call_sent(void)
{
    uint64_t now = now_of_call();
    uint16_t sequence = once_in(16) ? (uint16_t)roll() : hall.asked;
    hall.clock += once_in(128) ? -between(0, hall.clock) : between(0, 50000000);
    hall.t3 = hall.clock;
    struct sinezhab_stamp t3 = stamp(hall.clock);
    if (told()) listed++, fprintf(list, "sent %" PRIu64 " %u %" PRIu64 " %" PRIu32 "\n", now, sequence, t3.seconds, t3.nanoseconds);
    sinezhab_sent(lend(&unit), lend(&servo), lend(&watch), now, sequence, t3, lend(&answer));
}

static void call_reset(void)
{
    if (told()) listed++, fputs("reset\n", list);
    sinezhab_reset(lend(&unit), lend(&servo), lend(&watch), lend(&answer));
}

static void call_tick(void)
{
    hall.reference += once_in(64) ? between(-2, 2) * SECOND : SECOND + (once_in(8) ? between(-3000000, 3000000) : 0);
    hall.y += once_in(64) ? between(-3000000, 3000000) : between(-500, 500);
    if (once_in(256)) hall.y = between(-2, 2) * SECOND;
    int64_t reference = once_in(512) ? (int64_t)roll() : hall.reference;
    int64_t clock = once_in(512) ? (int64_t)roll() : hall.reference + hall.y;
    if (told()) listed++, fprintf(list, "tick %" PRId64 " %" PRId64 "\n", reference, clock);
    sinezhab_tick(lend(&unit), lend(&servo), lend(&watch), reference, clock, lend(&answer));
}

static void call_line(void)
{
    if (told()) listed++, fputs("line\n", list);
    sinezhab_line(lend(&unit), lend(&watch), lend(&answer));
}

static void call_show(void)
{
    if (told()) listed++, fputs("show\n", list);
    sinezhab_show(lend(&unit), lend(&servo), lend(&answer));
}

static void (*const call[FUNCTIONS])(void) = { call_make, call_read,  call_write, call_receive, call_time, call_request,
                                               call_sent, call_reset, call_tick,  call_line,    call_show };

static enum function next_function(void)
{
    static const enum function exchange[] = { RECEIVE, RECEIVE, REQUEST, SENT, RECEIVE };
    if (hall.theme == 0 || once_in(24)) return (enum function)below(FUNCTIONS);
    if (hall.theme == 2) return once_in(6) ? LINE : TICK;
    hall.aside = once_in(4);
    if (hall.aside) return once_in(4) ? TIME : RECEIVE;
    hall.next = (hall.next + 1) % 5;
    return exchange[hall.next];
}

static void one_call(void)
{
    if (!hall.sound && once_in(6)) spoil();
    asked = next_function();
    place(&answer, sizeof(struct sinezhab_answer));
    place(&input, 0);
    place(&part, 0);
    random_octets(answer.at, 8);
    for (size_t i = 0; i < 4; i++) keep(places[i]);
    all_calls++, calls[asked]++;
    call[asked]();
    if (asked > WRITE) check_call();
    for (size_t i = 0; i < sizeof places / sizeof *places; i++) need(alone(places[i]), "octets beside what was lent have changed");
}

static bool enough(uint64_t least)
{
    for (int i = 0; i < FUNCTIONS; i++)
        if (calls[i] < least) return false;
    return true;
}

/* Whether the calls reached what they are to try: in 20,000 of each function every answer and every refusal comes. */
static void check_reach(uint64_t least)
{
    unsigned answered = 0, refused = 0;
    for (size_t i = 0; i < sizeof codes / sizeof *codes; i++) answered += codes[i] > 0;
    for (size_t i = 1; i < sizeof refusals / sizeof *refusals; i++) refused += refusals[i] > 0;
    printf("fuzz: seed %" PRIu64 ": %" PRIu64 " calls, at least %" PRIu64 " of each function", seed, all_calls, least);
    printf(", in %" PRIu64 " rounds: %u answers, %u refusals\n", rounds, answered, refused);
    need(least < 20000 || (answered == 24 && refused == 21), "an answer or a refusal never came");
}

int main(int n, char **words)
{
    if (n < 3 || n > 4) return fputs("fuzz SEED CALLS [LIST]\n", stderr), 2;
    uint64_t least = strtoull(words[2], NULL, 10);
    chance = seed = strtoull(words[1], NULL, 10);
    if (n == 4 && !(list = fopen(words[3], "w"))) return perror(words[3]), 2;
    signal(SIGSEGV, fault);
    signal(SIGBUS, fault);
    make_places();
    while (!enough(least)) {
        begin();
        for (uint64_t i = 0, length = 1 + below(hall.count == SINEZHAB_TABLE ? 400 : 20); i < length; i++) one_call();
    }
    check_reach(least);
    return list && fclose(list) != 0;
}
