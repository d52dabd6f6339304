/* replay.c: plays a list of calls through the door and writes the answers, a line each. docs/BENCH.md has the text's format.
 *
 * It is the program `bench` once more, in C and over libdoor.a: the same list must give the same answers. */
#include "sinezhab.h"

#include <inttypes.h>
#include <stdbool.h>
#include <stdio.h>
#include <string.h>

#define LONGEST 262144 /* octets of the longest line that can be a call */
#define ROOM 70000     /* of the largest part lent to `write` */
#define FRAME 2000     /* of the largest frame lent to `request` */
#define RECORDS 8      /* as many as `lend` can ask for */
#define BEFORE 0xee    /* each octet of a lent part or frame, before the call */

/* What is kept from line to line. */
static struct {
    bool made; /* there is a unit */
    size_t lent;
    struct sinezhab_unit unit;
    struct sinezhab_servo servo;
    struct sinezhab_watch watch;
    struct sinezhab_record table[RECORDS];
} desk = { .lent = SINEZHAB_TABLE };

static uint8_t octets[LONGEST / 2]; /* those of the call that is read */
static uint8_t part[ROOM];

/* The words of a line. Each function below takes the next one; what is wrong with any is kept in `bad`. */
struct words {
    const char *at, *end;
    bool over; /* no word is left */
    bool bad;
};

struct word {
    const char *at;
    size_t length;
};

static struct word next(struct words *w)
{
    struct word found = { w->at, 0 };
    if (w->over) {
        w->bad = true;
        return found;
    }
    const char *space = memchr(w->at, ' ', (size_t)(w->end - w->at));
    w->over = space == NULL;
    found.length = (size_t)((w->over ? w->end : space) - w->at);
    w->at = w->over ? w->end : space + 1;
    return found;
}

/* The line is a call: each word was one, and none is left. A trailing space leaves an empty one. */
static bool ended(const struct words *w) { return w->over && !w->bad; }

/* Digits that make a number of at most `most`; leading zeros are read. */
static uint64_t digits(struct words *w, struct word d, uint64_t most)
{
    uint64_t n = 0;
    if (d.length == 0) w->bad = true;
    for (size_t i = 0; i < d.length && !w->bad; i++) {
        if (d.at[i] < '0' || '9' < d.at[i]) {
            w->bad = true;
            break;
        }
        uint64_t digit = (uint64_t)(d.at[i] - '0');
        if (most < digit || (most - digit) / 10 < n) w->bad = true;
        n = n * 10 + digit;
    }
    return w->bad ? 0 : n;
}

static uint64_t number(struct words *w, uint64_t most) { return digits(w, next(w), most); }

/* From -most - 1 to most. */
static int64_t signed_number(struct words *w, int64_t most)
{
    struct word d = next(w);
    if (d.length == 0 || d.at[0] != '-') return (int64_t)digits(w, d, (uint64_t)most);
    d.at++;
    d.length--;
    uint64_t below = digits(w, d, (uint64_t)most + 1);
    return below == 0 ? 0 : -1 - (int64_t)(below - 1);
}

static int hex_digit(char c)
{
    if ('0' <= c && c <= '9') return c - '0';
    return 'a' <= c && c <= 'f' ? c - 'a' + 10 : -1;
}

/* 16 hex digits, capitals too. */
static uint64_t identity(struct words *w)
{
    struct word d = next(w);
    uint64_t n = 0;
    if (d.length != 16) w->bad = true;
    for (size_t i = 0; i < d.length && !w->bad; i++) {
        char c = d.at[i];
        int digit = hex_digit('A' <= c && c <= 'F' ? (char)(c - 'A' + 'a') : c);
        if (digit < 0) w->bad = true;
        n = n << 4 | (uint64_t)(digit & 15);
    }
    return n;
}

/* Octets in lower-case hex, or `-` for none: how many there are. */
static size_t some_octets(struct words *w)
{
    struct word d = next(w);
    if (d.length == 1 && d.at[0] == '-') return 0;
    if (d.length == 0 || d.length % 2 == 1) w->bad = true;
    for (size_t i = 0; i < d.length / 2 && !w->bad; i++) {
        int high = hex_digit(d.at[2 * i]), low = hex_digit(d.at[2 * i + 1]);
        if (high < 0 || low < 0) w->bad = true;
        octets[i] = (uint8_t)((high & 15) << 4 | (low & 15));
    }
    return d.length / 2;
}

static struct sinezhab_stamp stamp(struct words *w)
{
    struct sinezhab_stamp t = { 0 };
    t.seconds = number(w, UINT64_MAX);
    t.nanoseconds = (uint32_t)number(w, UINT32_MAX);
    return t;
}

static struct sinezhab_port port(struct words *w)
{
    struct sinezhab_port p = { 0 };
    p.clock = identity(w);
    p.number = (uint16_t)number(w, UINT16_MAX);
    return p;
}

static struct sinezhab_header header(struct words *w)
{
    struct sinezhab_header h = { 0 };
    h.sdo = (uint8_t)number(w, UINT8_MAX);
    h.minor = (uint8_t)number(w, UINT8_MAX);
    h.domain = (uint8_t)number(w, UINT8_MAX);
    h.minorsdo = (uint8_t)number(w, UINT8_MAX);
    h.flags = (uint16_t)number(w, UINT16_MAX);
    h.correction = signed_number(w, INT64_MAX);
    h.specific = (uint32_t)number(w, UINT32_MAX);
    h.source = port(w);
    h.sequence = (uint16_t)number(w, UINT16_MAX);
    h.control = (uint8_t)number(w, UINT8_MAX);
    h.interval = (int8_t)signed_number(w, INT8_MAX);
    return h;
}

static struct sinezhab_offer offer(struct words *w)
{
    struct sinezhab_offer o = { 0 };
    o.utc = (int16_t)signed_number(w, INT16_MAX);
    o.reserved = (uint8_t)number(w, UINT8_MAX);
    o.priority1 = (uint8_t)number(w, UINT8_MAX);
    o.clockclass = (uint8_t)number(w, UINT8_MAX);
    o.accuracy = (uint8_t)number(w, UINT8_MAX);
    o.variance = (uint16_t)number(w, UINT16_MAX);
    o.priority2 = (uint8_t)number(w, UINT8_MAX);
    o.grandmaster = identity(w);
    o.steps = (uint16_t)number(w, UINT16_MAX);
    o.time = (uint8_t)number(w, UINT8_MAX);
    return o;
}

static struct sinezhab_message message(struct words *w)
{
    struct sinezhab_message m = { 0 };
    m.kind = (uint8_t)number(w, UINT8_MAX);
    if (m.kind != 0 && m.kind != 1 && m.kind != 8 && m.kind != 9 && m.kind != 11) w->bad = true;
    m.header = header(w);
    m.stamp = stamp(w);
    if (m.kind == 9) m.requester = port(w);
    if (m.kind == 11) m.offer = offer(w);
    return m;
}

static struct sinezhab_given given(struct words *w)
{
    struct sinezhab_given g = { 0 };
    int64_t *rest[] = { &g.announce, &g.sync,    &g.kp,        &g.ki,    &g.limit, &g.window,
                        &g.minimum,  &g.holdoff, &g.tolerance, &g.spike, &g.jump };
    g.domain = (uint8_t)number(w, UINT8_MAX);
    g.own = port(w);
    for (size_t i = 0; i < sizeof rest / sizeof *rest; i++) *rest[i] = signed_number(w, INT64_MAX);
    return g;
}

/* Answers */

static void put_octets(const uint8_t *o, size_t n)
{
    if (n == 0) putchar('-');
    for (size_t i = 0; i < n; i++) {
        putchar("0123456789abcdef"[o[i] >> 4]);
        putchar("0123456789abcdef"[o[i] & 15]);
    }
    putchar('\n');
}

/* A refusal leaves what was lent as it was: else the answer says so, and is no answer of the bench. */
static void put_refused(unsigned number, const uint8_t *lent, size_t n)
{
    size_t kept = 0;
    while (kept < n && lent[kept] == BEFORE) kept++;
    printf("refused %u%s\n", number, kept == n ? "" : " and touched");
}

static void put_header(const struct sinezhab_header *h)
{
    printf(" sdo=%u minor=%u domain=%u minorsdo=%u flags=%u", h->sdo, h->minor, h->domain, h->minorsdo, h->flags);
    printf(" correction=%" PRId64 " specific=%" PRIu32, h->correction, h->specific);
    printf(" clock=%016" PRIx64 " port=%u sequence=%u", h->source.clock, h->source.number, h->sequence);
    printf(" control=%u interval=%d", h->control, h->interval);
}

static void put_offer(const struct sinezhab_offer *o)
{
    printf(" utc=%d reserved=%u p1=%u class=%u", o->utc, o->reserved, o->priority1, o->clockclass);
    printf(" accuracy=%u variance=%u p2=%u", o->accuracy, o->variance, o->priority2);
    printf(" grandmaster=%016" PRIx64 " steps=%u source=%u", o->grandmaster, o->steps, o->time);
}

static void put_message(const struct sinezhab_message *m)
{
    printf("message kind=%u", m->kind);
    put_header(&m->header);
    printf(" seconds=%" PRIu64 " nanos=%" PRIu32, m->stamp.seconds, m->stamp.nanoseconds);
    if (m->kind == 9) printf(" requesting=%016" PRIx64 "-%u", m->requester.clock, m->requester.number);
    if (m->kind == 11) put_offer(&m->offer);
    printf(" suffix=");
    put_octets(octets + m->from, m->to - m->from);
}

static void put_master(const struct sinezhab_answer *a)
{
    if (a->master.some) printf("%016" PRIx64 "-%u", a->master.clock, a->master.number);
    else printf("none");
}

static void put_chosen(const struct sinezhab_answer *a)
{
    printf("chosen ");
    put_master(a);
    puts(a->code == SINEZHAB_ANSWER_CHANGED ? " wiped" : "");
}

static void put_measured(const struct sinezhab_answer *a)
{
    printf("measured delay=%" PRId64 " used=%" PRId64 " offset=%" PRId64 " output=%" PRId32 "\n", a->delay, a->used, a->offset, a->output);
}

static void put_line(const struct sinezhab_answer *a)
{
    const struct sinezhab_drift *l = &a->line;
    uint64_t bits;
    memcpy(&bits, &l->ppm, sizeof bits);
    printf("line level=%" PRId64 " slope=%" PRId64 " over=%" PRId64 " n=%" PRId64, l->level, l->slope, l->over, l->n);
    printf(" wipes=%" PRIu32 " ppm=%016" PRIx64 "\n", a->wipes, bits);
}

static void put_shows(const struct sinezhab_answer *a)
{
    static const char *const ports[] = { "faulty", "listening", "uncalibrated", "slave" };
    static const char *const servos[] = { "holdover", "tracking", "adjusting" };
    printf("port=%s servo=%s", a->port < 4 ? ports[a->port] : "?", a->servo < 3 ? servos[a->servo] : "?");
    printf(" output=%" PRId32 " now=%" PRIu64 " master=", a->output, a->now);
    put_master(a);
    printf(" wipes=%" PRIu32 " sequence=%u\n", a->wipes, a->sequence);
}

/* The answers that carry nothing. */
static const char *const plain[] = {
    [SINEZHAB_ANSWER_HELD] = "held",
    [SINEZHAB_ANSWER_PAIRED] = "paired",
    [SINEZHAB_ANSWER_STAMPED] = "stamped",
    [SINEZHAB_ANSWER_BACK] = "back wiped",
    [SINEZHAB_ANSWER_NEG] = "neg",
    [SINEZHAB_ANSWER_LONG] = "long",
    [SINEZHAB_ANSWER_HUGE] = "huge",
    [SINEZHAB_ANSWER_HUGE_FAULTY] = "huge faulty",
    [SINEZHAB_ANSWER_PATH] = "path",
    [SINEZHAB_ANSWER_PATH_WIPED] = "path wiped",
    [SINEZHAB_ANSWER_WIPED] = "wiped",
    [SINEZHAB_ANSWER_VALID] = "taken valid",
    [SINEZHAB_ANSWER_INVALID] = "taken invalid",
    [SINEZHAB_ANSWER_TICK_BACK] = "back wiped",
    [SINEZHAB_ANSWER_RANGE] = "range wiped",
    [SINEZHAB_ANSWER_JUMP] = "jump wiped",
    [SINEZHAB_ANSWER_SHOWS] = NULL,
};

static void put_answer(const struct sinezhab_answer *a)
{
    switch (a->code) {
    case SINEZHAB_ANSWER_REFUSED: put_refused(a->refused, NULL, 0); break;
    case SINEZHAB_ANSWER_CHOSE:
    case SINEZHAB_ANSWER_CHANGED: put_chosen(a); break;
    case SINEZHAB_ANSWER_MEASURED: put_measured(a); break;
    case SINEZHAB_ANSWER_STEP: printf("step offset=%" PRId64 " wiped\n", a->offset); break;
    case SINEZHAB_ANSWER_LINE: put_line(a); break;
    case SINEZHAB_ANSWER_SHOWS: put_shows(a); break;
    default:
        if (a->code < sizeof plain / sizeof *plain && plain[a->code]) puts(plain[a->code]);
        else printf("code %u\n", a->code);
    }
}

/* Calls: one function reads the words of a call into `asked`, one asks the door. */

static struct {
    struct sinezhab_given given;
    struct sinezhab_message message;
    uint64_t now;
    uint16_t sequence;
    struct sinezhab_stamp stamp; /* of an arrival, or t3 */
    int64_t reference, clock;
    size_t count; /* of octets, or of records */
    size_t room;  /* of the part or the frame */
} asked;

static struct sinezhab_answer answer;

static void unit_words(struct words *w) { asked.given = given(w); }

/* A refused `unit` line leaves the unit that was there. A fresh table and a fresh watch are zeros. */
static void play_unit(void)
{
    struct sinezhab_made made = sinezhab_make(asked.given);
    if (made.refused) {
        put_refused((unsigned)made.refused, NULL, 0);
        return;
    }
    desk.made = true;
    desk.unit = made.unit;
    desk.servo = made.servo;
    memset(&desk.watch, 0, sizeof desk.watch);
    memset(desk.table, 0, sizeof desk.table);
    puts("ok");
}

static void lend_words(struct words *w) { asked.count = (size_t)number(w, RECORDS); }

static void play_lend(void)
{
    desk.lent = asked.count;
    puts("ok");
}

static void read_words(struct words *w) { asked.count = some_octets(w); }

static void play_read(void)
{
    struct sinezhab_message m = sinezhab_read(octets, asked.count);
    if (m.refused) put_refused(m.refused, NULL, 0);
    else put_message(&m);
}

static void write_words(struct words *w)
{
    asked.message = message(w);
    asked.count = some_octets(w);
    asked.room = (size_t)number(w, ROOM);
}

static void play_write(void)
{
    memset(part, BEFORE, asked.room);
    struct sinezhab_written done = sinezhab_write(asked.message, octets, asked.count, part, asked.room);
    if (done.refused) {
        put_refused(done.refused, part, asked.room);
        return;
    }
    printf("wrote ");
    put_octets(part, asked.room);
}

static void receive_words(struct words *w)
{
    asked.now = number(w, UINT64_MAX);
    asked.stamp = stamp(w);
    asked.count = some_octets(w);
}

static void play_receive(void)
{
    sinezhab_receive(&desk.unit, &desk.servo, desk.table, desk.lent, &desk.watch, octets, asked.count, asked.now, asked.stamp, &answer);
    put_answer(&answer);
}

static void request_words(struct words *w)
{
    asked.now = number(w, UINT64_MAX);
    asked.room = (size_t)number(w, FRAME);
}

static void play_request(void)
{
    memset(part, BEFORE, asked.room);
    sinezhab_request(&desk.unit, part, asked.room, asked.now, &answer);
    if (answer.code != SINEZHAB_ANSWER_ASKED) {
        put_refused(answer.refused, part, asked.room);
        return;
    }
    printf("asked sequence=%u frame=", answer.sequence);
    put_octets(part, asked.room);
}

static void sent_words(struct words *w)
{
    asked.now = number(w, UINT64_MAX);
    asked.sequence = (uint16_t)number(w, UINT16_MAX);
    asked.stamp = stamp(w);
}

static void play_sent(void)
{
    sinezhab_sent(&desk.unit, &desk.servo, &desk.watch, asked.now, asked.sequence, asked.stamp, &answer);
    put_answer(&answer);
}

static void time_words(struct words *w) { asked.now = number(w, UINT64_MAX); }

static void play_time(void)
{
    sinezhab_time(&desk.unit, &desk.servo, desk.table, desk.lent, &desk.watch, asked.now, &answer);
    put_answer(&answer);
}

static void tick_words(struct words *w)
{
    asked.reference = signed_number(w, INT64_MAX);
    asked.clock = signed_number(w, INT64_MAX);
}

static void play_tick(void)
{
    sinezhab_tick(&desk.unit, &desk.servo, &desk.watch, asked.reference, asked.clock, &answer);
    put_answer(&answer);
}

static void no_words(struct words *w) { (void)w; }

static void play_reset(void)
{
    sinezhab_reset(&desk.unit, &desk.servo, &desk.watch, &answer);
    put_answer(&answer);
}

static void play_line(void)
{
    sinezhab_line(&desk.unit, &desk.watch, &answer);
    put_answer(&answer);
}

static void play_show(void)
{
    sinezhab_show(&desk.unit, &desk.servo, &answer);
    put_answer(&answer);
}

static const struct call {
    const char *name;
    bool unit; /* it needs one */
    void (*words)(struct words *w);
    void (*play)(void);
} calls[] = {
    { "unit", false, unit_words, play_unit },
    { "lend", false, lend_words, play_lend },
    { "read", false, read_words, play_read },
    { "write", false, write_words, play_write },
    { "receive", true, receive_words, play_receive },
    { "request", true, request_words, play_request },
    { "sent", true, sent_words, play_sent },
    { "time", true, time_words, play_time },
    { "reset", true, no_words, play_reset },
    { "tick", true, tick_words, play_tick },
    { "line", true, no_words, play_line },
    { "show", true, no_words, play_show },
};

static const struct call *named(struct word name)
{
    for (size_t i = 0; i < sizeof calls / sizeof *calls; i++)
        if (strlen(calls[i].name) == name.length && memcmp(calls[i].name, name.at, name.length) == 0) return &calls[i];
    return NULL;
}

/* The answer to a line of so many octets, of which those past LONGEST are not there. What is a bad line is that before anything else. */
static void play(const char *line, size_t length)
{
    if (length == 0 || line[0] == '#') return;
    struct words w = { line, line + (length < LONGEST ? length : LONGEST), false, LONGEST < length };
    const struct call *call = named(next(&w));
    if (call) call->words(&w);
    if (!call || !ended(&w)) puts("bad line");
    else if (call->unit && !desk.made) puts("no unit");
    else call->play();
}

int main(void)
{
    static char line[LONGEST], in[65536], out[65536];
    size_t length = 0;
    setvbuf(stdin, in, _IOFBF, sizeof in);
    setvbuf(stdout, out, _IOFBF, sizeof out);
    for (int c = getchar(); c != EOF; c = getchar()) {
        if (c == '\n') {
            play(line, length);
            length = 0;
            continue;
        }
        if (length < LONGEST) line[length] = (char)c;
        length++;
    }
    play(line, length);
    return ferror(stdin) || fflush(stdout) != 0;
}
