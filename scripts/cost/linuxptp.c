/* linuxptp.c: the same work by linuxptp, counted. Built by cost.sh within linuxptp's own source, which is not stored here. */
#include "bmc.h"
#include "ds.h"
#include "filter.h"
#include "mmedian.h"
#include "msg.h"
#include "pi.h"
#include "servo_private.h"

#include "count.h"

#include <stdio.h>
#include <stdlib.h>
#include <string.h>

/* What the counted functions ask of the rest of linuxptp and of the machine. An Announce is stamped on reception: not counted here. */
double config_get_double(struct config *c, const char *section, const char *option)
{
    (void)c, (void)section;
    if (!strcmp(option, "pi_proportional_const")) return 0.7;
    return strcmp(option, "pi_integral_const") ? 0.0 : 0.3;
}

int clock_gettime(clockid_t id, struct timespec *t)
{
    (void)id;
    t->tv_sec = t->tv_nsec = 0;
    return 0;
}

static void need(int holds, const char *what)
{
    if (holds) return;
    fprintf(stderr, "linuxptp: %s\n", what);
    exit(1);
}

static void parse(const char *name, const uint8_t *octets, int length)
{
    struct ptp_message *m = msg_allocate();
    int err;
    need(m != NULL, "no message");
    memcpy(m, octets, (size_t)length);
    TAILQ_INIT(&m->tlv_list);
    COUNT(name, err = msg_post_recv(m, length));
    need(err == 0, name);
    msg_put(m);
}

static struct dataset dataset(uint8_t priority1, uint8_t identity)
{
    struct dataset d;
    memset(&d, 0, sizeof d);
    d.priority1 = priority1;
    d.identity.id[7] = identity;
    return d;
}

static void compare(void)
{
    struct dataset a = dataset(128, 1), b = dataset(129, 2), c = dataset(128, 3), d = dataset(128, 1);
    int better;
    d.sender.portNumber = 1;
    COUNT("compare, priority1 decides", better = dscmp(&a, &b));
    need(better == A_BETTER, "dscmp");
    COUNT("compare, identity decides", better = dscmp(&a, &c));
    need(better == A_BETTER, "dscmp");
    COUNT("compare, one grandmaster, sender decides", better = dscmp(&a, &d));
    need(better == A_BETTER_TOPO, "dscmp");
}

static void steer(void)
{
    enum servo_state state;
    struct servo *s = pi_servo_create(NULL, 0, 0);
    double ppb;
    need(s != NULL, "no servo");
    s->max_frequency = 100000;
    s->sync_interval(s, 1.0);
    s->sample(s, 250, 1000000000, 1.0, &state);
    s->sample(s, 250, 2000000000, 1.0, &state);
    COUNT("PI step", ppb = s->sample(s, 250, 3000000000, 1.0, &state));
    need(state == SERVO_LOCKED && ppb == 250, "pi_sample");
}

/* Of five: the new one is the largest, in the middle, the smallest. */
static void filter(void)
{
    static const struct { const char *name; int64_t ns; } last[] = {
        { "median, the new one largest", 15000 }, { "median, the new one smallest", 9000 }
    };
    for (int i = 0; i < 2; i++) {
        struct filter *f = mmedian_create(5);
        tmv_t used, delay = { last[i].ns };
        need(f != NULL, "no filter");
        for (int64_t n = 0; n < 5; n++) filter_sample(f, (tmv_t){ 10000 + n });
        COUNT(last[i].name, used = filter_sample(f, delay));
        need(used.ns == (i == 0 ? 10003 : 10002), "mmedian_sample");
    }
}

int main(void)
{
    parse("read Announce", announce, sizeof announce);
    parse("read Sync", sync, sizeof sync);
    parse("read Follow_Up", follow_up, sizeof follow_up);
    parse("read Delay_Resp", delay_resp, sizeof delay_resp);
    compare();
    steer();
    filter();
    return 0;
}
