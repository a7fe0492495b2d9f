/* Tests of flags from C: a question of about five seconds is ended by its flag, which another thread raises, of a target's
 * text and of a target that is open. How soon is not tested: the status tells that it was ended. */
#define _POSIX_C_SOURCE 199309L
#include <pthread.h>
#include <stdio.h>
#include <string.h>
#include <time.h>

#include "subgraph.h"

/* A complete graph of 12 vertices, and one of 11 parts of 4 vertices each, in which the largest has 11. */
static char pattern[1000], target[20000];

static subgraph_limits limits = SUBGRAPH_LIMITS;
static subgraph_flag stopper = SUBGRAPH_FLAG;
static subgraph_target held = SUBGRAPH_TARGET;
static const subgraph_pair none = {0, 0};
static uint32_t map[16], status;
static subgraph_report report;

static int wrong(const char *what) {
    fprintf(stderr, "%s\n", what);
    return 1;
}

static void write_parts(char *at, int parts, int size) {
    int n = parts * size, i, j;
    at += sprintf(at, "%d\n", n);
    for (i = 0; i < n; i++) {
        at += sprintf(at, "%d", n - size);
        for (j = 0; j < n; j++)
            if (j / size != i / size) at += sprintf(at, " %d", j);
        at += sprintf(at, "\n");
    }
}

/* Asks of the target that is open, if one is, and else of its text. */
static uint32_t ask(void) {
    if (held.there)
        return subgraph_decide_in_until((const uint8_t *)pattern, strlen(pattern), &held, &limits, &none, 0, map, 16,
                                        &report);
    return subgraph_decide_until((const uint8_t *)pattern, strlen(pattern), (const uint8_t *)target, strlen(target),
                                 &limits, &none, 0, map, 16, &report);
}

static void *ask_apart(void *given) {
    status = ask();
    return given;
}

static int is_untold(void) {
    size_t i;
    for (i = 0; i < 16; i++)
        if (map[i] != 1000 + i) return 0;
    return report.word + report.count + report.role + report.cause == 0;
}

/* Raises the flag 50 milliseconds after another thread began to search. */
static int try_raised_later(void) {
    const struct timespec wait = {0, 50000000};
    pthread_t other;
    if (pthread_create(&other, 0, ask_apart, 0)) return wrong("no thread");
    nanosleep(&wait, 0);
    subgraph_flag_raise(&stopper);
    pthread_join(other, 0);
    if (status != SUBGRAPH_STOPPED || !is_untold()) return wrong("a flag that is raised later: another answer");
    return 0;
}

/* Asks with a flag that is down, that another thread raises, that is up, that is closed elsewhere, and with none. */
static int try_each(void) {
    if (subgraph_flag_open(&limits.flag, &stopper) != SUBGRAPH_OPENED) return wrong("a flag is not opened");
    if (subgraph_flag_open(&stopper, &limits.flag) != SUBGRAPH_OUT_OF_RANGE) return wrong("an open flag is opened");
    limits.options.budget = 1000;
    if (ask() != SUBGRAPH_UNKNOWN) return wrong("a flag that is not raised: another answer");
    limits.options.budget = 20000000;
    if (try_raised_later()) return 1;
    if (ask() != SUBGRAPH_STOPPED || !is_untold()) return wrong("a flag that was raised: another answer");
    subgraph_flag_close(&stopper);
    if (ask() != SUBGRAPH_STOPPED) return wrong("a flag that was raised and closed elsewhere: another answer");
    subgraph_flag_close(&limits.flag);
    subgraph_flag_close(&limits.flag);
    subgraph_flag_raise(&limits.flag);
    limits.options.budget = 1000;
    return ask() == SUBGRAPH_UNKNOWN ? 0 : wrong("without a flag: another answer");
}

/* A target that is not open, or in another format, is told as without a flag, also while the flag is up. */
static int try_refused(void) {
    uint32_t of_closed, of_another;
    if (subgraph_flag_open(&limits.flag, &stopper) != SUBGRAPH_OPENED) return wrong("a flag is not opened");
    subgraph_flag_raise(&stopper);
    limits.options.format = SUBGRAPH_DIRECTED_LAD;
    of_another = ask();
    if (report.cause != SUBGRAPH_BAD_FORMAT) return wrong("another format: another cause");
    limits.options.format = SUBGRAPH_LAD;
    subgraph_target_close(&held);
    of_closed = subgraph_decide_in_until((const uint8_t *)pattern, strlen(pattern), &held, &limits, &none, 0, map, 16,
                                         &report);
    if (report.cause != SUBGRAPH_BAD_TARGET) return wrong("a closed target: another cause");
    subgraph_flag_close(&stopper);
    subgraph_flag_close(&limits.flag);
    if (of_another != SUBGRAPH_OUT_OF_RANGE || of_closed != SUBGRAPH_OUT_OF_RANGE) return wrong("another status");
    return 0;
}

int main(void) {
    size_t i;
    write_parts(pattern, 12, 1);
    write_parts(target, 11, 4);
    for (i = 0; i < 16; i++) map[i] = (uint32_t)(1000 + i);
    if (try_each()) return 1;
    if (subgraph_target_open((const uint8_t *)target, strlen(target), SUBGRAPH_LAD, &held, &report) != SUBGRAPH_OPENED)
        return wrong("a target is not opened");
    if (try_each()) return 1;
    if (!held.there) return wrong("a target is closed by a call that a flag ended");
    return try_refused();
}
