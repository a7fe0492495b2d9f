/* Each allocation of a call is refused in turn: the status says so, nothing is written, and no block is left but those
 * of a target or a flag that is open. Linked with --wrap for malloc, realloc and free.
 */
#include <stdio.h>
#include <stdlib.h>
#include <string.h>

#include "subgraph.h"

void *__real_malloc(size_t size);
void *__real_realloc(void *at, size_t size);
void __real_free(void *at);
void *__wrap_malloc(size_t size);
void *__wrap_realloc(void *at, size_t size);
void __wrap_free(void *at);

/* How many allocations are left before one is refused, and how many blocks are held. */
static long left, held;

static int is_refused(void) { return left-- == 0; }

void *__wrap_malloc(size_t size) {
    void *at = is_refused() ? NULL : __real_malloc(size);
    held += at != NULL;
    return at;
}

void *__wrap_realloc(void *at, size_t size) { return is_refused() ? NULL : __real_realloc(at, size); }

void __wrap_free(void *at) {
    held -= at != NULL;
    __real_free(at);
}

static const char *const patterns[] = {"3 1 1 1 2 0", "4 1 1 1 2 1 3 1 0", "3 5 1 1 1 6 1 2 1 5 1 0 1"};
static const char *const targets[] = {"5 1 1 1 2 1 3 1 4 1 0", "6 1 1 1 2 1 3 1 4 1 5 0",
                                      "4 5 1 1 1 6 2 2 1 0 1 5 1 0 1 7 0"};
static const uint32_t formats[] = {SUBGRAPH_LAD, SUBGRAPH_DIRECTED_LAD, SUBGRAPH_LABELLED_LAD};

/* The status of a question of which the allocation of this number is refused. */
static uint32_t asked(int k, long refused, uint32_t *map, subgraph_report *report) {
    const uint8_t *pattern = (const uint8_t *)patterns[k], *target = (const uint8_t *)targets[k];
    subgraph_options options = SUBGRAPH_OPTIONS;
    const subgraph_pair less = {0, 2};
    options.format = formats[k];
    options.rows = 64;
    left = refused;
    return subgraph_decide(pattern, strlen(patterns[k]), target, strlen(targets[k]), &options, &less, 1, map, 4,
                           report);
}

/* The same of a target that is opened. */
static uint32_t asked_held(int k, long refused, subgraph_target *target, uint32_t *map, subgraph_report *report) {
    subgraph_options options = SUBGRAPH_OPTIONS;
    const subgraph_pair less = {0, 2};
    options.format = formats[k];
    options.rows = 64;
    left = refused;
    return subgraph_decide_in((const uint8_t *)patterns[k], strlen(patterns[k]), target, &options, &less, 1, map, 4,
                              report);
}

/* How many refusals a target is opened after, or -1. While memory is refused it is not open, and no block is left. */
static long opened_after(int k, subgraph_target *target) {
    const uint8_t *text = (const uint8_t *)targets[k];
    subgraph_report report;
    long n;
    for (n = 0;; n++) {
        uint32_t status;
        left = n;
        status = subgraph_target_open(text, strlen(targets[k]), formats[k], target, &report);
        if (left >= 0) return status == SUBGRAPH_OPENED ? n : -1;
        if (status != SUBGRAPH_NO_MEMORY || held != 0) return -1;
    }
}

/* Each allocation is refused where a target is opened, and where it is asked, after which it is still open. */
static long try_held(int k) {
    const uint32_t before[4] = {7, 8, 9, 10};
    subgraph_target target = SUBGRAPH_TARGET;
    subgraph_report report;
    uint32_t map[4], due[4], answer;
    long opened = opened_after(k, &target), blocks = held, n;
    if (opened < 0) return fprintf(stderr, "target %d: a refusal has another answer\n", k), -1;
    memcpy(due, before, sizeof due);
    answer = asked(k, -1, due, &report);
    for (n = 0;; n++) {
        uint32_t status;
        memcpy(map, before, sizeof map);
        status = asked_held(k, n, &target, map, &report);
        if (held != blocks) return fprintf(stderr, "target %d, refusal %ld: blocks are left\n", k, n), -1;
        if (left >= 0) {
            if (status != answer || memcmp(map, due, sizeof map) != 0)
                return fprintf(stderr, "target %d: another answer than of its text\n", k), -1;
            break;
        }
        if (status != SUBGRAPH_NO_MEMORY || memcmp(map, before, sizeof map) != 0)
            return fprintf(stderr, "target %d, refusal %ld: status %u\n", k, n, status), -1;
    }
    subgraph_target_close(&target);
    return held == 0 ? opened + n : -1;
}

/* Each allocation is refused where a flag is opened. Its memory is given back with the second of its two handles. */
static long try_flag(void) {
    subgraph_flag first = SUBGRAPH_FLAG, second = SUBGRAPH_FLAG;
    uint32_t status;
    long n;
    for (n = 0;; n++) {
        left = n;
        status = subgraph_flag_open(&first, &second);
        if (left >= 0) break;
        if (status != SUBGRAPH_NO_MEMORY || held != 0 || first.there || second.there)
            return fprintf(stderr, "flag, refusal %ld: status %u\n", n, status), -1;
    }
    if (status != SUBGRAPH_OPENED || held == 0) return fprintf(stderr, "a flag is not opened\n"), -1;
    subgraph_flag_close(&first);
    if (held == 0) return fprintf(stderr, "a flag goes with its first handle\n"), -1;
    subgraph_flag_close(&second);
    return held == 0 ? n : (fprintf(stderr, "flag: blocks are left\n"), -1);
}

int main(void) {
    const uint32_t before[4] = {7, 8, 9, 10};
    long all = 0, flag;
    int k;
    for (k = 0; k < 3; k++) {
        long n;
        for (n = 0;; n++) {
            uint32_t map[4], status;
            subgraph_report report = {1, 1, 1, 1};
            memcpy(map, before, sizeof map);
            status = asked(k, n, map, &report);
            if (held != 0) return fprintf(stderr, "question %d, refusal %ld: %ld blocks are left\n", k, n, held), 1;
            if (left >= 0) break;
            if (status != SUBGRAPH_NO_MEMORY)
                return fprintf(stderr, "question %d, refusal %ld: status %u\n", k, n, status), 1;
            if (memcmp(map, before, sizeof map) != 0 || report.word + report.count + report.role + report.cause != 0)
                return fprintf(stderr, "question %d, refusal %ld: something is written\n", k, n), 1;
        }
        all += n;
        n = try_held(k);
        if (n < 0) return 1;
        all += n;
    }
    flag = try_flag();
    if (flag < 0) return 1;
    printf("memory: %ld refusals\n", all + flag);
    return 0;
}
