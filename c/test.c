/* Tests of the library from C: worked cases with answers by hand, refusals in their order, several threads at once. */
#include <pthread.h>
#include <stdio.h>
#include <string.h>

#include "subgraph.h"

static const char path[] = "3 1 1 1 2 0";
static const char edge[] = "2 1 1 0";
static const char triangle[] = "3 1 1 1 2 1 0";
static const char square[] = "4 1 1 1 2 1 3 1 0";
static const char ring[] = "6 1 1 1 2 1 3 1 4 1 5 1 0";

struct row {
    const char *shows, *pattern, *target;
    uint32_t format, maps, induced;
    size_t pairs;
    subgraph_pair less[2];
    uint32_t status, role;
    uint64_t word;
    uint32_t cause;
};

static const struct row rows[] = {
    {"a path in a square", path, square, 0, 0, 0, 0, {{0, 0}}, 0, 0, 0, 0},
    {"a triangle is in no square", triangle, square, 0, 0, 0, 0, {{0, 0}}, 1, 0, 0, 0},
    {"a path is no induced part of a triangle", path, triangle, 0, 0, 1, 0, {{0, 0}}, 1, 0, 0, 0},
    {"it goes to and fro", path, edge, 0, 2, 0, 0, {{0, 0}}, 0, 0, 0, 0},
    {"but its ends are near one vertex", path, edge, 0, 1, 0, 0, {{0, 0}}, 1, 0, 0, 0},
    {"a ring goes round twice", ring, triangle, 0, 1, 0, 0, {{0, 0}}, 0, 0, 0, 0},
    {"the lesser image first", edge, edge, 0, 0, 0, 1, {{1, 0}}, 0, 0, 0, 0},
    {"and not both ways", edge, edge, 0, 0, 0, 2, {{0, 1}, {1, 0}}, 1, 0, 0, 0},
    {"labels of vertices", "2 1 1 1 2 1 0", "2 2 1 1 1 1 0", 1, 0, 0, 0, {{0, 0}}, 0, 0, 0, 0},
    {"other labels", "2 1 1 1 2 1 0", "2 1 1 1 1 1 0", 1, 0, 0, 0, {{0, 0}}, 1, 0, 0, 0},
    {"directions", "2 1 1 0", "2 0 1 0", 2, 0, 0, 0, {{0, 0}}, 0, 0, 0, 0},
    {"labels of edges", "2 0 1 1 7 0 0", "2 0 1 1 8 0 0", 3, 0, 0, 0, {{0, 0}}, 1, 0, 0, 0},
    {"an empty pattern", "0", edge, 0, 0, 0, 0, {{0, 0}}, 0, 0, 0, 0},
    {"no such format", "x", "x", 4, 9, 0, 0, {{0, 0}}, 3, 0, 0, SUBGRAPH_BAD_FORMAT},
    {"no such maps", "x", "x", 0, 3, 2, 0, {{0, 0}}, 3, 0, 0, SUBGRAPH_BAD_MAPS},
    {"neither 0 nor 1", "x", "x", 0, 1, 2, 0, {{0, 0}}, 3, 0, 0, SUBGRAPH_BAD_INDUCED},
    {"induced copies of other maps", "x", "x", 0, 1, 1, 0, {{0, 0}}, 3, 0, 0, SUBGRAPH_BAD_INDUCED_MAPS},
    {"a pair of one", "x", "x", 0, 0, 0, 2, {{0, 1}, {5, 5}}, 3, 0, 0, SUBGRAPH_PAIR_OF_ONE},
    {"the pattern before the pairs", "2 1 1 x", "x", 0, 0, 0, 1, {{0, 9}}, 4, 1, 4, SUBGRAPH_NOT_NUMBER},
    {"the pairs before the target", edge, "x", 0, 0, 0, 2, {{0, 1}, {0, 2}}, 4, 3, 2, SUBGRAPH_NO_SUCH_VERTEX},
    {"the target", edge, "9000", 0, 0, 0, 0, {{0, 0}}, 4, 2, 1, SUBGRAPH_TOO_MANY},
    {"an early end", "1", edge, 0, 0, 0, 0, {{0, 0}}, 4, 1, 2, SUBGRAPH_ENDS_EARLY},
    {"no such neighbour", edge, "1 1 1", 0, 0, 0, 0, {{0, 0}}, 4, 2, 3, SUBGRAPH_NO_SUCH_VERTEX},
    {"two labels of one edge", "2 0 2 1 5 1 6 0 0", edge, 3, 0, 0, 0, {{0, 0}}, 4, 1, 7, SUBGRAPH_LABEL_CLASH},
    {"a word too many", edge, "0 0", 0, 0, 0, 0, {{0, 0}}, 4, 2, 2, SUBGRAPH_WORDS_LEFT},
};

static int wrong(const char *shows, const char *what) {
    fprintf(stderr, "%s: %s\n", shows, what);
    return 1;
}

static const uint8_t *bytes(const char *text) { return (const uint8_t *)text; }

static subgraph_options options_of(const struct row *it) {
    subgraph_options options = SUBGRAPH_OPTIONS;
    options.rows = 64;
    options.format = it->format;
    options.maps = it->maps;
    options.induced = it->induced;
    return options;
}

static int is_as_before(const uint32_t *map, size_t from) {
    size_t i;
    for (i = from; i < 8; i++)
        if (map[i] != 1000 + i) return 0;
    return 1;
}

static int tells(const subgraph_report *report, const struct row *it) {
    return report->role == it->role && report->word == it->word && report->cause == it->cause;
}

/* Tries a row by both calls. Budget and rows mean nothing to `subgraph_verify`. */
static int try_row(const struct row *it) {
    subgraph_options options = options_of(it);
    subgraph_report report = {9, 9, 9, 9};
    uint32_t map[8], status;
    size_t i, size = it->status == 0 ? (size_t)(it->pattern[0] - '0') : 0;
    for (i = 0; i < 8; i++) map[i] = (uint32_t)(1000 + i);
    status = subgraph_decide(bytes(it->pattern), strlen(it->pattern), bytes(it->target), strlen(it->target), &options,
                             it->less, it->pairs, map, 8, &report);
    if (status != it->status) return wrong(it->shows, "another status");
    if (!tells(&report, it) || report.count != size) return wrong(it->shows, "another report");
    if (!is_as_before(map, size)) return wrong(it->shows, "too much is written");
    options.budget = UINT64_MAX;
    options.rows = UINT32_MAX;
    status = subgraph_verify(bytes(it->pattern), strlen(it->pattern), bytes(it->target), strlen(it->target), &options,
                             it->less, it->pairs, map, size, &report);
    if (status != (it->status == 1 ? SUBGRAPH_NO_EMBEDDING : it->status))
        return wrong(it->shows, "verify: another status");
    if (!tells(&report, it) || report.count != 0) return wrong(it->shows, "verify: another report");
    return 0;
}

static uint32_t ask_held(const struct row *it, subgraph_target *target, uint32_t *map, subgraph_report *report) {
    subgraph_options options = options_of(it);
    return subgraph_decide_in(bytes(it->pattern), strlen(it->pattern), target, &options, it->less, it->pairs, map, 8,
                              report);
}

/* Tries a row by a target that is opened: its faults are told there, and all others by the question, each time. */
static int try_held(const struct row *it) {
    subgraph_target target = SUBGRAPH_TARGET;
    subgraph_report report = {9, 9, 9, 9};
    uint32_t map[8], status;
    size_t i, size = it->status == 0 ? (size_t)(it->pattern[0] - '0') : 0;
    int n, bad = 0;
    for (i = 0; i < 8; i++) map[i] = (uint32_t)(1000 + i);
    status = subgraph_target_open(bytes(it->target), strlen(it->target), it->format, &target, &report);
    if (status != SUBGRAPH_OPENED) {
        if (status != (it->format > 3 ? SUBGRAPH_OUT_OF_RANGE : SUBGRAPH_FAULT))
            return wrong(it->shows, "open: another status");
        if (it->role == SUBGRAPH_IN_TARGET && !tells(&report, it)) return wrong(it->shows, "open: another report");
        status = ask_held(it, &target, map, &report);
        if (status != SUBGRAPH_OUT_OF_RANGE || report.cause != SUBGRAPH_BAD_TARGET || !is_as_before(map, 0))
            return wrong(it->shows, "asked of a target that is not open");
        return 0;
    }
    for (n = 0; n < 3; n++) {
        status = ask_held(it, &target, map, &report);
        if (status != it->status || !tells(&report, it) || report.count != size || !is_as_before(map, size))
            bad += wrong(it->shows, "of an open target: another answer");
    }
    subgraph_target_close(&target);
    subgraph_target_close(&target);
    return bad;
}

/* What a target answers that is open or closed when it should not be, or of another format. */
static int try_handle(void) {
    subgraph_target target = SUBGRAPH_TARGET, moved;
    subgraph_options options = SUBGRAPH_OPTIONS;
    subgraph_report report;
    const subgraph_pair none = {0, 0};
    uint32_t map[8];
    int n;
    subgraph_target_close(&target);
    for (n = 0; n < 100; n++) {
        if (subgraph_target_open(bytes(square), strlen(square), 0, &target, &report) != SUBGRAPH_OPENED)
            return wrong("a target", "it is not opened");
        if (subgraph_target_open(bytes(edge), strlen(edge), 0, &target, &report) != SUBGRAPH_OUT_OF_RANGE ||
            report.cause != SUBGRAPH_BAD_TARGET)
            return wrong("a target that is open", "it is opened again");
        moved = target;
        options.format = 1;
        options.maps = 9;
        if (subgraph_decide_in(bytes(path), strlen(path), &moved, &options, &none, 0, map, 8, &report) !=
                SUBGRAPH_OUT_OF_RANGE ||
            report.cause != SUBGRAPH_BAD_FORMAT)
            return wrong("another format", "another answer");
        options = (subgraph_options)SUBGRAPH_OPTIONS;
        if (subgraph_decide_in(bytes(path), strlen(path), &moved, &options, &none, 0, map, 2, &report) !=
                SUBGRAPH_OUT_OF_RANGE ||
            report.cause != SUBGRAPH_NO_ROOM)
            return wrong("no room", "another answer");
        if (subgraph_decide_in(bytes(path), strlen(path), &moved, &options, &none, 0, map, 3, &report) != SUBGRAPH_YES)
            return wrong("a path in an open square", "another answer");
        subgraph_target_close(&moved);
        target = moved;
    }
    return 0;
}

/* A call with one number changed. */
static int try_number(const char *shows, uint64_t budget, uint32_t rows_kept, size_t pairs, size_t room, uint32_t due,
                      uint32_t cause) {
    subgraph_options options = SUBGRAPH_OPTIONS;
    subgraph_report report = {9, 9, 9, 9};
    subgraph_pair less[65];
    uint32_t map[8] = {0};
    size_t i;
    for (i = 0; i < 65; i++) less[i].first = 0, less[i].second = 2;
    options.budget = budget;
    options.rows = rows_kept;
    if (subgraph_decide(bytes(path), strlen(path), bytes(square), strlen(square), &options, less, pairs, map, room,
                        &report) != due)
        return wrong(shows, "another status");
    return report.cause == cause ? 0 : wrong(shows, "another cause");
}

static int try_numbers(void) {
    const uint64_t end = UINT64_C(1) << 63;
    int bad = 0;
    bad += try_number("the greatest budget", end - 1, 0, 0, 3, 0, 0);
    bad += try_number("a budget past it", end, 0, 0, 3, 3, SUBGRAPH_BAD_BUDGET);
    bad += try_number("too many rows", 1000, 4194305, 0, 3, 3, SUBGRAPH_BAD_ROWS);
    bad += try_number("64 pairs", 1000, 0, 64, 3, 0, 0);
    bad += try_number("65 pairs", end, 0, 65, 3, 3, SUBGRAPH_TOO_MANY_PAIRS);
    bad += try_number("no room", 1000, 0, 0, 2, 3, SUBGRAPH_NO_ROOM);
    bad += try_number("a large book", 1000, 4194304, 0, 3, 0, 0);
    return bad;
}

/* With a budget of 0 nothing is guessed: what the first consequences leave open is unknown. */
static int try_budget(void) {
    subgraph_options options = SUBGRAPH_OPTIONS;
    subgraph_report report = {9, 9, 9, 9};
    const subgraph_pair none = {0, 0};
    uint32_t map[8] = {1000, 1001, 1002, 1003, 1004, 1005, 1006, 1007}, status;
    options.budget = 0;
    status = subgraph_decide(bytes(path), strlen(path), bytes(square), strlen(square), &options, &none, 0, map, 8,
                             &report);
    if (status != SUBGRAPH_UNKNOWN) return wrong("no guess", "another status");
    if (report.word + report.count + report.role + report.cause != 0) return wrong("no guess", "another report");
    return is_as_before(map, 0) ? 0 : wrong("no guess", "something is written");
}

/* Logs over two constraints that no list satisfies: x1, and not x1. */
static int try_logs(void) {
    static const char encoding[] = "* #variable= 1 #constraint= 2\n+1 x1 >= 1 ;\n-1 x1 >= 0 ;\n";
    static const struct {
        const char *shows, *encoding, *log;
        uint32_t status, role;
        uint64_t word;
        uint32_t cause;
    } logs[] = {
        {"no log", encoding, "", 7, 2, 1, SUBGRAPH_LOG_ENDS_EARLY},
        {"no head", encoding, "x\n", 7, 2, 1, SUBGRAPH_LOG_FORM},
        {"no encoding", "x\n", "", 4, 1, 1, SUBGRAPH_OPB_HEADER},
        {"a constraint too few", "* #variable= 1 #constraint= 2\n+1 x1 >= 1 ;\n", "", 4, 1, 3, SUBGRAPH_OPB_COUNT},
        {"a refutation", encoding, "embedding proof 1\nm 2\np 0.1 1 2 + ;\ne 0.1\n", 0, 0, 0,
         SUBGRAPH_UNSATISFIABLE},
        {"an open log", encoding, "embedding proof 1\nm 2\nq\n", 0, 0, 0, SUBGRAPH_UNDECIDED},
        {"a step too few", encoding, "embedding proof 1\nm 2\np 0.1 1 ;\ne 0.1\n", 7, 2, 4, SUBGRAPH_LOG_NOT_FALSE},
        {"a solution", "* #variable= 1 #constraint= 1\n+1 x1 >= 1 ;\n", "embedding proof 1\nm 1\ny x1\n", 0, 0, 0,
         SUBGRAPH_SATISFIABLE},
    };
    size_t i;
    int bad = 0;
    for (i = 0; i < sizeof logs / sizeof *logs; i++) {
        subgraph_report r = {9, 9, 9, 9};
        uint32_t status = subgraph_check(bytes(logs[i].encoding), strlen(logs[i].encoding), bytes(logs[i].log),
                                         strlen(logs[i].log), &r);
        if (status != logs[i].status || r.role != logs[i].role || r.word != logs[i].word || r.cause != logs[i].cause ||
            r.count != 0)
            bad += wrong(logs[i].shows, "another answer");
    }
    return bad;
}

/* The encoding of a path in an edge, which has no solution, and a log that is none of it. */
static int try_encoding(void) {
    static const char log[] = "embedding proof 1\nm 1\nq\n";
    subgraph_options options = SUBGRAPH_OPTIONS;
    subgraph_report report;
    const subgraph_pair none = {0, 0};
    static uint8_t text[4096], less[4096];
    uint64_t size;
    memset(less, 7, sizeof less);
    options.budget = UINT64_MAX;
    if (subgraph_encode(bytes(path), strlen(path), bytes(edge), strlen(edge), &options, &none, 0, text, sizeof text,
                        &report) != SUBGRAPH_WRITTEN)
        return wrong("an encoding", "another status");
    size = report.count;
    if (memcmp(text, "* #variable= 6 #constraint= ", 28) != 0 || text[size - 1] != '\n' || text[size] != 0)
        return wrong("an encoding", "another text");
    if (subgraph_encode(bytes(path), strlen(path), bytes(edge), strlen(edge), &options, &none, 0, less, size - 1,
                        &report) != SUBGRAPH_OUT_OF_RANGE)
        return wrong("no room for it", "another status");
    if (report.cause != SUBGRAPH_NO_ROOM || report.count != size || less[0] != 7)
        return wrong("no room for it", "another report");
    if (subgraph_encode(bytes(path), strlen(path), bytes(edge), strlen(edge), &options, &none, 0, less, size,
                        &report) != SUBGRAPH_WRITTEN)
        return wrong("just room for it", "another status");
    if (memcmp(less, text, size) != 0 || less[size] != 7) return wrong("just room for it", "another text");
    if (subgraph_check(text, size, bytes(log), strlen(log), &report) != SUBGRAPH_LOG_REFUSED || report.word != 2)
        return wrong("another encoding's log", "another answer");
    return 0;
}

static void *try_all(void *bad) {
    size_t i;
    int n;
    for (n = 0; n < 20; n++)
        for (i = 0; i < sizeof rows / sizeof *rows; i++) *(int *)bad += try_row(&rows[i]) + try_held(&rows[i]);
    return NULL;
}

int main(void) {
    pthread_t threads[4];
    int bad[4] = {0}, i, all = 0;
    if (subgraph_version() != SUBGRAPH_VERSION) all += wrong("version", "the library has another than the header");
    all += try_numbers() + try_budget() + try_logs() + try_encoding() + try_handle();
    for (i = 0; i < 4; i++)
        if (pthread_create(&threads[i], NULL, try_all, &bad[i]) != 0) return 2;
    for (i = 0; i < 4; i++) {
        pthread_join(threads[i], NULL);
        all += bad[i];
    }
    if (all == 0) printf("C: %d rows by 4 threads\n", (int)(sizeof rows / sizeof *rows));
    return all != 0;
}
