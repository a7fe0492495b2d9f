/* Does a pattern graph occur in a target graph? The proved solver `subgraph`, called from C and C++.
 *
 * Graphs are LAD texts in memory (docs/FORMATS.md). A call reads what it is passed, answers by its status, and
 * keeps nothing but a target or a flag that it opens. It starts no thread. Several threads may call at once, as long
 * as no two share a `map`, a `report`, a `subgraph_target` or a `subgraph_flag`. Two flags that were opened by one call
 * may be used by two threads. What is proved stands in docs/LIBRARY.md.
 *
 * What the caller owes, and no call can test:
 *   - No pointer is null, not even where its length is 0.
 *   - Each pointer leads to as many items as its length says, and no other thread writes to them during the call.
 *   - `map`, `report`, a `subgraph_target` and a `subgraph_flag` overlap nothing else that is passed.
 *   - A `subgraph_target` or `subgraph_flag` is all zeros before the first call on it, and only calls change it.
 *   - No call is made from a signal handler, or in the forked child of a process with threads.
 *   - `malloc`, `realloc` and `free` are those of one allocator, and blocks are aligned as C wants it.
 */
#ifndef SUBGRAPH_H
#define SUBGRAPH_H

#include <stddef.h>
#include <stdint.h>

#ifdef __cplusplus
extern "C" {
#endif

/* The version of this header. `subgraph_version` answers that of the library. */
#define SUBGRAPH_VERSION 10100

/* The statuses. */
enum {
    SUBGRAPH_YES = 0,          /* decide: an embedding was found, and is in `map`. verify: `map` is an embedding */
    SUBGRAPH_WRITTEN = 0,      /* encode: the text is in `bytes` */
    SUBGRAPH_OPENED = 0,       /* target_open: the target is open */
    SUBGRAPH_ACCEPTED = 0,     /* check: the log is accepted, with the claim in `cause` */
    SUBGRAPH_NONE = 1,         /* no embedding exists */
    SUBGRAPH_UNKNOWN = 2,      /* the budget was spent before it was decided */
    SUBGRAPH_OUT_OF_RANGE = 3, /* a number is out of its range: `cause` says which, the other fields are 0 */
    SUBGRAPH_FAULT = 4,        /* a text or the pairs are faulty: see `role`, `word` and `cause` */
    SUBGRAPH_NO_MEMORY = 6,    /* memory was refused */
    SUBGRAPH_NO_EMBEDDING = 7, /* verify: `map` is no embedding */
    SUBGRAPH_LOG_REFUSED = 7,  /* check: the log has a faulty line, see `word` and `cause` */
    SUBGRAPH_STOPPED = 8       /* decide_until, decide_in_until: the flag was raised before it was decided */
};

/* The formats of both texts. */
enum {
    SUBGRAPH_LAD = 0,
    SUBGRAPH_VERTEX_LABELLED_LAD = 1,
    SUBGRAPH_DIRECTED_LAD = 2,
    SUBGRAPH_LABELLED_LAD = 3
};

/* Which images have to differ. */
enum {
    SUBGRAPH_INJECTIVE = 0, /* those of any two vertices */
    SUBGRAPH_LOCAL = 1,     /* those of the neighbours of each vertex, in whichever direction their edges go */
    SUBGRAPH_ANY = 2        /* none */
};

/* What a fault is in. */
enum {
    SUBGRAPH_IN_PATTERN = 1,  /* the pattern's text */
    SUBGRAPH_IN_TARGET = 2,   /* the target's text */
    SUBGRAPH_IN_LESS = 3,     /* the pairs of `less` */
    SUBGRAPH_IN_ENCODING = 1, /* check: the encoding */
    SUBGRAPH_IN_LOG = 2       /* check: the log */
};

/* Why a word is faulty (status 4). A pair is faulty for SUBGRAPH_NO_SUCH_VERTEX alone. */
enum {
    SUBGRAPH_NOT_NUMBER = 1,     /* it is no number below 2^32 */
    SUBGRAPH_TOO_MANY = 2,       /* more vertices than the limit: 1,024 in a pattern, 8,192 in a target */
    SUBGRAPH_ENDS_EARLY = 3,     /* the text ends where this word is due */
    SUBGRAPH_NO_SUCH_VERTEX = 4, /* the graph has no such vertex */
    SUBGRAPH_LABEL_CLASH = 5,    /* the same vertex listed this edge before with another label */
    SUBGRAPH_WORDS_LEFT = 6      /* a word follows the last one that is due */
};

/* Which number is out of range (status 3), in the order in which they are judged. */
enum {
    SUBGRAPH_BAD_FORMAT = 1,       /* `format` is above 3 */
    SUBGRAPH_BAD_MAPS = 2,         /* `maps` is above 2 */
    SUBGRAPH_BAD_INDUCED = 3,      /* `induced` is above 1 */
    SUBGRAPH_BAD_INDUCED_MAPS = 4, /* `induced` is 1, and `maps` is not SUBGRAPH_INJECTIVE */
    SUBGRAPH_TOO_MANY_PAIRS = 5,   /* there are more than 64 pairs */
    SUBGRAPH_PAIR_OF_ONE = 6,      /* a pair names one vertex twice */
    SUBGRAPH_BAD_BUDGET = 7,       /* `budget` is 2^63 or more */
    SUBGRAPH_BAD_ROWS = 8,         /* `rows` is above 4,194,304 */
    SUBGRAPH_NO_ROOM = 9,          /* `map` or `bytes` has too little room: judged last, after the texts */
    SUBGRAPH_BAD_TARGET = 10       /* target_open: the target is open already. decide_in, decide_in_until: it is not
                                      open. Judged first */
};

/* What an accepted log claims (check, status 0). */
enum {
    SUBGRAPH_UNSATISFIABLE = 1, /* the encoding has no solution */
    SUBGRAPH_SATISFIABLE = 2,   /* it has one */
    SUBGRAPH_UNDECIDED = 3      /* nothing */
};

/* Why a line of an encoding is faulty (check, status 4). docs/FORMATS.md has the form of both texts. */
enum {
    SUBGRAPH_OPB_HEADER = 1,
    SUBGRAPH_OPB_OBJECTIVE = 2,
    SUBGRAPH_OPB_EQUALITY = 3,
    SUBGRAPH_OPB_PRODUCT = 4,
    SUBGRAPH_OPB_NO_SUCH_VARIABLE = 5,
    SUBGRAPH_OPB_WIDE = 6,
    SUBGRAPH_OPB_FORM = 7,
    SUBGRAPH_OPB_COUNT = 8
};

/* Why a line of a log is faulty (check, status 7). */
enum {
    SUBGRAPH_LOG_ENDS_EARLY = 1,
    SUBGRAPH_LOG_FORM = 2,
    SUBGRAPH_LOG_NAME_USED = 3,
    SUBGRAPH_LOG_ORDER = 4,
    SUBGRAPH_LOG_TWICE = 5,
    SUBGRAPH_LOG_NO_SUCH_NAME = 6,
    SUBGRAPH_LOG_STACK = 7,
    SUBGRAPH_LOG_ZERO = 8,
    SUBGRAPH_LOG_WIDE = 9,
    SUBGRAPH_LOG_NO_CONFLICT = 10,
    SUBGRAPH_LOG_NOT_FALSE = 11,
    SUBGRAPH_LOG_NOT_SOLUTION = 12
};

/* How a question is asked. `subgraph_verify` and `subgraph_encode` read only the last three. */
typedef struct subgraph_options {
    uint64_t seed;    /* where the choices begin: any number; 0 is the program's default */
    uint64_t budget;  /* the most failed guesses, below 2^63 */
    uint32_t rows;    /* rows of refuted paths for which memory is taken ahead, up to 4,194,304: 40 bytes each.
                         The search keeps further rows, up to 4,194,304 in all */
    uint32_t format;  /* the format of both texts */
    uint32_t maps;    /* which images have to differ */
    uint32_t induced; /* 1: images of vertices without an edge have no edge either. Else 0 */
} subgraph_options;

/* The program's own defaults: `subgraph_options options = SUBGRAPH_OPTIONS;` */
#define SUBGRAPH_OPTIONS {0, UINT64_C(9223372036854775807), 65536, SUBGRAPH_LAD, SUBGRAPH_INJECTIVE, 0}

/* A pair of pattern vertices, numbered from 0. The image of `first` has a lesser number than that of `second`. */
typedef struct subgraph_pair {
    uint32_t first;
    uint32_t second;
} subgraph_pair;

/* What a call tells beside its status. It is written at each status; a field that has nothing to tell is 0. */
typedef struct subgraph_report {
    uint64_t word;  /* the first faulty word of a graph, pair, or line of an encoding or a log, from 1 */
    uint64_t count; /* how many images were written; encode: the bytes of the text, with room or without */
    uint32_t role;  /* what a fault is in */
    uint32_t cause; /* why a call is refused; check, status 0: what the log claims */
} subgraph_report;

/* A target that is read once and asked many times: zeros, or one that is open. It may be moved. Of two copies of an
 * open one only one may be used. `subgraph_target target = SUBGRAPH_TARGET;` makes one that is not open. */
typedef struct subgraph_target {
    void *at;      /* of the library's own */
    uint8_t there; /* of the library's own */
} subgraph_target;

#define SUBGRAPH_TARGET {0, 0}

/* Decides whether the pattern has an embedding into the target.
 *
 * At SUBGRAPH_YES, `map[p]` is the image of pattern vertex p, for each p below `report->count`; what stands in
 * `map` behind these is as before. At each other status all of `map` is as before. A `map` of 1,024 places has
 * room for each pattern.
 *
 * Numbers are judged first, then the pattern's text, then the vertices of `less`, then the target's text, then the
 * room of `map`. The first that is not good is told. The same call gives the same answer, if no memory is refused.
 *
 * Status: 0, 1, 2, 3, 4 or 6. Time: a search in the worst case exponential in the pattern, bounded by the budget.
 * Memory is given back before the call returns. There is no limit on the bytes of a text.
 */
uint32_t subgraph_decide(const uint8_t *pattern, size_t pattern_bytes, const uint8_t *target, size_t target_bytes,
                         const subgraph_options *options, const subgraph_pair *less, size_t pairs, uint32_t *map,
                         size_t room, subgraph_report *report);

/* Opens a target: reads its text, in the format of this number, and keeps what was read until the target is closed.
 *
 * It is first asked whether the target is open already: that is SUBGRAPH_BAD_TARGET, and it stays open as it is. Then
 * the number is judged, and then the text. Unless the status is 0, the target is as before.
 *
 * Status: 0, 3, 4 or 6. A fault has the role SUBGRAPH_IN_TARGET. Time: linear in the text, and the square of the number
 * of vertices in 64ths. Memory: a bit for each two vertices, twice as much in formats with directions, and 4 bytes for
 * each labelled edge.
 */
uint32_t subgraph_target_open(const uint8_t *text, size_t text_bytes, uint32_t format, subgraph_target *target,
                              subgraph_report *report);

/* Decides whether the pattern has an embedding into a target that is open. It answers as `subgraph_decide` does with
 * the text that the target was opened with, and the target stays open.
 *
 * It is first asked whether the target is open. Then `options->format` is judged: it is to be the target's. Then come
 * the other numbers, the pattern's text, the vertices of `less` and the room of `map`, as `subgraph_decide` has them.
 *
 * Status: 0, 1, 2, 3, 4 or 6. Time and memory: those of `subgraph_decide` without the reading of the target.
 */
uint32_t subgraph_decide_in(const uint8_t *pattern, size_t pattern_bytes, subgraph_target *target,
                            const subgraph_options *options, const subgraph_pair *less, size_t pairs, uint32_t *map,
                            size_t room, subgraph_report *report);

/* Closes a target, and gives its memory back. Nothing is done to one that is not open. */
void subgraph_target_close(subgraph_target *target);

/* A flag by which one thread ends the call of another: zeros, or one that is open. Two are opened together, for one
 * flag that both know, and one thread at a time may use each. It may be moved, and of two copies of an open one only
 * one may be used. `subgraph_flag flag = SUBGRAPH_FLAG;` makes one that is not open. */
typedef struct subgraph_flag {
    void *at;      /* of the library's own */
    uint8_t there; /* of the library's own */
} subgraph_flag;

#define SUBGRAPH_FLAG {0, 0}

/* How a question is asked, and the flag that ends the call: `subgraph_limits limits = SUBGRAPH_LIMITS;` has the
 * program's own defaults, and a flag that is not open, by which the call ends as `subgraph_decide` does. */
typedef struct subgraph_limits {
    subgraph_options options;
    subgraph_flag flag;
} subgraph_limits;

#define SUBGRAPH_LIMITS {SUBGRAPH_OPTIONS, SUBGRAPH_FLAG}

/* Opens two flags that are one: `subgraph_flag_open(&limits.flag, &stopper)`. It is not raised yet.
 *
 * Status: 0; 3 if one of the two is open already; 6. Unless it is 0, both are as before. Time: constant. Memory: three
 * small blocks, given back once both are closed. */
uint32_t subgraph_flag_open(subgraph_flag *first, subgraph_flag *second);

/* Raises the flag. It stays raised, and every call that was given it ends. Nothing is done to one that is not open.
 * Time: constant. It waits for nobody. */
void subgraph_flag_raise(subgraph_flag *flag);

/* Closes one of the two flags. Nothing is done to one that is not open. */
void subgraph_flag_close(subgraph_flag *flag);

/* Decides as `subgraph_decide` does, until the flag of `limits` is raised.
 *
 * At SUBGRAPH_STOPPED the texts, the numbers and the room are good, nothing is decided, all of `map` is as before, and
 * the report is zeros. The flag is looked at before each guess of the search. What precedes, as reading the texts and a
 * short look for the answer where the target has at most 64 vertices, is done also when the flag is up, so that a small
 * question may be decided all the same. Between two guesses a large question may take some milliseconds. The flag stays
 * open.
 *
 * Status: 0, 1, 2, 3, 4, 6 or 8; 8 only if `limits->flag` is open. Time and memory: those of `subgraph_decide`.
 */
uint32_t subgraph_decide_until(const uint8_t *pattern, size_t pattern_bytes, const uint8_t *target, size_t target_bytes,
                               subgraph_limits *limits, const subgraph_pair *less, size_t pairs, uint32_t *map,
                               size_t room, subgraph_report *report);

/* Decides as `subgraph_decide_in` does, until the flag of `limits` is raised. It then ends as `subgraph_decide_until`.
 *
 * It is first asked whether the target is open. Then all is judged as `subgraph_decide_in` has it. Target and flag stay
 * open.
 *
 * Status: 0, 1, 2, 3, 4, 6 or 8; 8 only if `limits->flag` is open. Time and memory: those of `subgraph_decide_in`.
 */
uint32_t subgraph_decide_in_until(const uint8_t *pattern, size_t pattern_bytes, subgraph_target *target,
                                  subgraph_limits *limits, const subgraph_pair *less, size_t pairs, uint32_t *map,
                                  size_t room, subgraph_report *report);

/* Tests whether `map`, with the image of each pattern vertex in order, is an embedding of the pattern into the
 * target. A `map` of another length than the pattern is none. It may come from anywhere.
 *
 * The numbers that choose the question are judged first, then the pattern's text, then the vertices of `less`,
 * then the target's text. Then the map is tested.
 *
 * Status: 0, 3, 4, 6 or 7. Time: linear in the texts, and a step for each two pattern vertices.
 */
uint32_t subgraph_verify(const uint8_t *pattern, size_t pattern_bytes, const uint8_t *target, size_t target_bytes,
                         const subgraph_options *options, const subgraph_pair *less, size_t pairs,
                         const uint32_t *map, size_t images, subgraph_report *report);

/* Writes the question as pseudo-Boolean constraints in OPB text, as the program's `encode` does. The solutions are the
 * embeddings: variable p * T + t + 1 says that t is the image of p, in a target of T vertices.
 *
 * At SUBGRAPH_WRITTEN the text stands in the front of `bytes`, and what stands behind it is as before. At each other
 * status all of `bytes` is as before. If there is too little room, `report->count` tells how many bytes the text has.
 *
 * The numbers that choose the question are judged first, then the pattern's text, then the vertices of `less`, then
 * the target's text, then the room.
 *
 * Status: 0, 3, 4 or 6. Time: linear in the text. Memory: that of the text, given back before the call returns.
 */
uint32_t subgraph_encode(const uint8_t *pattern, size_t pattern_bytes, const uint8_t *target, size_t target_bytes,
                         const subgraph_options *options, const subgraph_pair *less, size_t pairs, uint8_t *bytes,
                         size_t room, subgraph_report *report);

/* Judges a proof log over an encoding, as the program writes them by `--prove` and `--log`. Both may come from
 * anywhere.
 *
 * The encoding is read first. A log is accepted if each of its lines is lawful and the last one makes a claim. Else
 * its first faulty line is told.
 *
 * Status: 0, 4, 6 or 7. Time and memory: those of the program's `check`, and both texts are in memory whole.
 */
uint32_t subgraph_check(const uint8_t *encoding, size_t encoding_bytes, const uint8_t *log, size_t log_bytes,
                        subgraph_report *report);

/* The version: 10,000 times the first number, 100 times the second, and the third. */
uint32_t subgraph_version(void);

#ifdef __cplusplus
}
#endif

#endif
