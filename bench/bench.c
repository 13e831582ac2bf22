/* The same pairs through the library and through BuDDy, both verdicts from one call: CPU seconds and their ratio.
   bench warm LEFT RIGHT TABLE: nine turns in one process, the medians. One line, tab-separated: strong verdict and rounds, weak verdict and
       rounds, nodes, seconds(library) seconds(BuDDy, each cache) ratio(to the faster BuDDy) nodes/s.
   bench agree LEFT RIGHT TABLE: each side once; verdicts and rounds as above and nodes up to the relations, up to the weak answers and of the whole
       list, or why there are no verdicts; with refusal 8 the nodes that fit, and "-" for others.
   bench SIDE LEFT RIGHT TABLE, with SIDE library, small or large: one call in a new process, with what it allocates: its seconds. */
#include "../include/seipolku.h"
#include "buddy.h"
#include <stdio.h>
#include <stdlib.h>
#include <string.h>
#include <time.h>

/* How often each side runs, in turn; the median counts. */
enum { TURNS = 9 };

/* BuDDy with a small and with a large cache of results: its faster one counts. */
enum { CACHES = 2 };
static const char *const cache_name[CACHES] = {"small", "large"};

static int cache_of(int k, size_t table) { return (int)(k ? 2 * table : table / 2); }

typedef struct { unsigned char *text; size_t len; } Text;
typedef struct { Text left, right; size_t table; } Pair;
typedef struct { uint8_t *level; uint32_t *low, *high, *work; } Table;
typedef struct { Verdicts of; Nodes nodes; } Result;

static double now(void) {
    struct timespec t;
    clock_gettime(CLOCK_PROCESS_CPUTIME_ID, &t);
    return (double)t.tv_sec + 1e-9 * (double)t.tv_nsec;
}

static Text read_file(const char *path) {
    FILE *f = fopen(path, "rb");
    if (!f) {
        perror(path);
        exit(2);
    }
    Text t = {malloc(65536), 0};
    t.len = fread(t.text, 1, 65536, f);
    fclose(f);
    return t;
}

static Table new_table(size_t len) {
    return (Table){malloc(len), malloc(4 * len), malloc(4 * len), malloc(16 * len)};
}

static Verdict verdict_of(uint64_t verdict, uint64_t rounds) {
    if (verdict == SEIPOLKU_VERDICT_NONE) {
        printf("no verdict by the limit\n");
        exit(1);
    }
    return (Verdict){verdict == SEIPOLKU_VERDICT_EQUAL, rounds};
}

/* Refusal 8's nodes have a dash for a number that is not below the table's room. */
static void print_refusal(const uint64_t *answer, size_t table) {
    printf("refused %lu", (unsigned long)answer[SEIPOLKU_REFUSAL_NUMBER]);
    const uint64_t nodes[] = {answer[SEIPOLKU_NODES_UP_TO_RELATIONS], answer[SEIPOLKU_NODES_UP_TO_ANSWERS], answer[SEIPOLKU_NODES]};
    for (int k = 0; k < 3 && answer[SEIPOLKU_REFUSAL_NUMBER] == SEIPOLKU_FULL; k++) {
        if (nodes[k] < table - 2) printf("\t%lu", (unsigned long)nodes[k]);
        else printf("\t-");
    }
    printf("\n");
}

static Result by_library(const Pair *p, Table t) {
    uint64_t answer[SEIPOLKU_ANSWER_WORDS];
    uint64_t kind = seipolku_compare(p->left.text, p->left.len, p->right.text, p->right.len, 1000000, t.level, p->table, t.low, p->table, t.high, p->table,
                                     t.work, 4 * p->table, answer, SEIPOLKU_ANSWER_WORDS);
    if (kind != SEIPOLKU_ANSWERED) {
        print_refusal(answer, p->table);
        exit(1);
    }
    Verdicts of = {verdict_of(answer[SEIPOLKU_STRONG_VERDICT], answer[SEIPOLKU_STRONG_ROUNDS]),
                   verdict_of(answer[SEIPOLKU_WEAK_VERDICT], answer[SEIPOLKU_WEAK_ROUNDS])};
    return (Result){of, {answer[SEIPOLKU_NODES_UP_TO_RELATIONS], answer[SEIPOLKU_NODES_UP_TO_ANSWERS], answer[SEIPOLKU_NODES]}};
}

static Result by_buddy(const Pair *p) {
    return (Result){.of = buddy_compare(p->left.text, p->left.len, p->right.text, p->right.len)};
}

static void print_verdicts(Verdicts of) {
    const char *const word[] = {"different", "equal"};
    printf("%s\t%llu\t%s\t%llu", word[of.strong.equal], of.strong.rounds, word[of.weak.equal], of.weak.rounds);
}

static void print_result(Result r) {
    print_verdicts(r.of);
    printf("\t%lu\t%lu\t%lu", r.nodes.relations, r.nodes.answers, r.nodes.whole);
}

static int same(Verdict a, Verdict b) { return a.equal == b.equal && a.rounds == b.rounds; }

static int same_nodes(Nodes a, Nodes b) { return a.relations == b.relations && a.answers == b.answers && a.whole == b.whole; }

static void must_agree(Result a, Result b) {
    if (same(a.of.strong, b.of.strong) && same(a.of.weak, b.of.weak) && same_nodes(a.nodes, b.nodes)) return;
    printf("DISAGREE: library ");
    print_result(a);
    printf(", BuDDy ");
    print_result(b);
    printf("\n");
    exit(1);
}

static double buddy_turn(const Pair *p, int cache, Result ours) {
    buddy_start((int)(2 * p->table), cache);
    double a = now();
    Result r = by_buddy(p);
    double seconds = now() - a;
    r.nodes = buddy_nodes();
    buddy_end();
    must_agree(ours, r);
    return seconds;
}

static int by_value(const void *a, const void *b) {
    double x = *(const double *)a, y = *(const double *)b;
    return (x > y) - (x < y);
}

static double median(double *times) {
    qsort(times, TURNS, sizeof *times, by_value);
    return times[TURNS / 2];
}

static int warm(const Pair *p) {
    double ours[TURNS], theirs[CACHES][TURNS], buddy[CACHES];
    Table t = new_table(p->table);
    memset(t.level, 0xA5, p->table), memset(t.low, 0xA5, 4 * p->table), memset(t.high, 0xA5, 4 * p->table), memset(t.work, 0xA5, 16 * p->table);
    Result r = {.nodes = {0, 0, 0}};
    for (int turn = 0; turn < TURNS; turn++) {
        double a = now();
        r = by_library(p, t);
        ours[turn] = now() - a;
        for (int k = 0; k < CACHES; k++) theirs[k][turn] = buddy_turn(p, cache_of(k, p->table), r);
    }
    double mine = median(ours);
    for (int k = 0; k < CACHES; k++) buddy[k] = median(theirs[k]);
    print_verdicts(r.of);
    printf("\t%lu\t%.5f\t%.5f\t%.5f\t%.2f\t%.0f\n", r.nodes.whole, mine, buddy[0], buddy[1], mine / (buddy[0] < buddy[1] ? buddy[0] : buddy[1]),
           (double)r.nodes.whole / mine);
    return 0;
}

static int agree(const Pair *p) {
    Result r = by_library(p, new_table(p->table));
    buddy_turn(p, cache_of(0, p->table), r);
    print_result(r);
    printf("\n");
    return 0;
}

static int cold(const Pair *p, const char *side) {
    double a = now();
    if (strcmp(side, "library") == 0) {
        by_library(p, new_table(p->table));
    } else {
        buddy_start((int)(2 * p->table), cache_of(strcmp(side, cache_name[0]) != 0, p->table));
        by_buddy(p);
    }
    printf("%.5f\n", now() - a);
    return 0;
}

int main(int argc, char **argv) {
    if (argc != 5) {
        fprintf(stderr, "usage: %s warm|agree|library|%s|%s LEFT RIGHT TABLE (entries of the table)\n", argv[0], cache_name[0], cache_name[1]);
        return 2;
    }
    Pair p = {read_file(argv[2]), read_file(argv[3]), strtoul(argv[4], NULL, 10)};
    if (strcmp(argv[1], "warm") == 0) return warm(&p);
    return strcmp(argv[1], "agree") == 0 ? agree(&p) : cold(&p, argv[1]);
}
