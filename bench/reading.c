/* Reading the longest accepted texts: 64 lines of 255 bytes, 32,704 bytes each. In nine turns an older library, if there is one, the library, and three passes
   over the same bytes in C: one that adds them up one after the other, one that adds them up as the compiler likes, and one that decodes them. One line a text,
   tab-separated, the medians: bytes a second of these five, and how many times as long as the first pass the older library and the library take, and as the
   second pass the library. */
#include "../include/seipolku.h"
#include <stdio.h>
#include <stdlib.h>
#include <string.h>
#include <time.h>

enum { TURNS = 9, TIMES = 400, LINES = 64, BYTES = 255, LENGTH = LINES * (2 * BYTES + 1) };

#ifdef BEFORE
uint64_t before_model(const uint8_t *text, size_t text_len, uint64_t *answer, size_t answer_len);
#endif

typedef struct { const char *name; unsigned char text[LENGTH]; } Text;
typedef uint64_t Pass(const Text *t, uint64_t *answer);

enum { OLDER, LIBRARY, PLAIN, FREE, DECODING, PASSES };

static double now(void) {
    struct timespec t;
    clock_gettime(CLOCK_PROCESS_CPUTIME_ID, &t);
    return (double)t.tv_sec + 1e-9 * (double)t.tv_nsec;
}

/* Pseudo-random numbers, the same in each run. */
static unsigned drawn(unsigned below) {
    static uint64_t x = 88172645463325252u;
    x ^= x << 13;
    x ^= x >> 7;
    x ^= x << 17;
    return (unsigned)(x % below);
}

static unsigned any_action(void) {
    unsigned a = drawn(62);
    return a ? a + 1 : 0;
}

static void leaf(unsigned char *b) {
    b[1] = 1;
    b[2] = 64;
    for (int i = 3; i < BYTES; i += 3) {
        b[i] = (unsigned char)drawn(64);
        b[i + 1] = (unsigned char)any_action();
        b[i + 2] = (unsigned char)drawn(64);
    }
}

/* Restrict, hide or joint of line 0, with as many channels as a frame holds. */
static void over_channels(unsigned char *b, int kind) {
    b[1] = (unsigned char)kind;
    b[2] = 0;
    for (int i = 3; i < BYTES; i++)
        b[i] = (unsigned char)(1 + drawn(30));
    if (kind == 6)
        b[3] = 0;
}

static void put_line(Text *t, int k, int kind) {
    static const char digits[] = "0123456789ABCDEF";
    unsigned char b[BYTES];
    b[0] = (unsigned char)k;
    if (k == 0 || kind == 1)
        leaf(b);
    else
        over_channels(b, kind);
    unsigned char *at = t->text + k * (2 * BYTES + 1);
    for (int i = 0; i < BYTES; i++) {
        *at++ = (unsigned char)digits[b[i] >> 4];
        *at++ = (unsigned char)digits[b[i] & 15];
    }
    *at = '\n';
}

static uint64_t by_library(const Text *t, uint64_t *answer) {
    return seipolku_model(t->text, LENGTH, answer, SEIPOLKU_MODEL_WORDS);
}

static uint64_t by_older(const Text *t, uint64_t *answer) {
#ifdef BEFORE
    return before_model(t->text, LENGTH, answer, SEIPOLKU_MODEL_WORDS);
#else
    return by_library(t, answer);
#endif
}

/* One byte after the other: the empty instruction keeps the compiler from taking several at a time. */
static uint64_t adding(const Text *t, uint64_t *answer) {
    uint64_t sum = 0;
    for (int i = 0; i < LENGTH; i++) {
        sum += t->text[i];
        __asm__ volatile("" : "+r"(sum));
    }
    return *answer = sum;
}

static uint64_t adding_freely(const Text *t, uint64_t *answer) {
    uint64_t sum = 0;
    for (int i = 0; i < LENGTH; i++)
        sum += t->text[i];
    return *answer = sum;
}

static unsigned value(unsigned c) {
    return c - '0' < 10 ? c - '0' : c - 'A' < 6 ? c - 'A' + 10 : 16;
}

/* Tests and decodes, a digit at a time, with no look at what the bytes say. */
static uint64_t decoding(const Text *t, uint64_t *answer) {
    unsigned char bytes[BYTES * LINES];
    unsigned high = 0, stray = 0;
    int n = 0, odd = 0;
    for (int i = 0; i < LENGTH; i++) {
        unsigned c = t->text[i];
        if (c == '\n')
            continue;
        unsigned v = value(c);
        stray |= v;
        if (odd)
            bytes[n++] = (unsigned char)(16 * high + v);
        high = v;
        odd = !odd;
    }
    *answer = stray;
    return bytes[n - 1];
}

static double seconds(Pass *pass, const Text *t) {
    static volatile uint64_t kept;
    uint64_t answer[SEIPOLKU_MODEL_WORDS] = {0};
    double begun = now();
    for (int i = 0; i < TIMES; i++)
        kept = pass(t, answer);
    (void)kept;
    return (now() - begun) / TIMES;
}

static int smaller(const void *a, const void *b) {
    double x = *(const double *)a, y = *(const double *)b;
    return (x > y) - (x < y);
}

/* Both libraries accept the text, and tell the same of its model. */
static void agree(const Text *t) {
    uint64_t one[SEIPOLKU_MODEL_WORDS], other[SEIPOLKU_MODEL_WORDS];
    if (by_library(t, one) != SEIPOLKU_ACCEPTED || by_older(t, other) != SEIPOLKU_ACCEPTED || memcmp(one, other, sizeof one) != 0) {
        printf("%s\tnot accepted, or not alike\n", t->name);
        exit(1);
    }
}

static void print_rate(double seconds, int measured) {
    if (measured)
        printf("\t%.0f", LENGTH / seconds);
    else
        printf("\t-");
}

static void measure(const Text *t, int older) {
    Pass *const pass[PASSES] = {by_older, by_library, adding, adding_freely, decoding};
    double s[PASSES][TURNS], m[PASSES];
    agree(t);
    for (int turn = 0; turn < TURNS; turn++)
        for (int k = 0; k < PASSES; k++)
            s[k][turn] = seconds(pass[k], t);
    for (int k = 0; k < PASSES; k++) {
        qsort(s[k], TURNS, sizeof(double), smaller);
        m[k] = s[k][TURNS / 2];
    }
    printf("%s", t->name);
    for (int k = 0; k < PASSES; k++)
        print_rate(m[k], k != OLDER || older);
    if (older)
        printf("\t%.2f", m[OLDER] / m[PLAIN]);
    else
        printf("\t-");
    printf("\t%.2f\t%.2f\n", m[LIBRARY] / m[PLAIN], m[LIBRARY] / m[FREE]);
}

int main(void) {
    static Text leaves = {.name = "leaves"}, lists = {.name = "channel lists"}, both = {.name = "leaves and lists"};
#ifdef BEFORE
    const int older = 1;
#else
    const int older = 0;
#endif
    static const int kinds[4] = {1, 3, 5, 6};
    for (int k = 0; k < LINES; k++) {
        put_line(&leaves, k, 1);
        put_line(&lists, k, k % 2 ? 3 : 5);
        put_line(&both, k, kinds[k % 4]);
    }
    measure(&leaves, older);
    measure(&lists, older);
    measure(&both, older);
    return 0;
}
