/* Runs the cases of `oracle stream` through the library: `oracle stream ... | runner LABEL`. All that is lent is filled with other bytes before a call, and
   checked after it. Prints each case that differs with the label and the case's number, then "LABEL: N agree, M differ", and where pairs were compared how many
   of them have an enabling or disabling (kinds 07 and 08); fails if M is not 0. */
#include "../../include/seipolku.h"
#include "limits.h"
#include "records.h"
#include "shape.h"
#include <inttypes.h>
#include <signal.h>
#include <stdio.h>
#include <stdlib.h>
#include <string.h>
#include <unistd.h>

enum { LENT = 5, MOST_REPORTS = 20, ACTIONS = 64, VERDICTS = 4, EXPECTED = VERDICTS + NUMBERS, MOST_CODES = 100 };

/* The header names the limits of these tests, and the numbers and words of answers. */
#define SAME(name, value) _Static_assert((int)(name) == (int)(value), #name)
SAME(SEIPOLKU_MAX_BITS, MAX_BITS);
SAME(SEIPOLKU_LAST_LEVEL, LAST_LEVEL);
SAME(SEIPOLKU_MAX_TABLE, LONGEST);
SAME(SEIPOLKU_ANSWERED, ANSWERED);
SAME(SEIPOLKU_ACCEPTED, ANSWERED);
SAME(SEIPOLKU_REFUSED, REFUSED);
SAME(SEIPOLKU_SHORT, SHORT);
SAME(SEIPOLKU_VERDICT_EQUAL, EQUAL);
SAME(SEIPOLKU_VERDICT_DIFFERENT, DIFFERENT);
SAME(SEIPOLKU_VERDICT_NONE, UNDECIDED);
SAME(SEIPOLKU_ANSWER_WORDS, WORDS);
SAME(SEIPOLKU_MODEL_WORDS, MODEL_WORDS);
SAME(SEIPOLKU_LEFT_ROOT, LEFT_ROOT);
SAME(SEIPOLKU_RIGHT_ROOT, RIGHT_ROOT);
SAME(SEIPOLKU_STRONG_VERDICT, STRONG);
SAME(SEIPOLKU_STRONG_ROUNDS, STRONG + ROUNDS);
SAME(SEIPOLKU_STRONG_ROOT, STRONG + ROOT);
SAME(SEIPOLKU_WEAK_VERDICT, WEAK);
SAME(SEIPOLKU_WEAK_ROUNDS, WEAK + ROUNDS);
SAME(SEIPOLKU_WEAK_ROOT, WEAK + ROOT);
SAME(SEIPOLKU_NODES, NODES);
SAME(SEIPOLKU_NODES_UP_TO_RELATIONS, RELATIONS);
SAME(SEIPOLKU_NODES_UP_TO_ANSWERS, ANSWERS);
SAME(SEIPOLKU_FULL, 8);
SAME(SEIPOLKU_REFUSAL_NUMBER, 0);
SAME(SEIPOLKU_REFUSAL_SIDE, 1);
SAME(SEIPOLKU_REFUSAL_LINE, 2);
SAME(SEIPOLKU_MODEL_BITS, 0);
SAME(SEIPOLKU_MODEL_LINES, 1);
SAME(SEIPOLKU_MODEL_USES, 2);
SAME(SEIPOLKU_MODEL_STATES, 3);

/* A comparison but for its texts. Expected are the returned kind; each mode's verdict with its rounds, strong before weak, or a refusal's number, side and
   line; and the three numbers of nodes in the order of the words, 0 with refusals 1 to 7. */
typedef struct { uint64_t limit, table[3], work, words, seed, kind, expected[EXPECTED]; } Call;

static Slice left, right, level, low, high, work, answer;
static Slice *const lent[LENT] = {&level, &low, &high, &work, &answer};
static const size_t width[LENT] = {1, 4, 4, 4, 8};
static uint64_t agree, differ, current, pairs, sequenced;
static const char *label;

/* A slice of length 0 has any pointer, also none. */
static void *pointer(const Slice *slice, uint64_t seed) { return slice->size || seed % 2 ? slice->at : NULL; }

static int table_locked;
static void lock_table(void) { lock(&level), lock(&low), lock(&high), table_locked = 1; }

/* Due before the table is lent anew. */
static void unlock_table(void) {
    if (table_locked) unlock(&level), unlock(&low), unlock(&high), table_locked = 0;
}

static uint64_t compare(const Call *c) {
    const uint64_t lengths[LENT] = {c->table[0], c->table[1], c->table[2], c->work, c->words};
    void *p[LENT];
    unlock_table();
    for (int k = 0; k < LENT; k++) {
        lend_filled(lent[k], lengths[k] * width[k], c->seed + (uint64_t)k);
        p[k] = pointer(lent[k], c->seed);
    }
    lock(&left), lock(&right);
    uint64_t returned = seipolku_compare(pointer(&left, c->seed), left.size, pointer(&right, c->seed), right.size, c->limit, p[0], lengths[0], p[1],
                                         lengths[1], p[2], lengths[2], p[3], lengths[3], p[4], lengths[4]);
    unlock(&left), unlock(&right);
    return returned;
}

static int all_kept(int count) {
    for (int k = 0; k < count; k++)
        if (!kept(lent[k], 0)) return 0;
    return 1;
}

static uint64_t looked_up(uint64_t root, uint64_t action, const uint64_t *code) {
    return seipolku_look_up(level.at, level.size, (uint32_t *)(void *)low.at, low.size / 4, (uint32_t *)(void *)high.at, high.size / 4, root, action, code[0],
                            code[1], code[2], code[3]);
}

/* NULL if three words of an answer are the expected verdict with its rounds, and after "equal" the root of an iterate that holds the start; else what is
   wrong. */
static const char *wrong_verdict(const uint64_t *w, const uint64_t *expected) {
    static const uint64_t start[4];
    if (w[0] != expected[0]) return "another verdict";
    if (w[ROUNDS] != expected[1]) return "other rounds";
    if (w[0] != EQUAL) return w[ROOT] ? "an iterate shown without \"equal\"" : NULL;
    return looked_up(w[ROOT], 0, start) == 1 ? NULL : "an iterate that lacks the start";
}

/* NULL if the table, the roots and the verdicts of an answer are what is expected, else what is wrong. */
static const char *wrong_answer(const uint64_t *w, const uint64_t *expected) {
    const uint64_t roots[] = {w[LEFT_ROOT], w[RIGHT_ROOT], w[STRONG + ROOT], w[WEAK + ROOT]};
    const char *why = misshapen(level.at, (uint32_t *)(void *)low.at, (uint32_t *)(void *)high.at, level.size, roots, 4);
    if (!why) why = wrong_verdict(w + STRONG, expected);
    return why ? why : wrong_verdict(w + WEAK, expected + 2);
}

/* Whether the words from one up to another are all 0. */
static int zero(const uint64_t *w, int first, int end) {
    for (int k = first; k < end; k++)
        if (w[k]) return 0;
    return 1;
}

static const char *wrong_refusal(const uint64_t *w, const uint64_t *expected) {
    if (memcmp(w, expected, 3 * 8)) return "another refusal";
    if (!zero(w, 3, NODES)) return "a word without a meaning is not 0";
    return w[0] > 7 || all_kept(3) ? NULL : "table touched";
}

/* NULL if the call did what is expected, else what it did not. */
static const char *wrong(const Call *c, uint64_t returned) {
    const uint64_t *w = (const uint64_t *)(void *)answer.at;
    if (returned != c->kind) return "another kind of answer";
    if (returned == SHORT) return all_kept(LENT) ? NULL : "lent memory touched";
    if (!kept(&answer, WORDS * 8)) return "words past the twelfth touched";
    if (!zero(w, NODES + NUMBERS, WORDS)) return "the twelfth word is not 0";
    const char *why = returned == ANSWERED ? wrong_answer(w, c->expected) : wrong_refusal(w, c->expected);
    if (why) return why;
    return memcmp(w + NODES, c->expected + VERDICTS, NUMBERS * 8) ? "other nodes" : NULL;
}

static void print_text(const char *name, const Slice *text) {
    printf("  %s ", name);
    for (size_t k = 0; k < text->size; k++) {
        uint8_t byte = text->at[k];
        if (byte == '\n') putchar('/');
        else if ((byte >= '0' && byte <= '9') || (byte >= 'A' && byte <= 'F')) putchar(byte);
        else printf("\\x%02X", byte);
    }
    putchar('\n');
}

static void print_words(const uint64_t *w, size_t count) {
    for (size_t k = 0; k < count; k++) printf(" %" PRIu64, w[k]);
}

static void report_call(const Call *c, uint64_t returned, const char *why) {
    printf("%s, case %" PRIu64 ": %s\n  expected %" PRIu64 " with", label, current, why, c->kind);
    print_words(c->expected, EXPECTED);
    printf(", got %" PRIu64 " with", returned);
    print_words((const uint64_t *)(void *)answer.at, answer.size / 8);
    printf("\n  limit %" PRIu64 " table", c->limit);
    print_words(c->table, 3);
    printf(" work %" PRIu64 "\n", c->work);
    print_text("left", &left), print_text("right", &right);
}

/* Whether the call on the present texts does what is expected. */
static int call_agrees(const Call *c) {
    uint64_t returned = compare(c);
    const char *why = wrong(c, returned);
    if (why && differ < MOST_REPORTS) report_call(c, returned, why);
    return !why;
}

static int count(int agrees) {
    if (agrees) agree++;
    else differ++;
    return agrees;
}

/* NULL if the call that tells what the left text's model is does what is expected with so many words for the answer, else what it does not.
   Expected are the returned kind and six words. */
static const char *wrongly_told(const uint64_t *expected, uint64_t words) {
    lend_filled(&answer, 8 * words, current + words);
    uint64_t returned = seipolku_model(pointer(&left, current), left.size, pointer(&answer, current + words), words);
    if (returned != (words < MODEL_WORDS ? (uint64_t)SHORT : expected[0])) return "another kind of answer";
    if (words < MODEL_WORDS) return kept(&answer, 0) ? NULL : "lent memory touched";
    if (memcmp(answer.at, expected + 1, MODEL_WORDS * 8)) return "other words";
    return kept(&answer, MODEL_WORDS * 8) ? NULL : "words past the sixth touched";
}

/* Whether the left text's model is told as expected, with 0 to 7 words for the answer. */
static int told_agrees(const uint64_t *e) {
    const char *why = NULL;
    uint64_t words = 0;
    lock(&left);
    while (!why && words <= 7) why = wrongly_told(e, words++);
    unlock(&left);
    if (why && differ < MOST_REPORTS) {
        printf("%s, case %" PRIu64 ": the model told with %" PRIu64 " words: %s\n  expected %" PRIu64 " with", label, current, words - 1, why, e[0]);
        print_words(e + 1, MODEL_WORDS);
        putchar('\n');
        print_text("text", &left);
    }
    return !why;
}

/* One text: what it tells; as the left one beside an empty text; then as the right one beside a model of one state. */
static void text(void) {
    static const uint8_t beside[] = "000101\n";
    uint64_t told[1 + MODEL_WORDS], length, answered[1 + EXPECTED]; /* the last: what the comparison gives where the text is accepted as the right one */
    current = number();
    bytes(&left);
    numbers(told, 1 + MODEL_WORDS), length = number(), numbers(answered, 1 + EXPECTED);
    int refused = told[0] == REFUSED, agrees = told_agrees(told);
    lend(&right, 0);
    Call call = {0, {length, length, length}, current % 64, WORDS, current, REFUSED, {1, 1, 0}};
    if (refused) memcpy(call.expected, told + 1, 3 * 8);
    agrees &= call_agrees(&call);
    Slice given = left;
    left = right, right = given;
    lend(&left, sizeof beside - 1);
    memcpy(left.at, beside, left.size);
    call.expected[1] = 1;
    if (!refused) call.kind = answered[0], memcpy(call.expected, answered + 1, sizeof call.expected);
    count(call_agrees(&call) && agrees);
}

static void pair(void) {
    current = number();
    bytes(&left);
    bytes(&right);
    pairs++, sequenced += number();
}

static int call(void) {
    Call c;
    numbers((uint64_t *)&c, sizeof c / 8);
    return count(call_agrees(&c));
}

/* One look-up; codes are left now, left next, right now, right next. */
static void look_up(uint64_t root, uint64_t action, const uint64_t *code, uint64_t expected) {
    uint64_t got = looked_up(root, action, code);
    if (!count(got == expected) && differ <= MOST_REPORTS)
        printf("%s, case %" PRIu64 ": look-up from %" PRIu64 " at action %" PRIu64 ", codes %" PRIu64 " %" PRIu64 " %" PRIu64 " %" PRIu64 ": expected %" PRIu64
               ", got %" PRIu64 "\n", label, current, root, action, code[0], code[1], code[2], code[3], expected, got);
}

/* Any code, for a place on which a value does not depend. */
static uint64_t any_code(uint64_t *seed) {
    *seed = *seed * 6364136223846793005u + 1442695040888963407u;
    return *seed >> (64 - MAX_BITS);
}

/* What is looked up of a model: its bits, codes (all of them, or the states'), and the values by now code, action and next code. */
typedef struct { uint64_t bits, codes, code[MOST_CODES]; Slice values; } Relation;

static void relation(Relation *r) {
    r->bits = number(), r->codes = number();
    if (r->codes > MOST_CODES) printf("%s: more codes than there is room for\n", label), exit(1);
    numbers(r->code, r->codes);
    bytes(&r->values);
}

/* Every step of a relation; `place` is that of the now code. */
static void look_up_steps(uint64_t root, const Relation *r, int place, uint64_t seed) {
    const uint8_t *value = r->values.at;
    uint64_t others = ~(((uint64_t)1 << r->bits) - 1);
    for (uint64_t now = 0; now < r->codes; now++)
        for (uint64_t action = 0; action < ACTIONS; action++)
            for (uint64_t then = 0; then < r->codes; then++) {
                uint64_t code[4];
                for (int k = 0; k < 4; k++) code[k] = any_code(&seed);
                code[place] = r->code[now] | (code[place] & others);
                code[place + 1] = r->code[then] | (code[place + 1] & others);
                look_up(root, action, code, *value++);
            }
}

/* Every pair of an iterate, the values by left and right code. */
static void look_up_pairs(uint64_t root, const Relation *l, const Relation *r, const Slice *values, uint64_t seed) {
    const uint8_t *value = values->at;
    for (uint64_t x = 0; x < l->codes; x++)
        for (uint64_t y = 0; y < r->codes; y++) {
            uint64_t code[4] = {l->code[x], any_code(&seed), r->code[y], any_code(&seed)};
            look_up(root, any_code(&seed) % ACTIONS, code, *value++);
        }
}

/* What the table shows after an answer: both relations, and the iterate of each mode that is equal. */
static void shown(int answered) {
    static Relation of_left, of_right;
    static Slice strong, weak;
    const uint64_t seed = number(), *w = (const uint64_t *)(void *)answer.at;
    relation(&of_left), relation(&of_right), bytes(&strong), bytes(&weak);
    if (!answered) return;
    lock_table();
    look_up_steps(w[LEFT_ROOT], &of_left, 0, seed);
    look_up_steps(w[RIGHT_ROOT], &of_right, 2, seed);
    if (strong.size) look_up_pairs(w[STRONG + ROOT], &of_left, &of_right, &strong, seed);
    if (weak.size) look_up_pairs(w[WEAK + ROOT], &of_left, &of_right, &weak, seed);
    unlock_table();
}

static void put(Slice *slice, uint64_t index, uint64_t value) {
    uint32_t word = (uint32_t)value;
    if (index < slice->size / 4) memcpy(slice->at + 4 * index, &word, 4);
}

/* A table with the given entries; it stays locked up to the next one or the next comparison. */
static void table(void) {
    uint64_t h[6], e[4]; /* lengths and what fills the slices; index, level, low, high */
    unlock_table();
    current = number();
    numbers(h, 6);
    lend(&level, h[0]), lend(&low, 4 * h[1]), lend(&high, 4 * h[2]);
    if (h[0]) memset(level.at, (int)h[3], h[0]);
    for (uint64_t k = 0; k < h[1]; k++) put(&low, k, h[4]);
    for (uint64_t k = 0; k < h[2]; k++) put(&high, k, h[5]);
    for (uint64_t entries = number(); entries > 0; entries--) {
        numbers(e, 4);
        if (e[0] < h[0]) level.at[e[0]] = (uint8_t)e[1];
        put(&low, e[0], e[2]), put(&high, e[0], e[3]);
    }
    lock_table();
}

static void ask(void) {
    uint64_t a[7]; /* root, action, four codes, expected */
    numbers(a, 7);
    look_up(a[0], a[1], a + 2, a[6]);
}

#ifndef EXACT
/* An access outside the lent slices, or a write to what is lent for reading. */
static void fault(int signal_number) {
    char line[256];
    int n = snprintf(line, sizeof line, "%s, case %" PRIu64 ": memory touched that was not lent\n", label, current);
    if (n > 0 && write(1, line, (size_t)n) < 0) _exit(3);
    _exit(signal_number == SIGSEGV ? 1 : 3);
}
#endif

int main(int argc, char **argv) {
    int agreed = 0;
    label = argc > 1 ? argv[1] : "cases";
#ifndef EXACT
    setvbuf(stdout, NULL, _IOLBF, 0);
    signal(SIGSEGV, fault);
#endif
    for (;;) switch (number()) {
        case TEXT: text(); break;
        case PAIR: pair(); break;
        case CALL: agreed = call(); break;
        case SHOWN: shown(agreed); break;
        case TABLE: table(); break;
        case ASK: ask(); break;
        case END:
            printf("%s: %" PRIu64 " agree, %" PRIu64 " differ", label, agree, differ);
            if (pairs) printf("; of %" PRIu64 " pairs %" PRIu64 " with 07 or 08", pairs, sequenced);
            putchar('\n');
            return differ != 0 || agree == 0;
        default:
            printf("%s: no such record\n", label);
            return 1;
        }
}
