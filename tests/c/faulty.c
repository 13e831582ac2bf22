/* Faults between the runner and the library, one for each name that the environment's FAULT may have, to see that the comparison notices them (tests/faults).
   Linked with --wrap, so that the runner calls these functions instead of the library's. */
#include "limits.h"
#include <stdint.h>
#include <stdlib.h>
#include <string.h>

#define TABLE_ARGUMENTS uint8_t *level, size_t level_len, uint32_t *low, size_t low_len, uint32_t *high, size_t high_len
#define TEXT_ARGUMENTS uint8_t *left, size_t left_len, uint8_t *right, size_t right_len
#define COMPARE_ARGUMENTS TEXT_ARGUMENTS, uint64_t limit, TABLE_ARGUMENTS, uint32_t *work, size_t work_len, uint64_t *answer, size_t words
#define LOOK_UP_ARGUMENTS TABLE_ARGUMENTS, uint64_t root, uint64_t action, uint64_t left_now, uint64_t left_next, uint64_t right_now, uint64_t right_next

#define MODEL_ARGUMENTS uint8_t *text, size_t text_len, uint64_t *answer, size_t words

uint64_t __real_seipolku_compare(COMPARE_ARGUMENTS);
uint64_t __real_seipolku_look_up(LOOK_UP_ARGUMENTS);
uint64_t __real_seipolku_model(MODEL_ARGUMENTS);
uint64_t __wrap_seipolku_compare(COMPARE_ARGUMENTS);
uint64_t __wrap_seipolku_look_up(LOOK_UP_ARGUMENTS);
uint64_t __wrap_seipolku_model(MODEL_ARGUMENTS);

enum { ACCEPTED = ANSWERED };
enum { LEAF = 1, COMPOSE = 2, RESTRICT = 3, HIDE = 5, JOINT = 6, ENABLE = 7, DISABLE = 8, UNKNOWN = 9 }; /* kinds of frames */

static int fault(const char *name) {
    const char *wanted = getenv("FAULT");
    return wanted && strcmp(wanted, name) == 0;
}

static int digit(uint8_t byte) { return byte <= '9' ? byte - '0' : byte - 'A' + 10; }
static unsigned value(const uint8_t *digits) { return (unsigned)(16 * digit(digits[0]) + digit(digits[1])); }

static unsigned width_of(unsigned states) {
    unsigned width = 0;
    while (states > 1u << width) width++;
    return width;
}

static const uint8_t *after_line(const uint8_t *text) {
    while (*text++ != '\n');
    return text;
}

static const uint8_t *line_of(const uint8_t *text, uint64_t line) {
    while (line-- > 0) text = after_line(text);
    return text;
}

/* The bits that an enabling or disabling adds to those of its operands. */
static unsigned added_by(unsigned kind) { return kind == ENABLE ? 1 : kind == DISABLE ? 2 : 0; }

typedef struct { unsigned bits, added; uint64_t states; } Size;

/* The size of a line in a text that is accepted up to it, or refused there by its bits or uses: its bits, how many of them are added ones, and its states. */
static Size size_of(const uint8_t *text, uint64_t line) {
    Size size[MAX_LINES];
    for (uint64_t k = 0; k <= line; k++, text = after_line(text)) {
        unsigned kind = value(text + 2), n = value(text + 4);
        if (kind == LEAF) {
            size[k] = (Size){width_of(n), 0, n};
            continue;
        }
        size[k] = size[n];
        if (kind != COMPOSE && kind != JOINT && !added_by(kind)) continue;
        const Size first = size[n], second = size[value(text + 6)];
        size[k] = (Size){first.bits + second.bits + added_by(kind), first.added + second.added + added_by(kind), first.states * second.states};
        if (added_by(kind)) size[k].states = added_by(kind) * first.states + second.states;
    }
    return size[line];
}

static unsigned bits_of(const uint8_t *text, uint64_t line) { return size_of(text, line).bits; }

/* Whether a line that is refused by its size would not have too many bits without the added ones. */
static int added_too_many(const uint8_t *text, uint64_t line) {
    const Size size = size_of(text, line);
    return size.bits > MAX_BITS && size.bits - size.added <= MAX_BITS;
}

/* The first line of an accepted text, of so many, with more bits than once were allowed; the number of lines if there is none. */
static uint64_t first_wide(const uint8_t *text, uint64_t lines) {
    uint64_t line = 0;
    while (line < lines && bits_of(text, line) <= FORMER_BITS) line++;
    return line;
}

/* Faults in the limit of bits that a comparison keeps to. */
static uint64_t bit_limit_fault(uint64_t kind, const uint8_t *left, size_t left_len, const uint8_t *right, const uint64_t *answer) {
    uint64_t told[MODEL_WORDS];
    if (kind == REFUSED && answer[0] == 6) {
        const uint8_t *refused = answer[1] ? right : left;
        if (fault("a bit too many taken") && bits_of(refused, answer[2]) == MAX_BITS + 1) return ANSWERED;
        if (fault("added bits not counted") && added_too_many(refused, answer[2])) return ANSWERED;
    }
    if (fault("former limit of bits") && kind == ANSWERED && __real_seipolku_model((uint8_t *)left, left_len, told, MODEL_WORDS) == ACCEPTED)
        return first_wide(left, told[1]) < told[1] ? REFUSED : kind;
    return kind;
}

/* The same comparison by another limit, on a table of the greatest length. */
static uint64_t compare_apart(TEXT_ARGUMENTS, uint64_t limit, uint64_t *answer) {
    static uint8_t level[LONGEST];
    static uint32_t low[LONGEST], high[LONGEST], work[4 * LONGEST];
    return __real_seipolku_compare(left, left_len, right, right_len, limit, level, LONGEST, low, LONGEST, high, LONGEST, work, 4 * LONGEST, answer, WORDS);
}

/* The nodes that are got from a root and were not got before. */
static uint64_t nodes_from(const uint32_t *low, const uint32_t *high, uint64_t root, uint8_t *got) {
    if (root < 2 || got[root]) return 0;
    got[root] = 1;
    return 1 + nodes_from(low, high, low[root], got) + nodes_from(low, high, high[root], got);
}

static int fell(const uint64_t *verdict) { return verdict[0] != UNDECIDED; }

/* Faults that give one mode's part of an answer for the other's, or for both. */
static void mode_fault(uint64_t *answer) {
    uint64_t *strong = answer + STRONG, *weak = answer + WEAK;
    if (fault("strong verdict given for weak")) memcpy(weak, strong, 3 * sizeof *weak);
    if (fault("weak verdict given for strong")) memcpy(strong, weak, 3 * sizeof *weak);
    if (strong[0] == EQUAL && weak[0] == EQUAL) {
        if (fault("strong iterate given for weak")) weak[ROOT] = strong[ROOT];
        if (fault("weak iterate given for strong")) strong[ROOT] = weak[ROOT];
        if (fault("weak rounds start at the strong iterate")) weak[ROUNDS] = 1, weak[ROOT] = strong[ROOT];
    }
    if (fault("weak rounds go on from the strong ones") && fell(weak)) weak[ROUNDS] += strong[ROUNDS];
    if (fault("9 for both where one fell") && fell(strong) != fell(weak)) {
        uint64_t *given = fell(strong) ? strong : weak;
        given[0] = UNDECIDED, given[ROUNDS] = given[ROOT] = 0;
    }
    if (fault("rounds of the limit beside 9") && !fell(weak)) weak[ROUNDS]++;
    if (fault("no stages beside 9") && !fell(weak)) answer[RELATIONS] = answer[ANSWERS] = 0;
    if (fault("left root lost beside 9") && !fell(weak)) answer[LEFT_ROOT] = 0;
    if (fault("right root lost beside 9") && !fell(strong)) answer[RIGHT_ROOT] = 0;
    if (fault("iterate shown beside 9") && !fell(weak)) weak[ROOT] = 1;
    if (fault("iterate shown with different") && strong[0] == DIFFERENT) strong[ROOT] = 1;
    if (fault("strong iterate of all pairs") && strong[0] == EQUAL) strong[ROOT] = 1;
    if (fault("weak iterate of all pairs") && weak[0] == EQUAL) weak[ROOT] = 1;
}

/* Faults in the count of an answer, and in what goes past the limit. */
static void list_fault(TEXT_ARGUMENTS, const uint32_t *low, const uint32_t *high, size_t length, uint64_t *answer) {
    uint64_t *strong = answer + STRONG, *weak = answer + WEAK, apart[WORDS];
    if (fault("nodes") && answer[NODES] > 500) answer[NODES]--;
    if (fault("nodes of what strong shows alone")) {
        uint8_t *got = calloc(length, 1);
        answer[NODES] = nodes_from(low, high, answer[LEFT_ROOT], got) + nodes_from(low, high, answer[RIGHT_ROOT], got);
        answer[NODES] += nodes_from(low, high, strong[ROOT], got);
        free(got);
    }
    if (fault("nodes without the iterates") && compare_apart(left, left_len, right, right_len, 0, apart) == ANSWERED) answer[NODES] = apart[NODES];
    if (fault("nodes by the strong verdict") && strong[ROUNDS] < weak[ROUNDS] &&
        compare_apart(left, left_len, right, right_len, strong[ROUNDS], apart) == ANSWERED)
        answer[NODES] = apart[NODES];
    if (fault("nodes by the weak verdict") && weak[ROUNDS] < strong[ROUNDS] &&
        compare_apart(left, left_len, right, right_len, weak[ROUNDS], apart) == ANSWERED)
        answer[NODES] = apart[NODES];
    if (fault("weak rounds go past the limit") && !fell(weak) && compare_apart(left, left_len, right, right_len, UINT64_MAX, apart) == ANSWERED)
        weak[0] = apart[WEAK], weak[ROUNDS] = apart[WEAK + ROUNDS];
}

static uint64_t least(uint64_t a, uint64_t b) { return a < b ? a : b; }

/* Faults in the numbers of nodes beside refusals 1 to 7, which have none. */
static void no_nodes_fault(uint64_t room, uint64_t *answer) {
    if (fault("nodes given with 1 to 7")) answer[NODES] = answer[RELATIONS] = answer[ANSWERS] = room;
    if (fault("refusal's ninth word not 0")) answer[NODES] = 1;
    if (fault("refusal's tenth word not 0")) answer[RELATIONS] = 1;
    if (fault("refusal's eleventh word not 0")) answer[ANSWERS] = 1;
}

/* Faults in which stage of the list a number counts, also in 8; a number is at most `room`. */
static void stage_fault(TEXT_ARGUMENTS, uint64_t room, uint64_t *answer) {
    static uint8_t nil[] = "000101\n"; /* its relation has no node */
    uint64_t apart[WORDS], relations = answer[RELATIONS];
    if (fault("stages swapped")) answer[RELATIONS] = answer[ANSWERS], answer[ANSWERS] = relations;
    if (fault("tenth word left 0")) answer[RELATIONS] = 0;
    if (fault("eleventh word left 0")) answer[ANSWERS] = 0;
    if (fault("whole list given for the relations")) answer[RELATIONS] = answer[NODES];
    if (fault("whole list given for the weak answers")) answer[ANSWERS] = answer[NODES];
    if (fault("a found node counted as new"))
        for (int k = NODES; k < NODES + NUMBERS; k++) answer[k] = least(answer[k] + 1, room);
    if (fault("relation of the left alone") && compare_apart(left, left_len, nil, sizeof nil - 1, 0, apart) == ANSWERED)
        answer[RELATIONS] = least(apart[RELATIONS], room);
    if (fault("first iterate counted with the weak answers") && compare_apart(left, left_len, right, right_len, 0, apart) == ANSWERED)
        answer[ANSWERS] = least(apart[NODES], room);
}

/* Faults by which a number of 8 is above the room. */
static void unclipped_fault(TEXT_ARGUMENTS, uint64_t limit, uint64_t room, uint64_t *answer) {
    static const char *const unclipped[NUMBERS] = {"whole list not clipped", "relations not clipped", "weak answers not clipped"};
    uint64_t apart[WORDS];
    int k = 0, longer = fault("clipped at the table's length");
    while (k < NUMBERS && !fault(unclipped[k])) k++;
    if ((k == NUMBERS && !longer) || compare_apart(left, left_len, right, right_len, limit, apart) != ANSWERED) return;
    if (k < NUMBERS) answer[NODES + k] = apart[NODES + k];
    else for (k = NODES; k < NODES + NUMBERS; k++) answer[k] = least(apart[k], room + 2);
}

/* Faults by which a number of 8 is below what it should be, or is the room where it should be less. */
static void clipped_fault(uint64_t room, uint64_t *answer) {
    if (fault("8 without nodes")) memset(answer + NODES, 0, NUMBERS * 8);
    if (fault("relations clipped too early")) answer[RELATIONS] = room;
    if (fault("weak answers clipped too early")) answer[ANSWERS] = room;
    if (fault("clipped below the room"))
        for (int k = NODES; k < NODES + NUMBERS; k++) answer[k] -= answer[k] == room && room > 0;
}

/* Faults in the three numbers of nodes. */
static void nodes_fault(uint64_t kind, TEXT_ARGUMENTS, uint64_t limit, size_t length, uint64_t *answer) {
    if (kind == REFUSED && answer[0] != 8) return no_nodes_fault(length, answer);
    const uint64_t room = kind == REFUSED ? length - 2 : UINT64_MAX;
    stage_fault(left, left_len, right, right_len, room, answer);
    if (kind != REFUSED) return;
    unclipped_fault(left, left_len, right, right_len, limit, room, answer);
    clipped_fault(room, answer);
}

/* Faults in the words of a refusal. */
static void refusal_fault(uint64_t *answer) {
    if (fault("refusal's number") && answer[0] == 6) answer[0] = 5;
    if (fault("refusal's side") && answer[1] < 2) answer[1] ^= 1;
    if (fault("refusal's line") && answer[2] > 0) answer[2]--;
    if (fault("refusal's fourth word not 0")) answer[3] = 1;
    if (fault("refusal's twelfth word not 0")) answer[11] = 1;
}

/* Faults in single words of an answer with verdicts. */
static void answer_fault(uint64_t *answer, size_t work_len) {
    uint64_t *strong = answer + STRONG, *weak = answer + WEAK;
    if (fault("strong verdict") && strong[0] == EQUAL && answer[NODES] > 100) strong[0] = DIFFERENT, strong[ROOT] = 0;
    if (fault("weak verdict") && weak[0] == EQUAL && answer[NODES] > 100) weak[0] = DIFFERENT, weak[ROOT] = 0;
    if (fault("strong rounds") && strong[ROUNDS] > 3) strong[ROUNDS]--;
    if (fault("weak rounds") && weak[ROUNDS] > 3) weak[ROUNDS]--;
    if (fault("work seen") && work_len == 1) strong[ROUNDS]++;
    if (fault("twelfth word not 0")) answer[11] = 1;
    if (fault("roots swapped")) {
        uint64_t left = answer[LEFT_ROOT];
        answer[LEFT_ROOT] = answer[RIGHT_ROOT], answer[RIGHT_ROOT] = left;
    }
}

/* Faults in what a call returns: 9 refuses it, and 8 is judged by a list that is not the joined one. */
static uint64_t kind_fault(uint64_t kind, TEXT_ARGUMENTS, uint64_t limit, size_t length, uint64_t *answer) {
    uint64_t apart[WORDS], given[WORDS];
    int undecided = kind == ANSWERED && (!fell(answer + STRONG) || !fell(answer + WEAK));
    if (fault("9 refuses the call") && undecided) return memcpy(answer, (uint64_t[WORDS]){9, 2}, WORDS * 8), REFUSED;
    if (kind != REFUSED || answer[0] != 8) return kind;
    if (fault("9 before 8") && limit < 2) return memset(answer, 0, WORDS * 8), answer[STRONG] = answer[WEAK] = UNDECIDED, ANSWERED;
    if (fault("8 judged before the weak iterates") && compare_apart(left, left_len, right, right_len, 0, apart) == ANSWERED && apart[NODES] + 2 <= length)
        return ANSWERED;
    if (!fault("8 judged by the strong list alone") || compare_apart(left, left_len, right, right_len, limit, apart) != ANSWERED) return kind;
    /* Of the weak list only the rounds after the strong verdict are left out: this shows even less often. */
    memcpy(given, answer, sizeof given);
    if (compare_apart(left, left_len, right, right_len, apart[STRONG + ROUNDS], answer) == ANSWERED && answer[NODES] + 2 <= length) return ANSWERED;
    return memcpy(answer, given, sizeof given), kind;
}

/* Faults in the memory that a call was lent. */
static void memory_fault(uint64_t kind, COMPARE_ARGUMENTS) {
    int refused = kind == REFUSED && answer[0] <= 7;
    volatile uint8_t *bytes = left;
    (void)right, (void)right_len, (void)limit, (void)low_len;
    if (fault("table touched") && refused && high_len) high[high_len - 1]++;
    if (fault("level touched") && refused && level_len) level[0]++;
    if (fault("text written") && left_len) bytes[0] = bytes[0];
    if (fault("text read past its end")) (void)bytes[left_len];
    /* an empty slice has no block to run past the end of */
    if (fault("work read past its end") && work_len) (void)((volatile uint32_t *)work)[work_len];
    if (fault("work written past its end") && work_len) ((volatile uint32_t *)work)[work_len] = 0;
    if (fault("answer written past its end")) ((volatile uint64_t *)answer)[words] = 0;
    if (fault("work touched when short") && kind == SHORT && work_len) work[0]++;
    if (kind != ANSWERED) return;
    int undecided = !fell(answer + STRONG) || !fell(answer + WEAK), shown = answer[LEFT_ROOT] > 1;
    if ((fault("not reduced") || (fault("not reduced beside 9") && undecided)) && shown) low[answer[LEFT_ROOT]] = high[answer[LEFT_ROOT]];
    if ((fault("not ordered") || (fault("not ordered beside 9") && undecided)) && shown) level[answer[LEFT_ROOT]] = LAST_LEVEL;
    if (fault("weak iterate not reduced") && answer[WEAK + ROOT] > 1) low[answer[WEAK + ROOT]] = high[answer[WEAK + ROOT]];
    if (fault("no constants") || (fault("no constants beside 9") && undecided)) level[1] = 254;
}

/* Faults in the number of words that an answer has to have. */
static uint64_t answer_length_fault(COMPARE_ARGUMENTS) {
    uint64_t taken[WORDS];
    int less = (fault("eleven words taken") && words == WORDS - 1) || (fault("six words taken") && words >= MODEL_WORDS && words < WORDS);
    if (fault("twelve words refused") && words == WORDS) words--;
    if (fault("7 before too few words") && words < WORDS && (level_len != low_len || low_len != high_len)) return REFUSED;
    uint64_t kind = __real_seipolku_compare(left, left_len, right, right_len, limit, level, level_len, low, low_len, high, high_len, work, work_len,
                                            less ? taken : answer, less ? WORDS : words);
    if (less) memcpy(answer, taken, words * 8);
    return kind;
}

/* Faults by which frames of one kind are taken as frames of another, or of the same kind with their operands exchanged. */
static const struct { const char *name; unsigned kind, taken; } frame_faults[] = {
    {"enabling taken as composition", ENABLE, COMPOSE},
    {"enabling taken as disabling", ENABLE, DISABLE},
    {"disabling taken as enabling", DISABLE, ENABLE},
    {"operands of an enabling exchanged", ENABLE, ENABLE},
    {"operands of a disabling exchanged", DISABLE, DISABLE},
    {"restriction taken as hiding", RESTRICT, HIDE},
    {"composition taken as joint", COMPOSE, JOINT},
};

/* Copies a text if it is accepted; whether it is. */
static int copied(uint8_t *taken, uint8_t *text, size_t text_len) {
    uint64_t told[MODEL_WORDS];
    if (text_len > LONGEST_TEXT || __real_seipolku_model(text, text_len, told, MODEL_WORDS) != ACCEPTED) return 0;
    return memcpy(taken, text, text_len), 1;
}

/* An accepted text as the given one of these faults takes it. */
static uint8_t *taken_as(uint8_t *text, size_t text_len, size_t given) {
    static uint8_t taken[LONGEST_TEXT];
    if (!copied(taken, text, text_len)) return text;
    for (uint8_t *line = taken; line < taken + text_len; line = (uint8_t *)after_line(line)) {
        if (value(line + 2) != frame_faults[given].kind) continue;
        uint8_t first[2] = {line[4], line[5]};
        if (frame_faults[given].taken == frame_faults[given].kind) memcpy(line + 4, line + 6, 2), memcpy(line + 6, first, 2);
        line[3] = (uint8_t)('0' + frame_faults[given].taken);
    }
    return taken;
}

/* An accepted text in which every channel of a list is its first one. */
static uint8_t *first_channels(uint8_t *taken, uint8_t *text, size_t text_len) {
    if (!copied(taken, text, text_len)) return text;
    for (uint8_t *line = taken; line < taken + text_len; line = (uint8_t *)after_line(line)) {
        unsigned kind = value(line + 2);
        if (kind != RESTRICT && kind != HIDE && kind != JOINT) continue;
        uint8_t *first = line + (kind == JOINT ? 8 : 6);
        for (uint8_t *next = first; *next != '\n'; next += 2) next[0] = first[0], next[1] = first[1];
    }
    return taken;
}

static uint8_t *text_fault(uint8_t *text, size_t text_len) {
    for (size_t k = 0; k < sizeof frame_faults / sizeof *frame_faults; k++)
        if (fault(frame_faults[k].name)) return taken_as(text, text_len, k);
    return text;
}

uint64_t __wrap_seipolku_compare(COMPARE_ARGUMENTS) {
    static uint8_t taken[2][LONGEST_TEXT];
    left = text_fault(left, left_len);
    if (fault("a list's first channel alone")) left = first_channels(taken[0], left, left_len), right = first_channels(taken[1], right, right_len);
    if (fault("limit 0 taken as 1") && limit == 0) limit = 1;
    if (fault("limit passed by")) limit = UINT64_MAX;
    if (fault("long text cut") && left_len > LONGEST_TEXT) left_len = LONGEST_TEXT;
    if (fault("CR skipped") && left_len > 1 && left[left_len - 2] == '\r') right_len = 0, left_len = 0;
    if (fault("lengths not compared")) low_len = high_len = level_len;
    if (fault("an entry too few") && level_len > 2) level_len--, low_len--, high_len--;
    if (fault("an entry too many") && level_len > 1) level_len++, low_len++, high_len++;
    uint64_t kind = answer_length_fault(left, left_len, right, right_len, limit, level, level_len, low, low_len, high, high_len, work, work_len, answer, words);
    memory_fault(kind, left, left_len, right, right_len, limit, level, level_len, low, low_len, high, high_len, work, work_len, answer, words);
    if (kind == SHORT || words < WORDS) {
        if (fault("short answer written") && words > 0) answer[0] = 7;
        return kind == SHORT && fault("short answer refused") ? REFUSED : kind;
    }
    if (fault("thirteenth word") && words > WORDS) answer[WORDS] = 0;
    nodes_fault(kind, left, left_len, right, right_len, limit, level_len, answer);
    if (kind == REFUSED) refusal_fault(answer);
    if (kind == ANSWERED) {
        mode_fault(answer), answer_fault(answer, work_len);
        list_fault(left, left_len, right, right_len, low, high, level_len, answer);
    }
    kind = kind_fault(kind, left, left_len, right, right_len, limit, level_len, answer);
    return bit_limit_fault(kind, left, left_len, right, answer);
}

/* Faults in the four codes. */
static void code_fault(uint64_t root, uint64_t *code) {
    static const char *const not_judged[4] = {"left now not judged", "left next not judged", "right now not judged", "right next not judged"};
    for (int k = 0; k < 4; k++) {
        if (fault("code cut") || fault(not_judged[k]) || (fault("codes not judged at a constant") && root < 2)) code[k] &= CODES - 1;
        if (fault("first code out of range taken") && code[k] == CODES) code[k]--;
        if (fault("former limit of codes") && code[k] >= FORMER_CODES) code[k] = CODES;
    }
    if (fault("next codes swapped")) code[1] ^= code[3], code[3] ^= code[1], code[1] ^= code[3];
}

/* The levels as a walk with a fault in its last level sees them. */
static uint8_t *level_fault(uint8_t *level, size_t level_len) {
    static uint8_t seen[LONGEST + 1];
    int former = fault("former limit of levels"), more = fault("first level out of range taken");
    if ((!former && !more) || level_len > sizeof seen) return level;
    for (size_t k = 0; k < level_len; k++) {
        seen[k] = level[k];
        if (former && level[k] > FORMER_LAST_LEVEL) seen[k] = 255;
        if (more && level[k] == LAST_LEVEL + 1) seen[k] = LAST_LEVEL;
    }
    return seen;
}

uint64_t __wrap_seipolku_look_up(LOOK_UP_ARGUMENTS) {
    uint64_t code[4] = {left_now, left_next, right_now, right_next};
    if (fault("action cut") || (fault("action not judged at a constant") && root < 2)) action &= 63;
    code_fault(root, code);
    if (fault("root cut")) root = (uint32_t)root;
    if (fault("too long a table taken") && level_len == LONGEST + 1 && low_len == level_len && high_len == level_len) level_len--, low_len--, high_len--;
    if (fault("longest table refused") && level_len == LONGEST) level_len--;
    if (fault("short high taken")) high_len = level_len;
    if (fault("table written") && level_len) *(volatile uint8_t *)level = level[0];
    level = level_fault(level, level_len);
    uint64_t found = __real_seipolku_look_up(level, level_len, low, low_len, high, high_len, root, action, code[0], code[1], code[2], code[3]);
    if (fault("walk ended by 0") && found == 10) return 0;
    if (fault("10 for 7") && found == 7) return 10;
    return found;
}

/* Faults in the words on a model whose last line is an enabling or disabling. */
static void model_sequence_fault(const uint8_t *text, uint64_t *answer) {
    const uint8_t *last = line_of(text, answer[1] - 1);
    unsigned kind = value(last + 2);
    if (!added_by(kind)) return;
    const uint64_t first = size_of(text, value(last + 4)).states, second = size_of(text, value(last + 6)).states;
    if (fault("model, bits without the added ones")) answer[0] -= added_by(kind);
    if (fault("model, states of an enabling as a product") && kind == ENABLE) answer[3] = first * second;
    if (fault("model, states of a disabling without both alive") && kind == DISABLE) answer[3] = first + second;
}

/* Whether a fault takes a line that is refused with 4 or 5. */
static int line_taken(const uint8_t *text, const uint64_t *answer) {
    const uint8_t *line = line_of(text, answer[2]);
    size_t numbers = (size_t)(after_line(line) - line - 5) / 2; /* in the body: without the line's number, the kind and the end */
    unsigned kind = value(line + 2);
    if (answer[0] == 5 && added_by(kind) && (value(line + 4) == answer[2] || value(line + 6) == answer[2]))
        return fault("model, 07 and 08 of their own line taken");
    if (answer[0] != 4) return 0;
    if (kind == ENABLE && numbers == 1) return fault("model, 07 of one number taken");
    if (kind == DISABLE && numbers == 3) return fault("model, 08 of three numbers taken");
    return kind == UNKNOWN && fault("model, 09 taken");
}

/* Faults in the words of an answer that is long enough. */
static void model_answer_fault(uint64_t kind, uint64_t *answer) {
    if (kind == REFUSED) {
        if (fault("model, number") && answer[0] == 6) answer[0] = 5;
        if (fault("model, side")) answer[1] = 2;
        if (fault("model, line") && answer[2] > 0) answer[2]--;
        return;
    }
    if (fault("model, bits of one state") && answer[0] == 0) answer[0] = 1;
    if (fault("model, line uncounted") && answer[1] == 64) answer[1]--;
    if (fault("model, uses as lines") && answer[1] < answer[2]) answer[2] = answer[1];
    if (fault("model, states of all codes")) answer[3] = (uint64_t)1 << answer[0];
    if (fault("model, fifth word")) answer[4]++;
    if (fault("model, sixth word")) answer[5]++;
}

/* Faults in how a line is judged, and in the limit of bits. */
static uint64_t judging_fault(uint64_t kind, const uint8_t *text, const uint64_t *answer) {
    int former = fault("model, former limit of bits"), unused = fault("model, former limit of bits where unused");
    if (kind == REFUSED && (answer[0] == 4 || answer[0] == 5)) return line_taken(text, answer) ? ACCEPTED : kind;
    if (kind == REFUSED && answer[0] == 6 && fault("model, added bits not counted")) return added_too_many(text, answer[2]) ? ACCEPTED : kind;
    if (kind == REFUSED) return fault("model, a bit too many taken") && answer[0] == 6 && bits_of(text, answer[2]) == MAX_BITS + 1 ? ACCEPTED : kind;
    if (!former && !(unused && answer[0] <= FORMER_BITS)) return kind;
    return first_wide(text, answer[1]) < answer[1] ? REFUSED : kind;
}

uint64_t __wrap_seipolku_model(MODEL_ARGUMENTS) {
    volatile uint8_t *bytes = text;
    if (fault("model, long text cut") && text_len > LONGEST_TEXT) text_len = LONGEST_TEXT;
    if (fault("model, text written") && text_len) bytes[0] = bytes[0];
    if (fault("model, text read past its end") && text_len) (void)bytes[text_len];
    if (fault("model, answer written past its end") && words) ((volatile uint64_t *)answer)[words] = 0;
    if (fault("model, five words taken") && words == MODEL_WORDS - 1) words++;
    if (fault("model, six words refused") && words == MODEL_WORDS) words--;
    uint64_t kind = __real_seipolku_model(text, text_len, answer, words);
    if (kind == SHORT) {
        if (fault("model, short answer written") && words) answer[0] = 0;
        return fault("model, short answer taken") ? 0 : kind;
    }
    uint64_t returned = judging_fault(kind, text, answer);
    if (kind != REFUSED) model_sequence_fault(text, answer);
    model_answer_fault(kind, answer);
    if (fault("model, seventh word") && words > MODEL_WORDS) answer[MODEL_WORDS] = 0;
    return fault("model, refused as accepted") ? ACCEPTED : returned;
}
