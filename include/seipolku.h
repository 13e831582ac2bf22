/* Seipolku: comparing two models by strong and weak bisimilarity, with the caller's memory.
 *
 * Every slice is a pointer and a length in elements. Nothing is allocated, and nothing is kept between calls.
 * Slices that are lent must not overlap. Every byte and number is taken; no call fails in any other way than by its answer.
 */
#ifndef SEIPOLKU_H
#define SEIPOLKU_H

#include <stddef.h>
#include <stdint.h>

#ifdef __cplusplus
extern "C" {
#endif

/* What seipolku_compare and seipolku_model return. It is no verdict: 0 does not say that the models are equal. The two verdicts are words of the
 * answer, below. Up to 0.1.0 seipolku_compare took other parameters and returned one verdict; its callers must be changed and compiled anew. */
enum {
    SEIPOLKU_ANSWERED = 0, /* seipolku_compare: two verdicts, in the words below */
    SEIPOLKU_ACCEPTED = 0, /* seipolku_model: what the model is, in the words below */
    SEIPOLKU_REFUSED = 2,  /* number, side and line, in the words below */
    SEIPOLKU_SHORT = 3     /* answer has too few words; nothing was touched */
};

/* How many words an answer has. Those that are not named below are 0; words past these are never touched. */
enum {
    SEIPOLKU_ANSWER_WORDS = 12, /* of seipolku_compare */
    SEIPOLKU_MODEL_WORDS = 6    /* of seipolku_model */
};

/* The words of an answered comparison. */
enum {
    SEIPOLKU_LEFT_ROOT = 0,      /* the relation of the left model */
    SEIPOLKU_RIGHT_ROOT = 1,     /* that of the right model */
    SEIPOLKU_STRONG_VERDICT = 2, /* SEIPOLKU_VERDICT_EQUAL, .._DIFFERENT or .._NONE */
    SEIPOLKU_STRONG_ROUNDS = 3,  /* 0 if there is no verdict */
    SEIPOLKU_STRONG_ROOT = 4,    /* the largest strong bisimulation if equal, else 0 */
    SEIPOLKU_WEAK_VERDICT = 5,   /* the same of the weak verdict */
    SEIPOLKU_WEAK_ROUNDS = 6,
    SEIPOLKU_WEAK_ROOT = 7
};

/* Where the nodes went: words of an answered comparison and of a refusal with 8; in every other refusal they are 0. Each number holds the ones
 * before it, in the order relations, answers, whole. In a refusal with 8 a number above the nodes that fit, which are two fewer than the table's
 * entries, is given as these, and every other one is exact; SEIPOLKU_NODES is always these. So what fills the table is the first of the
 * three, in that order, that is as large as SEIPOLKU_NODES: the relations, the weak answers, or the comparison itself. */
enum {
    SEIPOLKU_NODES = 8,                 /* needed for both verdicts together: of the whole list */
    SEIPOLKU_NODES_UP_TO_RELATIONS = 9, /* of the relations, that is, the steps of both models */
    SEIPOLKU_NODES_UP_TO_ANSWERS = 10   /* of the relations and the weak answers, before any iterate */
};

/* The values of the words SEIPOLKU_STRONG_VERDICT and SEIPOLKU_WEAK_VERDICT, never of what is returned. */
enum {
    SEIPOLKU_VERDICT_EQUAL = 0,
    SEIPOLKU_VERDICT_DIFFERENT = 1,
    SEIPOLKU_VERDICT_NONE = 9 /* none by the limit: refusal 9, for this verdict alone */
};

/* The words of a refusal. Side: 0 left, 1 right, 2 neither. With SEIPOLKU_FULL also where the nodes went, above. */
enum {
    SEIPOLKU_REFUSAL_NUMBER = 0,
    SEIPOLKU_REFUSAL_SIDE = 1,
    SEIPOLKU_REFUSAL_LINE = 2
};

/* The number of a refusal where the nodes of both verdicts together do not fit into the table. */
enum { SEIPOLKU_FULL = 8 };

/* The words of an accepted model. */
enum {
    SEIPOLKU_MODEL_BITS = 0,
    SEIPOLKU_MODEL_LINES = 1,
    SEIPOLKU_MODEL_USES = 2,
    SEIPOLKU_MODEL_STATES = 3
};

/* The action of termination (ISO 8807's exit), the only one of channel 31. Lists and relabellings name channels 1 to 30. */
enum { SEIPOLKU_EXIT = 62 };

/* Limits. A line's process has at most so many bits of state, so that codes are below 2^24; levels of nodes go from 0 to the last one; a table
 * has at least 2 and at most so many entries. */
enum {
    SEIPOLKU_MAX_BITS = 24,
    SEIPOLKU_LAST_LEVEL = 5 + 6 * SEIPOLKU_MAX_BITS,
    SEIPOLKU_MAX_TABLE = 1048576
};

/* Compares the models of two texts, strongly and weakly, each by its iterates up to the limit.
 *
 * Refused are, in this order: 7 a table that does not fit; 1 to 6 the left text, then the right one; 8 where the nodes that both verdicts need
 * together do not fit into the table, also where those of one of them would. 9 refuses no call: in the place of a verdict that does not fall by
 * the limit stands SEIPOLKU_VERDICT_NONE, and the other one, the roots and the nodes are given all the same. An answer and 8 tell where the
 * nodes went.
 *
 * level, low and high are the table: of one length, 2 to 1,048,576. A refusal 1 to 7 leaves them untouched; after 8 their content is free.
 * After an answer, also without one or both verdicts, they hold an ordered, reduced table without duplicates, in which seipolku_look_up reads.
 * work is the memory for the hash index and the computed table: any length, also 0, and any content; its content afterwards is free. No answer
 * depends on it, only the time. Lend it four words an entry. With fewer than two words for each node that is needed the time grows with the
 * square of the nodes that the index does not cover.
 */
uint64_t seipolku_compare(const uint8_t *left, size_t left_len, const uint8_t *right, size_t right_len, uint64_t limit,
                          uint8_t *level, size_t level_len, uint32_t *low, size_t low_len, uint32_t *high, size_t high_len,
                          uint32_t *work, size_t work_len, uint64_t *answer, size_t answer_len);

/* The value at an action and four state codes, from a root of an answer: 0 or 1; or 7 (slices unequal, or of a length that no table has)
 * or 10. 10 is due where the action is above 63 or a code is 2^24 or more, whatever bits the models have, and where the walk leaves the table
 * or its order, or comes to a node of a level above 149 (5 + 6 * 24). From a relation's root, where the now code is a state's: whether the
 * step is derived; at a code that no state has (see seipolku_model), more than the derived steps may hold. Steps have the actions 0 (tau), 62
 * (exit), and 2c (output) and 2c + 1 (input) for a channel c from 1 to 30; no step has 1 or 63. From the root of a verdict that is
 * SEIPOLKU_VERDICT_EQUAL, for now codes within the models' bits: whether the largest bisimulation, strong or weak, holds the two; it
 * relates codes of states only. Test the verdict first: if it is not equal, its root is 0, which is the constant false, and a look-up from it
 * gives 0 for every pair. */
uint64_t seipolku_look_up(const uint8_t *level, size_t level_len, const uint32_t *low, size_t low_len, const uint32_t *high, size_t high_len,
                          uint64_t root, uint64_t action, uint64_t left_now, uint64_t left_next, uint64_t right_now, uint64_t right_next);

/* What the model of a text is. Accepted: the bits of its state codes, the text's lines, and its leaf uses and states, reachable or not. A leaf
 * of k states has as many bits as k - 1 has; a process over two operands with n1 and n2 states has the bits of both and
 *   compose, joint (02, 06): n1 * n2 states, a state of each;
 *   enabling (07): n1 + n2 states and one bit more: 0 with a state of the first, 1 with a state of the second;
 *   disabling (08): 2 * n1 + n2 states and two bits more: 0 where both are alive, with a state of the first and the start of the second; 1 with
 *   a state of the second alone; 2 with a state of the first alone.
 * Restrict, relabel and hide (03, 04, 05) change neither bits nor states.
 * The added bits are the lowest, then come those of the first, then those of the second; an operand that waits or is dropped has the code 0.
 * A model of n bits, at most 24, has the codes 0 to 2^n - 1, of which some may be no state's; the start is code 0. Refused: the refusal 1 to 6
 * with its line, and side 0, as seipolku_compare gives it for a left text. */
uint64_t seipolku_model(const uint8_t *text, size_t text_len, uint64_t *answer, size_t answer_len);

#ifdef __cplusplus
}
#endif

#endif
