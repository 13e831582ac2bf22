/* The joined list of functions evaluated with BuDDy (Debian's libbdd-dev). */
#include <stddef.h>

typedef struct { int equal; unsigned long long rounds; } Verdict;
typedef struct { Verdict strong, weak; } Verdicts;
/* Of the list up to both relations, up to both weak answers, and of the whole list. */
typedef struct { unsigned long relations, answers, whole; } Nodes;

void buddy_start(int nodes, int cache);
Verdicts buddy_compare(const unsigned char *left, size_t left_len, const unsigned char *right, size_t right_len);
Nodes buddy_nodes(void);
void buddy_end(void);
