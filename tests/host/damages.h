/* Trees with something wrong in them, for fuzz.c and damage.c: damages.c. */
#ifndef DAMAGES_H
#define DAMAGES_H

#include <stddef.h>
#include <stdint.h>

/* Chance, the same from the same start. */
extern uint64_t chance_state;
uint64_t chance(void);
unsigned below(unsigned n);

/* The lists of a tree over so many triangles. Behind its length each has room for some entries more. */
enum { MORE = 8 };
typedef struct {
    size_t count;
    uint32_t *order;
    size_t order_length;
    uint32_t *links;
    size_t links_length;
    float *boxes;
    size_t boxes_length, nodes;
} Tree;

enum {
    ORDER_OUT_OF_RANGE, ORDER_REPEATED, ORDER_CHANGED_OVER, ORDER_SHORTER, ORDER_LONGER,
    NODES_NONE, NODES_TOO_MANY, LINKS_SHORTER, BOXES_SHORTER,
    KIND_UNKNOWN, KIND_OTHER, SIDE_NEAR, SIDE_ANY, CHILDREN_CHANGED_OVER, CHILD_ITSELF, CHILD_OTHER, LEAF_EMPTY, LEAF_BEYOND, COVER_SHORT,
    NODES_CUT_OFF, NODE_LEFT_OUT, NODE_TWICE,
    BOX_NEXT, BOX_MINUS_ZERO, BOX_NO_NUMBER, BOX_ANY, BOX_OTHER, BOX_GROWN,
    DAMAGES
};
extern const char *const damage_names[DAMAGES];

/* Does one of these damages at a place by chance, on any lists; none makes a list longer by more than MORE entries. Returns what
 * gauge_check must say of lists that were a tree before, 0 where that depends: the number of triangles where there is no place for
 * this damage and they are left as they were. */
uint64_t damage_tree(Tree *t, int damage);

#endif
