/* Damages of trees, one for each way in which lists are no tree. What must be said of each follows from what was done alone. */
#include "damages.h"

#include <string.h>

uint64_t chance_state;

uint64_t chance(void)
{
    uint64_t z = (chance_state += 0x9e3779b97f4a7c15u);
    z = (z ^ (z >> 30)) * 0xbf58476d1ce4e5b9u;
    z = (z ^ (z >> 27)) * 0x94d049bb133111ebu;
    return z ^ (z >> 31);
}

unsigned below(unsigned n)
{
    return (unsigned)(chance() % n);
}

const char *const damage_names[DAMAGES] = {
    "an order entry out of range", "an order entry repeated", "two order entries changed over", "an order list shorter", "an order list longer",
    "no nodes", "too many nodes", "links shorter than the nodes", "boxes shorter than the nodes",
    "a kind that is none", "a leaf a branch, or a branch a leaf", "a link off by one or two", "a link that is anything",
    "children changed over", "a child that is the branch itself", "a child that is another node", "a leaf that is empty", "a leaf beyond n",
    "a cover short of n", "nodes cut off the end", "a node left out", "a node twice",
    "a box number the next one", "a box number minus zero", "a box number that is none", "a box number that is anything",
    "another node's box", "a leaf's box grown, and those above it"};

static uint64_t refused(unsigned number, size_t place)
{
    return (uint64_t)number << 56 | place;
}

/* The first, the last or any of so many. */
static size_t any_of(size_t count)
{
    unsigned kind = below(6);
    return kind == 0 ? 0 : kind == 1 ? count - 1 : below((unsigned)count);
}

/* How many nodes both lists have, of those that are told. */
static size_t held(const Tree *t)
{
    size_t links = t->links_length / 3, boxes = t->boxes_length / 6, nodes = t->nodes < links ? t->nodes : links;
    return nodes < boxes ? nodes : boxes;
}

/* Any node of this kind, `nodes` where there is none. */
static size_t any_node(const Tree *t, size_t nodes, uint32_t kind)
{
    size_t start = any_of(nodes);
    for (size_t k = 0; k < nodes; k++)
        if (t->links[3 * ((start + k) % nodes)] == kind)
            return (start + k) % nodes;
    return nodes;
}

static uint64_t damage_order(Tree *t, int damage)
{
    size_t n = t->count, entries = t->order_length, i, other;
    if (entries == 0)
        return n;
    i = any_of(entries);
    other = any_of(entries);
    switch (damage) {
    case ORDER_OUT_OF_RANGE:
        t->order[i] = (uint32_t)n + (below(2) ? 0 : below(UINT32_MAX - (uint32_t)n));
        return refused(71, i);
    case ORDER_REPEATED:
        t->order[i] = t->order[other];
        return i == other ? n : refused(71, i < other ? other : i);
    case ORDER_CHANGED_OVER: {
        uint32_t entry = t->order[i];
        t->order[i] = t->order[other];
        t->order[other] = entry;
        return i == other ? n : 0;
    }
    case ORDER_SHORTER:
        t->order_length = i;
        return refused(71, i);
    default: /* ORDER_LONGER: of more than n entries one is no number of these, or stands there twice */
        for (unsigned more = 1 + below(MORE); more > 0; more--)
            t->order[t->order_length++] = below(3) ? below((unsigned)n) : (uint32_t)chance();
        return refused(71, n);
    }
}

static uint64_t damage_count(Tree *t, int damage)
{
    static const size_t many[] = {4294967296u, 4294967297u, SIZE_MAX / 6, SIZE_MAX / 6 + 1, SIZE_MAX / 3 + 1, SIZE_MAX / 2 + 1, SIZE_MAX};
    size_t nodes = held(t);
    if (damage == NODES_NONE)
        t->nodes = 0;
    else if (damage == NODES_TOO_MANY)
        t->nodes = below(2) ? 2 * t->count + below(3) : many[below(sizeof many / sizeof *many)];
    else if (nodes == 0)
        return t->count;
    else if (damage == LINKS_SHORTER)
        t->links_length = any_of(3 * nodes);
    else
        t->boxes_length = any_of(6 * nodes);
    return refused(72, 0);
}

/* A link with another number in it: it breaks there, but for the end of a leaf, which may be where the next one begins, or be found short. */
static uint64_t put_link(Tree *t, size_t node, size_t side, uint32_t value)
{
    uint32_t *link = t->links + 3 * node;
    if (link[side] == value)
        return t->count;
    link[side] = value;
    return link[0] == 1 && side == 2 ? 0 : refused(73, node);
}

static uint64_t damage_branch(Tree *t, int damage, size_t nodes)
{
    size_t node = any_node(t, nodes, 2), side = 1 + below(2);
    if (node == nodes)
        return t->count;
    uint32_t *link = t->links + 3 * node, left = link[1];
    if (damage == CHILD_ITSELF)
        return put_link(t, node, side, (uint32_t)node);
    if (damage == CHILD_OTHER)
        return put_link(t, node, side, below((unsigned)node + 1));
    link[1] = link[2];
    link[2] = left;
    return refused(73, node);
}

static uint64_t damage_leaf(Tree *t, int damage, size_t nodes)
{
    size_t node = any_node(t, nodes, 1);
    if (damage == COVER_SHORT)
        for (node = nodes; node-- > 0 && t->links[3 * node] != 1;) {
        }
    if (node >= nodes)
        return t->count;
    uint32_t *link = t->links + 3 * node, n = (uint32_t)t->count;
    if (damage == LEAF_EMPTY)
        link[2] = below(2) || link[1] > n ? link[1] : below(link[1] + 1);
    else if (damage == LEAF_BEYOND)
        link[2] = n + 1 + (below(2) ? 0 : below(UINT32_MAX - n));
    else { /* COVER_SHORT: of the last leaf the last entries are left out, if that leaves some */
        if (link[2] > n || link[2] < link[1] + 2)
            return t->count;
        link[2] -= 1 + below(link[2] - link[1] - 1);
        return refused(73, nodes - 1);
    }
    return refused(73, node);
}

/* From a node on, the nodes move so many places, up or down. */
static void move_nodes(Tree *t, size_t from, int places)
{
    size_t to = from + (size_t)places;
    memmove(t->links + 3 * to, t->links + 3 * from, 4 * (t->links_length - 3 * from));
    memmove(t->boxes + 6 * to, t->boxes + 6 * from, 4 * (t->boxes_length - 6 * from));
    t->links_length += 3 * (size_t)places;
    t->boxes_length += 6 * (size_t)places;
    t->nodes += (size_t)places;
}

static uint64_t damage_links(Tree *t, int damage)
{
    static const uint32_t kinds[] = {0, 3, 257, 258, 65537, 65538, 0x80000001, 0xffffffff};
    size_t nodes = held(t), n = t->count, node, side = 1 + below(2);
    if (nodes == 0)
        return n;
    node = any_of(nodes);
    uint32_t *link = t->links + 3 * node;
    switch (damage) {
    case KIND_UNKNOWN:
        return put_link(t, node, 0, kinds[below(sizeof kinds / sizeof *kinds)]);
    case KIND_OTHER:
        link[0] = 3 - link[0];
        return 0;
    case SIDE_NEAR:
        return put_link(t, node, side, link[side] + below(2) + 1 - 3 * below(2));
    case SIDE_ANY:
        return put_link(t, node, side, below(2) ? below(2 * (unsigned)n) : (uint32_t)chance());
    case CHILDREN_CHANGED_OVER:
    case CHILD_ITSELF:
    case CHILD_OTHER:
        return damage_branch(t, damage, nodes);
    case LEAF_EMPTY:
    case LEAF_BEYOND:
    case COVER_SHORT:
        return damage_leaf(t, damage, nodes);
    case NODES_CUT_OFF: /* by the root alone two trees are left */
        if (nodes < 2)
            return n;
        t->nodes = nodes - (below(2) ? 1 : 1 + below((unsigned)nodes - 1));
        return refused(73, t->nodes - 1);
    case NODE_LEFT_OUT:
        if (nodes < 2)
            return n;
        if (node + 1 == nodes)
            t->nodes--;
        else
            move_nodes(t, node + 1, -1);
        return 0;
    default: /* NODE_TWICE */
        if (nodes > 2 * n)
            return n;
        move_nodes(t, node, 1);
        return t->nodes > 2 * n - 1 ? refused(72, 0) : refused(73, node + 1);
    }
}

static uint32_t bits_at(const float *number)
{
    uint32_t bits;
    memcpy(&bits, number, 4);
    return bits;
}

static void put_bits(float *number, uint32_t bits)
{
    memcpy(number, &bits, 4);
}

/* A leaf's box is larger, and each branch behind it has the boxes of its children. */
static void grow_box(Tree *t, size_t leaf, size_t nodes)
{
    t->boxes[6 * leaf + 3 + below(3)] += 1 + (float)below(1000);
    for (size_t node = leaf + 1; node < nodes; node++) {
        const uint32_t *link = t->links + 3 * node;
        if (link[0] != 2 || link[1] >= nodes || link[2] >= nodes)
            continue;
        for (size_t k = 0; k < 6; k++) {
            float left = t->boxes[6 * (size_t)link[1] + k], right = t->boxes[6 * (size_t)link[2] + k];
            t->boxes[6 * node + k] = (k < 3 ? right < left : right > left) ? right : left;
        }
    }
}

static uint64_t damage_boxes(Tree *t, int damage)
{
    static const uint32_t none[] = {0x7f800000, 0xff800000, 0x7f800001, 0xff800001, 0x7fc00000, 0xffc00123};
    size_t nodes = held(t), at;
    if (nodes == 0)
        return t->count;
    at = 6 * any_of(nodes) + below(6);
    uint32_t bits = bits_at(t->boxes + at);
    switch (damage) {
    case BOX_NEXT: /* up or down */
        put_bits(t->boxes + at, bits ^ 1);
        break;
    case BOX_MINUS_ZERO: /* where a zero stands, if there is one */
        for (size_t k = 0; k < 6 * nodes && bits_at(t->boxes + at) != 0; k++)
            at = (at + 1) % (6 * nodes);
        put_bits(t->boxes + at, 0x80000000);
        break;
    case BOX_NO_NUMBER:
        put_bits(t->boxes + at, none[below(sizeof none / sizeof *none)]);
        break;
    case BOX_ANY: {
        uint32_t any = (uint32_t)chance();
        put_bits(t->boxes + at, any == bits ? ~any : any);
        break;
    }
    case BOX_OTHER:
        memmove(t->boxes + at / 6 * 6, t->boxes + 6 * any_of(nodes), 24);
        return 0;
    default: { /* BOX_GROWN */
        size_t leaf = any_node(t, nodes, 1);
        if (leaf == nodes)
            return t->count;
        grow_box(t, leaf, nodes);
        return refused(75, leaf);
    }
    }
    return refused(75, at / 6);
}

uint64_t damage_tree(Tree *t, int damage)
{
    if (damage <= ORDER_LONGER)
        return damage_order(t, damage);
    if (damage <= BOXES_SHORTER)
        return damage_count(t, damage);
    return damage <= NODE_TWICE ? damage_links(t, damage) : damage_boxes(t, damage);
}
