/* gauge.h: the measuring engine, as a C host calls it. Link libhost.a (README, "Link it from C").
 *
 * A drawing lives in lists that the host owns: its triangles, and a tree of boxes over them. It is built
 * once, or read from an image once, and then asked where it lies, as often as is wanted: no call copies
 * it. An image is bytes that keep a drawing and its tree in a file; triangles alone come and go as STL,
 * the files of every pattern shop. The struct at the end of this header has all lists of a drawing in
 * one block of memory, with a function for each call; the calls themselves take lists from anywhere.
 * Each call looks over what it is handed, so no numbers and no bytes, from wherever they come, make it
 * read or write outside its lists and slices.
 *
 * A list is a pointer and a count of entries: a C array of float or of uint32_t, aligned as C aligns it.
 *
 *     triangles   9 floats each: corners a, b, c, each x y z. Counted from 0; 1 to 65,536 of them
 *     order       an entry for each triangle: their numbers, as the leaves have them from left to right
 *     links       3 entries a node: 1 leaf or 2 branch, left, right. Of a leaf these are its range in
 *                 order, the end not included; of a branch its children. The root is the last node
 *     boxes       6 floats a node: min x y z, max x y z
 *     bounds, centres, scratch
 *                 what a build works in: 6 floats, 3 floats and 1 entry a triangle
 *     sums        16 floats a node, which gauge_fast_winding counts with. gauge_node_sums makes them,
 *                 after a build and after a reading: no image keeps them
 *
 * A tree of n triangles has 2n - 1 nodes at most.
 *
 * A slice is a pointer and a length in bytes; no alignment is asked for. What stands in it is
 * little-endian, numbers u32 or IEEE f32:
 *
 *     points      12 bytes each: x y z. A slice of none is accepted
 *     answers     28 bytes each: 1 or 0, triangle, x, y, z, squared distance, part of the triangle
 *                 (struct gauge_answer); nothing found is seven zeros. One a point, or, where the
 *                 nearest few are asked for, as many in a row as the call says
 *     windings    4 bytes each: an f32
 *     image       settings, triangles, order and nodes: version 1 of up to 4,096 triangles, version 2
 *                 of more. Both are written and read; one drawing with one tree has one image
 *     stl         a binary STL: 80 bytes of header, how many triangles as a u32, then 50 bytes each: a
 *                 normal of 3 f32, the corners a, b, c, and a u16. Header, normals and u16 are not looked
 *                 at, and written as zeros. An STL in text, which begins with "solid", is none of these:
 *                 it is GAUGE_STL
 *
 * On x86-64 Linux, for which the library is, an array of float or of struct gauge_answer has these
 * bytes: hand it over by a cast. A count or a length of 0 may go with any pointer, NULL too. What a call
 * writes must not overlap anything else that it is handed.
 *
 * Every call returns a number. Below 2^56 it is done, and the number is the count that stands at
 * the call; of slices that a machine can address no count is as large as 2^56. Else it is refused:
 * gauge_number says why, gauge_place where, and nothing was written, to no list and no slice.
 *
 *     number                 given exactly when                                  place
 *     GAUGE_RAGGED        1  triangle list length is no multiple of nine         0
 *     GAUGE_NONE          2  there are no triangles                              0
 *     GAUGE_TOO_MANY      3  there are more than 65,536                          0
 *     GAUGE_COORDINATE    4  a coordinate of a triangle is no number, or         index of the first
 *                            beyond 1,048,576 either way                         among the numbers
 *     GAUGE_SETTING       5  a setting is out of range, the rule of a            0
 *                            query is neither 1 nor 2, or most of
 *                            gauge_few is not 1 to 16
 *     GAUGE_ROOM          6  a list or slice to write is too short               0
 *     GAUGE_TREE_ORDER   71  an entry of the order list is no triangle's         index of the first such
 *                            number, or stands there a second time;              entry;
 *                            else it has fewer entries than triangles            how many it has
 *     GAUGE_TREE_COUNT   72  there is no node, or there are more than 2n - 1,    0
 *                            or more than links or boxes hold
 *     GAUGE_TREE_LISTING 73  the links are not one tree, each branch behind      the first node at which
 *                            its left and its right subtree, whose leaves        that breaks; the root where
 *                            have the entries of order in turn, 0 to n           trees or entries are left
 *                                                                                over at the end
 *     GAUGE_TREE_DEPTH   74  a node is deeper than level 64; the root is 1       the first such node
 *     GAUGE_TREE_BOX     75  a node's box is not, bit for bit, that of its       the first such node
 *                            triangles or of its two children's boxes
 *     GAUGE_POINT         8  point bytes are no multiple of 12,                  their length;
 *                            else a coordinate is no number or out of range      index of the first
 *                                                                                among the numbers
 *     GAUGE_DISTANCE      9  the search distance is no number, below 0 or        0
 *                            above 4,194,304
 *     GAUGE_LAYOUT       10  the image's records are laid out wrong              byte offset of the
 *                                                                                first wrong record
 *     GAUGE_STL          11  the STL's length is not 84 + 50 times its count     its length
 *     GAUGE_SCALE        14  the accuracy scale is no number, below 0 or         0
 *                            above 1,000
 *
 * An index among the numbers counts from 0. In triangles place / 9 is the triangle and place % 9 the
 * number in it; in points place / 3 is the point and place % 3 its x, y or z. Entries and nodes count
 * from 0 too: order[place], and links[3 * place] with boxes[6 * place].
 *
 * Where several hold, GAUGE_LAYOUT or GAUGE_STL is told first, then what stands first in this table. On
 * success entries and bytes past those that a call writes stay as they were.
 *
 * No call allocates, keeps anything between calls, or writes to a file or a screen; any number of
 * threads may call at once, as long as none writes a list or a slice that another uses. The calls count
 * on the floating-point state that C starts with: round to nearest, subnormals kept. (A host linked with
 * -ffast-math starts in another state, in which subnormals are zero.)
 */
#ifndef GAUGE_H
#define GAUGE_H

#include <stddef.h>
#include <stdint.h>

/* Of this header: the first number changes when a host must change. */
#define GAUGE_VERSION_MAJOR 5
#define GAUGE_VERSION_MINOR 1

#define GAUGE_MAX_TRIANGLES 65536
#define GAUGE_MAX_LEAF_MINIMUM 65536
#define GAUGE_MAX_DEPTH 64
#define GAUGE_MAX_COORDINATE 1048576.0f
#define GAUGE_MAX_DISTANCE 4194304.0f
#define GAUGE_MAX_SCALE 1000.0f
#define GAUGE_MAX_FEW 16

/* A drawing of so many triangles or fewer is small: its image is of version 1 and keeps no larger leaf
 * minimum. The image of a larger drawing is of version 2. */
#define GAUGE_MAX_SMALL 4096
#define GAUGE_IMAGE_VERSION_SMALL 1
#define GAUGE_IMAGE_VERSION_LARGE 2

#define GAUGE_POINT_BYTES 12
#define GAUGE_ANSWER_BYTES 28
#define GAUGE_WINDING_BYTES 4

/* Strategies of gauge_build. */
#define GAUGE_MEDIAN 1
#define GAUGE_AREA 2

/* Measuring rules of gauge_sure and gauge_few: whether a point at exactly the search distance counts. */
#define GAUGE_RULE_BELOW 1          /* it does not: for castings that were gauged so, before the rule was revised */
#define GAUGE_RULE_BELOW_OR_EQUAL 2 /* it does: the rule as revised */

/* Parts of a triangle, one of which an answer's point was found on. A part is the triangle's, not the
 * casting's: where two triangles lie in one plane, the edge between them is none to be felt. It is told by
 * the test that found the point: a point of the face may stand on its rim, one of an edge at its end, by
 * rounding. Where a triangle has no computed point it is the edge whose foot was kept, at its ends too, or
 * the corner where that edge starts if the edge is so short that its square is 0. Where a corner is
 * told, the point is that corner's own floats, with 0 for -0. */
#define GAUGE_FACE 0
#define GAUGE_CORNER_A 1
#define GAUGE_CORNER_B 2
#define GAUGE_CORNER_C 3
#define GAUGE_EDGE_AB 4
#define GAUGE_EDGE_AC 5
#define GAUGE_EDGE_BC 6

#define GAUGE_RAGGED 1
#define GAUGE_NONE 2
#define GAUGE_TOO_MANY 3
#define GAUGE_COORDINATE 4
#define GAUGE_SETTING 5
#define GAUGE_ROOM 6
#define GAUGE_TREE_ORDER 71
#define GAUGE_TREE_COUNT 72
#define GAUGE_TREE_LISTING 73
#define GAUGE_TREE_DEPTH 74
#define GAUGE_TREE_BOX 75
#define GAUGE_POINT 8
#define GAUGE_DISTANCE 9
#define GAUGE_LAYOUT 10
#define GAUGE_STL 11
#define GAUGE_SCALE 14

/* A thread whose whole stack is so many bytes is enough for the call. Measured, not proved: on
 * the largest and the deepest inputs, with the toolchain that the library was made by,
 * tests/host/stack.c found 12 to 14 bytes in a hundred left, most of a build's, and more of the 16 KB,
 * which is the least that a thread may have. gauge_image_max and gauge_image_triangles take next to none. */
#define GAUGE_STACK_READ (16 * 1024)
#define GAUGE_STACK_BUILD (40 * 1024)
#define GAUGE_STACK_WRITE (78 * 1024)
#define GAUGE_STACK_CHECK (78 * 1024)
#define GAUGE_STACK_SURE (78 * 1024)
#define GAUGE_STACK_FEW (78 * 1024)
#define GAUGE_STACK_SOURCE (78 * 1024)
#define GAUGE_STACK_WINDING (16 * 1024)
#define GAUGE_STACK_NODE_SUMS (78 * 1024)
#define GAUGE_STACK_FAST_WINDING (82 * 1024)
#define GAUGE_STACK_READ_STL (16 * 1024)
#define GAUGE_STACK_WRITE_STL (16 * 1024)

/* Room for the image of n triangles, whatever tree they have: for an array's length. n is 1 to 65,536. */
#define GAUGE_IMAGE_MAX(n) ((n) <= GAUGE_MAX_SMALL ? 98 * (size_t)(n) + 2 : 108 * (size_t)(n) - 2)

/* How many floats of sums are enough for n triangles, whatever tree they have: for an array's length too.
 * More than 65,536 have no tree, so they take no more than these. */
#define GAUGE_SUMS(n) \
    ((size_t)(n) == 0 ? 0 : 32 * ((size_t)(n) < GAUGE_MAX_TRIANGLES ? (size_t)(n) : (size_t)GAUGE_MAX_TRIANGLES) - 16)

/* The bytes of an STL of n triangles, and how many triangles an STL of so many bytes has: for an array's
 * length too. n is 0 to 65,536; of bytes that are no STL's it counts the whole 50 behind the first 84. */
#define GAUGE_STL_BYTES(n) (84 + 50 * (size_t)(n))
#define GAUGE_STL_TRIANGLES(bytes) ((size_t)(bytes) < 84 ? 0 : ((size_t)(bytes) - 84) / 50)

#ifdef __cplusplus
extern "C" {
#endif

/* The bytes of one answer. Before header 5.0 it had no part: all before it is the same, word for word. */
struct gauge_answer {
    uint32_t found;    /* 1, or 0 and the rest is 0 too */
    uint32_t triangle; /* its number, from 0 */
    float x, y, z;     /* the point on it */
    float squared;     /* the squared distance from the point that was asked about */
    uint32_t part;     /* GAUGE_FACE to GAUGE_EDGE_BC, of this triangle; GAUGE_FACE is 0 too: look at found first */
};

/* Whether a call was refused. */
static inline int gauge_refused(uint64_t returned)
{
    return returned >> 56 != 0;
}

/* Why: a GAUGE_ number of the table above, 0 where the call was done. */
static inline unsigned gauge_number(uint64_t returned)
{
    return returned >> 63 != 0 ? GAUGE_POINT : (unsigned)(returned >> 56);
}

/* Where. The place of GAUGE_POINT may be as long as a slice, so it has 63 bits, the others 56. GAUGE_STL
 * of a slice of 2^56 bytes or more, which no machine can address, has the place 2^56 - 1. */
static inline uint64_t gauge_place(uint64_t returned)
{
    return returned >> 63 != 0 ? returned & 0x7fffffffffffffffu : returned & 0x00ffffffffffffffu;
}

/* ---- the calls */

/* The most bytes that an image of so many triangles can take, GAUGE_IMAGE_MAX(triangles).
 * 0 where triangles is not 1 to 65,536. Never refused. */
uint64_t gauge_image_max(size_t triangles);

/* How many triangles the image holds: so long must the lists be that it is read into. It may be none, or
 * more than 65,536: such a drawing is read, and every other call refuses it.
 *
 * Counted: its triangles.
 * Refused: GAUGE_LAYOUT. */
uint64_t gauge_image_triangles(const uint8_t *image, size_t image_length);

/* Reads an image into lists: settings gets strategy, leaf minimum and maximum depth, the others what the
 * image holds, all from the front. It looks at the layout alone: whether the lists are a drawing with its
 * tree gauge_check tells, and each call that asks them finds out by itself. A float that is no number is
 * read as one and the same NaN, whatever its bits.
 *
 * Counted: the nodes.
 * Refused: GAUGE_LAYOUT, and GAUGE_ROOM where settings has fewer than 3 entries, or another list fewer
 * than the image's triangles or nodes take. */
uint64_t gauge_read(const uint8_t *image, size_t image_length,
                    uint32_t *settings, size_t settings_length,
                    float *triangles, size_t triangles_length, uint32_t *order, size_t order_length,
                    uint32_t *links, size_t links_length, float *boxes, size_t boxes_length);

/* Reads the triangles of an STL to the front of triangles: nine floats each, which must be as many as
 * GAUGE_STL_TRIANGLES(stl_length) makes. What is accepted here passes the tests of triangles everywhere.
 *
 * Counted: the triangles.
 * Refused: GAUGE_STL, GAUGE_NONE, GAUGE_TOO_MANY, GAUGE_COORDINATE, whose place is the index among the
 * corners' numbers, nine a triangle, GAUGE_ROOM. */
uint64_t gauge_read_stl(const uint8_t *stl, size_t stl_length, float *triangles, size_t triangles_length);

/* Writes the triangles as an STL. Reading it gives them back bit for bit.
 *
 * Counted: the bytes written, from the front of stl: GAUGE_STL_BYTES of the triangles.
 * Refused: GAUGE_RAGGED, GAUGE_NONE, GAUGE_TOO_MANY, GAUGE_COORDINATE, GAUGE_ROOM. */
uint64_t gauge_write_stl(const float *triangles, size_t triangles_length, uint8_t *stl, size_t stl_length);

/* Builds a tree of boxes over n triangles, into the front of order, links and boxes.
 *
 *     strategy        GAUGE_MEDIAN or GAUGE_AREA: how a box is cut in two. The answers of
 *                     gauge_sure and gauge_few are the same by either
 *     leaf_minimum    1 to 65,536: so few triangles are not cut further
 *     maximum_depth   0 to 64: how many levels the tree may have; 0 is one level too
 *
 * The working lists bounds, centres and scratch hold zeros afterwards where they were used. The calls
 * that follow want as many entries of order as there are triangles.
 *
 * Counted: the nodes.
 * Refused: GAUGE_RAGGED, GAUGE_NONE, GAUGE_TOO_MANY, GAUGE_COORDINATE, GAUGE_SETTING, and GAUGE_ROOM
 * where order or scratch has fewer than n entries, links fewer than 3(2n - 1), boxes fewer than
 * 6(2n - 1), bounds fewer than 6n or centres fewer than 3n. */
uint64_t gauge_build(size_t strategy, size_t leaf_minimum, size_t maximum_depth,
                     const float *triangles, size_t triangles_length, uint32_t *order, size_t order_length,
                     uint32_t *links, size_t links_length, float *boxes, size_t boxes_length,
                     float *bounds, size_t bounds_length, float *centres, size_t centres_length,
                     uint32_t *scratch, size_t scratch_length);

/* Writes the image of a drawing: its settings, which are those of gauge_build, its triangles and its tree
 * of so many nodes.
 *
 * Counted: the bytes written, from the front of image.
 * Refused: GAUGE_RAGGED, GAUGE_NONE, GAUGE_TOO_MANY, GAUGE_COORDINATE, GAUGE_SETTING as gauge_build and
 * where a drawing of 4,096 triangles or fewer has a leaf minimum above 4,096, GAUGE_ROOM where image is
 * shorter than the image is (GAUGE_IMAGE_MAX is always enough), GAUGE_TREE_ORDER to GAUGE_TREE_BOX. */
uint64_t gauge_write(size_t strategy, size_t leaf_minimum, size_t maximum_depth,
                     const float *triangles, size_t triangles_length, const uint32_t *order, size_t order_length,
                     const uint32_t *links, size_t links_length, const float *boxes, size_t boxes_length, size_t nodes,
                     uint8_t *image, size_t image_length);

/* Whether the lists are a drawing that can be asked: order has as many entries as there are triangles,
 * links and boxes have the nodes at their front, and these are a tree of 64 levels at most.
 *
 * Counted: the triangles.
 * Refused: GAUGE_RAGGED, GAUGE_NONE, GAUGE_TOO_MANY, GAUGE_COORDINATE, and GAUGE_TREE_ORDER,
 * GAUGE_TREE_COUNT, GAUGE_TREE_LISTING, GAUGE_TREE_DEPTH or GAUGE_TREE_BOX, the first that holds. */
uint64_t gauge_check(const float *triangles, size_t triangles_length, const uint32_t *order, size_t order_length,
                     const uint32_t *links, size_t links_length, const float *boxes, size_t boxes_length, size_t nodes);

/* For each point the nearest point of the drawing, the lowest triangle number among equals, or nothing
 * where none counts at that distance: what measuring every triangle would find, bit for bit.
 *
 *     distance   0 to 4,194,304: how far off a point of the drawing may be. Minus zero is 0
 *     rule       GAUGE_RULE_BELOW: what is nearer than the distance counts, what is at exactly the
 *                distance does not. GAUGE_RULE_BELOW_OR_EQUAL: both count
 *
 * A casting that was gauged by one rule keeps it: ask by the same rule, and its readings stay as they were.
 * GAUGE_RULE_BELOW answers what gauge_sure answered before it took a rule, but for triangles that have no
 * computed point (the last of the hazards). The two differ at a point only where its nearest is at exactly
 * the distance: there the first finds nothing, the second that nearest. The squares are compared, each a
 * float: the answer's squared distance, and distance times itself, rounded.
 *
 * Of answers that were kept: a larger distance changes none that was found, nor does
 * GAUGE_RULE_BELOW_OR_EQUAL at the same distance one that GAUGE_RULE_BELOW found. Triangles appended behind
 * the others leave an answer as it was, or one of them takes its place, nearer or where nothing was found: an
 * answer whose triangle was there before is the answer from before. Whatever trees are used.
 *
 * Triangles that share an edge or a corner are often level there, and the lowest number among them says which
 * one's part is told. The part itself settles nothing: neither which answer is the nearest nor which counts.
 *
 * Hazards: at a distance of 0 GAUGE_RULE_BELOW finds nothing, and GAUGE_RULE_BELOW_OR_EQUAL only points on
 * the surface, those whose squared distance is exactly 0. Corners are, save of triangles that are tiny, thin
 * or without area; a point on a slanting edge or face is mostly a rounding away from it and is not found. A
 * distance of 2^-75 or less is 0 when it is squared.
 * Of a triangle thinner than about 1:100, or with three different corners in one line, the computed point may
 * be off, mostly too far (docs/DIFFERENCES.md, "The hazard that stays"). One with two equal corners is measured
 * as the edge that it is, right to rounding. Before header 4.1 it had no computed point at most points where
 * the equal corners are a and b, and was measured from there, too far by up to its length.
 *
 * Counted: the points answered, from the front of answers.
 * Refused: GAUGE_RAGGED, GAUGE_NONE, GAUGE_TOO_MANY, GAUGE_COORDINATE, GAUGE_SETTING where rule is neither
 * of the two, GAUGE_ROOM where answers has room for fewer than points_length / 12 answers, GAUGE_TREE_ORDER
 * to GAUGE_TREE_BOX as gauge_check, GAUGE_POINT, GAUGE_DISTANCE. */
uint64_t gauge_sure(const float *triangles, size_t triangles_length, const uint32_t *order, size_t order_length,
                    const uint32_t *links, size_t links_length, const float *boxes, size_t boxes_length, size_t nodes,
                    const uint8_t *points, size_t points_length, float distance, uint32_t rule,
                    uint8_t *answers, size_t answers_length);

/* For each point the nearest few, not the nearest one: as many answers in a row as most says. Every triangle is
 * measured as gauge_sure measures it. Of those that count at that distance the nearest stands first, then the
 * next, the lower number first among equals. Where fewer count, each answer that is left over is nothing found,
 * seven zeros. It is what measuring every triangle and sorting them would find, bit for bit, whatever tree is
 * used.
 *
 *     distance, rule   as gauge_sure
 *     most             1 to 16: how many answers stand in the row of each point
 *
 * The first of a row is the answer of gauge_sure, and by a most of 1 what is written is what gauge_sure writes. A
 * larger most changes none of the answers: more stand behind them.
 *
 * A triangle is answered once at most. Triangles that share an edge or a corner are often level there and so
 * stand one behind the other: the nearest two may be of one wall. On a thin rib, to find the other wall, ask for
 * more and take the first whose triangle faces the other way, with the metal in between: examples/stock.c.
 * Where the triangles are small beside the rib, all sixteen may be of one wall.
 *
 * Counted: the points answered, a row each, from the front of answers.
 * Refused: as gauge_sure, GAUGE_SETTING also where most is 0 or above 16, and GAUGE_ROOM where answers has
 * room for fewer than most times points_length / 12 answers. */
uint64_t gauge_few(const float *triangles, size_t triangles_length, const uint32_t *order, size_t order_length,
                   const uint32_t *links, size_t links_length, const float *boxes, size_t boxes_length, size_t nodes,
                   const uint8_t *points, size_t points_length, float distance, uint32_t rule, uint32_t most,
                   uint8_t *answers, size_t answers_length);

/* The question of gauge_sure as the engine's source in Rust answers it, for comparing with it. Its answer may
 * lie beyond the distance, and is not always the nearest: for measuring use gauge_sure. Its part is that of
 * the test that found the point; triangles without a computed point it passes over.
 *
 * Counted and refused as gauge_sure, but it has no rule, and so no GAUGE_SETTING. */
uint64_t gauge_source(const float *triangles, size_t triangles_length, const uint32_t *order, size_t order_length,
                      const uint32_t *links, size_t links_length, const float *boxes, size_t boxes_length, size_t nodes,
                      const uint8_t *points, size_t points_length, float distance,
                      uint8_t *answers, size_t answers_length);

/* For each point how often the drawing's surface goes round it. Where the drawing is closed and its
 * corners run counter-clockwise seen from outside: near 1 inside, near 0 outside. It measures every
 * triangle and needs no tree.
 *
 * Counted: the points answered, from the front of windings.
 * Refused: GAUGE_RAGGED, GAUGE_NONE, GAUGE_TOO_MANY, GAUGE_COORDINATE, GAUGE_ROOM where windings has
 * room for fewer than points_length / 12 numbers, GAUGE_POINT. */
uint64_t gauge_winding(const float *triangles, size_t triangles_length,
                       const uint8_t *points, size_t points_length,
                       uint8_t *windings, size_t windings_length);

/* Makes the sums of each node of the tree, which gauge_fast_winding counts with, into the front of sums.
 * They are made once for a tree, after it is built or read. Those of a node whose triangles have no area
 * hold a NaN, whose bits may be any NaN's.
 *
 * Counted: the nodes.
 * Refused: GAUGE_RAGGED, GAUGE_NONE, GAUGE_TOO_MANY, GAUGE_COORDINATE, GAUGE_ROOM where sums has fewer
 * than 16 floats a node (GAUGE_SUMS is always enough), GAUGE_TREE_ORDER to GAUGE_TREE_BOX. */
uint64_t gauge_node_sums(const float *triangles, size_t triangles_length, const uint32_t *order, size_t order_length,
                         const uint32_t *links, size_t links_length, const float *boxes, size_t boxes_length, size_t nodes,
                         float *sums, size_t sums_length);

/* What gauge_winding tells, nearly, and on large drawings much faster: what lies far from a point counts
 * as one piece. A piece is far where the point is farther from its middle than scale times its radius:
 * 2 is usual; a larger scale is nearer the exact number and slower (docs/WINDING.md has a table of
 * errors). scale is 0 to 1,000; minus zero is 0.
 *
 * sums are those that gauge_node_sums made of this tree. Any other numbers are safe: with those of
 * another tree, or with none that were made, the answers are wrong and nothing else is.
 *
 * Counted: the points answered, from the front of windings.
 * Refused: GAUGE_RAGGED, GAUGE_NONE, GAUGE_TOO_MANY, GAUGE_COORDINATE, GAUGE_ROOM where windings has
 * room for fewer than points_length / 12 numbers or sums has fewer than 16 floats a node,
 * GAUGE_TREE_ORDER to GAUGE_TREE_BOX, GAUGE_POINT, GAUGE_SCALE. */
uint64_t gauge_fast_winding(const float *triangles, size_t triangles_length, const uint32_t *order, size_t order_length,
                            const uint32_t *links, size_t links_length, const float *boxes, size_t boxes_length, size_t nodes,
                            const float *sums, size_t sums_length, const uint8_t *points, size_t points_length, float scale,
                            uint8_t *windings, size_t windings_length);

/* ---- a drawing in one block of memory
 *
 *     struct gauge_drawing d = gauge_lay(malloc(GAUGE_DRAWING_BYTES(n)), n);
 *     if (d.triangles == NULL) ..                                     there is no memory
 *     .. fill d.triangles ..
 *     uint64_t built = gauge_drawing_build(&d, GAUGE_AREA, 1, 40);
 *     if (gauge_refused(built)) ..
 *     .. ask &d ..
 *     free(d.triangles);
 *
 * Nothing of this is in the library: the functions hand the struct's lists to the calls above, which say
 * what is counted and refused. */

struct gauge_drawing {
    size_t count;         /* how many triangles */
    size_t nodes;         /* of the tree; 0 while there is none */
    uint32_t settings[3]; /* the tree's strategy, leaf minimum and maximum depth */
    float *triangles;     /* where the block starts */
    uint32_t *order;
    uint32_t *links; /* links and boxes have room for 2 count nodes */
    float *boxes;
    float *bounds; /* bounds, centres and scratch are what a build works in */
    float *centres;
    uint32_t *scratch;
};

/* The bytes of a block for n triangles, for an array's length too. Where so many cannot be counted it is
 * SIZE_MAX, which no malloc gives. */
#define GAUGE_DRAWING_BYTES(n) ((size_t)(n) / (SIZE_MAX / 152 + 1) == 0 ? 152 * (size_t)(n) : SIZE_MAX)

/* Lays the lists of exactly so many triangles into a block of GAUGE_DRAWING_BYTES(triangles), aligned as
 * an array of float. Nothing is written to the block: the triangles are the host's to fill, and there is
 * no tree. Who does not know yet how many there will be lays a block for as many as may come, fills its
 * triangles from the front, and lays the same block again for those that there are: they stay. Where
 * block is NULL, or so many cannot be counted, count is 0 and every pointer NULL. */
static inline struct gauge_drawing gauge_lay(void *block, size_t triangles)
{
    struct gauge_drawing d = {0, 0, {0, 0, 0}, NULL, NULL, NULL, NULL, NULL, NULL, NULL};
    if (block == NULL || triangles > SIZE_MAX / 152)
        return d;
    d.count = triangles;
    d.triangles = (float *)block;
    d.order = (uint32_t *)block + 9 * triangles;
    d.links = (uint32_t *)block + 10 * triangles;
    d.boxes = (float *)block + 16 * triangles;
    d.bounds = (float *)block + 28 * triangles;
    d.centres = (float *)block + 34 * triangles;
    d.scratch = (uint32_t *)block + 37 * triangles;
    return d;
}

/* gauge_build. Where it is done nodes and settings are the new tree's; else the drawing is as it was. */
static inline uint64_t gauge_drawing_build(struct gauge_drawing *d, size_t strategy, size_t leaf_minimum, size_t maximum_depth)
{
    uint64_t nodes = gauge_build(strategy, leaf_minimum, maximum_depth, d->triangles, 9 * d->count, d->order, d->count,
                                 d->links, 6 * d->count, d->boxes, 12 * d->count, d->bounds, 6 * d->count,
                                 d->centres, 3 * d->count, d->scratch, d->count);
    if (!gauge_refused(nodes)) {
        d->nodes = (size_t)nodes;
        d->settings[0] = (uint32_t)strategy;
        d->settings[1] = (uint32_t)leaf_minimum;
        d->settings[2] = (uint32_t)maximum_depth;
    }
    return nodes;
}

/* gauge_read, into a drawing that is laid for as many triangles as gauge_image_triangles counts, or for
 * more. Where it is done count, nodes and settings are the image's; else the drawing is as it was. An
 * image with more than two nodes a triangle, which is no tree, is GAUGE_ROOM here. */
static inline uint64_t gauge_drawing_read(struct gauge_drawing *d, const uint8_t *image, size_t image_length)
{
    uint64_t count = gauge_image_triangles(image, image_length);
    uint64_t nodes = gauge_read(image, image_length, d->settings, 3, d->triangles, 9 * d->count, d->order, d->count,
                                d->links, 6 * d->count, d->boxes, 12 * d->count);
    if (!gauge_refused(nodes)) {
        d->count = (size_t)count;
        d->nodes = (size_t)nodes;
    }
    return nodes;
}

/* gauge_read_stl, into a drawing that is laid for GAUGE_STL_TRIANGLES(stl_length) or for more. Where it
 * is done count is the STL's, and there is no tree yet; else the drawing is as it was. */
static inline uint64_t gauge_drawing_read_stl(struct gauge_drawing *d, const uint8_t *stl, size_t stl_length)
{
    uint64_t count = gauge_read_stl(stl, stl_length, d->triangles, 9 * d->count);
    if (!gauge_refused(count)) {
        d->count = (size_t)count;
        d->nodes = 0;
    }
    return count;
}

/* gauge_write_stl. It needs no tree. */
static inline uint64_t gauge_drawing_write_stl(const struct gauge_drawing *d, uint8_t *stl, size_t stl_length)
{
    return gauge_write_stl(d->triangles, 9 * d->count, stl, stl_length);
}

/* gauge_write. */
static inline uint64_t gauge_drawing_write(const struct gauge_drawing *d, uint8_t *image, size_t image_length)
{
    return gauge_write(d->settings[0], d->settings[1], d->settings[2], d->triangles, 9 * d->count, d->order, d->count,
                       d->links, 6 * d->count, d->boxes, 12 * d->count, d->nodes, image, image_length);
}

/* gauge_check. */
static inline uint64_t gauge_drawing_check(const struct gauge_drawing *d)
{
    return gauge_check(d->triangles, 9 * d->count, d->order, d->count, d->links, 6 * d->count, d->boxes, 12 * d->count, d->nodes);
}

/* gauge_sure of so many points, three floats each, with as many answers. */
static inline uint64_t gauge_drawing_sure(const struct gauge_drawing *d, const float *points, size_t count, float distance,
                                          uint32_t rule, struct gauge_answer *answers)
{
    return gauge_sure(d->triangles, 9 * d->count, d->order, d->count, d->links, 6 * d->count, d->boxes, 12 * d->count, d->nodes,
                      (const uint8_t *)points, GAUGE_POINT_BYTES * count, distance, rule, (uint8_t *)answers,
                      GAUGE_ANSWER_BYTES * count);
}

/* gauge_few, likewise with most answers for each point. */
static inline uint64_t gauge_drawing_few(const struct gauge_drawing *d, const float *points, size_t count, float distance,
                                         uint32_t rule, uint32_t most, struct gauge_answer *answers)
{
    return gauge_few(d->triangles, 9 * d->count, d->order, d->count, d->links, 6 * d->count, d->boxes, 12 * d->count, d->nodes,
                     (const uint8_t *)points, GAUGE_POINT_BYTES * count, distance, rule, most, (uint8_t *)answers,
                     GAUGE_ANSWER_BYTES * (size_t)most * count);
}

/* gauge_source, of so many points with as many answers, without a rule. */
static inline uint64_t gauge_drawing_source(const struct gauge_drawing *d, const float *points, size_t count, float distance,
                                            struct gauge_answer *answers)
{
    return gauge_source(d->triangles, 9 * d->count, d->order, d->count, d->links, 6 * d->count, d->boxes, 12 * d->count, d->nodes,
                        (const uint8_t *)points, GAUGE_POINT_BYTES * count, distance, (uint8_t *)answers, GAUGE_ANSWER_BYTES * count);
}

/* gauge_winding, likewise with as many windings. It needs no tree. */
static inline uint64_t gauge_drawing_winding(const struct gauge_drawing *d, const float *points, size_t count, float *windings)
{
    return gauge_winding(d->triangles, 9 * d->count, (const uint8_t *)points, GAUGE_POINT_BYTES * count,
                         (uint8_t *)windings, GAUGE_WINDING_BYTES * count);
}

/* gauge_node_sums, into a list of GAUGE_SUMS(d->count) floats. It is no part of the drawing's block: only
 * a host that asks for fast winding lends it. */
static inline uint64_t gauge_drawing_node_sums(const struct gauge_drawing *d, float *sums)
{
    return gauge_node_sums(d->triangles, 9 * d->count, d->order, d->count, d->links, 6 * d->count, d->boxes, 12 * d->count, d->nodes,
                           sums, GAUGE_SUMS(d->count));
}

/* gauge_fast_winding with these sums, of so many points with as many windings. */
static inline uint64_t gauge_drawing_fast_winding(const struct gauge_drawing *d, const float *sums, const float *points, size_t count,
                                                  float scale, float *windings)
{
    return gauge_fast_winding(d->triangles, 9 * d->count, d->order, d->count, d->links, 6 * d->count, d->boxes, 12 * d->count, d->nodes,
                              sums, GAUGE_SUMS(d->count), (const uint8_t *)points, GAUGE_POINT_BYTES * count, scale,
                              (uint8_t *)windings, GAUGE_WINDING_BYTES * count);
}

#ifdef __cplusplus
}
#endif

#endif
