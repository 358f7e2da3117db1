/* include/gauge.h alone, compiled as C99 and as C++, each with every warning an error; what it states
 * of its numbers and of a drawing's block, and the worked example of two triangles, also by both measuring
 * rules, with a damaged tree and as an STL, its nearest few, and each part of a triangle, from C and from C++ alike. */
#include "gauge.h"
#include "gauge.h"

#include <stdio.h>
#include <string.h>

static int failed;

static void expect(int good, const char *what)
{
    if (!good) {
        printf("header: not so: %s\n", what);
        failed = 1;
    }
}

/* Where a list stands in its block, in bytes. */
static size_t at(const void *list, const void *block)
{
    return (size_t)((const char *)list - (const char *)block);
}

static void expect_numbers(void)
{
    const uint64_t point = (uint64_t)1 << 63 | 17, layout = (uint64_t)10 << 56 | 14;
    const uint64_t scale = (uint64_t)GAUGE_SCALE << 56, stl = (uint64_t)GAUGE_STL << 56 | 134, box = (uint64_t)GAUGE_TREE_BOX << 56 | 131070;
    expect(GAUGE_VERSION_MAJOR == 5 && GAUGE_VERSION_MINOR == 1, "the header's version");
    expect(sizeof(struct gauge_answer) == GAUGE_ANSWER_BYTES && sizeof(float) == 4, "the bytes of an answer");
    expect(offsetof(struct gauge_answer, part) == GAUGE_ANSWER_BYTES - sizeof(uint32_t), "an answer's part is its last word");
    expect(GAUGE_FACE == 0 && GAUGE_CORNER_A == 1 && GAUGE_CORNER_B == 2 && GAUGE_CORNER_C == 3 && GAUGE_EDGE_AB == 4 && GAUGE_EDGE_AC == 5 &&
               GAUGE_EDGE_BC == 6,
           "the numbers of the parts");
    expect(!gauge_refused(4096) && gauge_number(4096) == 0, "a count is no refusal");
    expect(gauge_refused(point) && gauge_number(point) == GAUGE_POINT && gauge_place(point) == 17, "a refusal of points");
    expect(gauge_refused(layout) && gauge_number(layout) == GAUGE_LAYOUT && gauge_place(layout) == 14, "a refusal of layout");
    expect(gauge_refused(scale) && gauge_number(scale) == GAUGE_SCALE && gauge_place(scale) == 0, "a refusal of scale");
    expect(GAUGE_TREE_ORDER == 71 && GAUGE_TREE_COUNT == 72 && GAUGE_TREE_LISTING == 73 && GAUGE_TREE_DEPTH == 74 && GAUGE_TREE_BOX == 75 &&
               gauge_refused(box) && gauge_number(box) == GAUGE_TREE_BOX && gauge_place(box) == 131070,
           "refusals of a tree");
    expect(GAUGE_STL == 11 && gauge_refused(stl) && gauge_number(stl) == GAUGE_STL && gauge_place(stl) == 134, "a refusal of an STL's length");
    expect(GAUGE_STL_BYTES(0) == 84 && GAUGE_STL_BYTES(1) == 134 && GAUGE_STL_BYTES(65536) == 3276884, "the bytes of an STL");
    expect(GAUGE_STL_TRIANGLES(0) == 0 && GAUGE_STL_TRIANGLES(83) == 0 && GAUGE_STL_TRIANGLES(84) == 0 && GAUGE_STL_TRIANGLES(133) == 0 &&
               GAUGE_STL_TRIANGLES(134) == 1 && GAUGE_STL_TRIANGLES(GAUGE_STL_BYTES(65536)) == 65536,
           "the triangles of an STL");
    expect(gauge_image_max(2) == GAUGE_IMAGE_MAX(2) && gauge_image_max(4096) == GAUGE_IMAGE_MAX(4096) &&
               gauge_image_max(4097) == GAUGE_IMAGE_MAX(4097) && gauge_image_max(65536) == GAUGE_IMAGE_MAX(65536) &&
               gauge_image_max(0) == 0 && gauge_image_max(65537) == 0,
           "the most bytes of an image");
}

/* The lists fill the block from its start to its end, one behind the other. */
static void expect_block(void)
{
    static float block[GAUGE_DRAWING_BYTES(5) / 4];
    const size_t uncountable = SIZE_MAX / 152 + 1;
    struct gauge_drawing d = gauge_lay(block, 5), none = gauge_lay(NULL, 5), absurd = gauge_lay(block, uncountable);
    expect(d.count == 5 && d.nodes == 0 && d.settings[0] == 0 && d.settings[1] == 0 && d.settings[2] == 0, "a drawing without a tree");
    expect(d.triangles == block && at(d.order, d.triangles) == 5 * 36 && at(d.links, d.order) == 5 * 4 && at(d.boxes, d.links) == 10 * 12 &&
               at(d.bounds, d.boxes) == 10 * 24 && at(d.centres, d.bounds) == 5 * 24 && at(d.scratch, d.centres) == 5 * 12 &&
               at(d.scratch + 5, block) == sizeof block,
           "lists one behind the other");
    expect(none.count == 0 && none.triangles == NULL && none.scratch == NULL, "a drawing laid nowhere");
    expect(absurd.count == 0 && absurd.triangles == NULL && absurd.scratch == NULL, "a drawing of more triangles than can be counted");
    expect(GAUGE_DRAWING_BYTES(uncountable) == SIZE_MAX && GAUGE_DRAWING_BYTES(uncountable - 1) < SIZE_MAX, "bytes that can be counted");
    expect(gauge_drawing_build(&none, GAUGE_AREA, 1, 40) == (uint64_t)GAUGE_NONE << 56, "nothing to build");
    expect(gauge_drawing_node_sums(&none, NULL) == (uint64_t)GAUGE_NONE << 56, "nothing to sum");
    expect(GAUGE_SUMS(0) == 0 && GAUGE_SUMS(1) == 16 && GAUGE_SUMS(5) == 16 * 9 && GAUGE_SUMS(65536) == 16 * 131071 &&
               GAUGE_SUMS(SIZE_MAX) == 16 * 131071,
           "sixteen floats a node");
}

static void expect_example(void)
{
    static const float corners[18] = {0, 0, 0, 1, 0, 0, 0, 1, 0, 10, 0, 0, 11, 0, 0, 10, 1, 0};
    static const float points[6] = {5.5f, 0, 0, 100, 0, 0};
    static const struct gauge_answer near = {1, 0, 1, 0, 0, 20.25f, GAUGE_CORNER_B}, far = {1, 1, 10, 0, 0, 20.25f, GAUGE_CORNER_A};
    static const struct gauge_answer nothing = {0, 0, 0, 0, 0, 0, 0};
    static float block[GAUGE_DRAWING_BYTES(2) / 4], other[GAUGE_DRAWING_BYTES(3) / 4], sums[GAUGE_SUMS(2)];
    struct gauge_drawing d = gauge_lay(block, 2), back = gauge_lay(other, 3);
    struct gauge_answer answers[2];
    uint8_t image[GAUGE_IMAGE_MAX(2)];
    float windings[2];

    memcpy(d.triangles, corners, sizeof corners);
    expect(gauge_drawing_build(&d, GAUGE_MEDIAN, 0, 40) == (uint64_t)GAUGE_SETTING << 56 && d.nodes == 0 && d.settings[0] == 0,
           "a refused build leaves no tree");
    expect(gauge_drawing_build(&d, GAUGE_MEDIAN, 1, 40) == 3 && d.nodes == 3 && d.settings[0] == GAUGE_MEDIAN && d.settings[1] == 1 &&
               d.settings[2] == 40,
           "a tree of two triangles and three nodes");
    expect(gauge_drawing_check(&d) == 2, "it passes the check");
    expect(gauge_drawing_write(&d, image, sizeof image) == sizeof image && image[6] == GAUGE_IMAGE_VERSION_SMALL, "its image");

    expect(gauge_image_triangles(image, sizeof image) == 2, "the image's triangles");
    expect(gauge_drawing_read(&back, image, sizeof image - 1) == ((uint64_t)GAUGE_LAYOUT << 56 | 102) && back.count == 3 && back.nodes == 0,
           "a refused reading leaves the drawing as it was");
    expect(gauge_drawing_read(&back, image, sizeof image) == 3, "the image read");
    expect(back.count == 2 && back.nodes == 3 && memcmp(back.settings, d.settings, sizeof d.settings) == 0 &&
               memcmp(back.triangles, corners, sizeof corners) == 0 && memcmp(back.order, d.order, 8) == 0 &&
               memcmp(back.links, d.links, 36) == 0 && memcmp(back.boxes, d.boxes, 72) == 0,
           "what was written reads back equal");
    expect(gauge_number(gauge_image_triangles(NULL, 0)) == GAUGE_LAYOUT, "nothing at NULL is no image");

    expect(gauge_drawing_sure(&back, points, 2, 50, GAUGE_RULE_BELOW, answers) == 2, "two answers");
    expect(memcmp(&answers[0], &near, sizeof near) == 0 && memcmp(&answers[1], &nothing, sizeof nothing) == 0, "the sure query's answers");
    expect(gauge_drawing_source(&back, points, 2, 50, answers) == 2, "two source answers");
    expect(memcmp(&answers[0], &far, sizeof far) == 0 && memcmp(&answers[1], &nothing, sizeof nothing) == 0, "the source's answers");
    expect(gauge_drawing_winding(&back, points, 2, windings) == 2, "two windings");
    expect(windings[0] == 0 && windings[1] == 0, "seen from the side a triangle covers no angle");

    expect(gauge_drawing_node_sums(&back, sums) == 3, "the sums of three nodes");
    expect(sums[2] == 0.5f && sums[18] == 0.5f && sums[34] == 1 && sums[45] > 5.3f && sums[45] < 5.4f, "areas, and where the middle is");
    expect(gauge_drawing_fast_winding(&back, sums, points, 2, 2, windings) == 2, "two fast windings");
    expect(windings[0] == 0 && windings[1] == 0, "seen from the side a dipole covers no angle");
    expect(gauge_drawing_fast_winding(&back, sums, points, 2, GAUGE_MAX_SCALE * 2, windings) == (uint64_t)GAUGE_SCALE << 56, "a scale too large");
}

/* What a query of one point answers, the same by the drawing as by its lists. */
static int answers_so(const struct gauge_drawing *d, const float *point, float distance, uint32_t rule, const struct gauge_answer *wanted)
{
    struct gauge_answer answer, listed;
    memset(&answer, 0xff, sizeof answer);
    memset(&listed, 0xff, sizeof listed);
    return gauge_drawing_sure(d, point, 1, distance, rule, &answer) == 1 && memcmp(&answer, wanted, sizeof answer) == 0 &&
           gauge_sure(d->triangles, 18, d->order, 2, d->links, 9, d->boxes, 18, 3, (const uint8_t *)point, 12, distance, rule, (uint8_t *)&listed,
                      sizeof listed) == 1 &&
           memcmp(&listed, wanted, sizeof listed) == 0;
}

/* The first point is exactly 4.5 from both triangles, the second lies on the first of them. */
static void expect_rules(void)
{
    static const float corners[18] = {0, 0, 0, 1, 0, 0, 0, 1, 0, 10, 0, 0, 11, 0, 0, 10, 1, 0};
    static const float between[3] = {5.5f, 0, 0}, on[3] = {0.5f, 0.25f, 0};
    static const struct gauge_answer near = {1, 0, 1, 0, 0, 20.25f, GAUGE_CORNER_B}, at = {1, 0, 0.5f, 0.25f, 0, 0, GAUGE_FACE};
    static const struct gauge_answer nothing = {0, 0, 0, 0, 0, 0, 0};
    static const uint32_t none[] = {0, 3, 257, 65538, 0x80000001, 0xffffffff};
    static float block[GAUGE_DRAWING_BYTES(2) / 4];
    struct gauge_drawing d = gauge_lay(block, 2);
    struct gauge_answer answer;
    const uint64_t five = (uint64_t)GAUGE_SETTING << 56;
    memcpy(d.triangles, corners, sizeof corners);
    expect(gauge_drawing_build(&d, GAUGE_MEDIAN, 1, 40) == 3, "a tree");
    expect(GAUGE_RULE_BELOW == 1 && GAUGE_RULE_BELOW_OR_EQUAL == 2, "the numbers of the rules");

    expect(answers_so(&d, between, 4.5f, GAUGE_RULE_BELOW, &nothing), "at exactly the distance, below");
    expect(answers_so(&d, between, 4.5f, GAUGE_RULE_BELOW_OR_EQUAL, &near), "at exactly the distance, below or equal");
    expect(answers_so(&d, between, 4.4999995f, GAUGE_RULE_BELOW_OR_EQUAL, &nothing), "a step farther than the distance, below or equal");
    expect(answers_so(&d, between, 4.5000005f, GAUGE_RULE_BELOW, &near), "a step nearer than the distance, below");
    expect(answers_so(&d, on, 0, GAUGE_RULE_BELOW, &nothing), "on a triangle, at a distance of 0, below");
    expect(answers_so(&d, on, 0, GAUGE_RULE_BELOW_OR_EQUAL, &at), "on a triangle, at a distance of 0, below or equal");
    expect(answers_so(&d, on, -0.0f, GAUGE_RULE_BELOW_OR_EQUAL, &at), "on a triangle, at minus zero, below or equal");
    expect(answers_so(&d, between, 0, GAUGE_RULE_BELOW_OR_EQUAL, &nothing), "off a triangle, at a distance of 0, below or equal");
    expect(answers_so(&d, on, 1e-45f, GAUGE_RULE_BELOW, &nothing), "on a triangle, at a distance that is 0 when squared, below");

    for (size_t i = 0; i < sizeof none / sizeof *none; i++)
        expect(gauge_drawing_sure(&d, between, 1, 50, none[i], &answer) == five, "a number that is no rule");
    expect(gauge_sure(d.triangles, 17, d.order, 2, d.links, 9, d.boxes, 18, 3, NULL, 0, 50, 3, NULL, 0) == (uint64_t)GAUGE_RAGGED << 56,
           "no rule, and a ragged list");
    expect(gauge_sure(d.triangles, 18, NULL, 0, d.links, 9, d.boxes, 18, 3, (const uint8_t *)between, 11, -1, 3, NULL, 0) == five,
           "no rule, no tree, no whole point and no distance");
    expect(gauge_sure(d.triangles, 18, d.order, 2, d.links, 9, d.boxes, 18, 3, (const uint8_t *)between, 12, 50, 3, NULL, 0) == five,
           "no rule, and no room");
    expect(gauge_drawing_source(&d, between, 1, 4.5f, &answer) == 1, "the source query has no rule");
}

/* The nearest few of the two triangles: the first point is exactly 4.5 from both, the second 2 from the second of them and 12 from the
 * first. Behind the answers the row has bytes that stay. */
static void expect_few(void)
{
    static const float corners[18] = {0, 0, 0, 1, 0, 0, 0, 1, 0, 10, 0, 0, 11, 0, 0, 10, 1, 0};
    static const float points[6] = {5.5f, 0, 0, 13, 0, 0};
    static const struct gauge_answer rows[2][2] = {{{1, 0, 1, 0, 0, 20.25f, GAUGE_CORNER_B}, {1, 1, 10, 0, 0, 20.25f, GAUGE_CORNER_A}},
                                                   {{1, 1, 11, 0, 0, 4, GAUGE_CORNER_B}, {1, 0, 1, 0, 0, 144, GAUGE_CORNER_B}}};
    static const struct gauge_answer nothing = {0, 0, 0, 0, 0, 0, 0};
    static const uint32_t none[] = {0, GAUGE_MAX_FEW + 1, 256 + 2, 65536 + 2, 0x80000002, 0xffffffff};
    static float block[GAUGE_DRAWING_BYTES(2) / 4];
    struct gauge_drawing d = gauge_lay(block, 2);
    struct gauge_answer few[2 * GAUGE_MAX_FEW + 1], sure[2], painted;
    const uint64_t five = (uint64_t)GAUGE_SETTING << 56, six = (uint64_t)GAUGE_ROOM << 56;
    memcpy(d.triangles, corners, sizeof corners);
    memset(&painted, 0xff, sizeof painted);
    expect(gauge_drawing_build(&d, GAUGE_MEDIAN, 1, 40) == 3, "a tree");
    expect(GAUGE_MAX_FEW == 16, "how many the nearest few are at most");

    for (uint32_t most = 1; most <= GAUGE_MAX_FEW; most++) {
        memset(few, 0xff, sizeof few);
        expect(gauge_drawing_few(&d, points, 2, 50, GAUGE_RULE_BELOW, most, few) == 2, "two points");
        for (uint32_t i = 0; i < 2 * most; i++)
            expect(memcmp(&few[i], i % most < 2 ? &rows[i / most][i % most] : &nothing, sizeof *few) == 0, "the nearest few of two");
        expect(memcmp(&few[2 * most], &painted, sizeof painted) == 0, "what stands behind the nearest few");
    }
    expect(gauge_drawing_sure(&d, points, 2, 50, GAUGE_RULE_BELOW, sure) == 2 &&
               gauge_drawing_few(&d, points, 2, 50, GAUGE_RULE_BELOW, 1, few) == 2 && memcmp(sure, few, sizeof sure) == 0,
           "the nearest one of the few is the sure answer");
    expect(gauge_drawing_few(&d, points, 1, 4.5f, GAUGE_RULE_BELOW, 2, few) == 1 && few[0].found == 0 && few[1].found == 0,
           "both at exactly the distance, below");
    expect(gauge_drawing_few(&d, points, 1, 4.5f, GAUGE_RULE_BELOW_OR_EQUAL, 2, few) == 1 && memcmp(few, rows[0], sizeof rows[0]) == 0,
           "both at exactly the distance, below or equal");
    expect(gauge_drawing_few(&d, points + 3, 1, 12, GAUGE_RULE_BELOW, 2, few) == 1 && memcmp(&few[0], &rows[1][0], sizeof *few) == 0 &&
               memcmp(&few[1], &nothing, sizeof *few) == 0,
           "the second at exactly the distance, below");

    memset(few, 0xff, sizeof few);
    for (size_t i = 0; i < sizeof none / sizeof *none; i++)
        expect(gauge_drawing_few(&d, points, 1, 50, GAUGE_RULE_BELOW, none[i], few) == five, "a number that is no few");
    expect(gauge_drawing_few(&d, points, 1, 50, 3, 2, few) == five, "no rule of the nearest few");
    expect(gauge_few(d.triangles, 17, d.order, 2, d.links, 9, d.boxes, 18, 3, NULL, 0, 50, 1, 0, NULL, 0) == (uint64_t)GAUGE_RAGGED << 56,
           "no few, and a ragged list");
    expect(gauge_few(d.triangles, 18, NULL, 0, d.links, 9, d.boxes, 18, 3, (const uint8_t *)points, 11, -1, 1, 0, NULL, 0) == five,
           "no few, no tree, no whole point, no distance and no room");
    expect(gauge_few(d.triangles, 18, d.order, 2, d.links, 9, d.boxes, 18, 3, (const uint8_t *)points, 24, 50, 1, 3, (uint8_t *)few,
                     6 * GAUGE_ANSWER_BYTES - 1) == six,
           "a byte short of two rows of three");
    expect(memcmp(&few[0], &painted, sizeof painted) == 0, "a refused call writes nothing");
    expect(gauge_few(d.triangles, 18, d.order, 2, d.links, 9, d.boxes, 18, 3, (const uint8_t *)points, 24, 50, 1, 3, (uint8_t *)few,
                     6 * GAUGE_ANSWER_BYTES) == 2,
           "two rows of three");
    expect(gauge_few(d.triangles, 18, d.order, 2, d.links, 9, d.boxes, 18, 3, NULL, 0, 50, 1, 3, NULL, 0) == 0, "no points, and no room");
}

/* A triangle asked from over its face and from beside each corner and edge; then one whose corners a and b are the same, which has no
 * computed point: its edge ac is kept, at its end too. The source query answers the first likewise, and of the second nothing. */
static void expect_parts(void)
{
    static const float corners[2][9] = {{0, 0, 0, 4, 0, 0, 0, 4, 0}, {0, 0, 0, 0, 0, 0, 4, 0, 0}};
    static const struct { size_t of; float point[3]; struct gauge_answer answer; } asked[] = {
        {0, {1, 1, 3}, {1, 0, 1, 1, 0, 9, GAUGE_FACE}},
        {0, {-3, -4, 0}, {1, 0, 0, 0, 0, 25, GAUGE_CORNER_A}},
        {0, {6, -1, 0}, {1, 0, 4, 0, 0, 5, GAUGE_CORNER_B}},
        {0, {-1, 6, 0}, {1, 0, 0, 4, 0, 5, GAUGE_CORNER_C}},
        {0, {1, -2, 0}, {1, 0, 1, 0, 0, 4, GAUGE_EDGE_AB}},
        {0, {-2, 3, 0}, {1, 0, 0, 3, 0, 4, GAUGE_EDGE_AC}},
        {0, {3, 3, 0}, {1, 0, 2, 2, 0, 2, GAUGE_EDGE_BC}},
        {1, {1, 1, 0}, {1, 0, 1, 0, 0, 1, GAUGE_EDGE_AC}},
        {1, {9, 0, 3}, {1, 0, 4, 0, 0, 34, GAUGE_EDGE_AC}},
    };
    static const struct gauge_answer nothing = {0, 0, 0, 0, 0, 0, 0};
    static float block[GAUGE_DRAWING_BYTES(1) / 4];
    struct gauge_drawing d = gauge_lay(block, 1);
    struct gauge_answer answer;
    for (size_t i = 0; i < sizeof asked / sizeof *asked; i++) {
        memcpy(d.triangles, corners[asked[i].of], sizeof corners[0]);
        expect(gauge_drawing_build(&d, GAUGE_AREA, 1, 40) == 1, "a tree of one leaf");
        expect(gauge_drawing_sure(&d, asked[i].point, 1, 50, GAUGE_RULE_BELOW, &answer) == 1 &&
                   memcmp(&answer, &asked[i].answer, sizeof answer) == 0,
               "the part that the sure query tells");
        expect(gauge_drawing_source(&d, asked[i].point, 1, 50, &answer) == 1 &&
                   memcmp(&answer, asked[i].of == 0 ? &asked[i].answer : &nothing, sizeof answer) == 0,
               "the part that the source query tells");
    }
}

/* Whether the check says this of the drawing. */
static int is_refused(const struct gauge_drawing *d, unsigned number, uint64_t place)
{
    return gauge_drawing_check(d) == ((uint64_t)number << 56 | place);
}

/* Two leaves and their branch, with one thing wrong at a time, and then with all of it. */
static void expect_damage(void)
{
    static const float corners[18] = {0, 0, 0, 1, 0, 0, 0, 1, 0, 10, 0, 0, 11, 0, 0, 10, 1, 0};
    static float block[GAUGE_DRAWING_BYTES(2) / 4];
    struct gauge_drawing d = gauge_lay(block, 2);
    memcpy(d.triangles, corners, sizeof corners);
    expect(gauge_drawing_build(&d, GAUGE_MEDIAN, 1, 40) == 3 && gauge_drawing_check(&d) == 2, "a tree");

    d.boxes[17] = -0.0f;
    expect(is_refused(&d, GAUGE_TREE_BOX, 2), "the root's box has a minus zero");
    d.boxes[6] = 9;
    expect(is_refused(&d, GAUGE_TREE_BOX, 1), "the second leaf's box is wrong, too");
    d.links[8] = 0;
    expect(is_refused(&d, GAUGE_TREE_LISTING, 2), "the root has the first leaf twice");
    d.links[5] = 1;
    expect(is_refused(&d, GAUGE_TREE_LISTING, 1), "the second leaf is empty");
    d.nodes = 1;
    expect(is_refused(&d, GAUGE_TREE_LISTING, 0), "the first leaf alone does not cover all");
    d.nodes = 0;
    expect(is_refused(&d, GAUGE_TREE_COUNT, 0), "no nodes");
    d.nodes = 4;
    expect(is_refused(&d, GAUGE_TREE_COUNT, 0), "more nodes than a tree of two has");
    d.order[1] = d.order[0];
    expect(is_refused(&d, GAUGE_TREE_ORDER, 1), "an entry of the order list twice");
    d.order[0] = 2;
    expect(is_refused(&d, GAUGE_TREE_ORDER, 0), "an entry out of range");
    expect(gauge_check(d.triangles, 18, d.order, 0, d.links, 9, d.boxes, 18, 3) == (uint64_t)GAUGE_TREE_ORDER << 56, "no order list");
}

/* Two triangles as a binary STL: 84 bytes, then for each 12 that are not looked at, 36 of corners, 2 that are not looked at. */
static void expect_stl(void)
{
    static const float corners[18] = {0, 0, 0, 1, 0, 0, 0, 1, 0, 10, 0, 0, 11, 0, 0, 10, 1, -0.0f};
    static float block[GAUGE_DRAWING_BYTES(2) / 4], other[GAUGE_DRAWING_BYTES(3) / 4];
    static uint8_t stl[GAUGE_STL_BYTES(2)], wanted[GAUGE_STL_BYTES(2)];
    struct gauge_drawing d = gauge_lay(block, 2), back = gauge_lay(other, 3), none = gauge_lay(NULL, 0);

    memcpy(d.triangles, corners, sizeof corners);
    wanted[80] = 2;
    memcpy(wanted + 96, corners, 36);
    memcpy(wanted + 146, corners + 9, 36);
    memset(stl, 0xff, sizeof stl);
    expect(gauge_drawing_write_stl(&d, stl, sizeof stl - 1) == (uint64_t)GAUGE_ROOM << 56 && stl[0] == 0xff, "no room for an STL");
    expect(gauge_drawing_write_stl(&d, stl, sizeof stl) == sizeof stl && memcmp(stl, wanted, sizeof stl) == 0, "an STL, byte for byte");
    expect(gauge_drawing_write_stl(&none, stl, sizeof stl) == (uint64_t)GAUGE_NONE << 56, "nothing to write as an STL");

    memcpy(stl, "solid", 5);
    memset(stl + 84, 0xff, 12);
    memset(stl + 132, 0xff, 2);
    back.nodes = 5;
    expect(gauge_drawing_read_stl(&back, stl, sizeof stl - 1) == ((uint64_t)GAUGE_STL << 56 | 183) && back.count == 3 && back.nodes == 5,
           "a refused STL leaves the drawing as it was");
    expect(gauge_drawing_read_stl(&none, stl, sizeof stl) == (uint64_t)GAUGE_ROOM << 56 && none.count == 0, "no room for its triangles");
    expect(gauge_drawing_read_stl(&back, stl, sizeof stl) == 2 && back.count == 2 && back.nodes == 0, "two triangles read, without a tree");
    expect(memcmp(back.triangles, corners, sizeof corners) == 0, "their corners, bit for bit");
    expect(gauge_drawing_build(&back, GAUGE_MEDIAN, 1, 40) == 3 && gauge_drawing_check(&back) == 2, "a tree over them");
    expect(gauge_read_stl(NULL, 0, NULL, 0) == (uint64_t)GAUGE_STL << 56, "nothing at NULL is no STL");
}

int main(void)
{
    expect_numbers();
    expect_block();
    expect_example();
    expect_rules();
    expect_few();
    expect_parts();
    expect_damage();
    expect_stl();
    return failed;
}
