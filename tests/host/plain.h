/* The engine's calls once more, in plain C, for comparing: plain.c. Each takes what the call of
 * include/gauge.h takes and must return and write the same. */
#ifndef PLAIN_H
#define PLAIN_H

#include "gauge.h"

uint64_t plain_image_max(size_t triangles);
uint64_t plain_image_triangles(const uint8_t *image, size_t image_length);
uint64_t plain_read(const uint8_t *image, size_t image_length,
                    uint32_t *settings, size_t settings_length,
                    float *triangles, size_t triangles_length, uint32_t *order, size_t order_length,
                    uint32_t *links, size_t links_length, float *boxes, size_t boxes_length);
uint64_t plain_read_stl(const uint8_t *stl, size_t stl_length, float *triangles, size_t triangles_length);
uint64_t plain_write_stl(const float *triangles, size_t triangles_length, uint8_t *stl, size_t stl_length);
uint64_t plain_build(size_t strategy, size_t leaf_minimum, size_t maximum_depth,
                     const float *triangles, size_t triangles_length, uint32_t *order, size_t order_length,
                     uint32_t *links, size_t links_length, float *boxes, size_t boxes_length,
                     float *bounds, size_t bounds_length, float *centres, size_t centres_length,
                     uint32_t *scratch, size_t scratch_length);
uint64_t plain_write(size_t strategy, size_t leaf_minimum, size_t maximum_depth,
                     const float *triangles, size_t triangles_length, const uint32_t *order, size_t order_length,
                     const uint32_t *links, size_t links_length, const float *boxes, size_t boxes_length, size_t nodes,
                     uint8_t *image, size_t image_length);
uint64_t plain_check(const float *triangles, size_t triangles_length, const uint32_t *order, size_t order_length,
                     const uint32_t *links, size_t links_length, const float *boxes, size_t boxes_length, size_t nodes);
uint64_t plain_sure(const float *triangles, size_t triangles_length, const uint32_t *order, size_t order_length,
                    const uint32_t *links, size_t links_length, const float *boxes, size_t boxes_length, size_t nodes,
                    const uint8_t *points, size_t points_length, float distance, uint32_t rule,
                    uint8_t *answers, size_t answers_length);
uint64_t plain_few(const float *triangles, size_t triangles_length, const uint32_t *order, size_t order_length,
                   const uint32_t *links, size_t links_length, const float *boxes, size_t boxes_length, size_t nodes,
                   const uint8_t *points, size_t points_length, float distance, uint32_t rule, uint32_t most,
                   uint8_t *answers, size_t answers_length);
uint64_t plain_source(const float *triangles, size_t triangles_length, const uint32_t *order, size_t order_length,
                      const uint32_t *links, size_t links_length, const float *boxes, size_t boxes_length, size_t nodes,
                      const uint8_t *points, size_t points_length, float distance,
                      uint8_t *answers, size_t answers_length);
uint64_t plain_winding(const float *triangles, size_t triangles_length,
                       const uint8_t *points, size_t points_length,
                       uint8_t *windings, size_t windings_length);

uint64_t plain_node_sums(const float *triangles, size_t triangles_length, const uint32_t *order, size_t order_length,
                         const uint32_t *links, size_t links_length, const float *boxes, size_t boxes_length, size_t nodes,
                         float *sums, size_t sums_length);
uint64_t plain_fast_winding(const float *triangles, size_t triangles_length, const uint32_t *order, size_t order_length,
                            const uint32_t *links, size_t links_length, const float *boxes, size_t boxes_length, size_t nodes,
                            const float *sums, size_t sums_length, const uint8_t *points, size_t points_length, float scale,
                            uint8_t *windings, size_t windings_length);

/* Where the leaves of a chain are: at the left of each branch, at its right, or at either in turn. */
enum { PLAIN_LEFT, PLAIN_RIGHT, PLAIN_TURNING };

/* Makes a tree over the first count triangles one of more levels: each has a branch over all that there is and a leaf of the next
 * triangle. Returns its nodes. */
size_t plain_raise(size_t more, int leaves, const float *triangles, size_t count, uint32_t *order, uint32_t *links, float *boxes, size_t nodes);

/* The lists of a chain of so many levels, each branch with a leaf of one triangle; the leaf at the bottom has the rest. Returns
 * its nodes. */
size_t plain_chain(size_t levels, int leaves, const float *triangles, size_t count, uint32_t *order, uint32_t *links, float *boxes);

/* How many angles the two winding calls have made, and how many of them were more than 2^-20 off atan2. */
extern uint64_t plain_angles, plain_angles_off;

/* At how many points the nearest was at exactly the search distance when plain_sure was asked by rule 1, and by rule 2. */
extern uint64_t plain_level[2];

/* How many nodes were far from a point, and of how many of them the far term was not finite. */
extern uint64_t plain_far, plain_far_not_finite;

/* Of how many triangles that plain_sure or plain_few measured the closest point was no number, by the edge whose foot was kept: ab, ac,
 * bc. */
extern uint64_t plain_feet[3];

/* How many answers were found, by the part of the triangle: by plain_sure on triangles that have a computed point, by it on those that
 * have none, and by plain_source. And of how many of plain_sure's the point was moved when it was held into the box. */
enum { PLAIN_COMPUTED, PLAIN_FEET, PLAIN_SOURCE, PLAIN_WAYS, PLAIN_PARTS = GAUGE_EDGE_BC + 1 };
extern uint64_t plain_parts[PLAIN_WAYS][PLAIN_PARTS], plain_moved;

/* At how many points plain_few found so many answers. Of those that were as many as it was asked for: at how many points more triangles
 * count, and at how many of these the first that is left over is level with the last that is told. */
extern uint64_t plain_told[GAUGE_MAX_FEW + 1], plain_left_over, plain_cut_level;

#endif
