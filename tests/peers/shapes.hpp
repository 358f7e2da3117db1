// Closed drawings for near.cpp and fast.cpp, the calls of the library, and the tree with its numbers of the nodes.
#pragma once
#include "answers.hpp"
#include <algorithm>
#include <array>
#include <cmath>
#include <cstddef>
#include <cstdint>
#include <cstdio>
#include <cstdlib>
#include <ctime>
#include <string>
#include <vector>

// A slice is passed as a pointer and a length.
extern "C" {
size_t timing_build(const float *, size_t, size_t strategy, size_t leaf, size_t depth, uint32_t *, size_t, uint32_t *, size_t, float *, size_t,
                    float *, size_t, float *, size_t, uint32_t *, size_t);
uint32_t timing_check(const float *, size_t, const uint32_t *, size_t, const uint32_t *, size_t, const float *, size_t, size_t nodes);
uint32_t timing_sure(const float *, size_t, const uint32_t *, size_t, const uint32_t *, size_t, const float *, size_t, size_t nodes,
                     const float *, size_t, float distance, uint32_t rule, uint32_t *, size_t);
uint32_t timing_winding(const float *, size_t, const float *, size_t, float *, size_t);
uint32_t timing_node_sums(const float *, size_t, const uint32_t *, size_t, const uint32_t *, size_t, const float *, size_t, size_t nodes, float *,
                          size_t);
uint32_t timing_fast(const float *, size_t, const uint32_t *, size_t, const uint32_t *, size_t, const float *, size_t, size_t nodes,
                     const float *sums, size_t, const float *, size_t, float accuracy, float *, size_t);
}

using List = std::vector<float>;

inline uint64_t state = 1;
inline double unit() {
  state = state * 6364136223846793005u + 1442695040888963407u;
  return (state >> 11) * 0x1p-53;
}

inline void refused(const char *what) {
  fprintf(stderr, "%s: refused\n", what);
  exit(2);
}

struct Built {
  size_t nodes = 0;
  std::vector<uint32_t> order, links, scratch;
  List boxes, bounds, centres, sums;

  explicit Built(size_t n) : order(n), links(6 * n), scratch(n), boxes(12 * n), bounds(6 * n), centres(3 * n), sums(32 * n) {}
  void build(const List &t, size_t strategy, size_t leaf) {
    nodes = timing_build(t.data(), t.size(), strategy, leaf, 40, order.data(), order.size(), links.data(), links.size(), boxes.data(),
                         boxes.size(), bounds.data(), bounds.size(), centres.data(), centres.size(), scratch.data(), scratch.size());
    if (!nodes) refused("build");
  }
  void check(const List &t) const {
    if (!timing_check(t.data(), t.size(), order.data(), order.size(), links.data(), links.size(), boxes.data(), boxes.size(), nodes)) refused("check");
  }
  void sum(const List &t) {
    if (!timing_node_sums(t.data(), t.size(), order.data(), order.size(), links.data(), links.size(), boxes.data(), boxes.size(), nodes, sums.data(),
                          sums.size()))
      refused("node sums");
  }
  void fast(const List &t, const List &p, float accuracy, List &out) const {
    if (!timing_fast(t.data(), t.size(), order.data(), order.size(), links.data(), links.size(), boxes.data(), boxes.size(), nodes, sums.data(),
                     sums.size(), p.data(), p.size(), accuracy, out.data(), out.size()))
      refused("fast winding");
  }
};

inline void exact(const List &t, const List &p, List &out) {
  if (!timing_winding(t.data(), t.size(), p.data(), p.size(), out.data(), out.size())) refused("winding");
}

struct P {
  double x, y, z;
};

inline void put(List &out, P a, P b, P c) {
  for (P p : {a, b, c})
    for (double x : {p.x, p.y, p.z}) out.push_back((float)x);
}

// Slices and stacks about the z axis, 2 * slices * (stacks - 1) triangles; from outside the corners turn left.
inline List sphere(size_t slices, size_t stacks) {
  auto at = [&](size_t i, size_t j) {
    double a = M_PI * i / stacks, b = 2 * M_PI * (j % slices) / slices;
    double s = i == 0 || i == stacks ? 0 : std::sin(a);
    return P{s * std::cos(b), s * std::sin(b), std::cos(a)};
  };
  List out;
  for (size_t i = 0; i < stacks; i++)
    for (size_t j = 0; j < slices; j++) {
      P a = at(i, j), b = at(i + 1, j), c = at(i + 1, j + 1), d = at(i, j + 1);
      if (i + 1 < stacks) put(out, a, b, c);
      if (i > 0) put(out, a, c, d);
    }
  return out;
}

// A ring about the z axis, 2 * around * across triangles.
inline List torus(size_t around, size_t across) {
  auto at = [&](size_t i, size_t j) {
    double a = 2 * M_PI * (i % around) / around, b = 2 * M_PI * (j % across) / across, r = 1 + 0.4 * std::cos(b);
    return P{r * std::cos(a), r * std::sin(a), 0.4 * std::sin(b)};
  };
  List out;
  for (size_t i = 0; i < around; i++)
    for (size_t j = 0; j < across; j++) {
      P a = at(i, j), b = at(i + 1, j), c = at(i + 1, j + 1), d = at(i, j + 1);
      put(out, a, b, c), put(out, a, c, d);
    }
  return out;
}

// A box with k by k cells a side, 12 * k * k triangles.
inline void put_box(List &out, P low, P high, size_t k) {
  double lo[3] = {low.x, low.y, low.z}, hi[3] = {high.x, high.y, high.z};
  for (int axis = 0; axis < 3; axis++)
    for (int side = 0; side < 2; side++)
      for (size_t i = 0; i < k; i++)
        for (size_t j = 0; j < k; j++) {
          auto at = [&](size_t u, size_t v) {
            double q[3];
            int b = (axis + 1) % 3, c = (axis + 2) % 3;
            q[axis] = side ? hi[axis] : lo[axis];
            q[b] = lo[b] + (hi[b] - lo[b]) * u / k;
            q[c] = lo[c] + (hi[c] - lo[c]) * v / k;
            return P{q[0], q[1], q[2]};
          };
          P a = at(i, j), b = at(i + 1, j), c = at(i + 1, j + 1), d = at(i, j + 1);
          if (side) put(out, a, b, c), put(out, a, c, d);
          else put(out, a, c, b), put(out, a, d, c);
        }
}

inline List box(size_t k) {
  List out;
  put_box(out, {-1, -0.75, -0.5}, {1, 0.75, 0.5}, k);
  return out;
}

// g by g by g boxes of 12 triangles, none touching another.
inline List boxes(size_t g) {
  List out;
  for (size_t i = 0; i < g * g * g; i++) {
    double c[3] = {(double)(i % g), (double)(i / g % g), (double)(i / g / g)}, lo[3], hi[3];
    for (int a = 0; a < 3; a++) {
      lo[a] = 2 * (c[a] + 0.05 + 0.4 * unit()) / g - 1;
      hi[a] = 2 * (c[a] + 0.55 + 0.4 * unit()) / g - 1;
    }
    put_box(out, {lo[0], lo[1], lo[2]}, {hi[0], hi[1], hi[2]}, 1);
  }
  return out;
}

// Separate triangles about a ball, as in winding.cpp.
inline List separate(size_t n) {
  List out;
  for (size_t k = 0; k < n; k++) {
    double z = 2 * unit() - 1, turn = 2 * M_PI * unit(), r = std::sqrt(1 - z * z);
    double centre[3] = {r * std::cos(turn), r * std::sin(turn), z};
    for (int i = 0; i < 9; i++) out.push_back((float)(centre[i % 3] + (unit() - 0.5) / std::sqrt((double)n)));
  }
  return out;
}
