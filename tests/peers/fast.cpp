// Winding numbers by dipoles beside the exact ones, and beside the same walk in plain C++ with the machine's root and arc tangent, turn
// about in one process: processor time, the least of 15 turns. A closed sphere and separate triangles, points in a box about the drawing,
// trees by median with leaf minimum 10 and by area with leaf minimum 3, which are the Rust's own. Lines:
//
//     sums DRAWING TRIANGLES STRATEGY LEAF NODES BUILD_US CHECK_US SUMS_US
//     fast DRAWING TRIANGLES STRATEGY LEAF SCALE EXACT_NS FAST_NS TIMES PLAIN_NS RATIO FAR OPENED LEAVES MEASURED DIFFERENCE
//
// EXACT, FAST and PLAIN are nanoseconds a point, TIMES how often the fast one fits into the exact one, RATIO the fast one over the plain
// one; a call has 4,000 points and one check of the tree. FAR, OPENED, LEAVES and MEASURED are nodes used as far, branches opened, leaves
// and triangles measured a point, DIFFERENCE the largest between this and plain C++. With a word, only drawings of so many triangles.
//
//     (cd crates/test_exports && rt lib)          (in the engine's folder)
//     g++ -O3 -ffp-contract=off -o fast tests/peers/fast.cpp crates/test_exports/out/libtest_exports.a && ./fast
#include "shapes.hpp"

static double now() {
  timespec t;
  clock_gettime(CLOCK_PROCESS_CPUTIME_ID, &t);
  return t.tv_sec + t.tv_nsec * 1e-9;
}

struct V {
  float x, y, z;
};
static V operator-(V a, V b) { return {a.x - b.x, a.y - b.y, a.z - b.z}; }
static V operator/(V a, float s) { return {a.x / s, a.y / s, a.z / s}; }
static V operator*(V a, float s) { return {a.x * s, a.y * s, a.z * s}; }
static float dot(V a, V b) { return a.x * b.x + a.y * b.y + a.z * b.z; }
static V cross(V a, V b) { return {a.y * b.z - a.z * b.y, a.z * b.x - a.x * b.z, a.x * b.y - a.y * b.x}; }
static const float four_pi = 4.0f * 3.14159274101257324f;

static float solid_angle(V a, V b, V c, V q) {
  a = a - q, b = b - q, c = c - q;
  float la = sqrtf(dot(a, a)), lb = sqrtf(dot(b, b)), lc = sqrtf(dot(c, c));
  if (la == 0 || lb == 0 || lc == 0) return 0;
  a = a / la, b = b / lb, c = c / lc;
  float numerator = dot(a, cross(b - a, c - a));
  if (numerator == 0) return 0;
  return atan2f(numerator, 1.0f + dot(a, b) + dot(a, c) + dot(b, c)) * 2.0f;
}

struct Plain {
  const List &triangles;
  const Built &tree;
  float scale;
  size_t far = 0, opened = 0, leaves = 0, measured = 0;

  float walk(size_t node, V q) {
    const float *d = &tree.sums[16 * node];
    V r = V{d[13], d[14], d[15]} - q;
    float r2 = dot(r, r), r1 = sqrtf(r2);
    if (r1 > d[12] * scale) {
      float r3 = r2 * r1, inverse = 1.0f / (four_pi * r3), by = four_pi * (r3 * r2), second = 0;
      float rs[3] = {r.x, r.y, r.z};
      for (int j = 0; j < 3; j++)
        for (int i = 0; i < 3; i++) second += d[3 + 3 * j + i] * ((i == j ? 1.0f : 0.0f) * inverse - 3.0f * rs[i] * rs[j] / by);
      float term = dot({d[0], d[1], d[2]}, r * inverse) + second;
      if (std::isfinite(term)) return far++, term;
    }
    const uint32_t *l = &tree.links[3 * node];
    if (l[0] == 2) {
      opened++;
      float left = walk(l[1], q);
      return left + walk(l[2], q);
    }
    leaves++, measured += l[2] - l[1];
    float sum = 0;
    for (uint32_t i = l[1]; i < l[2]; i++) {
      const float *f = &triangles[9 * tree.order[i]];
      sum += solid_angle({f[0], f[1], f[2]}, {f[3], f[4], f[5]}, {f[6], f[7], f[8]}, q);
    }
    return sum / four_pi;
  }

  void fast(const List &points, List &out) {
    for (size_t k = 0; k < out.size(); k++) out[k] = walk(tree.nodes - 1, {points[3 * k], points[3 * k + 1], points[3 * k + 2]});
  }
};

template <class F> static void keep(double &least, F call) {
  double start = now();
  call();
  least = std::min(least, now() - start);
}

static void measure(const char *name, const List &t, size_t strategy, size_t leaf) {
  const size_t count = 4000, turns = 15;
  const float scales[] = {1, 2, 3, 5};
  size_t n = t.size() / 9, few = std::max<size_t>(10, 200000 / n);
  List points, some;
  for (size_t k = 0; k < 3 * count; k++) points.push_back((float)(3 * unit() - 1.5));
  some.assign(points.begin(), points.begin() + 3 * few);
  Built tree(n);
  double build = 1e9, check = 1e9, sums = 1e9, all = 1e9, fast[4] = {1e9, 1e9, 1e9, 1e9}, plain[4] = {1e9, 1e9, 1e9, 1e9};
  std::vector<List> ours(4, List(count)), theirs(4, List(count));
  List right(few);
  for (size_t turn = 0; turn < turns; turn++) {
    keep(build, [&] { tree.build(t, strategy, leaf); });
    keep(check, [&] { tree.check(t); });
    keep(sums, [&] { tree.sum(t); });
    keep(all, [&] { exact(t, some, right); });
    for (int s = 0; s < 4; s++) {
      keep(fast[s], [&] { tree.fast(t, points, scales[s], ours[s]); });
      keep(plain[s], [&] { Plain{t, tree, scales[s]}.fast(points, theirs[s]); });
    }
  }
  const char *by = strategy == 1 ? "median" : "area";
  printf("sums %s %zu %s %zu %zu %.1f %.1f %.1f\n", name, n, by, leaf, tree.nodes, build * 1e6, check * 1e6, sums * 1e6);
  for (int s = 0; s < 4; s++) {
    float most = 0;
    for (size_t k = 0; k < count; k++) most = std::max(most, std::abs(ours[s][k] - theirs[s][k]));
    Plain seen{t, tree, scales[s]};
    seen.fast(points, theirs[s]);
    double a = all * 1e9 / few, f = fast[s] * 1e9 / count, p = plain[s] * 1e9 / count, c = count;
    printf("fast %s %zu %s %zu %g %.0f %.0f %.1f %.0f %.2f %.1f %.1f %.1f %.1f %.2g\n", name, n, by, leaf, scales[s], a, f, a / f, p, f / p,
           seen.far / c, seen.opened / c, seen.leaves / c, seen.measured / c, most);
  }
  fflush(stdout);
}

int main(int count, char **words) {
  size_t only = count > 1 ? strtoul(words[1], nullptr, 10) : 0;
  const size_t sizes[][3] = {{1000, 25, 21}, {4096, 64, 33}, {16384, 128, 65}, {65536, 256, 129}};
  for (auto [n, slices, stacks] : sizes) {
    if (only && n != only) continue;
    for (size_t strategy : {1, 2}) {
      measure("sphere", sphere(slices, stacks), strategy, strategy == 1 ? 10 : 3);
      measure("separate", separate(n), strategy, strategy == 1 ? 10 : 3);
    }
  }
}
