// Winding numbers beside the same steps in plain C++ with the machine's root and arc tangent, turn about in one process: processor
// time, the least of 15 turns. A line for each size of drawing, as nanoseconds a triangle, with the largest difference seen:
//
//     winding TRIANGLES POINTS OURS PLAIN DIFFERENCE
//
//     (cd crates/test_exports && rt lib)          (in the engine's folder)
//     g++ -O3 -ffp-contract=off -o winding tests/peers/winding.cpp crates/test_exports/out/libtest_exports.a && ./winding
#include <algorithm>
#include <cmath>
#include <cstddef>
#include <cstdint>
#include <cstdio>
#include <cstdlib>
#include <ctime>
#include <vector>

// A slice is passed as a pointer and a length.
extern "C" uint32_t timing_winding(const float *, size_t, const float *, size_t, float *, size_t);

static double now() {
  timespec t;
  clock_gettime(CLOCK_PROCESS_CPUTIME_ID, &t);
  return t.tv_sec + t.tv_nsec * 1e-9;
}

static uint64_t state = 1;
static double unit() {
  state = state * 6364136223846793005u + 1442695040888963407u;
  return (state >> 11) * 0x1p-53;
}

struct V {
  float x, y, z;
};
static V operator-(V a, V b) { return {a.x - b.x, a.y - b.y, a.z - b.z}; }
static V operator/(V a, float s) { return {a.x / s, a.y / s, a.z / s}; }
static float dot(V a, V b) { return a.x * b.x + a.y * b.y + a.z * b.z; }
static V cross(V a, V b) { return {a.y * b.z - a.z * b.y, a.z * b.x - a.x * b.z, a.x * b.y - a.y * b.x}; }

static float solid_angle(V a, V b, V c, V q) {
  a = a - q, b = b - q, c = c - q;
  float la = sqrtf(dot(a, a)), lb = sqrtf(dot(b, b)), lc = sqrtf(dot(c, c));
  if (la == 0 || lb == 0 || lc == 0) return 0;
  a = a / la, b = b / lb, c = c / lc;
  float numerator = dot(a, cross(b - a, c - a));
  if (numerator == 0) return 0;
  return atan2f(numerator, 1.0f + dot(a, b) + dot(a, c) + dot(b, c)) * 2.0f;
}

static void plain(const std::vector<float> &triangles, const std::vector<float> &points, std::vector<float> &out) {
  for (size_t k = 0; k < points.size() / 3; k++) {
    V q{points[3 * k], points[3 * k + 1], points[3 * k + 2]};
    float sum = 0;
    for (size_t t = 0; t < triangles.size(); t += 9) {
      const float *f = &triangles[t];
      sum += solid_angle({f[0], f[1], f[2]}, {f[3], f[4], f[5]}, {f[6], f[7], f[8]}, q);
    }
    out[k] = sum / (4.0f * 3.14159274101257324f);
  }
}

int main() {
  for (size_t n : {12, 100, 1000, 4096}) {
    size_t count = 400000 / n;
    std::vector<float> triangles, points, ours(count), theirs(count);
    // separate triangles about a ball, and points in a box about it
    for (size_t k = 0; k < n; k++) {
      double z = 2 * unit() - 1, turn = 2 * M_PI * unit(), r = std::sqrt(1 - z * z);
      double centre[3] = {r * std::cos(turn), r * std::sin(turn), z};
      for (int i = 0; i < 9; i++) triangles.push_back((float)(centre[i % 3] + (unit() - 0.5) / std::sqrt((double)n)));
    }
    for (size_t k = 0; k < 3 * count; k++) points.push_back((float)(3 * unit() - 1.5));
    double least[2] = {1e9, 1e9};
    for (int turn = 0; turn < 15; turn++) {
      double start = now();
      if (timing_winding(triangles.data(), triangles.size(), points.data(), points.size(), ours.data(), ours.size()) != 1)
        return fprintf(stderr, "the winding numbers were refused\n"), 2;
      double half = now();
      plain(triangles, points, theirs);
      least[0] = std::min(least[0], half - start);
      least[1] = std::min(least[1], now() - half);
    }
    float most = 0;
    for (size_t k = 0; k < count; k++) most = std::max(most, std::abs(ours[k] - theirs[k]));
    printf("winding %zu %zu %.1f %.1f %.2g\n", n, count, least[0] * 1e9 / (n * count), least[1] * 1e9 / (n * count), most);
  }
}
