// How long reading and writing an STL take, beside plain C++ that makes the same tests and plain C++ that makes none: 256, 4,096
// and 65,536 triangles with coordinates by chance, processor time in microseconds a call, turn about in one process, the least of
// 30 turns of enough calls to be measured. The plain code copies a facet's corners by memcpy, as bytes that are little-endian here.
//
//     make                                  (in the engine's folder: crates/host/out/libhost.a)
//     g++ -O3 -ffp-contract=off -Iinclude -o stl tests/peers/stl.cpp crates/host/out/libhost.a && ./stl
#include "gauge.h"

#include <algorithm>
#include <cmath>
#include <cstdio>
#include <cstring>
#include <ctime>
#include <vector>

static double now() {
  timespec t;
  clock_gettime(CLOCK_PROCESS_CPUTIME_ID, &t);
  return t.tv_sec + t.tv_nsec * 1e-9;
}

static uint64_t state = 1;
static float coordinate() {
  state = state * 6364136223846793005u + 1442695040888963407u;
  return static_cast<float>(static_cast<double>(state >> 11) * 0x1p-53 * 1000 - 500);
}

static bool are_good(const uint8_t *numbers, size_t count) {
  unsigned bad = 0;
  for (size_t i = 0; i < count; i++) {
    float x;
    std::memcpy(&x, numbers + 4 * i, 4);
    bad |= !(std::fabs(x) <= GAUGE_MAX_COORDINATE);
  }
  return bad == 0;
}

// Without a test it trusts the count.
static uint64_t read_plainly(bool tested, const uint8_t *stl, size_t length, float *triangles, size_t room) {
  uint32_t count = 0;
  if (tested && length < 84)
    return 0;
  std::memcpy(&count, stl + 80, 4);
  if (tested) {
    if (length != 84 + 50 * static_cast<size_t>(count) || count == 0 || count > GAUGE_MAX_TRIANGLES)
      return 0;
    for (size_t i = 0; i < count; i++)
      if (!are_good(stl + 96 + 50 * i, 9))
        return 0;
    if (room < 9 * static_cast<size_t>(count))
      return 0;
  }
  for (size_t i = 0; i < count; i++)
    std::memcpy(triangles + 9 * i, stl + 96 + 50 * i, 36);
  return count;
}

static uint64_t write_plainly(bool tested, const float *triangles, size_t length, uint8_t *stl, size_t room) {
  size_t n = length / 9;
  uint32_t count = static_cast<uint32_t>(n);
  if (tested && (length % 9 != 0 || n == 0 || n > GAUGE_MAX_TRIANGLES || !are_good(reinterpret_cast<const uint8_t *>(triangles), length) ||
                 room < 84 + 50 * n))
    return 0;
  std::memset(stl, 0, 80);
  std::memcpy(stl + 80, &count, 4);
  for (size_t i = 0; i < n; i++) {
    uint8_t *facet = stl + 84 + 50 * i;
    std::memset(facet, 0, 12);
    std::memcpy(facet + 12, triangles + 9 * i, 36);
    std::memset(facet + 48, 0, 2);
  }
  return 84 + 50 * n;
}

template <class F> static void turn(F call, double &best) {
  size_t calls = 0;
  double start = now(), spent;
  do
    call(), calls++;
  while ((spent = now() - start) < 2e-3);
  best = std::min(best, spent * 1e6 / static_cast<double>(calls));
}

int main() {
  std::printf("%9s %-8s %12s %12s %12s %8s\n", "triangles", "", "engine, us", "plain, us", "no test, us", "ratio");
  for (size_t n = 256; n <= GAUGE_MAX_TRIANGLES; n *= 16) {
    std::vector<float> triangles(9 * n), back(9 * n);
    std::vector<uint8_t> stl(GAUGE_STL_BYTES(n)), other(stl.size());
    for (float &x : triangles)
      x = coordinate();
    bool good = gauge_write_stl(triangles.data(), 9 * n, stl.data(), stl.size()) == stl.size() &&
                gauge_read_stl(stl.data(), stl.size(), back.data(), 9 * n) == n && back == triangles;
    for (int tested = 0; tested < 2; tested++) {
      good &= write_plainly(tested, triangles.data(), 9 * n, other.data(), other.size()) == stl.size() && other == stl;
      good &= read_plainly(tested, stl.data(), stl.size(), back.data(), 9 * n) == n && back == triangles;
    }
    if (!good) {
      std::printf("%zu triangles: they differ\n", n);
      return 1;
    }
    uint64_t sum = 0;
    double read[3] = {1e18, 1e18, 1e18}, write[3] = {1e18, 1e18, 1e18};
    for (int k = 0; k < 30; k++) {
      turn([&] { sum += gauge_read_stl(stl.data(), stl.size(), back.data(), 9 * n); }, read[0]);
      turn([&] { sum += read_plainly(true, stl.data(), stl.size(), back.data(), 9 * n); }, read[1]);
      turn([&] { sum += read_plainly(false, stl.data(), stl.size(), back.data(), 9 * n); }, read[2]);
      turn([&] { sum += gauge_write_stl(triangles.data(), 9 * n, other.data(), other.size()); }, write[0]);
      turn([&] { sum += write_plainly(true, triangles.data(), 9 * n, other.data(), other.size()); }, write[1]);
      turn([&] { sum += write_plainly(false, triangles.data(), 9 * n, other.data(), other.size()); }, write[2]);
    }
    std::printf("%9zu %-8s %12.1f %12.1f %12.1f %8.2f\n", n, "read", read[0], read[1], read[2], read[0] / read[1]);
    std::printf("%9zu %-8s %12.1f %12.1f %12.1f %8.2f\n", n, "write", write[0], write[1], write[2], write[0] / write[1]);
    if (sum == 0)
      return 1;
  }
  return 0;
}
