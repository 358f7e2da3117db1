// The contenders turn about, in place of their own main.cpp, so that whatever else the machine does falls on all alike: each
// builds once, then all are asked in turn, TURNS times over, and the least processor time of each counts. A line for each:
//
//     turns CASE NAME NANOSECONDS_A_POINT FOUND
//
// From the folder of the contenders, with extra.cpp and answers.hpp beside it:
//
//     cp turns.cpp main.cpp
//     make EXTRA=extra.cpp EXTRA_LIB=libtest_exports.a CXXFLAGS='-O3 -DNDEBUG -DCGAL_NDEBUG -std=c++17 -w -ffp-contract=off'
//     build/peers CASE TURNS NAME.. < request      (contenders whose names begin so)
#include "contender.h"
#include <algorithm>
#include <cstdio>
#include <cstdlib>
#include <cstring>
#include <ctime>
#include <iostream>
#include <iterator>
#include <limits>

std::vector<Entry> &contenders() {
  static std::vector<Entry> list;
  return list;
}

static double now() {
  timespec t;
  clock_gettime(CLOCK_PROCESS_CPUTIME_ID, &t);
  return t.tv_sec + t.tv_nsec * 1e-9;
}

int main(int argc, char **argv) {
  if (argc < 4) return fprintf(stderr, "peers CASE TURNS NAME.. < request\n"), 2;
  std::vector<unsigned char> in((std::istreambuf_iterator<char>(std::cin)), {});
  std::vector<float> triangles, points;
  float limit = 4194304.0f;
  for (size_t at = 0; at + 6 <= in.size();) {
    uint32_t length;
    uint16_t kind;
    memcpy(&length, &in[at], 4);
    memcpy(&kind, &in[at + 4], 2);
    at += 6;
    if (in.size() - at < length) return fprintf(stderr, "record %u is cut short\n", kind), 2;
    auto floats = [&](std::vector<float> &v) {
      v.resize(length / 4);
      memcpy(v.data(), &in[at], length / 4 * 4);
      for (float &x : v) x += 0.0f; // minus zero counts as zero
    };
    if (kind == 2) floats(triangles);
    if (kind == 5) floats(points);
    if (kind == 6) memcpy(&limit, &in[at], 4);
    at += length;
  }
  struct Runner {
    std::string name;
    std::unique_ptr<Contender> contender;
    double least;
    std::vector<Answer> answers;
  };
  std::vector<Runner> runners;
  size_t asked = points.size() / 3;
  for (auto &entry : contenders())
    for (int i = 3; i < argc; i++)
      if (entry.name.compare(0, strlen(argv[i]), argv[i]) == 0) {
        runners.push_back({entry.name, entry.make(), std::numeric_limits<double>::infinity(), std::vector<Answer>(asked)});
        runners.back().contender->build(triangles.data(), triangles.size() / 9);
        break;
      }
  for (int turn = atoi(argv[2]); turn > 0; turn--)
    for (auto &r : runners) {
      double start = now();
      r.contender->ask(points.data(), asked, limit, r.answers.data());
      r.least = std::min(r.least, now() - start);
    }
  for (auto &r : runners)
    printf("turns %s %s %.1f %zu\n", argv[1], r.name.c_str(), r.least * 1e9 / asked,
           (size_t)std::count_if(r.answers.begin(), r.answers.end(), [](const Answer &a) { return a.found; }));
}
