// How near winding numbers by dipoles are to the exact ones, on closed drawings of 1,000 to 65,536 triangles: a sphere, a torus, a box of
// cells and a cluster of boxes, trees by median and by area, leaf minimum 10 and 3. Half of the points lie near the surface, from
// 1/100,000 of the drawing's size to a third of it, half in a box half as large again. A line for each scale and each distance from the surface,
// as a fraction of the size: how many answers, the largest difference from the exact number, 99.9% of them below, their mean, and how
// many would be rounded to the other side (inside from 0.5 on); then a line for each drawing and for each tree, at all distances:
//
//     near SCALE FROM TO ANSWERS LARGEST MOST MEAN OTHER_SIDE
//     drawing SCALE NAME TRIANGLES ANSWERS LARGEST MOST MEAN OTHER_SIDE
//     tree SCALE STRATEGY LEAF ANSWERS LARGEST MOST MEAN OTHER_SIDE
//
//     (cd crates/test_exports && rt lib)          (in the engine's folder)
//     g++ -O3 -o near tests/peers/near.cpp crates/test_exports/out/libtest_exports.a && ./near [POINTS]
//
// POINTS times the four drawings are asked, 25,600 where not told.
#include "shapes.hpp"
#include <map>

static const float scales[] = {1, 2, 3, 5};
static const double steps[] = {0, 1e-4, 1e-3, 1e-2, 1e-1, 1e9};

struct Seen {
  List off;
  size_t other_side = 0;
  void note(float fast, float exact) {
    off.push_back(std::abs(fast - exact));
    other_side += (fast >= 0.5f) != (exact >= 0.5f);
  }
  void print() {
    std::sort(off.begin(), off.end());
    double mean = 0;
    for (float x : off) mean += x;
    if (off.empty()) return (void)printf(" 0\n");
    printf(" %zu %.4f %.4f %.6f %zu\n", off.size(), off.back(), off[(size_t)(0.999 * (off.size() - 1))], mean / off.size(), other_side);
  }
};

int main(int count, char **words) {
  size_t points = count > 1 ? strtoul(words[1], nullptr, 10) : 25600;
  struct Drawing {
    std::string name;
    List triangles;
    double share;
  };
  std::vector<Drawing> all;
  size_t k[] = {32, 64, 128, 256}, cells[] = {10, 18, 37, 73}, g[] = {5, 7, 11, 17};
  double shares[] = {0.45, 0.3, 0.18, 0.07};
  for (int i = 0; i < 4; i++) {
    all.push_back({"sphere", sphere(k[i], k[i] / 2 + 1), shares[i]});
    all.push_back({"torus", torus(k[i], k[i] / 2), shares[i]});
    all.push_back({"box", box(cells[i]), shares[i]});
    all.push_back({"boxes", boxes(g[i]), shares[i]});
  }
  std::map<std::pair<int, int>, Seen> by_distance, by_drawing, by_tree;
  size_t asked = 0, inside = 0;
  for (size_t which = 0; which < all.size(); which++) {
    const List &t = all[which].triangles;
    size_t n = t.size() / 9, m = (size_t)(points * all[which].share + 0.5);
    double lo[3] = {9, 9, 9}, hi[3] = {-9, -9, -9};
    for (size_t i = 0; i < t.size(); i++) lo[i % 3] = std::min(lo[i % 3], (double)t[i]), hi[i % 3] = std::max(hi[i % 3], (double)t[i]);
    double size = std::max({hi[0] - lo[0], hi[1] - lo[1], hi[2] - lo[2]});
    List p;
    for (size_t j = 0; j < m; j++) {
      if (j % 2) {
        for (int a = 0; a < 3; a++) p.push_back((float)((lo[a] + hi[a]) / 2 + 1.5 * (hi[a] - lo[a]) * (unit() - 0.5)));
        continue;
      }
      const float *c = &t[9 * (size_t)(unit() * n)];
      double u = unit(), v = unit(), ab[3], ac[3];
      if (u + v > 1) u = 1 - u, v = 1 - v;
      for (int a = 0; a < 3; a++) ab[a] = c[a + 3] - c[a], ac[a] = c[a + 6] - c[a];
      double normal[3] = {ab[1] * ac[2] - ab[2] * ac[1], ab[2] * ac[0] - ab[0] * ac[2], ab[0] * ac[1] - ab[1] * ac[0]};
      double length = std::sqrt(normal[0] * normal[0] + normal[1] * normal[1] + normal[2] * normal[2]);
      double off = size * std::pow(10.0, -5 + 4.5 * unit()) * (unit() < 0.5 ? -1 : 1);
      for (int a = 0; a < 3; a++) p.push_back((float)(c[a] + u * ab[a] + v * ac[a] + off * normal[a] / length));
    }
    List right(m), got(m);
    exact(t, p, right);
    std::vector<int> step(m);
    for (size_t strategy : {1, 2})
      for (size_t leaf : {10, 3}) {
        Built tree(n);
        tree.build(t, strategy, leaf);
        tree.sum(t);
        if (strategy == 1 && leaf == 10) {
          std::vector<uint32_t> answers(answer_words * m);
          if (!timing_sure(t.data(), t.size(), tree.order.data(), tree.order.size(), tree.links.data(), tree.links.size(), tree.boxes.data(),
                           tree.boxes.size(), tree.nodes, p.data(), p.size(), 100, 1, answers.data(), answers.size()))
            refused("sure query");
          for (size_t j = 0; j < m; j++) {
            float squared;
            std::copy_n((const char *)&answers[answer_words * j + answer_squared], 4, (char *)&squared);
            double far = std::sqrt((double)squared) / size;
            while (far >= steps[step[j] + 1]) step[j]++;
            inside += right[j] >= 0.5f;
          }
          asked += m;
        }
        for (int s = 0; s < 4; s++) {
          tree.fast(t, p, scales[s], got);
          for (size_t j = 0; j < m; j++) {
            by_distance[{s, step[j]}].note(got[j], right[j]);
            by_distance[{s, 99}].note(got[j], right[j]);
            by_drawing[{s, (int)which}].note(got[j], right[j]);
            by_tree[{s, (int)(strategy * 100 + leaf)}].note(got[j], right[j]);
          }
        }
      }
  }
  printf("%zu points, %zu of them inside, four trees each\n", asked, inside);
  for (auto &[key, seen] : by_distance) {
    double from = key.second == 99 ? 0 : steps[key.second], to = key.second == 99 ? 1e9 : steps[key.second + 1];
    printf("near %g %g %g", scales[key.first], from, to), seen.print();
  }
  for (auto &[key, seen] : by_drawing)
    printf("drawing %g %s %zu", scales[key.first], all[key.second].name.c_str(), all[key.second].triangles.size() / 9), seen.print();
  for (auto &[key, seen] : by_tree)
    printf("tree %g %s %d", scales[key.first], key.second < 200 ? "median" : "area", key.second % 100), seen.print();
}
