// An answer in a lent list: 1 or 0, triangle, the bits of x, y, z and of the squared distance, and the part of the triangle.
#pragma once
#include <cstddef>

constexpr size_t answer_words = 7, answer_squared = 5;
