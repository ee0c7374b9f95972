// Seeded random choices. The same seed gives the same log on every machine, so
// nothing here uses the distributions of the standard library, which differ, and
// no two choices stand among the arguments of one call, whose order may differ.

#ifndef GENERATOR_RANDOM_H
#define GENERATOR_RANDOM_H

#include <cstddef>
#include <cstdint>
#include <initializer_list>
#include <random>
#include <utility>

namespace generator {

class Random {
 public:
  explicit Random(uint64_t seed) : engine_(seed) {}

  uint32_t word() { return static_cast<uint32_t>(engine_() >> 32); }

  // 0 to n - 1; 0 where n is 0.
  uint32_t below(uint32_t n) { return n == 0 ? 0 : word() % n; }
  uint32_t between(uint32_t least, uint32_t most) { return least + below(most - least + 1); }
  bool chance(uint32_t percent) { return below(100) < percent; }
  bool once_in(uint32_t n) { return below(n) == 0; }

  template <class T, size_t N>
  const T& one_of(const T (&choices)[N]) {
    return choices[below(N)];
  }

  // One of the choices, each as often as its weight says. Some weight is above 0.
  template <class T>
  T pick(std::initializer_list<std::pair<T, uint32_t>> choices) {
    uint32_t sum = 0;
    for (const auto& choice : choices) sum += choice.second;
    uint32_t at = below(sum);
    for (const auto& choice : choices) {
      if (at < choice.second) return choice.first;
      at -= choice.second;
    }
    return choices.begin()->first;
  }

  // A number that is wrong wherever `count` numbers are right: just past them,
  // and what a place of 5, 8 or 16 bits would take for a right one.
  uint32_t past(uint32_t count) {
    const uint32_t wrong[] = {count,         count,         count + 1,    count + 31,
                              count + 32,    count + 256,   count + 65536, 256,
                              0x80000000u,   0xFFFFFFFFu,   0xFFFFFFFEu,  below(100) + count};
    const uint32_t number = one_of(wrong);
    return number < count ? count : number;
  }

  // A number of 32 bits: small, at a border, or any.
  uint32_t item() {
    const uint32_t borders[] = {0,     1,     9,          10,         99,         100,       255,
                                65535, 65536, 0x7FFFFFFF, 0x80000000, 0xFFFFFFFE, 0xFFFFFFFF};
    switch (below(4)) {
      case 0: return one_of(borders);
      case 1: return word();
      case 2: return word() >> below(32);
      default: return below(100);
    }
  }

 private:
  std::mt19937_64 engine_;
};

}  // namespace generator

#endif
