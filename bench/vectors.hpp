// The planners of masks.hpp and two_masks.hpp, tuned by hand: targets are looked at all at once, four in a vector or as planes of bits, a path's turns are written down when it is laid, and
// paths are written four places at once. For processors with SSE2.
#pragma once
#include <emmintrin.h>

#include <type_traits>

#include "two_masks.hpp"

namespace vectors {

using masks::low, masks::low_bit, masks::ones;

// The door, then the turns from the first to the last, the bits of `rest` from the lowest, and `back`, if there is one.
struct Way {
  uint32_t door, rest, back;
  unsigned turns;
  uint8_t turn[32];

  template <class Do>
  void each(Do change) const {
    change(door);
    for (unsigned j = 0; j < turns; ++j) change(uint32_t{1} << turn[j]);
    for (uint32_t left = rest; left; left &= left - 1) change(low_bit(left));
    if (back) change(back);
  }
  uint32_t last() const { return back ? back : rest ? uint32_t{1} << (31 - __builtin_clz(rest)) : turns ? uint32_t{1} << turn[turns - 1] : door; }
};

// How many bits each target has left, as planes: bit i of plane j is bit j of the number of target i.
struct Planes {
  uint32_t plane[6] = {};
  Planes() = default;
  explicit Planes(const uint32_t (&apart)[32]) {
    alignas(16) uint8_t left[32];
    for (unsigned i = 0; i < 32; ++i) left[i] = static_cast<uint8_t>(count(apart[i]));
    const __m128i first = _mm_load_si128(reinterpret_cast<const __m128i *>(left)), second = _mm_load_si128(reinterpret_cast<const __m128i *>(left) + 1);
    for (int j = 0; j < 6; ++j)
      plane[j] = static_cast<uint32_t>(_mm_movemask_epi8(_mm_slli_epi16(first, 7 - j))) | static_cast<uint32_t>(_mm_movemask_epi8(_mm_slli_epi16(second, 7 - j))) << 16;
  }
  static uint32_t count(uint32_t x) {
    x -= x >> 1 & 0x55555555;
    x = (x & 0x33333333) + (x >> 2 & 0x33333333);
    return ((x + (x >> 4)) & 0x0f0f0f0f) * 0x01010101 >> 24;
  }
  // One less for each of these.
  void less(uint32_t targets) {
    for (uint32_t &p : plane) {
      const uint32_t was = p;
      p ^= targets;
      targets &= ~was;
    }
  }
  void set_one(uint32_t target) {
    for (uint32_t &p : plane) p &= ~target;
    plane[0] |= target;
  }
  uint32_t one() const { return plane[0] & ~(plane[1] | plane[2] | plane[3] | plane[4] | plane[5]); }
};

struct Nothing {
  void less(uint32_t) {}
  void set_one(uint32_t) {}
};

// Of up to 4 * V targets.
template <unsigned V>
struct Cube {
  static constexpr bool kPlanes = V > 4;
  using Left = std::conditional_t<kPlanes, Planes, Nothing>;

  alignas(16) uint32_t apart[4 * V] = {};
  uint32_t column_[32], known_ = 0;
  alignas(16) uint8_t trail_[32] = {};
  uint8_t order_[4 * V];
  unsigned done_ = 0;
  Way way[4 * V];

  void fan(uint32_t free, uint32_t targets, uint32_t shut) {
    Left left;
    if constexpr (kPlanes) left = Planes(apart);
    lay_all(free, targets, shut, 0, left);
  }

 private:
  __m128i four(unsigned v) const { return _mm_load_si128(reinterpret_cast<const __m128i *>(apart) + v); }
  static uint32_t signs(__m128i x) { return static_cast<uint32_t>(_mm_movemask_ps(_mm_castsi128_ps(x))); }

  // The targets that have one bit left.
  uint32_t one(const Left &left, uint32_t free) const {
    if constexpr (kPlanes) {
      (void)free;
      return left.one();
    } else {
      (void)left;
      const __m128i mask = _mm_set1_epi32(static_cast<int>(free)), minus = _mm_set1_epi32(-1);
      uint32_t told = 0;
      for (unsigned v = 0; v < V; ++v) {
        const __m128i x = _mm_and_si128(four(v), mask);
        told |= signs(_mm_cmpeq_epi32(_mm_and_si128(x, _mm_add_epi32(x, minus)), _mm_setzero_si128())) << (4 * v);
      }
      return told;
    }
  }

  // The targets that differ in a dimension.
  uint32_t column(unsigned dimension) {
    if (kPlanes && known_ >> dimension & 1) return column_[dimension];
    const __m128i shift = _mm_cvtsi32_si128(static_cast<int>(31 - dimension));
    uint32_t told = 0;
    for (unsigned v = 0; v < V; ++v) told |= signs(_mm_sll_epi32(four(v), shift)) << (4 * v);
    known_ |= 1u << dimension;
    return column_[dimension] = told;
  }

  void lay(unsigned i, uint32_t door, uint32_t rest, uint32_t back, unsigned depth) {
    Way &w = way[i];
    w.door = door, w.rest = rest, w.back = back, w.turns = depth;
    std::memcpy(w.turn, trail_, 16);
    if (depth >= 16) std::memcpy(w.turn + 16, trail_ + 16, 16);
    order_[done_++] = static_cast<uint8_t>(i);
  }

  uint32_t alone(uint32_t free, unsigned i, uint32_t shut, unsigned depth) {
    const uint32_t open = free & ~shut, x = apart[i] & free, good = x & open, door = low_bit(good ? good : open);
    lay(i, door, x & ~door, good ? 0 : door, depth);
    return door;
  }

  // The far side, whose first relay is a target while the door to it is shut: that one comes round by a neighbour.
  uint32_t lay_round(uint32_t rest, uint32_t far, uint32_t home, uint32_t shut, uint32_t bit, unsigned depth, Left left) {
    uint32_t taken = shut | bit;
    for (uint32_t todo = far & ~home & one(left, rest); todo; todo &= todo - 1) taken |= apart[low(todo)] & rest;
    const uint32_t by = apart[low(home)] = low_bit(rest & ~taken);
    left.set_one(home);
    const uint32_t used = lay_all(rest, far, shut & ~bit, depth + 1, left);
    way[low(home)].back = by;
    return used;
  }

  // Gives the doors that the paths take.
  uint32_t lay_all(uint32_t free, uint32_t targets, uint32_t shut, unsigned depth, Left left) {
    uint32_t doors = 0;
    for (;;) {
      const uint32_t near = targets & one(left, free);
      for (uint32_t todo = near; todo; todo &= todo - 1) {
        const uint32_t x = apart[low(todo)] & free;
        if (x & shut) continue;
        lay(low(todo), x, 0, 0, depth);
        doors |= x, shut |= x, targets ^= low_bit(todo);
      }
      if (!targets) return doors;
      const uint32_t others = targets & (targets - 1);
      if (!others) return doors | alone(free, low(targets), shut, depth);
      const uint32_t bit = low_bit((apart[low(targets)] ^ apart[low(others)]) & free), rest = free & ~bit;
      const uint32_t differ = column(low(bit)), far = targets & differ, home = far & near;
      const bool open = !(shut & bit);
      const unsigned from = done_;
      left.less(differ);
      trail_[depth] = static_cast<uint8_t>(low(bit));
      uint32_t used = home ? lay_round(rest, far, home, shut, bit, depth, left)
                      : open && masks::at_most_one(far) ? alone(rest, low(far), shut, depth + 1)
                                                        : lay_all(rest, far, shut & ~bit, depth + 1, left);
      if (open) {
        Way &w = way[order_[from]];
        used ^= w.door, doors |= bit;
        w.turn[depth] = static_cast<uint8_t>(low(w.door));
        w.door = bit;
      }
      doors |= used;
      shut = (shut & ~bit) | used;
      targets ^= far, free = rest;
    }
  }
};

// Writes a path; up to four places after its end are spoilt, and then unused. Gives its hops.
inline uint64_t write(const Way &w, uint64_t relay, unsigned n, uint64_t *row) {
  uint64_t *at = row;
  *at++ = relay;
  *at++ = relay ^= w.door;
  for (unsigned j = 0; j < w.turns; ++j) *at++ = relay ^= uint64_t{1} << w.turn[j];
  for (unsigned from = 0; from < n; from += 4) {
    const uint32_t x = w.rest >> from & 15;
    const __m128i here = _mm_set1_epi64x(static_cast<long long>(relay)), shift = _mm_cvtsi32_si128(static_cast<int>(from));
    const uint64_t *changed = masks::kWalks.changed[x];
    for (unsigned half = 0; half < 4; half += 2) {
      const __m128i two = _mm_sll_epi64(_mm_loadu_si128(reinterpret_cast<const __m128i *>(changed + half)), shift);
      _mm_storeu_si128(reinterpret_cast<__m128i *>(at + half), _mm_xor_si128(here, two));
    }
    at += masks::kWalks.hops[x];
    relay ^= uint64_t{x} << from;
  }
  *at = relay ^ w.back;
  at += w.back != 0;
  std::memset(at, 0xff, 32);
  return static_cast<uint64_t>(at - row - 1);
}

// A row spoils the start of the next one, which is written after it; the last has room of its own.
template <unsigned V>
void plan_cube(unsigned n, uint64_t source, const uint64_t *targets, size_t k, uint64_t *places, uint64_t *counts) {
  Cube<V> cube;
  for (size_t i = 0; i < k; ++i) cube.apart[i] = static_cast<uint32_t>(targets[i] ^ source);
  cube.fan(ones(n), ones(k), 0);
  const size_t w = n + 2;
  uint64_t last[48];
  std::memset(places, 0xff, (k - 1) * w * 8);
  std::memset(last, 0xff, sizeof last);
  for (size_t i = 0; i + 1 < k; ++i) counts[i] = write(cube.way[i], source, n, places + i * w);
  counts[k - 1] = write(cube.way[k - 1], source, n, last);
  std::memcpy(places + (k - 1) * w, last, w * 8);
}

template <unsigned M>
void plan_two(uint64_t source, const uint64_t *targets, size_t k, uint64_t *places, uint64_t *counts) {
  masks::Two<M, Cube<(M <= 4 ? 1 : 2)>, Cube<(M <= 2 ? 1 : M <= 4 ? 2 : 3)>>(source, targets, static_cast<unsigned>(k), places, counts).plan();
}

inline void plan(uint64_t kind, uint64_t size, uint64_t source, const uint64_t *targets, size_t k, uint64_t *places, uint64_t *counts) {
  if (size <= (kind == GUST_CUBE ? 4 : 1)) return masks::plan(kind, size, source, targets, k, places, counts);
  if (kind == GUST_CUBE) {
    const auto cube = k <= 4 ? plan_cube<1> : k <= 8 ? plan_cube<2> : k <= 16 ? plan_cube<4> : plan_cube<8>;
    return cube(static_cast<unsigned>(size), source, targets, k, places, counts);
  }
  using Order = void (*)(uint64_t, const uint64_t *, size_t, uint64_t *, uint64_t *);
  static constexpr Order kOrders[6] = {nullptr, nullptr, plan_two<2>, plan_two<3>, plan_two<4>, plan_two<5>};
  kOrders[size](source, targets, k, places, counts);
}

CALLED inline uint64_t fan(uint64_t kind, uint64_t size, uint64_t source, const uint64_t *targets, size_t k, uint64_t *places, size_t room, uint64_t *counts, size_t counted) {
  if (const uint64_t number = masks::wrong(kind, size, source, targets, k)) return number;
  if (room < k * same::width(kind, size) || counted < k) return GUST_NO_ROOM;
  plan(kind, size, source, targets, k, places, counts);
  return 0;
}

}  // namespace vectors
