// What the library's calls are measured beside, but for the planners: the same answers, written as one writes C++. They refuse what the library refuses, but for the judges and
// what builds on them, which take the request as good.
#pragma once
#include <algorithm>
#include <cstdlib>
#include <cstring>
#include <vector>

#include "gustparsley.h"

namespace same {

// A function that is called as one of another file is.
#if defined(__clang__)
#define CALLED __attribute__((noinline))
#else
#define CALLED __attribute__((noipa))
#endif

constexpr uint64_t kNone = ~uint64_t{0};

// ---- meshes

inline bool known(uint64_t kind, uint64_t size) { return size >= 1 && ((kind == GUST_CUBE && size <= 32) || (kind == GUST_TWO_LEVEL && size <= 5)); }
inline uint64_t relays(uint64_t kind, uint64_t size) { return uint64_t{1} << (kind == GUST_CUBE ? size : size + (uint64_t{1} << size)); }
inline uint64_t links(uint64_t kind, uint64_t size) { return kind == GUST_CUBE ? size : size + 1; }
inline uint64_t longest(uint64_t kind, uint64_t size) {
  return kind == GUST_CUBE ? size + 1 : size * (uint64_t{1} << size) + (uint64_t{1} << size) + 2 * size + 4;
}
inline uint64_t width(uint64_t kind, uint64_t size) { return longest(kind, size) + 1; }
// The relay that link i of u leads to.
inline uint64_t link(uint64_t kind, uint64_t size, uint64_t u, uint64_t i) {
  if (kind == GUST_CUBE || i < size) return u ^ uint64_t{1} << i;
  return u ^ uint64_t{1} << (size + (u & ((uint64_t{1} << size) - 1)));
}
inline bool are_linked(uint64_t kind, uint64_t size, uint64_t u, uint64_t v) {
  const uint64_t x = u ^ v;
  if (x == 0 || (x & (x - 1))) return false;
  if (kind == GUST_CUBE) return true;
  const uint64_t slots = (uint64_t{1} << size) - 1;
  return x <= slots || x == uint64_t{1} << (size + (u & slots));
}
// 1, 2, 5 or 0.
inline uint64_t wrong_pair(uint64_t kind, uint64_t size, uint64_t source, uint64_t target) {
  if (!known(kind, size)) return GUST_UNKNOWN_SIZE;
  const uint64_t all = relays(kind, size);
  return source >= all ? GUST_SOURCE_OUT : target >= all ? GUST_TARGET_OUT : GUST_FINE;
}

CALLED inline GustFacts facts(uint64_t kind, uint64_t size) {
  if (!known(kind, size)) return {GUST_UNKNOWN_SIZE, 0, 0, 0, 0, 0, 0};
  return {0, 0, 0, relays(kind, size), links(kind, size), longest(kind, size), width(kind, size)};
}

CALLED inline GustAnswer linked(uint64_t kind, uint64_t size, uint64_t source, uint64_t target) {
  if (const uint64_t number = wrong_pair(kind, size, source, target)) return {number, 0, 0, 0};
  return {0, 0, 0, are_linked(kind, size, source, target)};
}

// ---- distances: a table of each order, of the hops from relay 0

inline const std::vector<uint8_t> &hops_of(uint64_t m) {
  static std::vector<uint8_t> table[4];
  std::vector<uint8_t> &far = table[m];
  if (!far.empty()) return far;
  far.assign(relays(2, m), 255);
  std::vector<uint64_t> todo{0};
  far[0] = 0;
  for (size_t at = 0; at < todo.size(); ++at)
    for (uint64_t i = 0; i <= m; ++i) {
      const uint64_t next = link(2, m, todo[at], i);
      if (far[next] != 255) continue;
      far[next] = static_cast<uint8_t>(far[todo[at]] + 1);
      todo.push_back(next);
    }
  return far;
}

// The bits under the mask change places with those so many further on.
inline uint64_t exchange(uint64_t x, uint64_t mask, unsigned far) {
  const uint64_t t = ((x >> far) ^ x) & mask;
  return x ^ t ^ (t << far);
}

// The relays are turned so that the source is relay 0: slots by its slot, and with them the places of the block's bits.
CALLED inline GustAnswer distance(uint64_t kind, uint64_t m, uint64_t source, uint64_t target) {
  if (!known(kind, m)) return {GUST_UNKNOWN_SIZE, 0, 0, 0};
  if (kind == GUST_CUBE || m > 3) return {GUST_NO_DISTANCE, 0, 0, 0};
  if (const uint64_t number = wrong_pair(kind, m, source, target)) return {number, 0, 0, 0};
  static const uint8_t *const hops[4] = {nullptr, hops_of(1).data(), hops_of(2).data(), hops_of(3).data()};
  const uint64_t slots = (uint64_t{1} << m) - 1, slot = source & slots;
  uint64_t blocks = (source ^ target) >> m;
  blocks = exchange(blocks, slot & 1 ? 0x55 : 0, 1);
  blocks = exchange(blocks, slot & 2 ? 0x33 : 0, 2);
  blocks = exchange(blocks, slot & 4 ? 0x0f : 0, 4);
  return {0, 0, 0, hops[m][blocks << m | ((source ^ target) & slots)]};
}

// ---- plain routes

// Of the places whose bits are set, the first in the reflected Gray order: the bits are put in that order, and the lowest is taken.
inline uint64_t first_gray(uint64_t set) {
  set = exchange(set, 0x00ff0000, 8);
  set = exchange(set, 0x0f000f00, 4);
  set = exchange(set, 0x30303030, 2);
  set = exchange(set, 0x44444444, 1);
  const uint64_t i = static_cast<uint64_t>(__builtin_ctzll(set));
  return i ^ i >> 1;
}

inline uint64_t lowest(uint64_t x) { return x & (~x + 1); }

inline uint64_t next(uint64_t kind, uint64_t m, uint64_t source, uint64_t target) {
  if (kind == GUST_CUBE) return source ^ lowest(source ^ target);
  const uint64_t slots = (uint64_t{1} << m) - 1, blocks = (source ^ target) >> m;
  const uint64_t aim = blocks ? first_gray(blocks) : target & slots;
  const uint64_t apart = (source ^ aim) & slots;
  if (apart) return source ^ lowest(apart);
  return blocks ? source ^ uint64_t{1} << (m + aim) : source;
}

inline void put8(uint8_t *out, uint64_t x) {
  x = __builtin_bswap64(x);
  std::memcpy(out, &x, 8);
}
inline uint64_t get8(const uint8_t *at) {
  uint64_t x;
  std::memcpy(&x, at, 8);
  return __builtin_bswap64(x);
}

CALLED inline uint64_t next_hop(uint64_t kind, uint64_t size, uint64_t source, uint64_t target, uint8_t *out, size_t length) {
  if (const uint64_t number = wrong_pair(kind, size, source, target)) return number * 256;
  if (length < 8) return GUST_NO_ROOM * 256;
  put8(out, next(kind, size, source, target));
  return 0;
}

// Hop by hop. Where there is not room for the longest route its hops are counted first, since a refusal writes nothing.
CALLED inline GustAnswer route(uint64_t kind, uint64_t size, uint64_t source, uint64_t target, uint64_t *out, size_t room) {
  if (const uint64_t number = wrong_pair(kind, size, source, target)) return {number, 0, 0, 0};
  uint64_t hops = 0;
  if (room < width(kind, size)) {
    for (uint64_t at = source; at != target; ++hops) at = next(kind, size, at, target);
    if (room < hops + 1) return {GUST_NO_ROOM, 0, 0, 0};
    hops = 0;
  }
  out[0] = source;
  for (uint64_t at = source; at != target;) out[++hops] = at = next(kind, size, at, target);
  return {0, 0, 0, hops};
}

// ---- the judge, by a table of the relays met

// Half of the places at most are taken, and a relay stands at the first free one from its own place on.
struct Table {
  uint64_t relay[4096];
  int bits = 4;
  explicit Table(uint64_t relays) {
    while ((uint64_t{1} << bits) < 2 * relays) ++bits;
    std::memset(relay, 0xff, size_t{8} << bits);
  }
  // Whether the relay is new; it is met from then on.
  bool add(uint64_t x) {
    const size_t mask = (size_t{1} << bits) - 1;
    size_t i = x * 0x9E3779B97F4A7C15u >> (64 - bits);
    while (relay[i] != kNone) {
      if (relay[i] == x) return false;
      i = (i + 1) & mask;
    }
    relay[i] = x;
    return true;
  }
};

// How many relays the paths have, with room for a count that is too long.
inline uint64_t total(uint64_t w, size_t k, const uint64_t *counts) {
  uint64_t n = 0;
  for (size_t i = 0; i < k; ++i) n += counts[i] < w ? counts[i] : 0;
  return n;
}

// 0 for a fan, or a bundle to the first target, else the number of what is wrong. It asks nothing of the request.
template <bool bundle>
CALLED uint64_t judge(uint64_t kind, uint64_t size, uint64_t source, const uint64_t *targets, size_t k, const uint64_t *places, const uint64_t *counts) {
  const uint64_t w = width(kind, size) + bundle, all = relays(kind, size);
  Table met(total(w, k, counts));
  bool bare = false;
  for (size_t i = 0; i < k; ++i) {
    const uint64_t *row = places + i * w, h = counts[i], target = targets[bundle ? 0 : i];
    if (h >= w) return 20;
    if (row[0] != source) return 21;
    for (uint64_t p = 1; p <= h; ++p) {
      if (row[p] >= all || !are_linked(kind, size, row[p - 1], row[p])) return 22;
      if (bundle && p == h) break;
      if (row[p] == source || (bundle && row[p] == target) || !met.add(row[p])) return 24;
    }
    if (row[h] != target) return 23;
    if (bundle && h == 1 && bare) return 24;
    bare |= h == 1;
    for (uint64_t p = h + 1; p < w; ++p)
      if (row[p] != kNone) return 25;
  }
  return 0;
}

// ---- survivors

// A bit for each relay, by a hash of its number.
struct Bits {
  uint64_t word[256] = {};
  static size_t at(uint64_t x) { return x * 0x9E3779B97F4A7C15u >> 50; }
  void add(uint64_t x) { word[at(x) / 64] |= uint64_t{1} << at(x) % 64; }
  bool has(uint64_t x) const { return word[at(x) / 64] >> at(x) % 64 & 1; }
};

// Judged; then a bit for each relay of the paths, and one pass over the relays that have stopped: one that has its bit is looked for on the paths that are whole.
template <bool bundle>
CALLED uint64_t survivors(uint64_t kind, uint64_t size, uint64_t source, const uint64_t *targets, size_t k, const uint64_t *places, const uint64_t *counts,
                          const std::vector<uint64_t> &stopped, uint64_t *ends, uint64_t *hops, uint64_t *wholes) {
  if (judge<bundle>(kind, size, source, targets, k, places, counts)) std::abort();
  const uint64_t w = width(kind, size) + bundle;
  Bits met;
  for (size_t i = 0; i < k; ++i) {
    ends[i] = targets[bundle ? 0 : i], hops[i] = counts[i], wholes[i] = 1;
    for (uint64_t p = 0; p <= counts[i]; ++p) met.add(places[i * w + p]);
  }
  for (uint64_t x : stopped)
    if (met.has(x))
      for (size_t i = 0; i < k; ++i) {
        const uint64_t *row = places + i * w, *end = row + counts[i] + 1;
        if (wholes[i] && std::find(row, end, x) != end) wholes[i] = 0;
      }
  uint64_t whole = 0;
  for (size_t i = 0; i < k; ++i) whole += wholes[i];
  return whole;
}

// ---- sheets

inline size_t write_paths(uint64_t kind, uint64_t size, uint64_t source, size_t k, const uint64_t *places, const uint64_t *counts, uint8_t *out) {
  const uint64_t w = width(kind, size);
  uint8_t *at = out + 16;
  for (size_t i = 0; i < k; ++i) {
    *at++ = static_cast<uint8_t>(counts[i] >> 8);
    *at++ = static_cast<uint8_t>(counts[i]);
    for (uint64_t p = 1; p <= counts[i]; ++p, at += 8) put8(at, places[i * w + p]);
  }
  const size_t length = static_cast<size_t>(at - out);
  put8(out, (length - 4) << 32 | 1 << 24 | kind << 16 | size << 8 | k);
  put8(out + 8, source);
  return length;
}

// The length, or 0 for a refusal.
CALLED inline size_t write_sheet(uint64_t kind, uint64_t size, uint64_t source, const uint64_t *targets, size_t k, const uint64_t *places, const uint64_t *counts,
                                 uint8_t *out, size_t room) {
  if (judge<false>(kind, size, source, targets, k, places, counts)) return 0;
  size_t length = 16;
  for (size_t i = 0; i < k; ++i) length += 2 + 8 * counts[i];
  return length > room ? 0 : write_paths(kind, size, source, k, places, counts, out);
}

// 0, or the number of the flaw. The paths are looked through, then filled in, then judged where they lie; the library judges before it fills.
CALLED inline uint64_t read_sheet(const uint8_t *bytes, size_t length, uint64_t *places, size_t room, uint64_t *counts, uint64_t *targets, size_t counted) {
  if (length < 16 || get8(bytes) >> 32 != length - 4) return GUST_CUT;
  const uint64_t kind = bytes[5], size = bytes[6], k = bytes[7], source = get8(bytes + 8);
  if (bytes[4] != 1) return GUST_VERSION;
  if (!known(kind, size)) return GUST_NO_MESH;
  if (k < 1 || k > links(kind, size)) return GUST_PATHS;
  const uint64_t w = width(kind, size);
  if (room < k * w || counted < k) return GUST_NO_ROOM;
  const uint8_t *at = bytes + 16, *end = bytes + length;
  for (size_t i = 0; i < k; ++i) {
    if (end - at < 2) return GUST_CUT;
    const uint64_t h = static_cast<uint64_t>(at[0] << 8 | at[1]);
    if (h < 1 || h >= w) return GUST_HOPS;
    if (static_cast<uint64_t>(end - at) < 2 + 8 * h) return GUST_CUT;
    at += 2 + 8 * h;
  }
  if (at != end) return GUST_LEFT_OVER;
  at = bytes + 16;
  for (size_t i = 0; i < k; ++i) {
    uint64_t *row = places + i * w;
    counts[i] = static_cast<uint64_t>(at[0] << 8 | at[1]);
    at += 2;
    row[0] = source;
    for (uint64_t p = 1; p <= counts[i]; ++p, at += 8) row[p] = get8(at);
    std::fill(row + counts[i] + 1, row + w, kNone);
    targets[i] = row[counts[i]];
  }
  return judge<false>(kind, size, source, targets, k, places, counts) ? GUST_NOT_A_FAN : 0;
}

// ---- frames

CALLED inline GustArrival arrive(GustRecord r, uint16_t x) {
  if (r.marks == 0) return {0, x, 1};
  const uint16_t ahead = static_cast<uint16_t>(x - r.newest), behind = static_cast<uint16_t>(r.newest - x);
  if (ahead >= 1 && ahead <= 32767) return {0, x, ahead < 64 ? r.marks << ahead | 1 : 1};
  if (behind >= 64) return {42, r.newest, r.marks};
  const uint64_t mark = uint64_t{1} << behind;
  if (r.marks & mark) return {41, r.newest, r.marks};
  return {0, r.newest, r.marks | mark};
}

// ---- books

// The sheet of a kind, a size and a source, searched for from the front.
CALLED inline GustFound book_find(GustBook book, const uint8_t *bytes, uint64_t kind, uint64_t size, uint64_t source) {
  for (size_t at = 0; at < book.used;) {
    const uint64_t length = 4 + (uint64_t{bytes[at]} << 24 | bytes[at + 1] << 16 | bytes[at + 2] << 8 | bytes[at + 3]);
    if (bytes[at + 4] && bytes[at + 5] == kind && bytes[at + 6] == size && get8(bytes + at + 8) == source) return {0, at, length};
    at += length;
  }
  return {51, 0, 0};
}

}  // namespace same
