// The two-level mesh's planner by masks, for the benchmark, over any planner of cubes like masks.hpp's; and the library's calls by these planners, with the refusals.
#pragma once
#include "masks.hpp"

namespace masks {

// For each set of slot bits: what has changed after the first of them, the first two and so on, lowest first, and how many they are.
struct Walks {
  uint64_t changed[32][6] = {};
  uint8_t hops[32] = {};
  constexpr Walks() {
    for (uint32_t x = 0; x < 32; ++x) {
      uint32_t left = x;
      for (unsigned j = 0; j < 6; ++j, left &= left - 1) {
        hops[x] = static_cast<uint8_t>(hops[x] + (left != 0));
        changed[x][j] = x & ~(left & (left - 1));
      }
    }
  }
};
alignas(64) inline constexpr Walks kWalks;

// A path as it is written. A walk along a block is written at once, as long as there is room for the longest.
template <unsigned M>
struct Pen {
  uint64_t *row, *at, *end, relay;
  static constexpr uint32_t kSlots = (1u << M) - 1;
  static constexpr unsigned kStep = M <= 2 ? 2 : M <= 4 ? 4 : 6;

  Pen(uint64_t *out, uint64_t *behind, uint64_t source) : row(out), at(out), end(behind), relay(source) { *at = relay; }
  void change(uint64_t bit) { *++at = relay ^= bit; }
  void walk(uint32_t slot) {
    uint32_t x = (static_cast<uint32_t>(relay) ^ slot) & kSlots;
    if (end - at > kStep) {
      for (unsigned j = 0; j < kStep; ++j) at[1 + j] = relay ^ kWalks.changed[x][j];
      at += kWalks.hops[x];
      relay ^= x;
    } else {
      for (; x; x &= x - 1) change(low_bit(x));
    }
  }
  void cross(uint32_t slot) {
    walk(slot);
    change(uint64_t{1} << (M + slot));
  }
  template <class W>
  void inside(const W &w) {
    w.each([this](uint32_t bit) { change(bit); });
  }
  template <class W>
  void blocks(const W &w) {
    w.each([this](uint32_t bit) { cross(low(bit)); });
  }
};

// Heads plans inside the source's block, Route from block to block.
template <unsigned M, class Heads = Cube, class Route = Cube>
class Two {
 public:
  Two(uint64_t source, const uint64_t *targets, unsigned k, uint64_t *places, uint64_t *counts)
      : source_(source), own_(static_cast<uint32_t>(source) & kSlots), k_(k), places_(places), counts_(counts) {
    for (unsigned i = 0; i < k; ++i) {
      block_[i] = static_cast<uint32_t>((targets[i] ^ source) >> M);
      slot_[i] = static_cast<uint32_t>(targets[i]) & kSlots;
      if (block_[i])
        outer_ |= 1u << i;
      else
        kept_ |= 1u << slot_[i];
    }
  }

  void plan() {
    if (k_ == M + 1 && !outer_) return round_trip();
    sort();
    if (gated_) find_gates();
    find_ends();
    if (ends_) lay_blocks();
    write();
  }

 private:
  static constexpr unsigned kBlockBits = 1u << M, kWidth = M * kBlockBits + kBlockBits + 2 * M + 5, kNobody = 99;
  static constexpr uint32_t kSlots = kBlockBits - 1, kAll = ~uint32_t{0} >> (32 - kBlockBits);

  Pen<M> begin(unsigned i) const { return Pen<M>(places_ + i * kWidth, places_ + (i + 1) * kWidth, source_); }
  void finish(unsigned i, const Pen<M> &pen) const {
    counts_[i] = static_cast<uint64_t>(pen.at - pen.row);
    std::memset(pen.at + 1, 0xff, static_cast<size_t>(pen.row + kWidth - pen.at - 1) * 8);
  }

  // All targets are in the source's block, one more than the block has dimensions: one of them is reached by four other blocks.
  void round_trip() {
    Heads heads;
    for (unsigned i = 0; i < M; ++i) heads.apart[i] = slot_[i] ^ own_;
    heads.fan(kSlots, ones(M), 0);
    const uint64_t extra = (source_ & ~uint64_t{kSlots}) | slot_[M];
    unsigned out = M;
    for (unsigned i = 0; i < M; ++i) {
      Pen<M> pen = begin(i);
      pen.inside(heads.way[i]);
      const uint64_t *met = std::find(pen.row, pen.at, extra);
      if (met == pen.at) {
        finish(i, pen);
        continue;
      }
      Pen<M> cut = begin(M);
      for (const uint64_t *p = pen.row; p != met; ++p) cut.change(p[0] ^ p[1]);
      finish(M, cut);
      out = i;
    }
    Pen<M> pen = begin(out);
    for (unsigned twice = 0; twice < 2; ++twice) pen.cross(own_), pen.cross(slot_[out]);
    finish(out, pen);
  }

  bool behind_kept(uint32_t block) const { return at_most_one(block) && block & kept_; }

  // Gated are targets in a crowd of one block, and those behind a door that is kept.
  void sort() {
    for (unsigned i = 0; i < k_; ++i)
      for (unsigned j = 0; j < i; ++j)
        if (block_[i] == block_[j]) gated_ |= 1u << i | 1u << j;
    gated_ &= outer_;
    for (uint32_t todo = kept_ ? outer_ : 0; todo; todo &= todo - 1)
      if (behind_kept(block_[low(todo)])) gated_ |= low_bit(todo);
  }

  bool serves(unsigned i, uint32_t slot) const {
    const uint32_t beyond = block_[i] ^ 1u << slot;
    bool bad = beyond ? behind_kept(beyond) : outer_ != ones(k_);
    for (unsigned j = 0; j < k_; ++j) bad |= beyond == block_[j] || (j != i && block_[j] == block_[i] && slot_[j] == slot);
    for (uint32_t todo = gated_ & ((1u << i) - 1); todo; todo &= todo - 1) bad |= beyond == beyond_[low(todo)];
    return !bad;
  }

  void find_gates() {
    for (uint32_t todo = gated_; todo; todo &= todo - 1) {
      const unsigned i = low(todo);
      gate_[i] = slot_[i];
      for (unsigned h = 0; !serves(i, gate_[i]); ++h) gate_[i] = slot_[i] ^ 1u << h;
      beyond_[i] = block_[i] ^ 1u << gate_[i];
    }
    for (uint32_t todo = gated_; todo; todo &= todo - 1)
      if (!beyond_[low(todo)]) kept_ |= 1u << gate_[low(todo)];
  }

  void add_end(uint32_t block) { route_.apart[ends_] = end_[ends_] = block, ++ends_; }

  // Where block paths lead: the blocks of direct targets, those beyond gates, and each crowd.
  void find_ends() {
    for (uint32_t todo = outer_ & ~gated_; todo; todo &= todo - 1) row_[low(todo)] = ends_, add_end(block_[low(todo)]);
    for (uint32_t todo = gated_; todo; todo &= todo - 1)
      if (beyond_[low(todo)]) row_[low(todo)] = ends_, add_end(beyond_[low(todo)]);
    crowds_ = ends_;
    for (uint32_t todo = gated_; todo; todo &= todo - 1) {
      const uint32_t block = block_[low(todo)];
      if (!behind_kept(block) && std::find(end_ + crowds_, end_ + ends_, block) == end_ + ends_) add_end(block);
    }
  }

  uint32_t doors() const {
    uint32_t open = 0;
    unsigned left = ends_;
    const auto take = [&](uint32_t door) {
      if (left && !((open | kept_) & door)) open |= door, --left;
    };
    take(1u << own_);
    for (unsigned e = 0; e < ends_; ++e) take(low_bit(end_[e]));
    for (uint32_t spare = kAll & ~(open | kept_); left; spare &= spare - 1) open |= low_bit(spare), --left;
    return open;
  }

  void lay_blocks() {
    route_.fan(kAll, ones(ends_), kAll & ~doors());
    for (unsigned e = crowds_; e < ends_; ++e)
      if (route_.way[e].door == 1u << own_) return take_over(e);
  }

  // The block path by the source's own slot ends in a crowd: the target of it that is met first takes the path.
  void take_over(unsigned e) {
    uint32_t here = low(route_.way[e].last());
    const uint32_t to = slot_[std::find(block_, block_ + k_, end_[e]) - block_];
    for (;; here ^= low_bit(here ^ to)) {
      for (unsigned i = 0; i < k_ && taken_ == kNobody; ++i)
        if (block_[i] == end_[e] && (slot_[i] == here || gate_[i] == here)) taken_ = i;
      if (taken_ != kNobody) break;
    }
    Pen<M> pen = begin(taken_);
    pen.blocks(route_.way[e]);
    pen.walk(here);
    pen.walk(slot_[taken_]);
    finish(taken_, pen);
  }

  // The slot by which a path leaves the source's block, or where it ends there.
  uint32_t leaves_by(unsigned i) const {
    if (!(outer_ >> i & 1)) return slot_[i];
    return gated_ >> i & 1 && !beyond_[i] ? gate_[i] : low(route_.way[row_[i]].door);
  }

  void write() const {
    Heads heads;
    unsigned walkers = 0, head[M + 1];
    for (unsigned i = 0; i < k_; ++i) {
      head[i] = kNobody;
      if (i == taken_) continue;
      const uint32_t by = leaves_by(i);
      if (by != own_) head[i] = walkers, heads.apart[walkers++] = by ^ own_;
    }
    if (walkers) heads.fan(kSlots, ones(walkers), 0);
    for (unsigned i = 0; i < k_; ++i) {
      if (i == taken_) continue;
      Pen<M> pen = begin(i);
      if (head[i] != kNobody) pen.inside(heads.way[head[i]]);
      if (outer_ >> i & 1) {
        const bool gated = gated_ >> i & 1;
        if (!gated || beyond_[i]) pen.blocks(route_.way[row_[i]]);
        if (gated) pen.cross(gate_[i]);
        pen.walk(slot_[i]);
      }
      finish(i, pen);
    }
  }

  uint64_t source_;
  uint32_t own_;
  unsigned k_;
  uint64_t *places_, *counts_;
  uint32_t block_[M + 1], slot_[M + 1], gate_[M + 1] = {}, beyond_[M + 1] = {}, end_[2 * M + 2];
  uint32_t outer_ = 0, kept_ = 0, gated_ = 0;
  unsigned ends_ = 0, crowds_ = 0, row_[M + 1], taken_ = kNobody;
  Route route_;
};

// Order 1 is a ring of eight: the two paths go round it by either side. Its relays from each of its places on, to the left and to the right.
struct Ring {
  static constexpr uint8_t kRelay[8] = {0, 1, 5, 4, 6, 7, 3, 2}, kAt[8] = {0, 1, 7, 6, 3, 2, 4, 5};
  uint64_t round[2][8][11] = {}, unused[9][11] = {};
  constexpr Ring() {
    for (unsigned here = 0; here < 8; ++here)
      for (unsigned p = 0; p < 11; ++p) round[0][here][p] = kRelay[(here - p) & 7], round[1][here][p] = kRelay[(here + p) & 7];
    for (unsigned hops = 0; hops < 9; ++hops)
      for (unsigned p = hops + 1; p < 11; ++p) unused[hops][p] = same::kNone;
  }
};
alignas(64) inline constexpr Ring kRing;

inline void ring(uint64_t source, const uint64_t *targets, size_t k, uint64_t *places, uint64_t *counts) {
  const unsigned here = Ring::kAt[source];
  const unsigned far[2] = {(Ring::kAt[targets[0]] - here) & 7, (Ring::kAt[targets[k - 1]] - here) & 7};
  for (size_t i = 0; i < k; ++i) {
    const bool right = k == 1 || far[i] < far[1 - i];
    const unsigned hops = right ? far[i] : 8 - far[i];
    for (unsigned p = 0; p < 11; ++p) places[11 * i + p] = kRing.round[right][here][p] | kRing.unused[hops][p];
    counts[i] = hops;
  }
}

template <unsigned M>
void plan_two(uint64_t source, const uint64_t *targets, size_t k, uint64_t *places, uint64_t *counts) {
  Two<M>(source, targets, static_cast<unsigned>(k), places, counts).plan();
}

inline void plan(uint64_t kind, uint64_t size, uint64_t source, const uint64_t *targets, size_t k, uint64_t *places, uint64_t *counts) {
  if (kind == GUST_CUBE) return plan_cube(static_cast<unsigned>(size), source, targets, k, places, counts);
  using Order = void (*)(uint64_t, const uint64_t *, size_t, uint64_t *, uint64_t *);
  static constexpr Order kOrders[6] = {nullptr, ring, plan_two<2>, plan_two<3>, plan_two<4>, plan_two<5>};
  kOrders[size](source, targets, k, places, counts);
}

// ---- with the refusals, as the library's calls

// 1 to 7, or 0. A target is looked for among the earlier ones only where one of the same hash stands there.
inline uint64_t wrong(uint64_t kind, uint64_t size, uint64_t source, const uint64_t *targets, size_t k) {
  if (!same::known(kind, size)) return GUST_UNKNOWN_SIZE;
  const uint64_t relays = same::relays(kind, size);
  if (source >= relays) return GUST_SOURCE_OUT;
  if (k == 0) return GUST_NO_TARGET;
  if (k > same::links(kind, size)) return GUST_TOO_MANY;
  for (size_t i = 0; i < k; ++i)
    if (targets[i] >= relays) return GUST_TARGET_OUT;
  for (size_t i = 0; i < k; ++i)
    if (targets[i] == source) return GUST_TARGET_IS_SOURCE;
  uint64_t met[16] = {};
  for (size_t i = 0; i < k; ++i) {
    const uint64_t hash = targets[i] * 0x9E3779B97F4A7C15u >> 54, bit = uint64_t{1} << hash % 64;
    if (met[hash / 64] & bit && std::find(targets, targets + i, targets[i]) != targets + i) return GUST_TARGET_AGAIN;
    met[hash / 64] |= bit;
  }
  return GUST_FINE;
}

CALLED inline uint64_t fan(uint64_t kind, uint64_t size, uint64_t source, const uint64_t *targets, size_t k, uint64_t *places, size_t room, uint64_t *counts, size_t counted) {
  if (const uint64_t number = wrong(kind, size, source, targets, k)) return number;
  if (room < k * same::width(kind, size) || counted < k) return GUST_NO_ROOM;
  plan(kind, size, source, targets, k, places, counts);
  return 0;
}

// A fan, planned and written as a sheet.
CALLED inline uint64_t sheet(uint64_t kind, uint64_t size, uint64_t source, const uint8_t *bytes, size_t length, uint8_t *out, size_t room) {
  if (length % 8) return GUST_UNREADABLE * 256;
  uint64_t targets[32], places[6 * 207], counts[32];
  const size_t k = length / 8;
  for (size_t i = 0; i < std::min<size_t>(k, 32); ++i) targets[i] = same::get8(bytes + 8 * i);
  if (const uint64_t number = wrong(kind, size, source, targets, k)) return number * 256;
  if (room < 16 + k * (2 + 8 * same::longest(kind, size))) return GUST_NO_ROOM * 256;
  plan(kind, size, source, targets, k, places, counts);
  same::write_paths(kind, size, source, k, places, counts, out);
  return 0;
}

// A fan to the relays linked to the target, each row moved to its place, and the target put behind it.
CALLED inline uint64_t bundle(uint64_t kind, uint64_t size, uint64_t source, uint64_t target, uint64_t *places, size_t room, uint64_t *counts, size_t counted) {
  if (const uint64_t number = same::wrong_pair(kind, size, source, target)) return number;
  if (source == target) return GUST_TARGET_IS_SOURCE;
  const size_t k = same::links(kind, size), w = same::width(kind, size);
  if (room < k * (w + 1) || counted < k) return GUST_NO_ROOM;
  uint64_t ends[32];
  for (size_t i = 0; i < k; ++i) {
    ends[i] = same::link(kind, size, target, i);
    if (ends[i] == source) ends[i] = target;
  }
  plan(kind, size, source, ends, k, places, counts);
  for (size_t i = k; i-- > 0;) {
    uint64_t *row = places + i * (w + 1);
    std::memmove(row, places + i * w, w * 8);
    row[w] = same::kNone;
    if (ends[i] != target) row[++counts[i]] = target;
  }
  return 0;
}

}  // namespace masks
