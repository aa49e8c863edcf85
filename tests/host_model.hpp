// Every routine once more, from the words of the specification and with none of the library's ways: what tests/host.cpp compares with.
#ifndef HOST_MODEL_HPP
#define HOST_MODEL_HPP

#include <algorithm>
#include <cstddef>
#include <cstdint>
#include <queue>
#include <set>
#include <unordered_map>
#include <utility>
#include <vector>

namespace model {

using Words = std::vector<uint64_t>;
using Bytes = std::vector<uint8_t>;

constexpr uint64_t kUnused = ~uint64_t{0};

struct Told {
  uint64_t number = 0, path = 0, place = 0;
  bool operator==(const Told &o) const { return number == o.number && path == o.path && place == o.place; }
};

struct Mesh {
  uint64_t kind, size;

  bool known() const {
    if (kind == 3) return class_bits() <= 3 && part_bits() >= 1 && class_bits() + span() <= 37;
    return (kind == 1 && size >= 1 && size <= 32) || (kind == 2 && size >= 1 && size <= 5);
  }
  // Whether the planners, distance and sheets serve it.
  bool planned() const { return known() && kind != 3; }
  // Of a metacube: k, m, and the bits of all parts.
  uint64_t class_bits() const { return size / 64; }
  uint64_t part_bits() const { return size % 64; }
  uint64_t classes() const { return uint64_t{1} << class_bits(); }
  uint64_t span() const { return part_bits() * classes(); }
  uint64_t part(uint64_t u, uint64_t c) const { return (u >> (part_bits() * c)) % (uint64_t{1} << part_bits()); }
  uint64_t slots() const { return uint64_t{1} << size; }
  uint64_t relays() const {
    if (kind == 3) return uint64_t{1} << (class_bits() + span());
    return kind == 1 ? uint64_t{1} << size : uint64_t{1} << (slots() + size);
  }
  uint64_t links() const { return kind == 3 ? class_bits() + part_bits() : kind == 1 ? size : size + 1; }
  uint64_t longest() const {
    if (kind == 3) return classes() - 1 + class_bits() + span();
    return kind == 1 ? size + 1 : size * slots() + slots() + 2 * size + 4;
  }
  uint64_t width() const { return longest() + 1; }
  uint64_t block(uint64_t u) const { return u / slots(); }
  uint64_t slot(uint64_t u) const { return u % slots(); }

  // The relays that u is linked to.
  Words neighbours(uint64_t u) const {
    Words all;
    if (kind == 1) {
      for (uint64_t b = 0; b < size; ++b) all.push_back(u ^ (uint64_t{1} << b));
    } else if (kind == 3) {
      const uint64_t c = u >> span();
      for (uint64_t b = 0; b < part_bits(); ++b) all.push_back(u ^ (uint64_t{1} << (part_bits() * c + b)));
      for (uint64_t b = 0; b < class_bits(); ++b) all.push_back(u ^ (uint64_t{1} << (span() + b)));
    } else {
      for (uint64_t b = 0; b < size; ++b) all.push_back(block(u) * slots() + (slot(u) ^ (uint64_t{1} << b)));
      all.push_back((block(u) ^ (uint64_t{1} << slot(u))) * slots() + slot(u));
    }
    return all;
  }

  bool linked(uint64_t u, uint64_t v) const {
    const Words all = neighbours(u);
    return std::find(all.begin(), all.end(), v) != all.end();
  }

  static uint64_t lowest(uint64_t x) { return x & (~x + 1); }

  // The slot at place i of the reflected Gray order.
  static uint64_t gray(uint64_t i) { return i ^ (i / 2); }

  uint64_t next(uint64_t u, uint64_t t) const {
    if (u == t) return u;
    if (kind == 1) return u ^ lowest(u ^ t);
    if (kind == 3) return next_class(u, t);
    const uint64_t apart = block(u) ^ block(t);
    if (apart == 0) return u ^ lowest(slot(u) ^ slot(t));
    uint64_t i = 0;
    while (!((apart >> gray(i)) & 1)) ++i;
    const uint64_t p = gray(i);
    if (slot(u) != p) return u ^ lowest(slot(u) ^ p);
    return (block(u) ^ (uint64_t{1} << p)) * slots() + slot(u);
  }

  // The next hop in a metacube.
  uint64_t next_class(uint64_t u, uint64_t t) const {
    const uint64_t c = u >> span(), all = uint64_t{1} << span();
    if (u % all == t % all) return u ^ (lowest(c ^ (t >> span())) << span());
    if (part(u, c) != part(t, c)) return u ^ (lowest(part(u, c) ^ part(t, c)) << (part_bits() * c));
    uint64_t i = 0;
    while (gray(i) != c) ++i;
    return u % all + (gray((i + 1) % classes()) << span());
  }

  Words route(uint64_t s, uint64_t t) const {
    Words all{s};
    while (all.back() != t) all.push_back(next(all.back(), t));
    return all;
  }

  // The distance of every relay from s, by breadth.
  Words distances(uint64_t s) const {
    Words far(relays(), kUnused);
    std::queue<uint64_t> queue;
    far[s] = 0;
    queue.push(s);
    while (!queue.empty()) {
      const uint64_t u = queue.front();
      queue.pop();
      for (uint64_t v : neighbours(u))
        if (far[v] == kUnused) {
          far[v] = far[u] + 1;
          queue.push(v);
        }
    }
    return far;
  }

  // 1, 52, 9, 2, 5 of a source and a target.
  uint64_t pair(uint64_t s, uint64_t t, bool distance) const {
    if (!known()) return 1;
    if (distance && kind == 3) return 52;
    if (distance && (kind == 1 || size > 3)) return 9;
    if (s >= relays()) return 2;
    if (t >= relays()) return 5;
    return 0;
  }

  // 1 to 7.
  Told request(uint64_t s, const Words &targets) const {
    if (!known()) return {1, 0, 0};
    if (s >= relays()) return {2, 0, 0};
    if (targets.empty()) return {3, 0, 0};
    if (targets.size() > links()) return {4, 0, 0};
    for (size_t i = 0; i < targets.size(); ++i)
      if (targets[i] >= relays()) return {5, 0, i};
    for (size_t i = 0; i < targets.size(); ++i)
      if (targets[i] == s) return {6, 0, i};
    std::set<uint64_t> seen;
    for (size_t i = 0; i < targets.size(); ++i)
      if (!seen.insert(targets[i]).second) return {7, 0, i};
    return {};
  }

  // 1, 52, 2 to 7 of a plan.
  Told plan_request(uint64_t s, const Words &targets) const {
    return known() && !planned() ? Told{52, 0, 0} : request(s, targets);
  }

  // 1, 52, 2, 5, 6 of the two ends of a bundle.
  Told ends(uint64_t s, uint64_t t) const {
    if (known() && !planned()) return {52, 0, 0};
    if (const uint64_t number = pair(s, t, false)) return {number, 0, 0};
    return {s == t ? uint64_t{6} : 0, 0, 0};
  }

  // A single path of a two-level mesh, which no sheet holds.
  bool lone(size_t k) const { return kind == 2 && k == 1; }

  uint64_t most(size_t k) const { return 16 + k * (2 + 8 * longest()); }

  // What the judge says; `lacking` where another lent slice is too short.
  Told judge(uint64_t s, const Words &targets, const Words &places, const Words &counts, bool lacking = false) const {
    const Told asked = request(s, targets);
    if (asked.number) return asked;
    const size_t k = targets.size(), w = width();
    if (lacking || places.size() < k * w || counts.size() < k) return {8, 0, 0};
    std::set<uint64_t> earlier;
    for (size_t i = 0; i < k; ++i) {
      const uint64_t *path = places.data() + i * w;
      const uint64_t h = counts[i];
      if (h > longest()) return {20, i, 0};
      if (path[0] != s) return {21, i, 0};
      for (size_t p = 1; p <= h; ++p)
        if (path[p] >= relays() || !linked(path[p - 1], path[p])) return {22, i, p};
      if (path[h] != targets[i]) return {23, i, h};
      std::set<uint64_t> own;
      for (size_t p = 0; p <= h; ++p) {
        if (!own.insert(path[p]).second) return {24, i, p};
        if (p > 0 && earlier.count(path[p])) return {24, i, p};
      }
      for (size_t p = h + 1; p < w; ++p)
        if (path[p] != kUnused) return {25, i, p};
      earlier.insert(own.begin(), own.end());
    }
    return {};
  }

  // What the judge says of a bundle. A relay may not stand twice on a path, nor on an earlier path too, but for the two ends at their own places; and one path at
  // most is the bare link.
  Told judge_bundle(uint64_t s, uint64_t t, const Words &places, const Words &counts, bool lacking = false) const {
    const Told asked = ends(s, t);
    if (asked.number) return asked;
    const size_t k = links(), w = longest() + 2;
    if (lacking || places.size() < k * w || counts.size() < k) return {8, 0, 0};
    std::set<uint64_t> earlier;
    bool bare = false;
    for (size_t i = 0; i < k; ++i) {
      const uint64_t *path = places.data() + i * w;
      const uint64_t h = counts[i];
      if (h > longest() + 1) return {20, i, 0};
      if (path[0] != s) return {21, i, 0};
      for (size_t p = 1; p <= h; ++p)
        if (path[p] >= relays() || !linked(path[p - 1], path[p])) return {22, i, p};
      if (path[h] != t) return {23, i, h};
      std::set<uint64_t> own;
      for (size_t p = 0; p <= h; ++p) {
        if (!own.insert(path[p]).second) return {24, i, p};
        if (p != 0 && p != h && earlier.count(path[p])) return {24, i, p};
        if (p == 1 && h == 1 && bare) return {24, i, p};
      }
      for (size_t p = h + 1; p < w; ++p)
        if (path[p] != kUnused) return {25, i, p};
      earlier.insert(own.begin(), own.end());
      bare = bare || h == 1;
    }
    return {};
  }
};

// What has failed: the relays that have stopped, and the cuts, pair j at places 2j and 2j + 1.
struct Failed {
  Words stopped, cuts;

  // The pairs, the lower number first; a last number without a partner is none.
  std::set<std::pair<uint64_t, uint64_t>> pairs() const {
    std::set<std::pair<uint64_t, uint64_t>> all;
    for (size_t j = 0; j + 1 < cuts.size(); j += 2) all.insert(std::minmax(cuts[j], cuts[j + 1]));
    return all;
  }

  bool has_stopped(uint64_t u) const { return std::find(stopped.begin(), stopped.end(), u) != stopped.end(); }

  // Whether a relay of the path, or a link of it, has failed.
  bool breaks(const uint64_t *path, size_t hops) const {
    const auto cut = pairs();
    for (size_t p = 0; p <= hops; ++p) {
      if (has_stopped(path[p])) return true;
      if (p && cut.count(std::minmax(path[p - 1], path[p]))) return true;
    }
    return false;
  }

  // How many different relays of the mesh, and different links of it.
  size_t count(const Mesh &mesh) const {
    size_t n = 0;
    for (uint64_t u : std::set<uint64_t>(stopped.begin(), stopped.end())) n += u < mesh.relays();
    for (const auto &two : pairs()) n += two.second < mesh.relays() && mesh.linked(two.first, two.second);
    return n;
  }
};

inline void put(Bytes &out, uint64_t value, int n) {
  for (int i = n - 1; i >= 0; --i) out.push_back(static_cast<uint8_t>(value >> (8 * i)));
}

inline uint64_t number(const Bytes &from, size_t at, int n) {
  uint64_t value = 0;
  for (int i = 0; i < n; ++i) value = value << 8 | from[at + i];
  return value;
}

using Zones = std::vector<uint32_t>;

// The sheet of k paths that lie as lent; in version 2 with their zones.
inline Bytes sheet(const Mesh &mesh, uint64_t s, size_t k, const Words &places, const Words &counts, uint8_t version = 1, const Zones &zones = {}) {
  Bytes body{version, static_cast<uint8_t>(mesh.kind), static_cast<uint8_t>(mesh.size), static_cast<uint8_t>(k)};
  put(body, s, 8);
  for (size_t i = 0; i < k; ++i) {
    put(body, counts[i], 2);
    if (version == 2) put(body, zones[i], 4);
    for (size_t p = 1; p <= counts[i]; ++p) put(body, places[i * mesh.width() + p], 8);
  }
  Bytes all;
  put(all, body.size(), 4);
  all.insert(all.end(), body.begin(), body.end());
  return all;
}

struct Reading {
  Told told;
  Mesh mesh{0, 0};
  uint64_t source = 0;
  size_t k = 0;
  Words places, counts, targets;
  uint64_t version = 0;
  Zones zones;
};

constexpr size_t kRoom = ~size_t{0};

// What the reader of those versions says of bytes, with so many places, counts, and places for targets and zones.
inline Reading read(const Bytes &bytes, size_t places, size_t counts, size_t targets, const std::set<uint64_t> &versions = {1}, size_t zones = kRoom) {
  Reading r;
  const auto flaw = [](uint64_t n, uint64_t path = 0, uint64_t place = 0) {
    Reading bad;
    bad.told = {n, path, place};
    return bad;
  };
  if (bytes.size() < 16 || number(bytes, 0, 4) != bytes.size() - 4) return flaw(30);
  if (!versions.count(bytes[4])) return flaw(31);
  r.version = bytes[4];
  r.mesh = {bytes[5], bytes[6]};
  if (!r.mesh.planned()) return flaw(32);
  r.k = bytes[7];
  if (r.k == 0 || r.k > r.mesh.links()) return flaw(33);
  if (r.mesh.lone(r.k)) return flaw(37);
  const size_t w = r.mesh.width();
  if (places < r.k * w || counts < r.k || targets < r.k || zones < r.k) return flaw(8);
  r.source = number(bytes, 8, 8);
  size_t at = 16;
  for (size_t i = 0; i < r.k; ++i) {
    if (bytes.size() - at < 2) return flaw(30);
    const uint64_t h = number(bytes, at, 2);
    if (h == 0 || h > r.mesh.longest()) return flaw(34, i);
    const size_t head = r.version == 2 ? 6 : 2;
    if (bytes.size() - at < head + 8 * h) return flaw(30);
    r.zones.push_back(r.version == 2 ? number(bytes, at + 2, 4) : 0);
    at += head;
    r.counts.push_back(h);
    r.places.push_back(r.source);
    for (size_t p = 0; p < h; ++p, at += 8) r.places.push_back(number(bytes, at, 8));
    r.targets.push_back(r.places.back());
    r.places.resize((i + 1) * w, kUnused);
  }
  if (at != bytes.size()) return flaw(36);
  const Told told = r.mesh.judge(r.source, r.targets, r.places, r.counts);
  if (told.number) return flaw(told.number, told.path, told.place);
  return r;
}

}  // namespace model

#endif
