// What the tests of the calls for C and C++ share: buffers with guards around them, comparisons that are counted, and the numbers that each call was met with.
#ifndef HOST_CHECKS_HPP
#define HOST_CHECKS_HPP

#include "gustparsley.h"
#include "host_model.hpp"

#include <cstdio>
#include <cstdlib>
#include <map>
#include <random>
#include <string>

using model::Bytes;
using model::Failed;
using model::Mesh;
using model::Told;
using model::Words;

inline bool small = false;
inline unsigned long long compared = 0;
inline std::mt19937_64 dice(7);

// The numbers that each call was met with.
inline std::map<std::string, std::set<uint64_t>> met;

inline uint64_t below(uint64_t n) { return n ? dice() % n : 0; }

// Failures over paths of w places each: relays on the paths and numbers that are none; links, most of them on the paths, many at the source, in either order and in
// both; pairs that are no link; and now and then a last number without a partner.
inline Failed failed(const Mesh &mesh, const Words &places, const Words &counts, size_t w) {
  Failed f;
  for (uint64_t n = below(4); n--;) f.stopped.push_back(below(4) ? places[below(places.size())] : dice());
  for (uint64_t n = below(5); n--;) {
    const size_t row = below(counts.size()), p = below(3) ? below(counts[row]) : 0;
    uint64_t u = places[row * w + p], v = places[row * w + p + 1];
    switch (below(8)) {
      case 0:
        u = below(mesh.relays());
        v = mesh.neighbours(u)[below(mesh.links())];
        break;
      case 1: v = below(mesh.relays()); break;
      case 2: v = dice(); break;
      case 3: f.cuts.insert(f.cuts.end(), {v, u}); break;
    }
    if (below(2)) std::swap(u, v);
    f.cuts.insert(f.cuts.end(), {u, v});
  }
  if (!below(3)) f.cuts.push_back(places[below(places.size())]);
  return f;
}

[[noreturn]] inline void fail(const char *what, const Mesh &mesh, uint64_t source, uint64_t got, uint64_t want) {
  std::printf("FAILED: %s: kind %llu, size %llu, source %llu: got %llu, should be %llu\n", what, (unsigned long long)mesh.kind,
              (unsigned long long)mesh.size, (unsigned long long)source, (unsigned long long)got, (unsigned long long)want);
  std::exit(1);
}

inline void same(const char *what, const Mesh &mesh, uint64_t source, uint64_t got, uint64_t want) {
  ++compared;
  if (got != want) fail(what, mesh, source, got, want);
}

// The number that a call told.
inline void numbered(const char *call, const Mesh &mesh, uint64_t source, uint64_t got, uint64_t want) {
  same(call, mesh, source, got, want);
  met[call].insert(got);
}

// A buffer of n elements with guards around it; what it held at first is kept.
template <class T>
class Lent {
 public:
  explicit Lent(size_t n) : n_(n), all_(n + 2 * kGuard) {
    for (auto &x : all_) x = static_cast<T>(dice());
    was_ = all_;
  }
  explicit Lent(const std::vector<T> &held) : Lent(held.size()) {
    std::copy(held.begin(), held.end(), all_.begin() + kGuard);
    was_ = all_;
  }
  T *data() { return all_.data() + kGuard; }
  size_t size() const { return n_; }
  std::vector<T> now() const { return {all_.begin() + kGuard, all_.end() - kGuard}; }
  // Whether the buffer begins with `front` and is else as it was, guards too.
  bool holds(const std::vector<T> &front) const {
    std::vector<T> want = was_;
    std::copy(front.begin(), front.end(), want.begin() + kGuard);
    return all_ == want;
  }
  bool untouched() const { return all_ == was_; }
  // Whether the guards are as they were, whatever the buffer holds.
  bool guarded() const {
    return std::equal(all_.begin(), all_.begin() + kGuard, was_.begin()) && std::equal(all_.end() - kGuard, all_.end(), was_.end() - kGuard);
  }

 private:
  static constexpr size_t kGuard = 8;
  size_t n_;
  std::vector<T> all_, was_;
};

inline void held(const char *what, bool ok, const Mesh &mesh, uint64_t source) {
  ++compared;
  if (!ok) fail(what, mesh, source, 0, 1);
}

inline std::vector<Mesh> meshes() {
  std::vector<Mesh> all;
  for (uint64_t n = 1; n <= 32; ++n) all.push_back({1, n});
  for (uint64_t m = 1; m <= 5; ++m) all.push_back({2, m});
  return all;
}

// Metacubes: small ones, and the largest of each number of class bits.
inline std::vector<Mesh> metacubes() {
  std::vector<Mesh> all;
  for (uint64_t size : {1, 3, 5, 65, 66, 129, 130, 193, 37, 82, 136, 196}) all.push_back({3, size});
  return all;
}

// What a call gave back, beside what it should.
inline void answered(const char *what, const Mesh &mesh, uint64_t s, const GustAnswer &a, const Told &told, uint64_t value) {
  numbered(what, mesh, s, a.number, told.number);
  same(what, mesh, s, a.path, told.path);
  same(what, mesh, s, a.place, told.place);
  same(what, mesh, s, a.value, told.number ? 0 : value);
}

// Each call was met with each number that it can tell.
inline void all_met(const std::map<std::string, std::set<uint64_t>> &every) {
  for (const auto &[call, numbers] : every)
    if (met[call] != numbers) {
      std::printf("FAILED: %s was met with %zu of %zu numbers, not with", call.c_str(), met[call].size(), numbers.size());
      for (uint64_t n : numbers)
        if (!met[call].count(n)) std::printf(" %llu", (unsigned long long)n);
      std::printf("\n");
      std::exit(1);
    }
}

#endif
