// The hops of the library's paths, beside the most that they may be: of fans in the two-level mesh with all links, half of them crowded into two blocks, and of plain routes; for
// orders 1 to 3 also the distances, and what a user would reach for, disjoint paths by Boost Graph's maximum flow over the whole mesh (flow.hpp): its hops, and its time beside
// the library's, each the best of several bursts. Then random fans and bundles beside the fewest hops in all that disjoint paths to the same targets can have (least.hpp).
#include "flow.hpp"
#include "least.hpp"
#include "measure.hpp"
#include "same.hpp"

#include <random>
#include <set>

namespace {

struct Request {
  uint64_t source;
  std::vector<uint64_t> targets;
};

std::vector<Request> requests(unsigned m, std::mt19937_64 &random) {
  const uint64_t slots = uint64_t{1} << m, mask = (slots << slots) - 1;
  std::vector<Request> all;
  while (all.size() < 256) {
    Request q{random() & mask, {}};
    const uint64_t other = random() & mask;
    std::set<uint64_t> seen{q.source};
    while (q.targets.size() < m + 1) {
      uint64_t t = random() & mask;
      if (all.size() % 2 && random() % 8) t = ((random() % 2 ? q.source : other) & ~(slots - 1)) | (t & (slots - 1));
      if (seen.insert(t).second) q.targets.push_back(t);
    }
    all.push_back(q);
  }
  return all;
}

// Average and worst of some numbers.
struct Spread {
  double sum = 0;
  uint64_t n = 0, worst = 0;
  void add(uint64_t x) {
    sum += static_cast<double>(x);
    worst = std::max(worst, x);
    ++n;
  }
  std::string text() const {
    char out[64] = "";
    if (n) std::snprintf(out, sizeof out, "%.1f, %llu", sum / static_cast<double>(n), (unsigned long long)worst);
    return out;
  }
};

// Nanoseconds of a request: the best of many bursts of all.
template <class Do>
double best(const std::vector<Request> &all, Do once) {
  double time = 1e99;
  for (int i = 0; i < 400; ++i) {
    const double start = measure::now();
    for (const Request &q : all) once(q);
    time = std::min(time, (measure::now() - start) / static_cast<double>(all.size()));
  }
  return time;
}

// The same where a call takes long: the best of each request by itself.
template <class Do>
double best_of_each(const std::vector<Request> &all, Do once) {
  double sum = 0;
  for (const Request &q : all) {
    double time = 1e99;
    for (int i = 0; i < 10; ++i) {
      const double start = measure::now();
      once(q);
      time = std::min(time, measure::now() - start);
    }
    sum += time;
  }
  return sum / static_cast<double>(all.size());
}

void row(unsigned m, std::mt19937_64 &random) {
  static uint64_t places[6 * 207], counts[6];
  const std::vector<Request> all = requests(m, random);
  const auto plan = [m](const Request &q) {
    if (gust_fan(GUST_TWO_LEVEL, m, q.source, q.targets.data(), m + 1, places, 6 * 207, counts, 6).number) std::abort();
  };
  Spread hops, routes, distances, flows;
  for (const Request &q : all) {
    plan(q);
    for (size_t i = 0; i <= m; ++i) hops.add(counts[i]);
  }
  const uint64_t relays = same::relays(GUST_TWO_LEVEL, m);
  for (int i = 0; i < 20000; ++i) routes.add(gust_route(GUST_TWO_LEVEL, m, random() % relays, random() % relays, places, 207).value);
  std::string times;
  if (m <= 3) {
    flow::Mesh mesh(m);
    for (const Request &q : all) {
      for (size_t n : mesh.plan(q.source, q.targets)) flows.add(n);
      for (size_t n : mesh.distances(q.source, q.targets)) distances.add(n);
    }
    char text[32];
    std::snprintf(text, sizeof text, "%.0f", best_of_each(all, [&](const Request &q) { mesh.plan(q.source, q.targets); }) / best(all, plan));
    times = text;
  }
  std::printf("| %u | %s, %llu | %s | %s | %s | %s, %u |\n", m, hops.text().c_str(), (unsigned long long)same::longest(GUST_TWO_LEVEL, m), distances.text().c_str(),
              flows.text().c_str(), times.c_str(), routes.text().c_str(), (2u << m) + 2 * m - 1);
}

// ---- beside the fewest hops in all

enum class Where { kAnywhere, kOneBlock, kBundle };

// A source, and targets anywhere, in one block that is not the source's, or, for a bundle, one target.
Request drawn(unsigned m, size_t k, Where where, std::mt19937_64 &random) {
  const uint64_t slots = uint64_t{1} << m, mask = (slots << slots) - 1;
  Request q{random() & mask, {}};
  uint64_t block = q.source & ~(slots - 1);
  while (block == (q.source & ~(slots - 1))) block = random() & mask & ~(slots - 1);
  std::set<uint64_t> seen{q.source};
  while (q.targets.size() < k) {
    const uint64_t t = where == Where::kOneBlock ? block | (random() & (slots - 1)) : random() & mask;
    if (seen.insert(t).second) q.targets.push_back(t);
  }
  return q;
}

// The hops of a bundle's paths but for the last hop of each, which every bundle has: those of a fan to the relays linked to its target, where the bare link has none.
std::vector<uint64_t> ends_of(const least::Mesh &mesh, unsigned m, uint64_t source, uint64_t target) {
  std::vector<uint64_t> ends;
  for (unsigned i = 0; i <= m; ++i)
    if (mesh.link(target, i) != source) ends.push_back(mesh.link(target, i));
  return ends;
}

void beside_least(unsigned m, size_t k, Where where, const char *what, std::mt19937_64 &random) {
  static uint64_t places[6 * 208], counts[6];
  static std::vector<least::Mesh> meshes;
  while (meshes.size() < 3) meshes.emplace_back(static_cast<unsigned>(meshes.size() + 1));
  Spread ours, fewest;
  unsigned longer = 0, asked = 20000;
  for (unsigned n = 0; n < asked; ++n) {
    const Request q = drawn(m, k, where, random);
    if (where == Where::kBundle) {
      // of a target that is linked to the source the flow would go through the target; such pairs are few
      if (gust_linked(GUST_TWO_LEVEL, m, q.source, q.targets[0]).value) continue;
      if (gust_bundle(GUST_TWO_LEVEL, m, q.source, q.targets[0], places, 6 * 208, counts, 6).number) std::abort();
      for (size_t i = 0; i <= m; ++i) ours.add(counts[i] - 1);
      for (uint64_t hops : meshes[m - 1].plan(q.source, ends_of(meshes[m - 1], m, q.source, q.targets[0]))) fewest.add(hops);
      continue;
    }
    if (gust_fan(GUST_TWO_LEVEL, m, q.source, q.targets.data(), k, places, 6 * 207, counts, 6).number) std::abort();
    for (size_t i = 0; i < k; ++i) ours.add(counts[i]);
    if (k == 1) {
      static uint64_t route[207];
      longer += counts[0] > gust_route(GUST_TWO_LEVEL, m, q.source, q.targets[0], route, 207).value;
    }
    if (m <= 3)
      for (uint64_t hops : meshes[m - 1].plan(q.source, q.targets)) fewest.add(hops);
  }
  char ratio[32] = "", route[32] = "";
  if (fewest.n) std::snprintf(ratio, sizeof ratio, "%.2f", ours.sum / fewest.sum);
  if (k == 1 && where == Where::kAnywhere) std::snprintf(route, sizeof route, "%.1f %%", 100.0 * longer / asked);
  std::printf("| %u, %s | %s | %s | %s | %s |\n", m, what, ours.text().c_str(), fewest.text().c_str(), ratio, route);
}

}  // namespace

int main() {
  std::mt19937_64 random(2025);
  std::printf(
      "| order | hops of a fan: average, worst, at most | distances: average, worst | Boost's hops: average, worst | Boost's time to ours | hops of a route: average, worst seen, at most "
      "|\n|---|---|---|---|---|---|\n");
  for (unsigned m = 1; m <= 5; ++m) row(m, random);
  std::printf(
      "\n| order, 20,000 random requests | our hops: average, worst | the fewest in all: average, worst | ratio | longer than the plain route |\n|---|---|---|---|---|\n");
  for (unsigned m = 1; m <= 3; ++m) {
    beside_least(m, 1, Where::kAnywhere, "1 target", random);
    beside_least(m, m + 1, Where::kAnywhere, "all links", random);
  }
  beside_least(3, 2, Where::kAnywhere, "2 targets", random);
  beside_least(3, 4, Where::kOneBlock, "all links, all targets in one block", random);
  beside_least(3, 1, Where::kBundle, "bundles, but for the last hop of each path", random);
  beside_least(4, 5, Where::kAnywhere, "all links", random);
  beside_least(5, 6, Where::kAnywhere, "all links", random);
}
