// One table of all public calls: nanoseconds of the library's, of the same in C++ built with -O2, their ratio, what the ratio is to be at most where a bar is set, and the stack of
// the library's call. The rows of one mesh are measured together, on the same requests at random: the best of many bursts, in turn.
#include "measure.hpp"
#include "planner.hpp"
#include "two_masks.hpp"
#include "two_planner.hpp"
#include "vectors.hpp"

#include <memory>
#include <random>
#include <set>

namespace {

using measure::calls, measure::Calls, measure::Row;

std::mt19937_64 random_number(2027);

void agree(bool same) {
  if (same) return;
  std::printf("bench: the library and the C++ disagree\n");
  std::abort();
}

// A request with all links, its answers, and what other calls are asked of it.
struct Case {
  uint64_t source, target;  // the two ends of a route and of a bundle
  std::vector<uint64_t> targets, places, counts, bundle, bundle_counts, ends;
  std::vector<uint8_t> bytes, sheet;
};

// What calls write to.
struct Out {
  uint64_t places[6 * 208], counts[32], targets[32], ends[32], hops[32], wholes[32];
  uint8_t bytes[10000];
} out, other;

constexpr size_t kPlaces = sizeof out.places / 8, kBytes = sizeof out.bytes;

struct Mesh {
  uint64_t kind, size, relays, links, width;
  std::string name;
  std::vector<Case> all;
  size_t timed;
  std::vector<size_t> looked;  // requests whose stack is seen
  std::vector<uint64_t> stopped;
  std::vector<Row> rows;

  Mesh(uint64_t a_kind, uint64_t a_size) : kind(a_kind), size(a_size) {
    const GustFacts facts = gust_facts(kind, size);
    relays = facts.relays, links = facts.links, width = facts.places;
    name = (kind == GUST_CUBE ? "cube " : "order ") + std::to_string(size);
    timed = std::clamp<size_t>((1 << 20) / (8 * links * width), 128, 1024);
    while (all.size() < timed) all.push_back(fill(random_targets()));
    for (size_t i = 0; i < 24; ++i) looked.push_back(i);
    if (kind == GUST_CUBE) {
      looked.push_back(all.size());
      all.push_back(fill(nested_targets()));
    }
    stop(3);
  }

  void stop(size_t n, uint64_t from = 0) {
    stopped.assign(n, 0);
    for (uint64_t &x : stopped) x = from + random_number() % relays;
  }

  // Half of the requests of a two-level mesh are crowded into two blocks.
  Case random_targets() {
    Case c;
    c.source = random_number() % relays;
    const uint64_t near = random_number() % relays, slots = (uint64_t{1} << size) - 1;
    std::set<uint64_t> seen{c.source};
    while (c.targets.size() < links) {
      uint64_t t = random_number() % relays;
      if (kind == GUST_TWO_LEVEL && all.size() % 2 && random_number() % 8) t = ((random_number() % 2 ? c.source : near) & ~slots) | (t & slots);
      if (seen.insert(t).second) c.targets.push_back(t);
    }
    return c;
  }

  // Targets that are nested in one another make the cube planner's recursion as deep as it can be.
  Case nested_targets() {
    Case c;
    c.source = 0;
    for (uint64_t i = 2; i <= size; ++i) c.targets.push_back((uint64_t{1} << i) - 1);
    c.targets.push_back(2);
    return c;
  }

  Case fill(Case c) {
    c.target = c.targets[0];
    c.places.resize(links * width), c.counts.resize(links), c.bundle.resize(links * (width + 1)), c.bundle_counts.resize(links);
    agree(!gust_fan(kind, size, c.source, c.targets.data(), links, c.places.data(), c.places.size(), c.counts.data(), links).number);
    agree(!gust_bundle(kind, size, c.source, c.target, c.bundle.data(), c.bundle.size(), c.bundle_counts.data(), links).number);
    for (uint64_t i = 0; i < links; ++i) {
      const uint64_t end = same::link(kind, size, c.target, i);
      c.ends.push_back(end == c.source ? c.target : end);
    }
    c.bytes.resize(8 * links);
    for (uint64_t i = 0; i < links; ++i) same::put8(&c.bytes[8 * i], c.targets[i]);
    c.sheet.resize(kBytes);
    const GustAnswer written =
        gust_write_sheet(kind, size, c.source, c.targets.data(), links, c.places.data(), c.places.size(), c.counts.data(), links, c.sheet.data(), kBytes);
    agree(!written.number);
    c.sheet.resize(written.value);
    return c;
  }

  template <class Ours, class Theirs>
  void row(const char *call, const char *beside, double bar, Ours ours, Theirs theirs) {
    const auto with = [this](auto once) { return calls([this, once](size_t i) { once(all[i]); }); };
    rows.push_back({call, name, beside, with(ours), with(theirs), bar});
  }

  void run(double seconds) { measure::measure(rows, timed, looked, seconds); }

  // The nanoseconds of the row of a call.
  double time(const std::string &call) const {
    for (const Row &r : rows)
      if (r.call == call) return r.a;
    std::abort();
  }
};

// ---- the rows of a mesh

void meshes(Mesh &m) {
  const uint64_t kind = m.kind, size = m.size;
  m.row("facts", "C++", 0, [=](Case &) { out.ends[0] = gust_facts(kind, size).places; }, [=](Case &) { other.ends[0] = same::facts(kind, size).places; });
  m.row("linked", "C++", 0, [=](Case &c) { out.ends[0] = gust_linked(kind, size, c.source, c.target).value; },
        [=](Case &c) { other.ends[0] = same::linked(kind, size, c.source, c.target).value; });
  if (kind == GUST_TWO_LEVEL && size <= 3)
    m.row("distance", "C++ by a table", 3, [=](Case &c) { out.ends[0] = gust_distance(kind, size, c.source, c.target).value; },
          [=](Case &c) { other.ends[0] = same::distance(kind, size, c.source, c.target).value; });
  m.row("next_hop", "C++", 2, [=](Case &c) { gust_next_hop(kind, size, c.source, c.target, out.bytes, 8); },
        [=](Case &c) { same::next_hop(kind, size, c.source, c.target, other.bytes, 8); });
  m.row("route", "C++ by hop", 2, [=](Case &c) { gust_route(kind, size, c.source, c.target, out.places, kPlaces); },
        [=](Case &c) { same::route(kind, size, c.source, c.target, other.places, kPlaces); });
}

void planners(Mesh &m) {
  const uint64_t kind = m.kind, size = m.size, k = m.links;
  const auto fan = [=](Case &c) { gust_fan(kind, size, c.source, c.targets.data(), k, out.places, kPlaces, out.counts, 32); };
  const auto plan = [=](Case &c) { gust_plan(kind, size, c.source, c.bytes.data(), c.bytes.size(), out.bytes, kBytes); };
  const auto bundle = [=](Case &c) { gust_bundle(kind, size, c.source, c.target, out.places, kPlaces, out.counts, 32); };
  m.row("fan", "C++ by masks", 0, fan, [=](Case &c) { masks::fan(kind, size, c.source, c.targets.data(), k, other.places, kPlaces, other.counts, 32); });
  m.row("fan", "C++ by vectors", 1.3, fan, [=](Case &c) { vectors::fan(kind, size, c.source, c.targets.data(), k, other.places, kPlaces, other.counts, 32); });
  m.row("fan", "C++ plain", 0, fan, [=](Case &c) {
    const auto reference = kind == GUST_CUBE ? reference::plan : reference::plan_two;
    reference(size, c.source, c.targets.data(), k, other.places, kPlaces, other.counts, 32);
  });
  m.row("plan", "C++ by masks", 0, plan, [=](Case &c) { masks::sheet(kind, size, c.source, c.bytes.data(), c.bytes.size(), other.bytes, kBytes); });
  m.row("plan", "our fan", kind == GUST_TWO_LEVEL && size > 1 ? 1.25 : 0, plan, fan);
  m.row("bundle", "C++ by masks", 0, bundle, [=](Case &c) { masks::bundle(kind, size, c.source, c.target, other.places, kPlaces, other.counts, 32); });
  m.row("bundle", "our fan to its ends", 1.3, bundle,
        [=](Case &c) { gust_fan(kind, size, c.source, c.ends.data(), k, other.places, kPlaces, other.counts, 32); });
}

void judges(Mesh &m) {
  const uint64_t kind = m.kind, size = m.size, k = m.links;
  const bool barred = size > (kind == GUST_CUBE ? 3 : 1);
  m.row("judge", "C++ by a table", barred ? 2 : 0,
        [=](Case &c) { agree(!gust_judge(kind, size, c.source, c.targets.data(), k, c.places.data(), c.places.size(), c.counts.data(), k).number); },
        [=](Case &c) { agree(!same::judge<false>(kind, size, c.source, c.targets.data(), k, c.places.data(), c.counts.data())); });
  m.row("judge_bundle", "C++ by a table", barred ? 2 : 0,
        [=](Case &c) { agree(!gust_judge_bundle(kind, size, c.source, c.target, c.bundle.data(), c.bundle.size(), c.bundle_counts.data(), k).number); },
        [=](Case &c) { agree(!same::judge<true>(kind, size, c.source, &c.target, k, c.bundle.data(), c.bundle_counts.data())); });
}

// With the relays of `stopped`, which the mesh keeps.
void survivors(Mesh &m, const char *call, double bar) {
  const uint64_t kind = m.kind, size = m.size, k = m.links;
  const std::vector<uint64_t> *stopped = &m.stopped;
  m.row(call, "C++ by bits", bar,
        [=](Case &c) {
          static uint64_t none[2];
          static uint32_t zones[32], sites[32];
          out.targets[0] = gust_survivors(kind, size, c.source, c.targets.data(), k, c.places.data(), c.places.size(), c.counts.data(), k, zones, 32, stopped->data(),
                                          stopped->size(), none, 0, out.ends, 32, out.hops, 32, out.wholes, 32, sites, 32)
                               .value;
        },
        [=](Case &c) {
          other.targets[0] = same::survivors<false>(kind, size, c.source, c.targets.data(), k, c.places.data(), c.counts.data(), *stopped, other.ends, other.hops, other.wholes);
        });
}

void bundle_survivors(Mesh &m) {
  const uint64_t kind = m.kind, size = m.size, k = m.links;
  const std::vector<uint64_t> *stopped = &m.stopped;
  m.row("bundle_survivors, 3 stopped", "C++ by bits", 0,
        [=](Case &c) {
          static uint64_t none[2];
          static uint32_t zones[32], sites[32];
          out.targets[0] = gust_bundle_survivors(kind, size, c.source, c.target, c.bundle.data(), c.bundle.size(), c.bundle_counts.data(), k, zones, 32, stopped->data(),
                                                 stopped->size(), none, 0, out.ends, 32, out.hops, 32, out.wholes, 32, sites, 32)
                               .value;
        },
        [=](Case &c) {
          other.targets[0] =
              same::survivors<true>(kind, size, c.source, &c.target, k, c.bundle.data(), c.bundle_counts.data(), *stopped, other.ends, other.hops, other.wholes);
        });
}

void sheets(Mesh &m) {
  const uint64_t kind = m.kind, size = m.size, k = m.links;
  m.row("write_sheet", "C++", 0,
        [=](Case &c) {
          gust_write_sheet(kind, size, c.source, c.targets.data(), k, c.places.data(), c.places.size(), c.counts.data(), k, out.bytes, kBytes);
        },
        [=](Case &c) { same::write_sheet(kind, size, c.source, c.targets.data(), k, c.places.data(), c.counts.data(), other.bytes, kBytes); });
  m.row("read_sheet", "C++", 0, [=](Case &c) { gust_read_sheet(c.sheet.data(), c.sheet.size(), out.places, kPlaces, out.counts, 32, out.targets, 32); },
        [=](Case &c) { same::read_sheet(c.sheet.data(), c.sheet.size(), other.places, kPlaces, other.counts, other.targets, 32); });
}

// ---- both sides of every row are asked, and leave the same; a planner's fan may be another, and is judged

void compare(Mesh &m) {
  for (Case &c : m.all) {
    for (Row &r : m.rows) {
      const size_t i = static_cast<size_t>(&c - m.all.data());
      std::memset(&out, 0, sizeof out);
      std::memset(&other, 0, sizeof other);
      r.ours(i, i + 1);
      r.theirs(i, i + 1);
      if (r.beside.compare(0, 3, "our") == 0) continue;
      if (r.call == "fan") {
        agree(!gust_judge(m.kind, m.size, c.source, c.targets.data(), m.links, other.places, kPlaces, other.counts, 32).number);
      } else if (r.call == "bundle") {
        agree(!gust_judge_bundle(m.kind, m.size, c.source, c.target, other.places, kPlaces, other.counts, 32).number);
      } else if (r.call == "plan") {
        std::vector<uint8_t> sheet(other.bytes, other.bytes + 4 + (same::get8(other.bytes) >> 32));
        const GustReading read = gust_read_sheet(sheet.data(), sheet.size(), other.places, kPlaces, other.counts, 32, other.targets, 32);
        agree(!read.number && !std::memcmp(other.targets, c.targets.data(), 8 * m.links));
      } else {
        agree(!std::memcmp(&out, &other, sizeof out));
      }
    }
  }
}

// A bar between rows, printed as a row of its own.
void place_bar(double small, double large) {
  std::printf("| judge, a place | cube 32 | our cube 8 | %.2f | %.2f | %.2f | %s | |\n", large, small, large / small, measure::verdict(large / small, 1.5).c_str());
}

double judged_place(const Mesh &m) { return m.time("judge") / static_cast<double>(m.links * m.width); }

// ---- frames, which belong to no mesh

// Numbers that follow one another, each in so many copies, none more than 80 behind.
std::vector<uint16_t> stream(size_t copies) {
  std::vector<uint16_t> all;
  for (size_t i = 0; i < 4096; ++i) all.push_back(static_cast<uint16_t>(i / copies - random_number() % 80));
  return all;
}

// The arrivals of a stream, from a fresh record on; how many are passed is left in `passed`.
template <class Arrive>
Calls arrivals(Arrive arrive, const std::vector<uint16_t> &numbers, uint64_t *passed) {
  return [=](size_t first, size_t last) {
    GustRecord record = {0, 0};
    *passed = 0;
    for (size_t i = first; i < last; ++i) {
      const GustArrival told = arrive(record, numbers[i]);
      record = {told.newest, told.marks};
      *passed += told.number == 0;
    }
  };
}

void frames(double seconds) {
  std::vector<Row> rows;
  uint64_t passed[2];
  for (const size_t copies : {1, 4}) {
    const std::vector<uint16_t> numbers = stream(copies);
    rows.push_back({copies == 1 ? "arrive, 1 copy" : "arrive, 4 copies", "", "C++", arrivals(gust_arrive, numbers, passed), arrivals(same::arrive, numbers, passed + 1), 0});
    rows.back().ours(0, numbers.size());
    rows.back().theirs(0, numbers.size());
    agree(passed[0] == passed[1]);
  }
  measure::measure(rows, 4096, {0, 1, 2, 3}, seconds);
}

// A book of 256 sheets: a sheet found by the index, beside a search of the bytes from the front.
void books(double seconds) {
  static std::vector<uint8_t> bytes(65536);
  static std::vector<uint64_t> index(256), asked;
  static GustBook book = {0, 0};
  for (uint64_t i = 0; i < 256; ++i) {
    const uint64_t source = i * 167 % 256;
    uint8_t sheet[26] = {0, 0, 0, 22, 1, 1, 8, 1, 0, 0, 0, 0, 0, 0, 0, static_cast<uint8_t>(source), 0, 1, 0, 0, 0, 0, 0, 0, 0, static_cast<uint8_t>(source ^ 1)};
    const GustBooked added = gust_book_add(book, bytes.data(), bytes.size(), index.data(), index.size(), sheet, sizeof sheet);
    agree(added.number == 0);
    book = added.book;
  }
  for (size_t i = 0; i < 4096; ++i) asked.push_back(random_number() % 256);
  static uint64_t starts[2];
  const Calls ours = [](size_t first, size_t last) {
    starts[0] = 0;
    for (size_t i = first; i < last; ++i) starts[0] += gust_book_find(book, bytes.data(), bytes.size(), index.data(), index.size(), GUST_CUBE, 8, asked[i]).start;
  };
  const Calls theirs = [](size_t first, size_t last) {
    starts[1] = 0;
    for (size_t i = first; i < last; ++i) starts[1] += same::book_find(book, bytes.data(), GUST_CUBE, 8, asked[i]).start;
  };
  std::vector<Row> rows = {{"book_find, 256 sheets", "", "C++ from the front", ours, theirs, 0}};
  rows.back().ours(0, asked.size());
  rows.back().theirs(0, asked.size());
  agree(starts[0] == starts[1]);
  measure::measure(rows, 4096, {0, 1, 2, 3}, seconds);
}

}  // namespace

int main(int count, char **words) {
  const double seconds = count > 1 ? std::atof(words[1]) : 7;
  measure::head();
  double small = 0, large = 0;
  for (const auto &[kind, sizes] : {std::pair<uint64_t, std::vector<uint64_t>>{GUST_CUBE, {3, 8, 16, 32}}, {GUST_TWO_LEVEL, {1, 2, 3, 4, 5}}})
    for (const uint64_t size : sizes) {
      const auto m = std::make_unique<Mesh>(kind, size);
      meshes(*m);
      planners(*m);
      judges(*m);
      survivors(*m, "survivors, 3 stopped", 0);
      bundle_survivors(*m);
      sheets(*m);
      // rows of further calls: another function like these
      compare(*m);
      m->run(seconds);
      if (kind == GUST_CUBE && size == 8) small = judged_place(*m);
      if (kind == GUST_CUBE && size == 32) large = judged_place(*m);
    }
  place_bar(small, large);
  for (const bool far : {false, true}) {
    Mesh m(GUST_TWO_LEVEL, 3);
    m.stop(2000, far ? m.relays : 0);
    survivors(m, far ? "survivors, 2000 stopped, no relays" : "survivors, 2000 stopped", 2);
    compare(m);
    m.run(seconds / 2);
  }
  frames(seconds / 3);
  books(seconds / 3);
}
