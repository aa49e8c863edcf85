// The calls for C and C++ compared with tests/host_model.hpp: every kind of good and bad input, guard bytes around every buffer, and every slice compared
// afterwards with what it should hold. `host small` runs a part, for a slow machine such as valgrind's.
#include "host_checks.hpp"

#include <cstring>

namespace {

Bytes bytes_of(const Words &words) {
  Bytes all;
  for (uint64_t x : words) model::put(all, x, 8);
  return all;
}

// ---- facts

void facts() {
  Words kinds{0, 1, 2, 3, 4, 257, ~uint64_t{0}}, sizes{64, 65, 255, 256, 257, uint64_t{1} << 32, ~uint64_t{0}};
  for (uint64_t n = 0; n <= 260; ++n) sizes.push_back(n);
  for (uint64_t kind : kinds)
    for (uint64_t size : sizes) {
      const Mesh mesh{kind, size};
      const GustFacts f = gust_facts(kind, size);
      const bool k = mesh.known();
      numbered("facts", mesh, 0, f.number, k ? 0 : 1);
      same("facts: path and place", mesh, 0, f.path + f.place, 0);
      same("facts: relays", mesh, 0, f.relays, k ? mesh.relays() : 0);
      same("facts: links", mesh, 0, f.links, k ? mesh.links() : 0);
      same("facts: longest", mesh, 0, f.longest, k ? mesh.longest() : 0);
      same("facts: places", mesh, 0, f.places, k ? mesh.width() : 0);
    }
}

// ---- a source and a target

void next_hop(const Mesh &mesh, uint64_t s, uint64_t t, size_t room) {
  Lent<uint8_t> out(room);
  uint64_t number = mesh.pair(s, t, false);
  if (!number && room < 8) number = 8;
  const uint64_t code = gust_next_hop(mesh.kind, mesh.size, s, t, out.data(), out.size());
  numbered("next hop", mesh, s, code / 256, number);
  same("next hop: place", mesh, s, code % 256, 0);
  held("next hop: bytes", number ? out.untouched() : out.holds(bytes_of({mesh.next(s, t)})), mesh, s);
}

void route(const Mesh &mesh, uint64_t s, uint64_t t, size_t room) {
  Lent<uint64_t> out(room);
  uint64_t number = mesh.pair(s, t, false);
  const Words way = number ? Words{} : mesh.route(s, t);
  if (!number && room < way.size()) number = 8;
  answered("route", mesh, s, gust_route(mesh.kind, mesh.size, s, t, out.data(), out.size()), {number, 0, 0}, way.empty() ? 0 : way.size() - 1);
  held("route: places", number ? out.untouched() : out.holds(way), mesh, s);
}

void pair(const Mesh &mesh, uint64_t s, uint64_t t) {
  const uint64_t number = mesh.pair(s, t, false);
  answered("linked", mesh, s, gust_linked(mesh.kind, mesh.size, s, t), {number, 0, 0}, number ? 0 : mesh.linked(s, t));
  for (size_t room : {0, 7, 8, 9}) next_hop(mesh, s, t, room);
  const size_t length = number ? 1 : mesh.route(s, t).size();
  for (size_t room : {size_t{0}, length - 1, length, length + 3}) route(mesh, s, t, room);
}

void pairs() {
  const Words far{~uint64_t{0}, uint64_t{1} << 63, uint64_t{1} << 37, uint64_t{1} << 32};
  std::vector<Mesh> all = meshes();
  for (Mesh mesh : metacubes()) all.push_back(mesh);
  for (Mesh mesh : all) {
    const uint64_t n = mesh.relays();
    if (n <= 64 && !small) {
      for (uint64_t s = 0; s < n; ++s)
        for (uint64_t t = 0; t < n; ++t) pair(mesh, s, t);
    } else {
      for (int i = 0; i < (small ? 3 : 300); ++i) {
        const uint64_t s = below(n);
        pair(mesh, s, below(n));
        const Words near = mesh.neighbours(s);
        pair(mesh, s, near[below(near.size())]);
        pair(mesh, s, s);
      }
    }
    for (uint64_t x : far) {
      pair(mesh, x, below(n));
      pair(mesh, below(n), x);
      pair(mesh, x, x);
    }
    pair(mesh, n - 1, n);
    pair(mesh, n, n - 1);
  }
  for (Mesh mesh : {Mesh{0, 1}, Mesh{1, 0}, Mesh{1, 33}, Mesh{2, 0}, Mesh{2, 6}, Mesh{3, 0}, Mesh{3, 38}, Mesh{3, 64}, Mesh{3, 83}, Mesh{3, 197}, Mesh{3, 257}, Mesh{4, 1}, Mesh{258, 1}, Mesh{~uint64_t{0}, 1}, Mesh{1, ~uint64_t{0}}}) {
    pair(mesh, 0, 1);
    pair(mesh, ~uint64_t{0}, 0);
  }
}

void distances() {
  for (Mesh mesh : meshes()) {
    const bool answers = mesh.kind == 2 && mesh.size <= 3;
    for (int i = 0; i < (small ? 1 : answers ? 60 : 3); ++i) {
      const uint64_t s = below(mesh.relays());
      const Words far = answers ? mesh.distances(s) : Words{};
      for (uint64_t t = 0; t < (answers ? mesh.relays() : 3); ++t)
        answered("distance", mesh, s, gust_distance(mesh.kind, mesh.size, s, t), {mesh.pair(s, t, true), 0, 0}, answers ? far[t] : 0);
    }
    for (uint64_t x : {mesh.relays(), ~uint64_t{0}}) {
      answered("distance", mesh, x, gust_distance(mesh.kind, mesh.size, x, 0), {mesh.pair(x, 0, true), 0, 0}, 0);
      answered("distance", mesh, 0, gust_distance(mesh.kind, mesh.size, 0, x), {mesh.pair(0, x, true), 0, 0}, 0);
    }
  }
  answered("distance", {2, 6}, 0, gust_distance(2, 6, ~uint64_t{0}, 0), {1, 0, 0}, 0);
  for (uint64_t size : {1, 65, 196}) answered("distance", {3, size}, 0, gust_distance(3, size, ~uint64_t{0}, 0), {52, 0, 0}, 0);
  for (uint64_t size : {0, 64, 197}) answered("distance", {3, size}, 0, gust_distance(3, size, ~uint64_t{0}, 0), {1, 0, 0}, 0);
}

// ---- requests

// k targets of a mesh, each another relay than the source, some of them near each other.
Words aims(const Mesh &mesh, uint64_t s, size_t k) {
  std::set<uint64_t> all;
  Words list;
  while (list.size() < k) {
    uint64_t t = below(mesh.relays());
    if (below(2)) {
      const Words near = mesh.neighbours(below(2) || list.empty() ? s : list.back());
      t = near[below(near.size())];
    }
    if (t != s && all.insert(t).second) list.push_back(t);
  }
  return list;
}

size_t paths_of(const Mesh &mesh) { return 1 + below(std::min(mesh.links(), mesh.relays() - 1)); }

// gust_plan of target bytes into so much room; its sheet, where it gives one.
Bytes plan(const Mesh &mesh, uint64_t s, const Bytes &asked, size_t room) {
  Lent<uint8_t> in(asked), out(room);
  Told told;
  Words targets;
  if (asked.size() % 8) {
    told.number = 10;
  } else {
    for (size_t i = 0; i < asked.size(); i += 8) targets.push_back(model::number(asked, i, 8));
    told = mesh.plan_request(s, targets);
    if (!told.number && mesh.lone(targets.size())) told.number = 37;
    if (!told.number && room < mesh.most(targets.size())) told.number = 8;
  }
  const uint64_t code = gust_plan(mesh.kind, mesh.size, s, in.data(), in.size(), out.data(), out.size());
  numbered("plan", mesh, s, code / 256, told.number);
  same("plan: place", mesh, s, code % 256, told.place);
  held("plan: target bytes", in.untouched(), mesh, s);
  if (told.number) {
    held("plan: bytes of a refusal", out.untouched(), mesh, s);
    return {};
  }
  Bytes now = out.now();
  const size_t length = model::number(now, 0, 4) + 4;
  held("plan: length", length <= room, mesh, s);
  now.resize(length);
  held("plan: bytes after the sheet", out.holds(now), mesh, s);
  const model::Reading r = model::read(now, ~size_t{0}, 32, 32);
  same("plan: what the model reads", mesh, s, r.told.number, 0);
  held("plan: head", r.mesh.kind == mesh.kind && r.mesh.size == mesh.size && r.source == s && r.targets == targets, mesh, s);
  return now;
}

void plans() {
  for (Mesh mesh : meshes()) {
    for (int i = 0; i < (small ? 2 : 60); ++i) {
      const uint64_t s = below(mesh.relays());
      const size_t k = paths_of(mesh);
      Words targets = aims(mesh, s, k);
      const size_t most = mesh.most(k);
      plan(mesh, s, bytes_of(targets), most);
      plan(mesh, s, bytes_of(targets), most + below(40));
      plan(mesh, s, bytes_of(targets), most - 1);
      plan(mesh, s, bytes_of(targets), below(most));
      for (int cut = 1; cut < 8; ++cut) {
        Bytes odd = bytes_of(targets);
        odd.resize(odd.size() - cut);
        plan(mesh, s, odd, most);
      }
      // faults, one or more at once, in any order
      for (int j = 0; j < 12; ++j) {
        Words bad = targets;
        uint64_t from = s;
        for (int f = 0; f < 1 + (int)below(3); ++f) switch (below(6)) {
            case 0: bad[below(bad.size())] = mesh.relays() + below(2) * below(~uint64_t{0} - mesh.relays()); break;
            case 1: bad[below(bad.size())] = s; break;
            case 2: bad[below(bad.size())] = bad[below(bad.size())]; break;
            case 3: bad.push_back(below(mesh.relays())); break;
            case 4: from = below(2) ? mesh.relays() : ~uint64_t{0}; break;
            case 5: bad.resize(mesh.links() + 1 + below(3), bad[0]); break;
          }
        plan(mesh, from, bytes_of(bad), below(2) ? mesh.most(bad.size()) : below(most));
      }
    }
    plan(mesh, 0, {}, 100);
    for (size_t k : {size_t{31}, size_t{32}, size_t{33}, size_t{34}, size_t{300}}) {
      Words many;
      for (size_t i = 0; i < k; ++i) many.push_back(i + 1);
      plan(mesh, 0, bytes_of(many), mesh.most(k));
      plan(mesh, mesh.relays(), bytes_of(many), 0);
    }
  }
  for (Mesh mesh : {Mesh{0, 1}, Mesh{1, 0}, Mesh{1, 33}, Mesh{2, 6}, Mesh{3, 2}, Mesh{3, 65}, Mesh{3, 196}, Mesh{3, 64}, Mesh{4, 2}, Mesh{257, 3}, Mesh{2, uint64_t{1} << 40}}) {
    plan(mesh, 0, bytes_of({1, 2}), 9999);
    plan(mesh, 0, {}, 0);
    plan(mesh, 0, bytes_of(Words(40, 5)), 10);
    plan(mesh, ~uint64_t{0}, Bytes(9), 10);
  }
}

// ---- the specification's worked cases, by the numbers that stand there

Words routed(uint64_t kind, uint64_t size, uint64_t s, uint64_t t) {
  Words way(100);
  const GustAnswer a = gust_route(kind, size, s, t, way.data(), way.size());
  way.resize(a.value + 1);
  return way;
}

Words links(uint64_t kind, uint64_t size, uint64_t u) {
  Words all;
  for (uint64_t v = 0; v < gust_facts(kind, size).relays; ++v)
    if (gust_linked(kind, size, u, v).value) all.push_back(v);
  return all;
}

Bytes planned(uint64_t kind, uint64_t size, uint64_t s, const Words &targets) { return plan({kind, size}, s, bytes_of(targets), 9999); }

uint64_t refused(uint64_t kind, uint64_t size, uint64_t s, const Words &targets) {
  Bytes asked = bytes_of(targets), out(9999);
  return gust_plan(kind, size, s, asked.data(), asked.size(), out.data(), out.size());
}

void cases() {
  const auto is = [](const char *what, bool ok) { held(what, ok, {0, 0}, 0); };
  is("case A", links(2, 2, 0) == Words{1, 2, 4});
  is("case B", links(2, 2, 27) == Words{25, 26, 59});
  is("case C", routed(1, 4, 0, 11) == Words{0, 1, 3, 11});
  is("case D", routed(2, 2, 0, 23) == Words{0, 4, 6, 22, 23});
  is("case E", routed(2, 2, 23, 0) == Words{23, 22, 20, 16, 18, 2, 0});
  const Words far{0, 1, 1, 2, 3, 2, 4, 3};
  for (uint64_t t = 0; t < 8; ++t) is("case F", gust_distance(2, 1, 0, t).value == far[t]);
  const model::Reading g = model::read(planned(1, 2, 0, {3, 1}), 99, 9, 9), h = model::read(planned(2, 1, 0, {4, 6}), 99, 9, 9);
  is("case G", g.counts == Words{2, 1} && g.places == Words{0, 2, 3, model::kUnused, 0, 1, model::kUnused, model::kUnused});
  is("case H", h.counts == Words{3, 4} && Words(h.places.begin(), h.places.begin() + 4) == Words{0, 1, 5, 4} &&
                   Words(h.places.begin() + 11, h.places.begin() + 16) == Words{0, 2, 3, 7, 6});
  is("case I", planned(1, 1, 0, {1}) == Bytes{0, 0, 0, 22, 1, 1, 1, 1, 0, 0, 0, 0, 0, 0, 0, 0, 0, 1, 0, 0, 0, 0, 0, 0, 0, 1});
  is("case J", refused(1, 32, 0, {1}) == 0 && refused(1, 33, 0, {1}) == 256 && refused(1, 0, 0, {1}) == 256 && refused(2, 5, 0, {1, 2}) == 0 &&
                   refused(2, 6, 0, {1, 2}) == 256);
  is("case K", refused(2, 3, 0, {1, 2, 4, 8}) == 0 && refused(2, 3, 0, {1, 2, 4, 8, 16}) == 4 * 256);
  is("case L", refused(2, 1, 7, {0, 1}) == 0 && refused(2, 1, 8, {0, 1}) == 2 * 256 && refused(2, 1, 0, {7, 1}) == 0 && refused(2, 1, 0, {8, 1}) == 5 * 256);
  is("case M", refused(1, 3, 0, {1, 0, 1}) == 6 * 256 + 1);
  is("metacube: facts", gust_facts(3, 66).relays == 32 && gust_facts(3, 130).longest == 13 && gust_facts(3, 196).links == 7 && gust_facts(3, 196).places == 43 && gust_facts(3, 37).links == 37);
  is("metacube: links", links(3, 130, 0) == Words{1, 2, 256, 512} && links(3, 130, 256) == Words{0, 260, 264, 768});
  is("metacube: routes", routed(3, 66, 0, 31) == Words{0, 1, 3, 19, 23, 31} && routed(3, 66, 16, 3) == Words{16, 0, 1, 3} && routed(3, 3, 0, 5) == Words{0, 1, 5});
  is("metacube: round the cycle", routed(3, 129, 32, 8) == Words{32, 0, 16, 48, 56, 40, 8} && routed(3, 129, 0, 48) == Words{0, 16, 48} && routed(3, 129, 63, 32).size() == 10);
  is("metacube: not planned", refused(3, 65, 0, {1}) == 13312 && refused(3, 64, 0, {1}) == 256);
}

// Lone paths: refused as sheets of a two-level mesh, after 10, 1, 52 and 2 to 7 and before 8; cubes keep them, and so does the planner in memory.
void lone() {
  const auto is = [](const char *what, bool ok) { held(what, ok, {2, 1}, 0); };
  const auto code = [](uint64_t kind, uint64_t size, uint64_t s, const Bytes &asked, size_t room) {
    Lent<uint8_t> in(asked), out(room);
    return gust_plan(kind, size, s, in.data(), in.size(), out.data(), out.size());
  };
  const Bytes five = bytes_of({5});
  for (size_t room : {size_t{0}, size_t{97}, size_t{98}, size_t{999}}) is("lone: 37", code(2, 1, 0, five, room) == 9472);
  is("lone: 5", code(2, 1, 0, bytes_of({8}), 0) == 1280);
  is("lone: 6", code(2, 1, 0, bytes_of({0}), 0) == 1536);
  is("lone: 2", code(2, 1, 8, five, 0) == 512);
  is("lone: 1", code(2, 6, 0, five, 0) == 256);
  is("lone: 10", code(2, 1, 0, Bytes(7), 0) == 2560);
  is("lone: a cube's", code(1, 1, 0, bytes_of({1}), 34) == 0 && code(1, 1, 0, bytes_of({1}), 33) == 2048);
  is("lone: two", code(2, 1, 0, bytes_of({5, 1}), 179) == 2048 && code(2, 1, 0, bytes_of({5, 1}), 180) == 0);
  for (uint64_t m = 1; m <= 5; ++m) {
    const Mesh mesh{2, m};
    Words target{mesh.relays() - 1}, places(mesh.width()), counts(1);
    same("lone: the planner", mesh, 0, gust_fan(2, m, 0, target.data(), 1, places.data(), places.size(), counts.data(), 1).number, 0);
    same("lone: the judge", mesh, 0, gust_judge(2, m, 0, target.data(), 1, places.data(), places.size(), counts.data(), 1).number, 0);
    for (uint64_t size : {m, uint64_t{0}, uint64_t{9}})
      for (uint64_t s : {uint64_t{0}, mesh.relays()})
        for (size_t k : {size_t{0}, size_t{1}}) {
          Lent<uint8_t> out(300);
          answered("writer", mesh, s, gust_write_sheet(2, size, s, target.data(), 1, places.data(), k * places.size(), counts.data(), k, out.data(), out.size()), {37, 0, 0}, 0);
          held("writer: bytes", out.untouched(), mesh, s);
        }
  }
}

// The C++ wrapper says the same, and takes an empty span that points nowhere.
void wrapper() {
  Bytes out(8), none;
  const gust::Outcome hop = gust::next_hop(GUST_TWO_LEVEL, 2, 0, 23, out);
  same("wrapper: next hop", {2, 2}, 0, model::number(out, 0, 8), 4);
  held("wrapper: fine", bool(hop) && hop.place == 0, {2, 2}, 0);
  const gust::Outcome at = gust::plan(GUST_CUBE, 3, 0, bytes_of({1, 0, 1}), out);
  held("wrapper: case M", at.reason == gust::Reason::kTargetIsSource && at.place == 1, {1, 3}, 0);
  held("wrapper: nowhere", gust::plan(GUST_CUBE, 3, 0, none, none).reason == gust::Reason::kNoTarget, {1, 3}, 0);
  held("wrapper: a lone path", gust::plan(GUST_TWO_LEVEL, 1, 0, bytes_of({5}), none).reason == gust::Reason::kLonePath, {2, 1}, 0);
  held("wrapper: no room", gust::next_hop(GUST_CUBE, 3, 0, 1, none).reason == gust::Reason::kNoRoom, {1, 3}, 0);
}

// ---- the judge, survivors and the writer

struct Fan {
  Mesh mesh;
  uint64_t source;
  Words targets, places, counts;
};

Fan fan(const Mesh &mesh, size_t k) {
  const uint64_t s = below(mesh.relays());
  const Words targets = aims(mesh, s, k);
  Words places(k * mesh.width()), counts(k);
  same("fan", mesh, s, gust_fan(mesh.kind, mesh.size, s, targets.data(), k, places.data(), places.size(), counts.data(), k).number, 0);
  return {mesh, s, targets, places, counts};
}

// A fan of a metacube, which no planner gives: to the first k relays that the source is linked to, or the plain route to one target.
Fan meta_fan(const Mesh &mesh, size_t k) {
  const uint64_t s = below(mesh.relays());
  Fan f{mesh, s, {}, Words(k * mesh.width(), model::kUnused), {}};
  for (size_t i = 0; i < k; ++i) {
    const Words way = k == 1 ? mesh.route(s, aims(mesh, s, 1)[0]) : Words{s, mesh.neighbours(s)[i]};
    std::copy(way.begin(), way.end(), f.places.begin() + i * mesh.width());
    f.targets.push_back(way.back());
    f.counts.push_back(way.size() - 1);
  }
  return f;
}

void judged(const Fan &f, const Failed &fails, size_t e, size_t h, size_t w) {
  const Mesh &m = f.mesh;
  const size_t k = f.targets.size();
  Lent<uint64_t> targets(f.targets), places(f.places), counts(f.counts), stops(fails.stopped), cuts(fails.cuts), ends(e), hops(h), wholes(w);
  const Told told = m.judge(f.source, f.targets, f.places, f.counts);
  const GustVerdict v = gust_judge(m.kind, m.size, f.source, targets.data(), targets.size(), places.data(), places.size(), counts.data(), counts.size());
  numbered("judge", m, f.source, v.number, told.number);
  same("judge: path", m, f.source, v.path, told.path);
  same("judge: place", m, f.source, v.place, told.place);

  Lent<uint32_t> zones(below(9) ? k + below(2) : k - (k > 0)), sites(below(9) ? k + below(2) : k - (k > 0));
  const Told all = m.judge(f.source, f.targets, f.places, f.counts, e < k || h < k || w < k || zones.size() < k || sites.size() < k);
  Words whole;
  uint64_t count = 0;
  for (size_t i = 0; !all.number && i < k; ++i) {
    const bool ok = !fails.breaks(f.places.data() + i * m.width(), f.counts[i]);
    whole.push_back(ok);
    count += ok;
  }
  const GustAnswer a = gust_survivors(m.kind, m.size, f.source, targets.data(), targets.size(), places.data(), places.size(), counts.data(), counts.size(),
                                      zones.data(), zones.size(), stops.data(), stops.size(), cuts.data(), cuts.size(), ends.data(), ends.size(), hops.data(), hops.size(),
                                      wholes.data(), wholes.size(), sites.data(), sites.size());
  held("survivors: zones", zones.untouched(), m, f.source);
  answered("survivors", m, f.source, a, all, count);
  if (all.number) {
    held("survivors: columns", ends.untouched() && hops.untouched() && wholes.untouched() && sites.untouched(), m, f.source);
  } else {
    const Words first(f.counts.begin(), f.counts.begin() + k);
    const std::vector<uint32_t> given = zones.now();
    held("survivors: columns", ends.holds(f.targets) && hops.holds(first) && wholes.holds(whole) && sites.holds({given.begin(), given.begin() + k}), m, f.source);
    if (fails.has_stopped(f.source))
      same("survivors: the source stopped", m, f.source, a.value, 0);
    else
      held("survivors: the clause", k <= a.value + fails.count(m), m, f.source);
  }

  const Bytes sheet = told.number || !m.planned() ? Bytes{} : model::sheet(m, f.source, k, f.places, f.counts);
  for (size_t room : {sheet.size(), sheet.size() + 5, sheet.size() ? sheet.size() - 1 : 0, size_t{0}}) {
    Lent<uint8_t> out(room);
    uint64_t number = m.planned() && (told.number == 0 || told.number == 8) ? told.number : 35;
    if (!number && room < sheet.size()) number = 8;
    if (m.lone(k)) number = 37;
    answered("writer", m, f.source,
             gust_write_sheet(m.kind, m.size, f.source, targets.data(), targets.size(), places.data(), places.size(), counts.data(), counts.size(),
                              out.data(), out.size()),
             {number, 0, 0}, sheet.size());
    held("writer: bytes", number ? out.untouched() : out.holds(sheet), m, f.source);
  }
  held("judge, survivors, writer: what is read", targets.untouched() && places.untouched() && counts.untouched() && stops.untouched() && cuts.untouched(), m, f.source);
}

// Many relays, some of them of the fan: as stopped ones, and two by two as cut links.
Words crowd(const Fan &f) {
  Words all;
  for (int i = 0; i < 300; ++i) all.push_back(below(12) ? below(f.mesh.relays()) : f.places[below(f.places.size())]);
  return all;
}

// A path's relays as pairs of cuts, the first of them the second of its pair: every other link is cut, and those between are not.
Words staggered(const Fan &f, size_t row) {
  const auto from = f.places.begin() + row * f.mesh.width();
  Words all{f.targets[row]};
  all.insert(all.end(), from, from + f.counts[row] + 1);
  return all;
}

// Path `row` leads over a relay of another path, by the plain route on from there: seen again, on the later of the two.
void crossed(Fan &bad, const Fan &good, size_t row, size_t other) {
  const size_t w = good.mesh.width(), p = 1 + below(good.counts[other]);
  const auto from = good.places.begin() + other * w;
  Words path(from, from + p);
  const Words on = good.mesh.route(from[p], good.targets[row]);
  path.insert(path.end(), on.begin(), on.end());
  if (path.size() > w) return;
  bad.counts[row] = path.size() - 1;
  path.resize(w, model::kUnused);
  std::copy(path.begin(), path.end(), bad.places.begin() + row * w);
}

void fans() {
  std::vector<Mesh> all = meshes();
  for (Mesh mesh : metacubes()) all.push_back(mesh);
  for (Mesh mesh : all)
    for (int i = 0; i < (small ? 1 : 20); ++i) {
      const size_t k = paths_of(mesh);
      const Fan good = mesh.planned() ? fan(mesh, k) : meta_fan(mesh, k);
      const Failed fails = failed(mesh, good.places, good.counts, mesh.width());
      judged(good, fails, k, k, k);
      judged(good, {{}, fails.cuts}, k, k, k);
      judged(good, {}, k + 2, k + 1, k + 3);
      judged(good, {{good.source}, fails.cuts}, k, k, k);
      judged(good, {crowd(good), fails.cuts}, k, k, k);
      judged(good, {fails.stopped, crowd(good)}, k, k, k);
      judged(good, {{}, staggered(good, below(k))}, k, k, k);
      judged(good, fails, k - 1, k, k);
      judged(good, fails, k, k - 1, k);
      judged(good, fails, k, k, k - 1);
      for (int j = 0; j < 25; ++j) {
        Fan bad = good;
        const size_t w = mesh.width();
        for (int f = 0; f < 1 + (int)below(2); ++f) {
          const size_t at = below(bad.places.size()), row = below(k);
          switch (below(14)) {
            case 0: bad.places[at] = dice(); break;
            case 1: bad.places[at] = below(mesh.relays()); break;
            case 2: bad.places[at] = bad.places[below(bad.places.size())]; break;
            case 3: bad.counts[row] = below(mesh.longest() + 3); break;
            case 4: bad.counts[row] = dice(); break;
            case 5: bad.source = below(2) ? below(mesh.relays()) : dice(); break;
            case 6: bad.targets[row] = below(2) ? below(mesh.relays()) : dice(); break;
            case 7: bad.places.resize(below(2) ? k * w - 1 : k * w + below(9), 3); break;
            case 8: bad.counts.resize(below(2) ? k - 1 : k + below(4), 3); break;
            case 9: bad.mesh = below(2) ? Mesh{mesh.kind, mesh.size + 1} : Mesh{below(4), mesh.size}; break;
            case 10: bad.targets.clear(); break;
            case 11: bad.targets.resize(mesh.links() + 1, bad.targets[0]); break;
            case 12:  // a path that turns back at its first relay, and goes on
              if (good.counts[row] + 2 <= mesh.longest()) {
                std::copy(good.places.begin() + row * w, good.places.begin() + row * w + w - 2, bad.places.begin() + row * w + 2);
                bad.places[row * w + 1] = good.places[row * w + 1];
                bad.counts[row] = good.counts[row] + 2;
              }
              break;
            case 13: crossed(bad, good, row, below(k)); break;
          }
          if (bad.counts.size() < k || bad.places.size() < k * w || bad.targets.size() < k) break;
        }
        judged(bad, fails, k, k, k);
      }
    }
}

// ---- the reader

void read(const Bytes &bytes, size_t p, size_t c, size_t t) {
  const model::Reading r = model::read(bytes, p, c, t);
  Lent<uint8_t> in(bytes);
  Lent<uint64_t> places(p), counts(c), targets(t);
  const GustReading g = gust_read_sheet(in.data(), in.size(), places.data(), places.size(), counts.data(), counts.size(), targets.data(), targets.size());
  const bool ok = r.told.number == 0;
  numbered("reader", r.mesh, r.source, g.number, r.told.number);
  same("reader: path", r.mesh, r.source, g.path, r.told.path);
  same("reader: place", r.mesh, r.source, g.place, r.told.place);
  same("reader: kind", r.mesh, r.source, g.kind, ok ? r.mesh.kind : 0);
  same("reader: size", r.mesh, r.source, g.size, ok ? r.mesh.size : 0);
  same("reader: source", r.mesh, r.source, g.source, ok ? r.source : 0);
  same("reader: paths", r.mesh, r.source, g.paths, ok ? r.k : 0);
  held("reader: bytes", in.untouched(), r.mesh, r.source);
  if (ok)
    held("reader: slices", places.holds(r.places) && counts.holds(r.counts) && targets.holds(r.targets), r.mesh, r.source);
  else
    held("reader: slices of a refusal", places.untouched() && counts.untouched() && targets.untouched(), r.mesh, r.source);
}

// A good sheet damaged at every byte, and cut and drawn out to every length, with and without a length field that fits.
void damage(const Mesh &mesh, size_t k, bool values) {
  const Fan f = fan(mesh, k);
  const Bytes good = model::sheet(mesh, f.source, k, f.places, f.counts);
  const size_t w = mesh.width(), places = k * w + 3, counts = k + 1, targets = k + 2;
  read(good, places, counts, targets);
  read(good, k * w, k, k);
  read(good, k * w - 1, k, k);
  read(good, k * w, k - 1, k);
  read(good, k * w, k, k - 1);
  read(good, 0, 0, 0);
  for (size_t at = 0; at < good.size(); ++at) {
    Bytes bad = good;
    const int tries = at < 16 && values ? 256 : values ? 12 : 3;
    for (int i = 0; i < tries; ++i) {
      const uint8_t fixed[] = {0, 255, 1, static_cast<uint8_t>(good[at] ^ 1), static_cast<uint8_t>(good[at] + 1), static_cast<uint8_t>(good[at] ^ 128)};
      bad[at] = tries == 256 ? i : values && i < 6 ? fixed[i] : static_cast<uint8_t>(dice());
      read(bad, places, counts, targets);
    }
  }
  for (size_t length = 0; length <= good.size() + 20; ++length) {
    Bytes bad = good;
    bad.resize(length, 0);
    read(bad, places, counts, targets);
    if (length >= 4) {
      for (int i = 0; i < 4; ++i) bad[i] = static_cast<uint8_t>((length - 4) >> (24 - 8 * i));
      read(bad, places, counts, targets);
    }
  }
}

void sheets() {
  if (small) {
    damage({1, 2}, 2, false);
    damage({2, 1}, 2, false);
    return;
  }
  for (uint64_t n : {1, 2, 3, 5, 8}) damage({1, n}, n, true);
  for (uint64_t m : {1, 2, 3}) damage({2, m}, m + 1, true);
  damage({1, 32}, 32, false);
  damage({2, 4}, 5, false);
  damage({2, 5}, 6, false);
  for (int i = 0; i < 20000; ++i) {
    Bytes noise(below(80));
    for (auto &b : noise) b = static_cast<uint8_t>(below(4) ? below(3) : dice());
    if (noise.size() >= 4) {
      noise[0] = noise[1] = noise[2] = 0;
      noise[3] = static_cast<uint8_t>(noise.size() - 4);
    }
    read(noise, below(50), below(4), below(4));
  }
}

}  // namespace

int main(int count, char **words) {
  small = count > 1 && !std::strcmp(words[1], "small");
  cases();
  facts();
  pairs();
  distances();
  plans();
  lone();
  wrapper();
  fans();
  sheets();
  const std::set<uint64_t> pair{0, 1, 2, 5}, routed{0, 1, 2, 5, 8}, found{0, 1, 2, 3, 4, 5, 6, 7, 8, 20, 21, 22, 23, 24, 25};
  if (!small)
    all_met({{"facts", {0, 1}},
             {"linked", pair},
             {"next hop", routed},
             {"route", routed},
             {"distance", {0, 1, 2, 5, 9, 52}},
             {"plan", {0, 1, 2, 3, 4, 5, 6, 7, 8, 10, 37, 52}},
             {"judge", found},
             {"survivors", found},
             {"writer", {0, 8, 35, 37}},
             {"reader", {0, 2, 5, 6, 7, 8, 22, 24, 30, 31, 32, 33, 34, 36, 37}}});
  std::printf("host: %llu comparisons, all the same\n", compared);
  return 0;
}
