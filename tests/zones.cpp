// Sheets with zones: written, read and moved between the versions, beside the model of host_model.hpp. Both versions damaged in every byte and cut to every length, wrong
// versions, short zones, 38 at each path. `zones small` runs a part, for a slow machine such as valgrind's.
#include "host_checks.hpp"

#include <algorithm>

namespace {

using model::Zones;

// A fan of k paths from a relay, by the library's own planner, which other tests judge.
struct Fan {
  Mesh mesh;
  uint64_t source;
  Words targets, places, counts;
};

Fan fan(const Mesh &mesh, size_t k) {
  Fan f{mesh, below(mesh.relays()), {}, Words(k * mesh.width()), Words(k)};
  while (f.targets.size() < k) {
    const uint64_t t = below(mesh.relays());
    if (t != f.source && std::find(f.targets.begin(), f.targets.end(), t) == f.targets.end()) f.targets.push_back(t);
  }
  const GustAnswer a = gust_fan(mesh.kind, mesh.size, f.source, f.targets.data(), k, f.places.data(), f.places.size(), f.counts.data(), k);
  same("planner", mesh, f.source, a.number, 0);
  return f;
}

// ---- read

void read(const Bytes &bytes, size_t p, size_t c, size_t t, size_t z) {
  const model::Reading r = model::read(bytes, p, c, t, {1, 2}, z);
  Lent<uint8_t> in(bytes);
  Lent<uint64_t> places(p), counts(c), targets(t);
  Lent<uint32_t> zones(z);
  const GustZonedReading g = gust_read_zoned_sheet(in.data(), in.size(), places.data(), p, counts.data(), c, targets.data(), t, zones.data(), z);
  const bool ok = r.told.number == 0;
  numbered("zoned reader", r.mesh, r.source, g.number, r.told.number);
  same("zoned reader: path", r.mesh, r.source, g.path, r.told.path);
  same("zoned reader: place", r.mesh, r.source, g.place, r.told.place);
  same("zoned reader: version", r.mesh, r.source, g.version, ok ? r.version : 0);
  same("zoned reader: kind", r.mesh, r.source, g.kind, ok ? r.mesh.kind : 0);
  same("zoned reader: size", r.mesh, r.source, g.size, ok ? r.mesh.size : 0);
  same("zoned reader: source", r.mesh, r.source, g.source, ok ? r.source : 0);
  same("zoned reader: paths", r.mesh, r.source, g.paths, ok ? r.k : 0);
  held("zoned reader: bytes", in.untouched(), r.mesh, r.source);
  if (ok)
    held("zoned reader: slices", places.holds(r.places) && counts.holds(r.counts) && targets.holds(r.targets) && zones.holds(r.zones), r.mesh, r.source);
  else
    held("zoned reader: slices of a refusal", places.untouched() && counts.untouched() && targets.untouched() && zones.untouched(), r.mesh, r.source);
}

// ---- moved

// What stands against writing it in version 1, after all else.
Told stray(const Zones &zones, size_t k) {
  for (size_t i = 0; i < k; ++i)
    if (zones[i]) return {38, i, 0};
  return {};
}

void moved(const Bytes &bytes, uint64_t to, size_t room) {
  const model::Reading r = model::read(bytes, model::kRoom, model::kRoom, model::kRoom, {3 - to});
  Told told = r.told;
  Bytes sheet;
  if (!told.number && to == 1) told = stray(r.zones, r.k);
  if (!told.number) {
    sheet = model::sheet(r.mesh, r.source, r.k, r.places, r.counts, static_cast<uint8_t>(to), r.zones);
    if (room < sheet.size()) told = {8, 0, 0};
  }
  Lent<uint8_t> in(bytes), out(room);
  const GustAnswer a = to == 2 ? gust_sheet_to_2(in.data(), in.size(), out.data(), room) : gust_sheet_to_1(in.data(), in.size(), out.data(), room);
  numbered(to == 2 ? "move to 2" : "move to 1", r.mesh, r.source, a.number, told.number);
  same("move: path", r.mesh, r.source, a.path, told.path);
  same("move: place", r.mesh, r.source, a.place, told.place);
  same("move: bytes told", r.mesh, r.source, a.value, told.number ? 0 : sheet.size());
  held("move: bytes", in.untouched() && (told.number ? out.untouched() : out.holds(sheet)), r.mesh, r.source);
}

// ---- written

void wrote(const Fan &f, uint64_t version, const Zones &zones, size_t places_len, size_t counts_len, size_t room) {
  const Mesh &m = f.mesh;
  const size_t k = f.targets.size();
  const Words places(f.places.begin(), f.places.begin() + std::min(places_len, f.places.size())), counts(f.counts.begin(), f.counts.begin() + std::min(counts_len, k));
  Told told;
  Bytes sheet;
  if (m.lone(k)) told = {37, 0, 0};
  else if (version != 1 && version != 2) told = {31, 0, 0};
  else {
    const Told judged = m.planned() ? m.judge(f.source, f.targets, places, counts, zones.size() < k) : Told{1, 0, 0};
    if (judged.number) told = {judged.number == 8 ? uint64_t{8} : uint64_t{35}, 0, 0};
    else if (version == 1) told = stray(zones, k);
  }
  if (!told.number) {
    sheet = model::sheet(m, f.source, k, places, counts, static_cast<uint8_t>(version), zones);
    if (room < sheet.size()) told = {8, 0, 0};
  }
  Lent<uint8_t> out(room);
  Lent<uint32_t> lent(zones);
  const GustAnswer a = gust_write_zoned_sheet(version, m.kind, m.size, f.source, f.targets.data(), k, places.data(), places.size(), counts.data(), counts.size(), lent.data(),
                                              lent.size(), out.data(), room);
  numbered("zoned writer", m, f.source, a.number, told.number);
  same("zoned writer: path", m, f.source, a.path, told.path);
  same("zoned writer: place", m, f.source, a.place, told.place);
  same("zoned writer: bytes told", m, f.source, a.value, told.number ? 0 : sheet.size());
  held("zoned writer: bytes", lent.untouched() && (told.number ? out.untouched() : out.holds(sheet)), m, f.source);
}

void writing(const Fan &f, const Zones &zones) {
  const size_t k = f.targets.size(), all = f.places.size();
  for (uint64_t version : {uint64_t{0}, uint64_t{1}, uint64_t{2}, uint64_t{3}, uint64_t{257}, ~uint64_t{0}}) {
    const size_t length = 16 + k * (version == 2 ? 6 : 2) + 8 * [&] { size_t n = 0; for (uint64_t h : f.counts) n += h; return n; }();
    for (size_t room : {length, length + 5, length - 1, size_t{0}}) wrote(f, version, zones, all, k, room);
    wrote(f, version, zones, all - 1, k, length);
    wrote(f, version, zones, all, k - 1, length);
    wrote(f, version, Zones(zones.begin(), zones.begin() + (k - 1)), all, k, length);
    for (size_t i = 0; i < k; ++i) {  // one zone alone, and more than there are paths
      Zones one(k + 2, 0);
      one[i] = static_cast<uint32_t>(below(2) ? 1 : uint32_t{1} << 31);
      one[k] = one[k + 1] = 7;
      wrote(f, version, one, all, k, length);
    }
    Fan bad = f;
    bad.places[below(all)] ^= 1;
    wrote(bad, version, zones, all, k, length);
    wrote(bad, version, Zones(zones.begin(), zones.begin() + (k - 1)), all, k, length);
    bad = f;
    bad.targets[below(k)] = f.source;
    wrote(bad, version, zones, all, k, length);
  }
}

// ---- damaged

void looked_at(const Bytes &bytes, size_t p, size_t k) {
  read(bytes, p + 3, k + 1, k + 2, k + 3);
  for (uint64_t to : {1, 2}) moved(bytes, to, bytes.size() + 4 * k);
}

void damage(const Mesh &mesh, size_t k, bool values) {
  const Fan f = fan(mesh, k);
  const size_t p = f.places.size();
  Zones zones(k);
  for (auto &z : zones) z = static_cast<uint32_t>(below(3) ? dice() : below(2));
  writing(f, zones);
  writing(f, Zones(k, 0));
  for (uint8_t version : {1, 2})
    for (const Zones &given : {zones, Zones(k, 0)}) {
      const Bytes good = model::sheet(mesh, f.source, k, f.places, f.counts, version, given);
      looked_at(good, p, k);
      read(good, p, k, k, k);
      read(good, p - 1, k, k, k);
      read(good, p, k - 1, k, k);
      read(good, p, k, k - 1, k);
      read(good, p, k, k, k - 1);
      read(good, 0, 0, 0, 0);
      for (uint64_t to : {1, 2})
        for (size_t room : {good.size(), good.size() - 4 * k, good.size() - 4 * k - 1, good.size() + 4 * k - 1, size_t{0}}) moved(good, to, room);
      for (size_t i = 0; i < k && version == 2; ++i) {  // 38 at each path
        Zones one(k, 0);
        one[i] = 1;
        moved(model::sheet(mesh, f.source, k, f.places, f.counts, 2, one), 1, 0);
      }
      for (size_t at = 0; at < good.size(); ++at) {
        Bytes bad = good;
        const int tries = at < 16 && values ? 256 : values ? 12 : 2;
        for (int i = 0; i < tries; ++i) {
          bad[at] = tries == 256 ? i : i == 0 ? good[at] ^ 1 : static_cast<uint8_t>(dice());
          looked_at(bad, p, k);
        }
      }
      for (size_t length = 0; length <= good.size() + 9; ++length) {
        Bytes bad = good;
        bad.resize(length, 0);
        looked_at(bad, p, k);
        if (length >= 4) {
          for (int i = 0; i < 4; ++i) bad[i] = static_cast<uint8_t>((length - 4) >> (24 - 8 * i));
          looked_at(bad, p, k);
        }
      }
    }
}

// The largest sheets, written, read and moved as they are.
void whole(const Mesh &mesh, size_t k) {
  const Fan f = fan(mesh, k);
  Zones zones(k);
  for (auto &z : zones) z = static_cast<uint32_t>(dice());
  writing(f, zones);
  for (uint8_t version : {1, 2})
    for (const Zones &given : {zones, Zones(k, 0)}) looked_at(model::sheet(mesh, f.source, k, f.places, f.counts, version, given), f.places.size(), k);
}

// The request's worked sheets: 30 bytes from 0 to 1 with zone 258, and its moves.
void cases() {
  const Bytes zoned{0, 0, 0, 0x1a, 2, 1, 1, 1, 0, 0, 0, 0, 0, 0, 0, 0, 0, 1, 0, 0, 1, 2, 0, 0, 0, 0, 0, 0, 0, 1};
  held("the sheet with zone 258", model::sheet({1, 1}, 0, 1, {0, 1}, {1}, 2, {258}) == zoned, {1, 1}, 0);
  looked_at(zoned, 3, 1);
  moved(zoned, 1, 0);
  const Bytes none = model::sheet({1, 1}, 0, 1, {0, 1}, {1}, 2, {0}), one = model::sheet({1, 1}, 0, 1, {0, 1}, {1});
  for (size_t room : {25, 26, 29, 30})
    for (uint64_t to : {1, 2})
      for (const Bytes &b : {none, one}) moved(b, to, room);
  const Words places{0, 2, 3, model::kUnused, 0, 1, model::kUnused, model::kUnused}, counts{2, 1};
  moved(model::sheet({1, 2}, 0, 2, places, counts, 2, {0, 5}), 1, 99);
  read(model::sheet({1, 2}, 0, 2, places, counts), 8, 2, 2, 1);
}

}  // namespace

int main(int argc, char **) {
  small = argc > 1;
  cases();
  damage({1, 2}, 2, !small);
  damage({2, 1}, 2, false);
  if (!small) {
    for (uint64_t n : {1, 3, 5}) damage({1, n}, n, true);
    damage({2, 2}, 3, true);
    whole({2, 5}, 6);
    whole({1, 32}, 32);
    const std::set<uint64_t> sheet{0, 2, 5, 6, 7, 22, 24, 30, 31, 32, 33, 34, 36, 37};
    std::set<uint64_t> room = sheet, back = sheet;
    room.insert(8);
    back.insert({8, 38});
    all_met({{"zoned reader", room}, {"zoned writer", {0, 8, 31, 35, 38}}, {"move to 2", room}, {"move to 1", back}});
  }
  std::printf("zones: %llu comparisons, all the same\n", compared);
  return 0;
}
