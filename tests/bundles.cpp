// Fans and bundles in numbers compared with tests/host_model.hpp: what is planned, what the judge says of it and of what was damaged, and which paths are whole where
// relays have stopped and links are cut. Every pair of the small meshes, random and linked pairs of the others. `bundles small` runs a part.
#include "host_checks.hpp"

#include <cstring>

namespace {

struct Bundle {
  Mesh mesh;
  uint64_t source, target;
  Words places, counts;
};

size_t width(const Mesh &mesh) { return mesh.longest() + 2; }

// The hops of the longest path met, for each size.
std::map<std::pair<uint64_t, uint64_t>, uint64_t> worst;

// ---- what is planned

// gust_bundle into so many places and counts; the bundle, where it gives one.
Bundle bundle(const Mesh &mesh, uint64_t s, uint64_t t, size_t p, size_t c) {
  Lent<uint64_t> places(p), counts(c);
  Told told = mesh.ends(s, t);
  const size_t k = told.number ? 0 : mesh.links();
  if (!told.number && (p < k * width(mesh) || c < k)) told.number = 8;
  answered("bundle", mesh, s, gust_bundle(mesh.kind, mesh.size, s, t, places.data(), p, counts.data(), c), told, k);
  if (told.number) {
    held("bundle: slices of a refusal", places.untouched() && counts.untouched(), mesh, s);
    return {};
  }
  Bundle b{mesh, s, t, places.now(), counts.now()};
  b.places.resize(k * width(mesh));
  b.counts.resize(k);
  held("bundle: what lies beyond", places.holds(b.places) && counts.holds(b.counts), mesh, s);
  same("bundle: what the model's judge says", mesh, s, mesh.judge_bundle(s, t, b.places, b.counts).number, 0);
  for (size_t i = 0; i < k; ++i) {
    same("bundle: path i comes by link i", mesh, s, b.places[i * width(mesh) + b.counts[i] - 1], mesh.neighbours(t)[i]);
    uint64_t &most = worst[{mesh.kind, mesh.size}];
    most = std::max(most, b.counts[i]);
  }
  return b;
}

Bundle bundle(const Mesh &mesh, uint64_t s, uint64_t t) { return bundle(mesh, s, t, mesh.links() * width(mesh), mesh.links()); }

// gust_fan into so many places and counts.
void fan(const Mesh &mesh, uint64_t s, const Words &targets, size_t p, size_t c) {
  Lent<uint64_t> to(targets), places(p), counts(c);
  Told told = mesh.plan_request(s, targets);
  const size_t k = targets.size();
  if (!told.number && (p < k * mesh.width() || c < k)) told.number = 8;
  answered("fan", mesh, s, gust_fan(mesh.kind, mesh.size, s, to.data(), k, places.data(), p, counts.data(), c), told, k);
  held("fan: targets", to.untouched(), mesh, s);
  if (told.number) {
    held("fan: slices of a refusal", places.untouched() && counts.untouched(), mesh, s);
    return;
  }
  Words now = places.now(), hops = counts.now();
  now.resize(k * mesh.width());
  hops.resize(k);
  held("fan: what lies beyond", places.holds(now) && counts.holds(hops), mesh, s);
  same("fan: what the model's judge says", mesh, s, mesh.judge(s, targets, now, hops).number, 0);
}

// ---- the judge, and who is whole

void judged(const Bundle &b, const Failed &fails, size_t e, size_t h, size_t w) {
  const Mesh &m = b.mesh;
  Lent<uint64_t> places(b.places), counts(b.counts), stops(fails.stopped), cuts(fails.cuts), ends(e), hops(h), wholes(w);
  const Told told = m.judge_bundle(b.source, b.target, b.places, b.counts);
  const GustVerdict v = gust_judge_bundle(m.kind, m.size, b.source, b.target, places.data(), places.size(), counts.data(), counts.size());
  numbered("judge of bundles", m, b.source, v.number, told.number);
  same("judge of bundles: path", m, b.source, v.path, told.path);
  same("judge of bundles: place", m, b.source, v.place, told.place);

  const size_t k = m.known() ? m.links() : 0;
  Lent<uint32_t> zones(below(9) ? k + below(2) : k - (k > 0)), sites(below(9) ? k + below(2) : k - (k > 0));
  const Told all = m.judge_bundle(b.source, b.target, b.places, b.counts, e < k || h < k || w < k || zones.size() < k || sites.size() < k);
  Words whole;
  uint64_t count = 0;
  for (size_t i = 0; !all.number && i < k; ++i) {
    const bool ok = !fails.breaks(b.places.data() + i * width(m), b.counts[i]);
    whole.push_back(ok);
    count += ok;
  }
  const GustAnswer a = gust_bundle_survivors(m.kind, m.size, b.source, b.target, places.data(), places.size(), counts.data(), counts.size(), zones.data(),
                                             zones.size(), stops.data(), stops.size(), cuts.data(), cuts.size(), ends.data(), e, hops.data(), h, wholes.data(), w, sites.data(), sites.size());
  answered("survivors of bundles", m, b.source, a, all, count);
  held("bundles: what is read", places.untouched() && counts.untouched() && stops.untouched() && cuts.untouched() && zones.untouched(), m, b.source);
  if (all.number) {
    held("survivors of bundles: columns of a refusal", ends.untouched() && hops.untouched() && wholes.untouched() && sites.untouched(), m, b.source);
    return;
  }
  const Words first(b.counts.begin(), b.counts.begin() + k);
  const std::vector<uint32_t> given = zones.now();
  held("survivors of bundles: columns", ends.holds(Words(k, b.target)) && hops.holds(first) && wholes.holds(whole) && sites.holds({given.begin(), given.begin() + k}), m, b.source);
  if (fails.has_stopped(b.source) || fails.has_stopped(b.target))
    same("survivors of bundles: an end stopped", m, b.source, a.value, 0);
  else
    held("survivors of bundles: the clause", k <= a.value + fails.count(m), m, b.source);
}

void judged(const Bundle &b, const Failed &fails) { judged(b, fails, b.mesh.links(), b.mesh.links(), b.mesh.links()); }

// Failures over the paths of a bundle.
Failed some(const Bundle &b) { return failed(b.mesh, b.places, b.counts, width(b.mesh)); }

// A good bundle: with relays stopped and links cut, with columns too short, and damaged.
void tried(const Bundle &good, int damages) {
  const Mesh &mesh = good.mesh;
  const size_t k = mesh.links(), w = width(mesh);
  const Failed fails = some(good);
  judged(good, {{}, fails.cuts});
  judged(good, {}, k + 2, k + 1, k + 3);
  judged(good, {{good.source}, fails.cuts});
  judged(good, {{dice(), good.target}, {}});
  judged(good, fails, k - 1, k, k);
  judged(good, fails, k, k - 1, k);
  judged(good, fails, k, k, k - 1);
  for (int j = 0; j < damages; ++j) {
    Bundle bad = good;
    for (int f = 0; f < 1 + (int)below(2); ++f) {
      const size_t at = below(bad.places.size()), row = below(k), other = below(k);
      switch (below(11)) {
        case 0: bad.places[at] = dice(); break;
        case 1: bad.places[at] = below(mesh.relays()); break;
        case 2: bad.places[at] = bad.places[below(bad.places.size())]; break;
        case 3: bad.counts[row] = below(mesh.longest() + 4); break;
        case 4: bad.counts[row] = dice(); break;
        case 5: bad.source = below(2) ? below(mesh.relays()) : dice(); break;
        case 6: bad.target = below(3) ? below(2) ? good.source : below(mesh.relays()) : dice(); break;
        case 7: bad.places.resize(below(2) ? k * w - 1 : k * w + below(9), 3); break;
        case 8: bad.counts.resize(below(2) ? k - 1 : k + below(4), 3); break;
        case 9: bad.mesh = below(2) ? Mesh{mesh.kind, mesh.size + 1} : Mesh{below(4), mesh.size}; break;
        case 10:  // a path twice
          std::copy_n(good.places.begin() + other * w, w, bad.places.begin() + row * w);
          bad.counts[row] = good.counts[other];
          break;
      }
      if (bad.counts.size() < k || bad.places.size() < k * w) break;
    }
    judged(bad, fails, k, k, k);
  }
}

// ---- which

// The bundle between two relays; one in so many is damaged too.
void pair(const Mesh &mesh, uint64_t s, uint64_t t, uint64_t in, int damages) {
  const Bundle b = bundle(mesh, s, t);
  if (b.counts.empty()) return;
  judged(b, some(b));
  if (below(in) == 0) tried(b, damages);
}

void bundles() {
  for (Mesh mesh : meshes()) {
    const uint64_t n = mesh.relays();
    const size_t k = mesh.links(), w = width(mesh);
    if ((mesh.kind == 2 ? mesh.size <= 2 : mesh.size <= 5) && !small) {
      for (uint64_t s = 0; s < n; ++s)
        for (uint64_t t = 0; t < n; ++t) pair(mesh, s, t, 8, 10);
    } else {
      for (int i = 0; i < (small ? 1 : 15); ++i) {
        const uint64_t s = below(n);
        const Words near = mesh.neighbours(s);
        pair(mesh, s, below(n), 1, 5);
        pair(mesh, s, near[below(near.size())], 1, 5);
        pair(mesh, s, s, 1, 0);
      }
    }
    const uint64_t s = below(n), t = s ^ 1;
    for (size_t places : {size_t{0}, k * w - 1, k * w, k * w + 7})
      for (size_t counts : {size_t{0}, k - 1, k, k + 2}) {
        bundle(mesh, s, t, places, counts);
        bundle(mesh, s, s, places, counts);
        bundle(mesh, n + below(2) * below(~uint64_t{0} - n), t, places, counts);
        bundle(mesh, s, n + below(2) * below(~uint64_t{0} - n), places, counts);
        bundle(mesh, n, n, places, counts);
      }
  }
  for (Mesh mesh : {Mesh{0, 1}, Mesh{1, 0}, Mesh{1, 33}, Mesh{2, 0}, Mesh{2, 6}, Mesh{3, 1}, Mesh{3, 64}, Mesh{4, 1}, Mesh{257, 3}, Mesh{2, uint64_t{1} << 40}}) {
    bundle(mesh, 0, 1, 100, 10);
    bundle(mesh, 0, 0, 0, 0);
    judged({mesh, 0, 1, Words(100, 1), Words(10, 1)}, {}, 40, 40, 40);
  }
}

void fans() {
  for (Mesh mesh : meshes())
    for (int i = 0; i < (small ? 1 : 20); ++i) {
      const uint64_t s = below(mesh.relays());
      Words targets;
      std::set<uint64_t> all{s};
      for (size_t k = 1 + below(std::min(mesh.links(), mesh.relays() - 1)); targets.size() < k;) {
        const uint64_t t = below(2) ? below(mesh.relays()) : mesh.neighbours(s)[below(mesh.links())];
        if (all.insert(t).second) targets.push_back(t);
      }
      const size_t k = targets.size(), w = mesh.width();
      fan(mesh, s, targets, k * w, k);
      fan(mesh, s, targets, k * w + 5, k + 2);
      fan(mesh, s, targets, k * w - 1, k);
      fan(mesh, s, targets, k * w, k - 1);
      fan({mesh.kind, mesh.size + 40}, s, targets, k * w, k);
      fan({3, mesh.size}, s, targets, k * w, k);
      fan(mesh, mesh.relays(), targets, k * w, k);
      fan(mesh, s, {}, k * w, k);
      fan(mesh, s, Words(mesh.links() + 1, 5), 0, 0);
      Words bad = targets;
      for (uint64_t x : {mesh.relays(), s, targets[0]}) {
        bad.back() = x;
        fan(mesh, s, bad, k * w, k);
      }
    }
}

// ---- numbers that were worked out by hand

Words rows(const Bundle &b) {
  Words all;
  for (size_t i = 0; i < b.counts.size(); ++i)
    for (size_t p = 0; p <= b.counts[i]; ++p) all.push_back(b.places[i * width(b.mesh) + p]);
  return all;
}

// What the judge says of paths in a mesh, each given by its relays.
Told said(const Mesh &mesh, uint64_t s, uint64_t t, const std::vector<Words> &paths) {
  Words places, counts;
  for (const Words &path : paths) {
    places.insert(places.end(), path.begin(), path.end());
    counts.push_back(path.size() - 1);
    places.resize(counts.size() * width(mesh), model::kUnused);
  }
  const GustVerdict v = gust_judge_bundle(mesh.kind, mesh.size, s, t, places.data(), places.size(), counts.data(), counts.size());
  return {v.number, v.path, v.place};
}

void cases() {
  const auto is = [](const char *what, bool ok) { held(what, ok, {0, 0}, 0); };
  const Mesh one{1, 1}, square{1, 2}, cube{1, 3}, ring{2, 1}, two{2, 2};
  is("cube 2, 0 to 3", rows(bundle(square, 0, 3)) == Words{0, 2, 3, 0, 1, 3});
  is("cube 2, 0 to 1", rows(bundle(square, 0, 1)) == Words{0, 1, 0, 2, 3, 1});
  is("cube 1, 0 to 1", rows(bundle(one, 0, 1)) == Words{0, 1});
  is("order 1, 0 to 5", rows(bundle(ring, 0, 5)) == Words{0, 2, 3, 7, 6, 4, 5, 0, 1, 5});
  is("order 1, 0 to 1", rows(bundle(ring, 0, 1)) == Words{0, 1, 0, 2, 3, 7, 6, 4, 5, 1});
  const Bundle linked = bundle(two, 27, 59);
  is("order 2, 27 to 59", std::count(linked.counts.begin(), linked.counts.end(), 1) == 1);
  const Bundle bare = bundle(ring, 0, 1);
  const Words back{1, 0};
  Words ends(2), hops(2), wholes(2);
  const std::vector<uint32_t> zones{258, 7};
  std::vector<uint32_t> sites(2);
  const GustAnswer left = gust_bundle_survivors(2, 1, 0, 1, bare.places.data(), bare.places.size(), bare.counts.data(), 2, zones.data(), 2, back.data(), 0, back.data(), 2,
                                                ends.data(), 2, hops.data(), 2, wholes.data(), 2, sites.data(), 2);
  is("order 1, 0 to 1, zones", sites == zones);
  is("order 1, 0 to 1, that link cut", left.number == 0 && left.value == 1 && wholes == Words{0, 1});
  bundle(ring, 0, 5, 23, 2);
  bundle(ring, 0, 5, 24, 2);

  is("judge: the bare link twice", said(square, 0, 1, {{0, 1}, {0, 1}}) == Told{24, 1, 1});
  is("judge: the target passed", said(square, 0, 1, {{0, 1, 3, 1}, {0, 1}}) == Told{24, 0, 3});
  is("judge: the target passed later", said(square, 0, 1, {{0, 1}, {0, 1, 3, 1}}) == Told{24, 1, 1});
  is("judge: the source passed", said(square, 0, 1, {{0, 2, 0, 1}, {0, 1}}) == Told{24, 0, 2});
  is("judge: no hops", said(square, 0, 1, {{0}, {0, 1}}) == Told{23, 0, 0});
  is("judge: a relay of two paths", said(cube, 0, 7, {{0, 1, 3, 7}, {0, 2, 6, 7}, {0, 4, 6, 7}}) == Told{24, 2, 2});
}

}  // namespace

int main(int count, char **words) {
  small = count > 1 && !std::strcmp(words[1], "small");
  cases();
  bundles();
  fans();
  if (!small) {
    const std::set<uint64_t> ends{0, 1, 2, 5, 6, 8, 52}, found{0, 1, 2, 5, 6, 8, 20, 21, 22, 23, 24, 25, 52};
    all_met({{"bundle", ends}, {"fan", {0, 1, 2, 3, 4, 5, 6, 7, 8, 52}}, {"judge of bundles", found}, {"survivors of bundles", found}});
    same("the longest of order 1", {2, 1}, 0, worst[{2, 1}], 7);
    same("the longest of the cube of 3", {1, 3}, 0, worst[{1, 3}], 5);
  }
  std::printf("bundles: %llu comparisons, all the same\n", compared);
  return 0;
}
