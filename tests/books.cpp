// The calls of a book beside a plain map from kind, size and source to sheets: what is told, the head, and every byte and index place afterwards, after each call of long
// random sequences, closing up among them, with books that fill up, sheets of both versions, and sheets that are refused. The index is worked out afresh from the bytes after each call. Then heads,
// bytes and indexes that no sequence of calls made, beside the definitions written out; and books opened from bytes, whole and damaged.
#include "gustparsley.h"

#include <algorithm>
#include <cstdio>
#include <cstdlib>
#include <map>
#include <random>
#include <set>
#include <string>
#include <tuple>
#include <vector>

namespace {

using Bytes = std::vector<uint8_t>;
using Index = std::vector<uint64_t>;
using Key = std::tuple<uint64_t, uint64_t, uint64_t>;

std::mt19937_64 dice(27);
unsigned long long compared = 0;
std::map<std::string, unsigned long long> met;

uint64_t below(uint64_t n) { return dice() % n; }

void same(const char *what, bool is) {
  ++compared;
  if (is) return;
  std::printf("books: FAILED: %s\n", what);
  std::exit(1);
}

// ---- sheets, formed by hand

void put(Bytes &out, uint64_t value, int n) {
  for (int i = n - 1; i >= 0; --i) out.push_back(static_cast<uint8_t>(value >> (8 * i)));
}

uint64_t number(const Bytes &from, size_t at, size_t n) {
  uint64_t value = 0;
  for (size_t i = 0; i < n; ++i) value = value * 256 + from[at + i];
  return value;
}

Bytes form(uint8_t version, uint8_t kind, uint8_t size, uint64_t source, const std::vector<std::vector<uint64_t>> &paths) {
  Bytes body = {version, kind, size, static_cast<uint8_t>(paths.size())};
  put(body, source, 8);
  for (const auto &path : paths) {
    put(body, path.size(), 2);
    if (version == 2) put(body, dice() >> 32, 4);
    for (const uint64_t relay : path) put(body, relay, 8);
  }
  Bytes out;
  put(out, body.size(), 4);
  out.insert(out.end(), body.begin(), body.end());
  return out;
}

// A sheet that is accepted: a cube of up to 9 dimensions with up to 4 paths of one hop, or order 2 with two paths to relays of the source's block.
Bytes some_sheet() {
  const uint8_t version = static_cast<uint8_t>(1 + below(2));
  std::vector<std::vector<uint64_t>> paths;
  if (below(4) == 0) {
    const uint64_t source = below(64);
    return form(version, 2, 2, source, {{source ^ 1}, {source ^ 2}});
  }
  const uint64_t size = 1 + below(9), source = below(uint64_t(1) << size), k = 1 + below(std::min<uint64_t>(size, 4));
  for (uint64_t i = 0; i < k; ++i) paths.push_back({source ^ (uint64_t(1) << i)});
  return form(version, 1, static_cast<uint8_t>(size), source, paths);
}

struct Flaw {
  Bytes sheet;
  uint64_t number, path, place;
};

std::vector<Flaw> flaws() {
  Bytes left = form(1, 1, 1, 0, {{1}});
  left.push_back(0);
  left[3] = static_cast<uint8_t>(left.size() - 4);
  return {{{}, 30, 0, 0}, {form(3, 1, 1, 0, {{1}}), 31, 0, 0}, {form(0, 1, 1, 0, {{1}}), 31, 0, 0}, {form(1, 3, 65, 0, {{1}}), 32, 0, 0}, {form(2, 1, 2, 0, {}), 33, 0, 0},
          {form(1, 2, 1, 0, {{1}}), 37, 0, 0}, {form(2, 1, 2, 0, {{1}, {}}), 34, 1, 0}, {left, 36, 0, 0}, {form(1, 1, 2, 4, {{1}}), 2, 0, 0}, {form(1, 1, 2, 0, {{1}, {4}}), 5, 0, 1},
          {form(1, 1, 1, 0, {{0}}), 6, 0, 0}, {form(2, 1, 2, 0, {{2, 3}, {1, 3}}), 7, 0, 1}, {form(1, 1, 2, 0, {{3}}), 22, 0, 1}, {form(2, 1, 2, 0, {{1, 3}, {1}}), 24, 1, 1}};
}

Key key_of(const Bytes &sheet) { return {sheet[5], sheet[6], number(sheet, 8, 8)}; }

uint64_t packed(const Key &key) { return (std::get<0>(key) * 256 + std::get<1>(key)) * (uint64_t(1) << 37) + std::get<2>(key); }

// ---- the definitions written out, of any head and any slices

struct Room {
  GustBook head = {0, 0};
  Bytes bytes;
  Index index;

  size_t capacity() const { return std::min<size_t>(256, index.size()); }
  size_t limit() const { return std::min<size_t>(65536, bytes.size()); }
  size_t count() const { return std::min(head.entries, capacity()); }

  size_t spot(uint64_t key) const {
    size_t from = 0, left = count();
    while (left > 0) {
      const size_t half = left / 2;
      if (index[from + half] < key << 16) from += half + 1, left -= half + 1;
      else left = half;
    }
    return from;
  }
  bool there(uint64_t key) const { return spot(key) < count() && index[spot(key)] >> 16 == key; }

  GustFound find(uint64_t kind, uint64_t size, uint64_t source) const {
    if (kind < 1 || kind > 2 || size > 255 || source >> 37) return {51, 0, 0};
    const uint64_t key = packed({kind, size, source});
    if (!there(key)) return {51, 0, 0};
    const size_t start = index[spot(key)] & 65535;
    if (start + 16 > bytes.size() || start + 4 + number(bytes, start, 4) > bytes.size()) return {51, 0, 0};
    return {0, start, 4 + number(bytes, start, 4)};
  }

  // The bytes of the pieces among the first `end` that are not removed.
  Bytes kept(size_t end) const {
    Bytes out;
    for (size_t at = 0; end - at >= 16;) {
      const size_t n = std::min<uint64_t>(end - at, 4 + number(bytes, at, 4));
      if (bytes[at + 4]) out.insert(out.end(), bytes.begin() + static_cast<long>(at), bytes.begin() + static_cast<long>(at + n));
      at += n;
    }
    return out;
  }
  size_t looked_at() const { return std::min(head.used, limit()); }

  void close() {
    const size_t end = looked_at(), n = count();
    for (size_t i = 0; i < n; ++i) index[i] = (index[i] & ~uint64_t(65535)) | kept(std::min<size_t>(index[i] & 65535, end)).size();
    const Bytes live = kept(end);
    std::copy(live.begin(), live.end(), bytes.begin());
    head = {live.size(), n};
  }

  uint64_t add(const Bytes &sheet) {
    const uint64_t key = packed(key_of(sheet));
    if (there(key)) return 39;
    if (count() >= capacity()) return 40;
    if (sheet.size() > limit()) return 8;
    if (head.used > limit() - sheet.size()) {
      if (kept(looked_at()).size() > limit() - sheet.size()) return 8;
      close();
    }
    const size_t i = spot(key), n = count();
    for (size_t j = n; j > i; --j) index[j] = index[j - 1];
    index[i] = key << 16 | head.used;
    std::copy(sheet.begin(), sheet.end(), bytes.begin() + static_cast<long>(head.used));
    head = {head.used + sheet.size(), n + 1};
    return 0;
  }

  uint64_t remove(uint64_t kind, uint64_t size, uint64_t source) {
    const GustFound found = find(kind, size, source);
    if (found.number) return 51;
    const size_t i = spot(packed({kind, size, source})), n = count();
    bytes[found.start + 4] = 0;
    for (size_t j = i; j + 1 < n; ++j) index[j] = index[j + 1];
    head.entries = n - 1;
    return 0;
  }

  bool operator==(const Room &o) const { return head.used == o.head.used && head.entries == o.head.entries && bytes == o.bytes && index == o.index; }
};

Index afresh(const Bytes &bytes, size_t used) {
  Index out;
  for (size_t at = 0; at < used; at += 4 + number(bytes, at, 4))
    if (bytes[at + 4]) out.push_back(packed({bytes[at + 5], bytes[at + 6], number(bytes, at + 8, 8)}) << 16 | at);
  std::sort(out.begin(), out.end());
  return out;
}

// ---- the library's calls over the same

GustBooked add(Room &r, const Bytes &sheet) {
  const GustBooked told = gust_book_add(r.head, r.bytes.data(), r.bytes.size(), r.index.data(), r.index.size(), sheet.data(), sheet.size());
  r.head = told.book;
  return told;
}
GustFound find(const Room &r, const Key &k) {
  return gust_book_find(r.head, r.bytes.data(), r.bytes.size(), r.index.data(), r.index.size(), std::get<0>(k), std::get<1>(k), std::get<2>(k));
}
GustBooked remove(Room &r, const Key &k) {
  const GustBooked told = gust_book_remove(r.head, r.bytes.data(), r.bytes.size(), r.index.data(), r.index.size(), std::get<0>(k), std::get<1>(k), std::get<2>(k));
  r.head = told.book;
  return told;
}

void close(Room &r) { r.head = gust_book_close(r.head, r.bytes.data(), r.bytes.size(), r.index.data(), r.index.size()); }

void note(const char *what, uint64_t number) { ++met[std::string(what) + " " + std::to_string(number)]; }

Key some_key(const std::map<Key, Bytes> &map) {
  if (!map.empty() && below(4)) return std::next(map.begin(), static_cast<long>(below(map.size())))->first;
  const Key odd[] = {{1, 1, 5}, {~uint64_t(0), 3, 0}, {1, uint64_t(1) << 40, 0}, {2, 2, uint64_t(1) << 63}, {0, 0, 0}, {3, 65, 0}};
  return odd[below(6)];
}

// A sequence of calls from an empty book beside the map.
void sequence(size_t bytes, size_t places, size_t calls, unsigned adds) {
  Room ours, room;
  for (size_t i = 0; i < bytes; ++i) ours.bytes.push_back(static_cast<uint8_t>(dice()));
  for (size_t i = 0; i < places; ++i) ours.index.push_back(dice());
  room = ours;
  std::map<Key, Bytes> map;
  size_t live = 0;  // bytes added less those removed
  static const std::vector<Flaw> flawed = flaws();
  for (size_t c = 0; c < calls; ++c) {
    const uint64_t what = below(10);
    if (what < adds) {
      if (below(12) == 0) {
        const Flaw &f = flawed[below(flawed.size())];
        const GustBooked told = add(ours, f.sheet);
        same("a flaw", told.number == f.number && told.path == f.path && told.place == f.place);
        note("add", told.number);
      } else {
        const Bytes sheet = some_sheet();
        const uint64_t should = map.count(key_of(sheet))                                                      ? 39
                                : map.size() >= std::min<size_t>(256, places)                                 ? 40
                                : live + sheet.size() > std::min<size_t>(65536, bytes) ? 8
                                                                                       : 0;
        const size_t before = ours.head.used;
        const GustBooked told = add(ours, sheet);
        same("add as the map", told.number == should && told.path == 0 && told.place == 0 && room.add(sheet) == should);
        if (should == 0) map[key_of(sheet)] = sheet, live += sheet.size();
        note("add", should);
        if (ours.head.used < before + sheet.size() && should == 0) note("add that closes up", 0);
      }
    } else if (what % 2) {
      const Key key = some_key(map);
      const GustFound told = find(ours, key);
      const auto it = map.find(key);
      same("find as the map", told.number == (it == map.end() ? 51u : 0u));
      if (it != map.end()) same("the sheet", Bytes(ours.bytes.begin() + static_cast<long>(told.start), ours.bytes.begin() + static_cast<long>(told.start + told.length)) == it->second);
      else same("nothing beside 51", told.start == 0 && told.length == 0);
      note("find", told.number);
    } else {
      const Key key = some_key(map);
      const uint64_t should = map.count(key) ? 0 : 51;
      const GustBooked told = remove(ours, key);
      same("remove as the map", told.number == should && room.remove(std::get<0>(key), std::get<1>(key), std::get<2>(key)) == should);
      if (should == 0) live -= map[key].size();
      map.erase(key);
      note("remove", should);
    }
    if (below(40) == 0) {
      close(ours), room.close();
      same("closed up", ours.head.used == live);
      note("close", 0);
    }
    same("head, bytes and index", ours == room && ours.head.used >= live && ours.head.entries == map.size());
    const Index fresh = afresh(ours.bytes, ours.head.used);
    same("the index afresh", fresh.size() == ours.head.entries && std::equal(fresh.begin(), fresh.end(), ours.index.begin()));
  }
  // opened again from the used bytes alone
  Index again(map.size() + below(3), 7);
  const GustBooked told = gust_book_open(ours.bytes.data(), ours.head.used, again.data(), again.size());
  same("opened", told.number == 0 && told.place == 0 && told.book.used == ours.head.used && told.book.entries == map.size() && std::equal(again.begin(), again.begin() + static_cast<long>(map.size()), ours.index.begin()));
  same("the rest of the index", std::all_of(again.begin() + static_cast<long>(map.size()), again.end(), [](uint64_t x) { return x == 7; }));
  if (!map.empty()) {
    Index few(map.size() - 1, 7);
    const Index before = few;
    same("too short an index", gust_book_open(ours.bytes.data(), ours.head.used, few.data(), few.size()).number == 40 && few == before);
    note("open", 40);
  }
  note("open", 0);
}

// Heads, bytes and indexes that no sequence of calls made.
void damaged(unsigned rounds) {
  for (unsigned i = 0; i < rounds; ++i) {
    Room ours;
    const size_t odd[] = {0, 1, 15, 16, 40, 200, 65535, 65536, 65537, ~size_t(0), ~size_t(0) - 20};
    ours.head = {odd[below(11)], below(2) ? below(9) : odd[below(11)]};
    ours.bytes.resize(below(3) ? below(120) : 65530 + below(12));
    for (auto &x : ours.bytes) x = static_cast<uint8_t>(below(4) ? 0 : dice());
    ours.index.resize(below(8));
    const Bytes sheet = some_sheet();
    for (auto &x : ours.index) x = (below(3) ? packed(key_of(below(2) ? sheet : some_sheet())) << 16 : dice()) | below(below(2) ? 100 : 65536);
    if (below(2)) std::sort(ours.index.begin(), ours.index.end());
    Room room = ours;
    const Key key = key_of(sheet);
    const GustFound told = find(ours, key), should = room.find(std::get<0>(key), std::get<1>(key), std::get<2>(key));
    same("find in any book", told.number == should.number && told.start == should.start && told.length == should.length);
    note("find in any book", told.number);
    if (below(3) == 0) close(ours), room.close(), note("close any book", 0);
    else if (below(2)) note("add to any book", add(ours, sheet).number), room.add(sheet);
    else note("remove from any book", remove(ours, key).number), room.remove(std::get<0>(key), std::get<1>(key), std::get<2>(key));
    same("any book afterwards", ours == room);
  }
}

// Bytes that are no book.
void refused() {
  Room r;
  r.bytes.resize(400);
  r.index.resize(8);
  const Bytes a = form(1, 1, 1, 1, {{0}}), b = form(2, 1, 1, 0, {{1}});
  for (const Bytes &sheet : {a, b}) same("filled", add(r, sheet).number == 0);
  const auto open = [](const Bytes &bytes) {
    Index index(8, 7);
    const GustBooked told = gust_book_open(bytes.data(), bytes.size(), index.data(), index.size());
    note("open", told.number);
    if (told.number) same("a refusal leaves the index", std::all_of(index.begin(), index.end(), [](uint64_t x) { return x == 7; }) && told.book.used == 0 && told.book.entries == 0);
    return told;
  };
  const Bytes whole(r.bytes.begin(), r.bytes.begin() + static_cast<long>(r.head.used));
  same("whole", open(whole).number == 0);
  for (size_t cut = 1; cut < whole.size(); ++cut) {
    const GustBooked told = open(Bytes(whole.begin(), whole.begin() + static_cast<long>(cut)));
    same("cut", cut == a.size() ? told.number == 0 : told.number == 53 && told.place == (cut < a.size() ? 0 : a.size()));
  }
  for (size_t at = 0; at < whole.size(); ++at)
    for (int bit = 0; bit < 8; ++bit) {
      Bytes bytes = whole;
      bytes[at] = static_cast<uint8_t>(bytes[at] ^ 1 << bit);
      // another sheet, or none from one of the two starts on
      Index index(8);
      const GustBooked told = gust_book_open(bytes.data(), bytes.size(), index.data(), index.size());
      if (told.number) same("one bit changed, no book", told.number == 53 && (told.place == 0 || told.place == a.size()));
      else {
        index.resize(told.book.entries);
        same("one bit changed, another", told.book.used == bytes.size() && index == afresh(bytes, bytes.size()));
      }
      if (at < 4 || at == 7 || (at >= 16 && at < 18)) same("a length, a count or hops", told.number == 53 && told.place == 0);
    }
  Bytes twice = whole;
  twice.insert(twice.end(), a.begin(), a.end());
  same("a key again", open(twice).number == 53 && open(twice).place == whole.size());
  twice[4] = 0;
  same("a key again, the first removed", open(twice).number == 0 && open(twice).book.entries == 2);
  Bytes far;
  for (uint64_t i = 0; far.size() <= 65536; ++i) {
    Bytes s = form(1, 1, 16, i, {{i ^ 1}});
    s[4] = 0;
    far.insert(far.end(), s.begin(), s.end());
  }
  same("beyond 65,536 bytes", open(far).number == 53 && open(far).place == far.size() - 26);
  same("an empty book", gust_book_open(nullptr, 0, nullptr, 0).number == 0);
}

// The example of docs/BOOKS.md, call by call.
void worked() {
  Room r;
  r.bytes.resize(60, 9);
  r.index.resize(256);
  const uint64_t low = 35321811042304;
  const Bytes one = form(1, 1, 1, 1, {{0}}), zero = form(1, 1, 1, 0, {{1}}), other = form(1, 1, 2, 0, {{1}});
  same("source 1", add(r, one).number == 0 && r.head.used == 26 && r.head.entries == 1 && r.index[0] == (low + 1) << 16);
  same("source 0", add(r, zero).number == 0 && r.head.used == 52 && r.head.entries == 2 && r.index[0] == (low << 16 | 26) && r.index[1] == (low + 1) << 16);
  same("again", add(r, zero).number == 39);
  const GustFound found = find(r, {1, 1, 1});
  same("found", found.number == 0 && found.start == 0 && found.length == 26 && find(r, {1, 1, 0}).start == 26);
  same("no room", add(r, other).number == 8);
  same("removed", remove(r, {1, 1, 1}).number == 0 && r.bytes[4] == 0 && r.head.used == 52 && r.head.entries == 1 && r.index[0] == (low << 16 | 26));
  same("not there", find(r, {1, 1, 1}).number == 51 && remove(r, {1, 1, 1}).number == 51);
  const uint64_t cube2 = 35459249995776;
  same("closed up by adding", add(r, other).number == 0 && r.head.used == 52 && r.head.entries == 2 && r.index[0] == low << 16 && r.index[1] == (cube2 << 16 | 26) && r.bytes[52] == 9);
  same("the sheets moved", Bytes(r.bytes.begin(), r.bytes.begin() + 26) == zero && Bytes(r.bytes.begin() + 26, r.bytes.begin() + 52) == other);
  const Room was = r;
  same("no room with the live ones", add(r, form(1, 1, 3, 0, {{1}})).number == 8 && r == was);
  same("removed again", remove(r, {1, 1, 0}).number == 0 && r.head.used == 52);
  const Room then = r;
  close(r);
  same("closed up", r.head.used == 26 && r.head.entries == 1 && r.index[0] == cube2 << 16 && Bytes(r.bytes.begin(), r.bytes.begin() + 26) == other);
  same("the rest as it was", std::equal(r.bytes.begin() + 26, r.bytes.end(), then.bytes.begin() + 26));
  Room full;
  full.bytes.resize(65536);
  full.index.resize(1);
  same("one place", add(full, zero).number == 0 && add(full, one).number == 40 && add(full, zero).number == 39 && add(full, {}).number == 30 && add(full, form(1, 1, 1, 0, {{0}})).number == 6);
}

}  // namespace

int main(int count, char **) {
  const bool small = count > 1;
  worked();
  refused();
  for (int i = 0; i < (small ? 2 : 20); ++i) {
    sequence(300, 256, small ? 100 : 1000, 6);
    sequence(600, 4, small ? 100 : 1000, 6);
    sequence(66000, 300, small ? 100 : 1500, 6);
    sequence(40000 + below(30000), 300, small ? 100 : 3000, 9);
    sequence(below(60), below(4), 50, 6);
  }
  damaged(small ? 200 : 20000);
  for (const char *what : {"add 0", "add 39", "add 40", "add 8", "find 0", "find 51", "remove 0", "remove 51", "open 0", "open 40", "open 53", "close 0", "add that closes up 0"})
    if (!small && !met[what]) {
      std::printf("books: FAILED: never told: %s\n", what);
      return 1;
    }
  std::printf("books: %llu comparisons\n", compared);
  return 0;
}
