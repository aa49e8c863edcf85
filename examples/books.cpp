// Keeps sheets over a restart: fills a book with the fans of some hosts, keeps its used bytes, opens it again from them, and finds a sheet. Built and compared by
// tests/books.test; by hand
//     ./build && c++ -std=c++17 -Iinclude examples/books.cpp target/staticlib/libhost.a -o books && ./books
#include "gustparsley.h"

#include <cstdio>
#include <vector>

namespace {

// The sheet of a host's fan in the cube of 3 dimensions: to two of the relays linked to it.
std::vector<uint8_t> sheet_of(uint64_t source) {
  std::vector<uint8_t> asked, sheet(16 + 2 * (2 + 8 * 4));
  for (const uint64_t target : {source ^ 1, source ^ 2})
    for (int shift = 56; shift >= 0; shift -= 8) asked.push_back(static_cast<uint8_t>(target >> shift));
  const gust::Outcome planned = gust::plan(GUST_CUBE, 3, source, asked, sheet);
  sheet.resize(planned ? 4 + sheet[2] * 256u + sheet[3] : 0);
  return sheet;
}

}  // namespace

int main() {
  std::vector<uint8_t> bytes(4096);
  std::vector<uint64_t> index(16);
  GustBook book = {0, 0};
  for (const uint64_t source : {6, 1, 4, 1}) {
    const std::vector<uint8_t> sheet = sheet_of(source);
    const GustBooked added = gust_book_add(book, bytes.data(), bytes.size(), index.data(), index.size(), sheet.data(), sheet.size());
    std::printf("add the fan of %llu: %llu\n", (unsigned long long)source, (unsigned long long)added.number);
    book = added.book;
  }
  book = gust_book_remove(book, bytes.data(), bytes.size(), index.data(), index.size(), GUST_CUBE, 3, 6).book;
  std::printf("%zu bytes, %zu sheets\n", book.used, book.entries);

  // What is kept over a restart is the used bytes alone.
  std::vector<uint8_t> kept(bytes.begin(), bytes.begin() + static_cast<long>(book.used));
  std::vector<uint64_t> afresh(16);
  const GustBooked opened = gust_book_open(kept.data(), kept.size(), afresh.data(), afresh.size());
  std::printf("opened: %llu, %zu bytes, %zu sheets\n", (unsigned long long)opened.number, opened.book.used, opened.book.entries);
  for (const uint64_t source : {4, 6}) {
    const GustFound found = gust_book_find(opened.book, kept.data(), kept.size(), afresh.data(), afresh.size(), GUST_CUBE, 3, source);
    std::printf("the fan of %llu: %llu, %llu bytes from %llu on\n", (unsigned long long)source, (unsigned long long)found.number, (unsigned long long)found.length,
                (unsigned long long)found.start);
  }
  return 0;
}
