/* Gustparsley for C and C++: fans and bundles of paths over a mesh of relays, next hops, routes, distances, the judge, survivors and sheets; frames that come in copies.
 *
 * Link with target/staticlib/libhost.a, which ./build makes. Every function here is proved to return and to leave in the slices what its
 * comment says. None allocates or keeps anything between calls, so they may be called from several threads at once.
 *
 * Meshes. kind 1 is the plain cube, sizes 1 to 32 (its dimensions); kind 2 is the two-level mesh, sizes 1 to 5 (its order); kind 3 is the metacube, size k * 64 + m for k class
 * bits, 0 to 3, and parts of m bits, k + m * 2^k at most 37. Kind 3 has facts, links, next hops, routes, the judge of fans and their survivors; the planners, distances and bundles
 * refuse it with 52, and it has no sheets. Relays are the numbers below `relays`; each has `links` links; a path has at most `longest` hops and takes W = longest + 1 places (gust_facts tells them). Any numbers may be passed:
 * what is no mesh, no relay and so on is refused, as told below.
 *
 * Slices. A slice is a pointer and how many elements it has; the pointer must not be null, even for 0 elements, must be aligned for its type and must be
 * good for that many. A slice lent for writing must overlap no other slice of the call. Nothing outside a slice is read or written.
 *
 * Fans in slices. Path i starts at place i * W of `places`, the source first, and has `counts[i]` hops; its places after its last relay hold GUST_UNUSED.
 * `targets[i]` is where it ends. There are k paths, one for each target.
 *
 * Bundles in slices. As many paths from the source to one target as a relay has links, k = `links`, which share nothing but the two ends. They lie as a fan's do, but
 * each may have one hop more, so path i starts at place i * (W + 1). Path i comes to the target by its link i, links in the order of the bits, lowest first; in the
 * two-level mesh the slot's bits, then the block's.
 *
 * Refusals. Every call tells a number, 0 where all is well, and with some numbers a place or a path. No call that tells a number other than 0 changes
 * any slice, and then every other value it returns is 0, but for the working room of gust_way_round with 45, the record that gust_arrive gives back as it was, and
 * the head that the calls of a book do. Where several numbers apply, the first in the order given with each function is told. */
#ifndef GUSTPARSLEY_H
#define GUSTPARSLEY_H

#include <stddef.h>
#include <stdint.h>

#ifdef __cplusplus
extern "C" {
#endif

enum {
  GUST_CUBE = 1,
  GUST_TWO_LEVEL = 2,
  GUST_METACUBE = 3
};

/* What an unused place of a path holds: 2^64 - 1. */
#define GUST_UNUSED UINT64_MAX

/* The numbers. The place is 0 unless said otherwise. */
enum {
  GUST_FINE = 0,
  GUST_UNKNOWN_SIZE = 1,     /* no such kind or size */
  GUST_SOURCE_OUT = 2,       /* the source is no relay */
  GUST_NO_TARGET = 3,        /* no target */
  GUST_TOO_MANY = 4,         /* more targets than a relay has links */
  GUST_TARGET_OUT = 5,       /* a target is no relay; its place in the list */
  GUST_TARGET_IS_SOURCE = 6, /* a target is the source; its place in the list */
  GUST_TARGET_AGAIN = 7,     /* a target stands earlier in the list; its place in the list */
  GUST_NO_ROOM = 8,          /* a lent slice is too short */
  GUST_NO_DISTANCE = 9,      /* distances are not answered for cubes and for orders 4 and 5 */
  GUST_UNREADABLE = 10,      /* the target bytes are no multiple of 8 */
  /* Findings of the judge, each with its path: */
  GUST_TOO_LONG = 20,        /* more hops than the longest path has, in a bundle one more */
  GUST_NOT_FROM_SOURCE = 21, /* place 0 is not the source */
  GUST_NOT_LINKED = 22,      /* a relay not linked to the one before, or out of range; the place of the first such */
  GUST_NOT_TO_TARGET = 23,   /* the last relay is not the target; the place is the hop count */
  GUST_SEEN_AGAIN = 24,      /* a relay that stands earlier on the path or, the source at place 0 excepted, on an earlier path; the first place. In a bundle the
                              * target at the end of its path is excepted too, but a second path that is the bare link has this at place 1 */
  GUST_NOT_FILLED = 25,      /* an unused place does not hold GUST_UNUSED; the first place */
  /* Flaws of a sheet: */
  GUST_CUT = 30,             /* fewer than 16 bytes, a wrong length field, or a path that runs out of bytes */
  GUST_VERSION = 31,         /* the version is not one that the call reads or writes */
  GUST_NO_MESH = 32,         /* no such kind or size, or one that has no sheets */
  GUST_PATHS = 33,           /* no path, or more than a relay has links */
  GUST_HOPS = 34,            /* a path with no hops, or more than the longest has; its path */
  GUST_NOT_A_FAN = 35,       /* what is to be written fails the judge, or is of a mesh that has no sheets */
  GUST_LEFT_OVER = 36,       /* bytes are left over */
  GUST_LONE_PATH = 37,       /* a sheet with a single path of a two-level mesh */
  GUST_ZONE = 38,            /* a zone that is not 0, where version 1 is to be written; its path */
  /* Frames that arrive: */
  GUST_BOOK_THERE = 39,      /* the book has a sheet of this kind, size and source */
  GUST_BOOK_FULL = 40,       /* the index of the book is full */
  GUST_FRAME_SEEN = 41,      /* a frame of this number was passed before */
  GUST_FRAME_OLD = 42,       /* the number is neither ahead of the newest nor among the newest 64 */
  /* Ways round what has stopped: */
  GUST_SOURCE_STOPPED = 43,  /* the source has stopped */
  GUST_TARGET_STOPPED = 44,  /* the target has stopped */
  GUST_NO_PATH = 45,         /* no path of running relays joins the two */
  GUST_TOO_LARGE = 46,       /* a size that is too large for export */
  GUST_MALFORMED = 47,       /* a line of a graph file is malformed; the place is its number, from 1 */
  GUST_WRONG_COUNTS = 48,    /* a graph file has no `p` line, or one with other counts */
  GUST_WRONG_LINK = 49,      /* a line of a graph file is no link, or is repeated; the place is its number, from 1 */
  GUST_LINKS_MISSING = 50,   /* links are missing in a graph file */
  /* Kinds of mesh: */
  GUST_BOOK_MISSING = 51,    /* the book has no sheet of this kind, size and source */
  GUST_NOT_SERVED = 52,      /* the routine does not serve this kind */
  GUST_BOOK_BAD = 53         /* no accepted or removed sheet, or one whose kind, size and source stand earlier in the book; its start */
};

/* ---- the region host's two calls. Each returns number * 256 + place, so 0 for success. (Every place told here is below 256.) */

/* Writes the relay after `source` on the plain route to `target`, 8 bytes big-endian, at the start of `out`; it is `source` itself where that is the target.
 * Bytes of `out` after the eighth stay as they were. Numbers, in this order: 1, 2, 5, and 8 where `out_len` is below 8.
 * The plain route changes the lowest differing bit in a cube. In the two-level mesh, while blocks differ, the slot walks to p, the differing block bit that
 * comes first in the reflected Gray order (i xor (i div 2) for i = 0, 1, 2 and so on), and the block's bit p is changed there; then it walks to the target's
 * slot. A slot walks by its lowest differing bit. No route of order m has more than 2^(m+1) + 2m - 1 hops. In a metacube, while some part differs, the lowest differing bit of the
 * own class's part is changed, and where that part agrees the class becomes the next in the cyclic Gray order; then the class is corrected, lowest bit first. No such route has more
 * than 2^k - 1 + k hops above the number of differing part bits. */
uint64_t gust_next_hop(uint64_t kind, uint64_t size, uint64_t source, uint64_t target, uint8_t *out, size_t out_len);

/* Plans a fan from `source` to the targets, numbers of 8 bytes each, big-endian, and writes its sheet (docs/SHEETS.md) at the start of `out`: a path to
 * each target in their order, none longer than the longest, that meet nowhere but at the source. Which fan it is, where there are several, is the
 * library's choice. Bytes of `out` after the sheet stay as they were. Numbers, in this order: 10 where `targets_len` is no multiple of 8; 1, 52, 2, 3, 4, 5, 6, 7;
 * 37 for a single target in a two-level mesh; and 8 exactly where `out_len` is below 16 + k * (2 + 8 * longest), though the sheet itself may be shorter. */
uint64_t gust_plan(uint64_t kind, uint64_t size, uint64_t source, const uint8_t *targets, size_t targets_len, uint8_t *out, size_t out_len);

/* ---- the library's routines over numbers and slices */

typedef struct GustAnswer {
  uint64_t number, path, place, value;
} GustAnswer;

typedef struct GustFacts {
  uint64_t number, path, place, relays, links, longest, places;
} GustFacts;

typedef struct GustVerdict {
  uint64_t number, path, place;
} GustVerdict;

typedef struct GustReading {
  uint64_t number, path, place, kind, size, source, paths;
} GustReading;

/* The facts of a size: relays, links of each, hops of the longest path, places that a path takes. Number: 1. */
GustFacts gust_facts(uint64_t kind, uint64_t size);

/* Whether two relays are linked: value 1 for yes, 0 for no. Numbers, in this order: 1, 2, 5. */
GustAnswer gust_linked(uint64_t kind, uint64_t size, uint64_t source, uint64_t target);

/* The fewest links between two relays, for the two-level mesh of orders 1 to 3. Numbers, in this order: 1, 52, 9, 2, 5. */
GustAnswer gust_distance(uint64_t kind, uint64_t size, uint64_t source, uint64_t target);

/* Writes the plain route, both ends included, from place 0 of `out`; the value is its hops. Places after its last relay stay as they were. Numbers, in this
 * order: 1, 2, 5, and 8 where `out_len` is below hops + 1. */
GustAnswer gust_route(uint64_t kind, uint64_t size, uint64_t source, uint64_t target, uint64_t *out, size_t out_len);

/* Plans a fan from `source` to the targets, as gust_plan does, but in numbers: path i to targets[i] in places and counts, as said above; elements beyond the k paths
 * stay as they were. The value is k. Numbers, in this order: 1, 52, 2 to 7, and 8 where there are fewer than k * W places or k counts. */
GustAnswer gust_fan(uint64_t kind, uint64_t size, uint64_t source, const uint64_t *targets, size_t targets_len, uint64_t *places, size_t places_len,
                    uint64_t *counts, size_t counts_len);

/* Plans a bundle from `source` to `target`: as many paths as a relay has links, each with at most longest + 1 hops, that share nothing but the two ends. The
 * two may be linked: one path is then the bare link. Elements beyond the paths stay as they were; which bundle it is, where there are several, is the library's
 * choice. The value is how many paths. Numbers, in this order: 1, 52, 2, 5, 6 where the two are equal, and 8 where there are fewer than links * (W + 1)
 * places or links counts. A bundle survives the loss of any relays but the two ends, as long as they are fewer than the links. */
GustAnswer gust_bundle(uint64_t kind, uint64_t size, uint64_t source, uint64_t target, uint64_t *places, size_t places_len, uint64_t *counts,
                       size_t counts_len);

/* Judges whether places and counts hold a fan from the source to the targets: number 0 where they do. Places and counts beyond the k paths are not looked at.
 * Numbers, in this order: 1 to 7; 8 where there are fewer than k * W places or k counts; then the first finding, 20 to 25, of the first path that has one. */
GustVerdict gust_judge(uint64_t kind, uint64_t size, uint64_t source, const uint64_t *targets, size_t targets_len, const uint64_t *places, size_t places_len,
                       const uint64_t *counts, size_t counts_len);

/* Judges whether places and counts hold a bundle from the source to the target: number 0 where they do. What lies beyond its paths is not looked at. Numbers, in this
 * order: 1, 52, 2, 5, 6; 8 as gust_bundle; then the first finding, 20 to 25, of the first path that has one. */
GustVerdict gust_judge_bundle(uint64_t kind, uint64_t size, uint64_t source, uint64_t target, const uint64_t *places, size_t places_len,
                              const uint64_t *counts, size_t counts_len);

/* Of a fan, which paths are whole: those on which no relay is in `stopped` and no two neighbouring relays are a pair of `cuts`, in either order. Pair j of `cuts` is
 * cuts[2j] and cuts[2j + 1]; a last number without a partner, and a pair that is no link, do nothing; with cuts_len 0 nothing is cut. Writes for path i its target to
 * ends[i], its hops to hops[i], 1 to wholes[i] where it is whole, else 0, and zones[i] to out_zones[i]; elements from k on stay as they were. The value is how many are whole: with the source
 * not stopped k - f at least, where f is how many different relays have stopped and different links are cut. Numbers, in this order: 1 to 7; 8 where there are fewer
 * than k * W places, k counts, k zones or k of ends, hops, wholes or out_zones; then 20 to 25.
 * Changed: `zones`, `zones_len` and `out_zones`, `out_zones_len` are new, here and in gust_bundle_survivors: the build zone of each path, of 32 bits. */
GustAnswer gust_survivors(uint64_t kind, uint64_t size, uint64_t source, const uint64_t *targets, size_t targets_len, const uint64_t *places,
                          size_t places_len, const uint64_t *counts, size_t counts_len, const uint32_t *zones, size_t zones_len, const uint64_t *stopped, size_t stopped_len,
                          const uint64_t *cuts, size_t cuts_len, uint64_t *ends, size_t ends_len, uint64_t *hops, size_t hops_len, uint64_t *wholes, size_t wholes_len,
                          uint32_t *out_zones, size_t out_zones_len);

/* The same of a bundle: ends[i] is the target for every path. With neither end stopped, links - f paths at least are whole, f as above; where an end has stopped none
 * is. Numbers, in this order: 1, 52, 2, 5, 6; 8 as gust_bundle, or where there are fewer than links of zones, ends, hops, wholes or out_zones; then
 * 20 to 25. */
GustAnswer gust_bundle_survivors(uint64_t kind, uint64_t size, uint64_t source, uint64_t target, const uint64_t *places, size_t places_len,
                                 const uint64_t *counts, size_t counts_len, const uint32_t *zones, size_t zones_len, const uint64_t *stopped, size_t stopped_len,
                                 const uint64_t *cuts, size_t cuts_len, uint64_t *ends, size_t ends_len, uint64_t *hops, size_t hops_len, uint64_t *wholes, size_t wholes_len,
                                 uint32_t *out_zones, size_t out_zones_len);

/* Writes the sheet of a fan at the start of `out`; the value is its length in bytes. Bytes after it stay as they were. Numbers: 37 for kind 2 and a single
 * target, whatever else is asked; 35 of a mesh that has no sheets, and where the judge tells a number but 8; 8 where it tells 8, or where `out_len` is below the
 * length of the sheet. */
GustAnswer gust_write_sheet(uint64_t kind, uint64_t size, uint64_t source, const uint64_t *targets, size_t targets_len, const uint64_t *places,
                            size_t places_len, const uint64_t *counts, size_t counts_len, uint8_t *out, size_t out_len);

/* Reads one sheet, all of `bytes`: fills places, counts and targets with its k paths as said above; elements beyond them stay as they were. Returns kind, size,
 * source and k. Numbers, in this order: 30 (fewer than 16 bytes, or a wrong length field), 31, 32, 33, 37 (a single path of a two-level mesh), 8 where there are
 * fewer than k * W places, k counts or k targets; path by path 30 (its two bytes of hops are missing), 34 with its path, 30 (its relays run out); 36; 2; 5, 6, 7, each with its place, which is the
 * path that ends in that target; 22 and 24 path by path, with path and place. docs/SHEETS.md says what to mend. */
GustReading gust_read_sheet(const uint8_t *bytes, size_t bytes_len, uint64_t *places, size_t places_len, uint64_t *counts, size_t counts_len,
                            uint64_t *targets, size_t targets_len);

/* ---- sheets with zones. Version 2 of a sheet has a zone of 32 bits for each path, version 1 has none, which reads as 0 (docs/SHEETS.md). */

/* What a sheet of either version tells: as GustReading, and its version, which is 0 where something stands against it. */
typedef struct GustZonedReading {
  uint64_t number, path, place, kind, size, source, paths, version;
} GustZonedReading;

/* Writes the sheet of a fan with a zone for each path, in version 1 or 2. Numbers: 37 as in gust_write_sheet; 31 for any version but 1 and 2; 35 and 8 by the judge, where too few
 * zones are 8 as too few counts are; 38 with the first path whose zone is not 0, where the version is 1; 8 where `out_len` is below the length of the sheet. */
GustAnswer gust_write_zoned_sheet(uint64_t version, uint64_t kind, uint64_t size, uint64_t source, const uint64_t *targets, size_t targets_len, const uint64_t *places,
                                  size_t places_len, const uint64_t *counts, size_t counts_len, const uint32_t *zones, size_t zones_len, uint8_t *out, size_t out_len);

/* Reads one sheet of either version, and fills k zones too. Numbers as in gust_read_sheet; 31 for any version but 1 and 2; 8 also where there are fewer than k zones, of version 1
 * too. What it gives, gust_write_zoned_sheet writes back to the same bytes. */
GustZonedReading gust_read_zoned_sheet(const uint8_t *bytes, size_t bytes_len, uint64_t *places, size_t places_len, uint64_t *counts, size_t counts_len, uint64_t *targets,
                                       size_t targets_len, uint32_t *zones, size_t zones_len);

/* Moves a sheet of version 1 to version 2, with zone 0 for each path, and one of version 2 back to version 1; the value is its length in bytes. Both ways round give the same bytes.
 * Numbers: those of gust_read_sheet but its 8, with path and place, where the version that it does not start from is 31; on the way back 38 with the first path whose zone is not 0;
 * and 8 where `out_len` is below the length of the sheet. `bytes` and `out` may not overlap. */
GustAnswer gust_sheet_to_2(const uint8_t *bytes, size_t bytes_len, uint8_t *out, size_t out_len);
GustAnswer gust_sheet_to_1(const uint8_t *bytes, size_t bytes_len, uint8_t *out, size_t out_len);

/* A way round: writes a shortest path from `source` to `target` on which no relay is in `stopped`, both ends included, from place 0 of `out`; the value is its hops,
 * the fewest that any such path has. Which shortest path it is, where there are several, is the library's choice. Places after its last relay stay as they were. Equal ends
 * that run have 0 hops. For the two-level mesh of orders 1 to 3. Numbers in `stopped` that are no relay, or stand there twice, do nothing.
 * `room` is working room: it and `out` need a place for each relay (8, 64, 2,048). What it holds after a search, 45 included, means nothing. Numbers, in this order: 1, 52, 9, 2, 5, 43 where the source
 * has stopped, 44 where the target has, 8 where `room_len` or `out_len` is below the number of relays, and 45 exactly where no path of running relays joins the two; then
 * `out` is as it was. The time is in proportion to the relays and links of the mesh.
 *
 *     uint64_t stopped[] = {1}, room[8], out[8];
 *     GustAnswer a = gust_way_round(GUST_TWO_LEVEL, 1, 0, 5, stopped, 1, room, 8, out, 8);
 *
 * a.value is 6, and out begins with 0 2 3 7 6 4 5. */
GustAnswer gust_way_round(uint64_t kind, uint64_t size, uint64_t source, uint64_t target, const uint64_t *stopped, size_t stopped_len, uint64_t *room,
                          size_t room_len, uint64_t *out, size_t out_len);

/* ---- a mesh for tools that read graphs */

/* Writes a mesh as a DIMACS edge file: a line `p edge N M` with the counts of relays and links, then a line `e U V` for each link, the lower relay first, ordered by the lower and then the
 * higher; relays are numbered from 1, one above their numbers here. Each line ends with a newline. The value is how many bytes that is; bytes after them stay as they were. For cubes of 1 to 11
 * dimensions and the two-level mesh of orders 1 to 3: 123,009 bytes are enough for each. Numbers, in this order: 1, 52, 46 for cubes of 12 dimensions or more and orders 4 and 5, 8 exactly where
 * `out_len` is below the length of the text.
 *
 *     uint8_t out[35];
 *     GustAnswer a = gust_write_graph(GUST_CUBE, 2, out, 35);
 *
 * a.value is 35, and out holds p edge 4 4, e 1 2, e 1 3, e 2 4 and e 3 4, each with a newline. */
GustAnswer gust_write_graph(uint64_t kind, uint64_t size, uint8_t *out, size_t out_len);

/* Reads a DIMACS edge file, and tells 0 exactly where it is that mesh with each link once. Lines whose first byte is `c` are comments, whatever follows; `e` lines may come in any order and either
 * direction. Every other line is exactly `p edge N M` or `e U V`, with single spaces and decimal numbers below 2^64 without leading zeros. Numbers, in this order: 1, 52, 46; 47 with the first line
 * that is malformed, from 1, as the place (an empty line, a carriage return, a second `p`, an `e` before it, and bytes after the last newline are malformed); 48 where there is no `p` line or its
 * counts are others; 49 with the first `e` line that is no link or stands before in either direction; 50 where links are missing. It lends no room, and takes 4 KB of stack for marks. */
GustVerdict gust_read_graph(uint64_t kind, uint64_t size, const uint8_t *text, size_t text_len);

/* ---- frames that come in several copies */

/* What a receiver keeps: the newest number, and in bit e of `marks` whether the number e before the newest was passed. All zero is a fresh record; so is any
 * whose marks are 0. */
typedef struct GustRecord {
  uint16_t newest;
  uint64_t marks;
} GustRecord;

/* What becomes of a frame, and the two numbers of the record to keep. */
typedef struct GustArrival {
  uint16_t number, newest;
  uint64_t marks;
} GustArrival;

/* The arrival of a frame, which carries a number of 16 bits that wraps. Number 0: the frame is passed. It is where the record is fresh; where its number is 1 to
 * 32,767 ahead of the newest, and then it becomes the newest; and where it is among the 64 newest, the newest included, and unmarked. The record to keep comes
 * back, which is the one given where the frame is refused. Numbers: 41 for one of the 64 newest that is marked, 42 for any other. */
GustArrival gust_arrive(GustRecord record, uint16_t number);

/* ---- books of sheets */

/* A book keeps sheets of both versions in bytes that the caller owns, one after another, and beside them an index in order of kind, size and source. Its head is two
 * numbers, which the caller keeps: how many bytes are in use, removed sheets counted, and how many places of the index. All zero is an empty book, over any slices.
 * Of the bytes lent at most the first 65,536 are used, of the index at most 256 places. Lend the same bytes and index, and the head that came back, to each call.
 * docs/BOOKS.md has both byte by byte. A book in which something else was written is not read or written beyond what is lent, but may answer anything. */
typedef struct GustBook {
  size_t used, entries;
} GustBook;

/* What becomes of a call, and the head to keep, which is the one given where it is refused. */
typedef struct GustBooked {
  uint64_t number, path, place;
  GustBook book;
} GustBooked;

/* Where a sheet starts in the bytes, and its length. */
typedef struct GustFound {
  uint64_t number, start, length;
} GustFound;

/* Adds one sheet behind the last; where there is no room behind it, closes the book up first, as gust_book_close does. Numbers: what reading it would tell but 8, with path and
 * place (30, 31, 32, 33, 37, 34, 36, 2, 5, 6, 7, 22, 24); then 39, 40, and 8 exactly where the sheets that are not removed and the new one are together longer than the bytes lent,
 * or than 65,536. A refusal changes nothing: the book is then not closed up either. */
GustBooked gust_book_add(GustBook book, uint8_t *bytes, size_t bytes_len, uint64_t *index, size_t index_len, const uint8_t *sheet, size_t sheet_len);

/* Finds the sheet of a kind, a size and a source: it is the `length` bytes from `start` on, which lie within the bytes lent. Number: 51. */
GustFound gust_book_find(GustBook book, const uint8_t *bytes, size_t bytes_len, const uint64_t *index, size_t index_len, uint64_t kind, uint64_t size,
                         uint64_t source);

/* Removes it: its version byte becomes 0, and its place goes out of the index. Its bytes stay in use. Number: 51, and then nothing is changed. */
GustBooked gust_book_remove(GustBook book, uint8_t *bytes, size_t bytes_len, uint64_t *index, size_t index_len, uint64_t kind, uint64_t size, uint64_t source);

/* Closes a book up, and gives the head to keep: the sheets that are not removed move down in their order, their bytes unchanged, over those that are; the index follows, and every
 * sheet is found that was found before, at its new start. Bytes from the new end on stay as they were. Nothing is refused. */
GustBook gust_book_close(GustBook book, uint8_t *bytes, size_t bytes_len, uint64_t *index, size_t index_len);

/* What a restarting host calls: given exactly the used bytes of a book, works the index out afresh and gives the head. Numbers: 53 with the start of the first piece that
 * is no accepted or removed sheet, or whose kind, size and source stand earlier; 40 where the index is too short. Then nothing is changed, and the head is that of an
 * empty book. */
GustBooked gust_book_open(const uint8_t *bytes, size_t bytes_len, uint64_t *index, size_t index_len);

#ifdef __cplusplus
}

/* ---- the two calls over spans, for C++17 */
#include <utility>
namespace gust {

enum class Reason : uint64_t {
  kFine = GUST_FINE,
  kUnknownSize = GUST_UNKNOWN_SIZE,
  kNotServed = GUST_NOT_SERVED,
  kSourceOut = GUST_SOURCE_OUT,
  kNoTarget = GUST_NO_TARGET,
  kTooMany = GUST_TOO_MANY,
  kTargetOut = GUST_TARGET_OUT,
  kTargetIsSource = GUST_TARGET_IS_SOURCE,
  kTargetAgain = GUST_TARGET_AGAIN,
  kNoRoom = GUST_NO_ROOM,
  kUnreadable = GUST_UNREADABLE,
  kLonePath = GUST_LONE_PATH
};

/* The reason and its place; true where all is well. */
struct Outcome {
  Reason reason;
  uint64_t place;
  explicit operator bool() const { return reason == Reason::kFine; }
};

/* A pointer and a count, made of anything that has data() and size(), as std::vector, std::array or std::span. */
template <class T>
struct Span {
  T *data;
  size_t size;
  Span(T *at, size_t count) : data(at), size(count) {}
  template <class C, class = decltype(std::declval<C>().data())>
  Span(C &&from) : data(from.data()), size(from.size()) {}
};

inline Outcome outcome(uint64_t code) { return {static_cast<Reason>(code / 256), code % 256}; }

/* gust_next_hop. (An empty span may have a null pointer here.) */
inline Outcome next_hop(uint64_t kind, uint64_t size, uint64_t source, uint64_t target, Span<uint8_t> out) {
  uint8_t none = 0;
  return outcome(gust_next_hop(kind, size, source, target, out.size ? out.data : &none, out.size));
}

/* gust_plan. */
inline Outcome plan(uint64_t kind, uint64_t size, uint64_t source, Span<const uint8_t> targets, Span<uint8_t> out) {
  uint8_t none[2] = {0, 0};
  return outcome(gust_plan(kind, size, source, targets.size ? targets.data : none, targets.size, out.size ? out.data : none + 1, out.size));
}

}  // namespace gust
#endif

#endif
