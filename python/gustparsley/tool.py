"""The tool `gust`: plans, sheets, books and pictures from the command line."""
from __future__ import annotations

import argparse
import contextlib
import json
import os
import sys
import tempfile
from collections.abc import Callable, Sequence

from .book import Book
from .draw import Picture, page, svg
from .errors import Refused
from .mesh import Mesh, Survivors
from .sheet import Sheet, moved

# What to mend in a sheet, by the number that it is refused with (docs/SHEETS.md).
MEND = {
    2: "the source, bytes 8 to 15: a number below the relays of the mesh",
    5: "the last relay of that path: a number below the relays of the mesh",
    6: "the last relay of that path: no path leads to the source",
    7: "the last relay of that path: an earlier path has the same target",
    22: "the relay at that place of that path, or the one before it: the two are not linked",
    24: "the relay at that place of that path: one of the two must go another way",
    30: "the length in the first four bytes, or a path whose relays are missing or whose hops are too many",
    31: "the version, byte 4: 1 or 2",
    32: "kind and size, bytes 5 and 6: a cube of 1 to 32 dimensions, or order 1 to 5",
    33: "how many paths, byte 7: at least one, at most as many as a relay has links",
    34: "the hops of that path: 1 to the longest",
    36: "take the bytes after the last path off, or count the path that they are",
    37: "give it one path more at least",
}


class Bad(Exception):
    """Input that is not right: a sentence."""


# ---- numbers and files


def whole_number(text: str) -> int:
    if not text.isascii() or not text.isdigit():
        raise argparse.ArgumentTypeError(f"'{text}' is no number")
    return int(text)


def numbers(text: str) -> list[int]:
    return [whole_number(part) for part in text.split(",")] if text else []


def pairs(text: str) -> list[tuple[int, int]]:
    cuts = []
    for part in text.split(",") if text else []:
        ends = part.split("-")
        if len(ends) != 2:
            raise argparse.ArgumentTypeError(f"'{part}' is no link: write two relays, as 3-7")
        cuts.append((whole_number(ends[0]), whole_number(ends[1])))
    return cuts


SIZES = {"cube": 1, "two": 1, "meta": 2}


def mesh_of(given: Sequence[str]) -> tuple[Mesh, list[int]]:
    """The mesh that the first words name, and the numbers after it: `two 3 0 5` is order 3, and 0 and 5."""
    if not given or given[0] not in SIZES:
        raise Bad(f"a mesh is 'cube N', 'two M' or 'meta K M', not '{' '.join(given[:2])}'")
    try:
        rest = [whole_number(word) for word in given[1:]]
    except argparse.ArgumentTypeError as error:
        raise Bad(str(error)) from None
    takes = SIZES[given[0]]
    if len(rest) < takes:
        raise Bad(f"'{given[0]}' needs a size after it")
    return getattr(Mesh, given[0])(*rest[:takes]), rest[takes:]


def read(name: str) -> bytes:
    try:
        with open(name, "rb") as file:
            return file.read()
    except OSError as error:
        raise Bad(f"{name}: {error.strerror}") from None


def write(name: str, data: bytes) -> None:
    """Written beside and renamed, so that the file is the old one or the new one, whatever happens."""
    folder = os.path.dirname(os.path.abspath(name))
    try:
        handle, beside = tempfile.mkstemp(dir=folder, prefix=".gust-")
        try:
            with os.fdopen(handle, "wb") as file:
                file.write(data)
            with contextlib.suppress(OSError):
                os.chmod(beside, os.stat(name).st_mode & 0o7777 if os.path.exists(name) else 0o666 & ~_umask())
            os.replace(beside, name)
        except BaseException:
            with contextlib.suppress(OSError):
                os.unlink(beside)
            raise
    except OSError as error:
        raise Bad(f"{name}: {error.strerror}") from None


def _umask() -> int:
    mask = os.umask(0)
    os.umask(mask)
    return mask


def sheet_in(name: str) -> Sheet:
    try:
        return Sheet.read(read(name))
    except Refused as why:
        raise Refused(why.number, why.path, why.place, f"{name}: {why.words}") from None


# ---- what is shown


def lines_of(mesh: Mesh, paths: Sequence[Sequence[int]], zones: Sequence[int] = ()) -> list[str]:
    out = []
    for i, path in enumerate(paths):
        zone = f", zone {zones[i]}" if zones else ""
        out.append(f"path {i} to {path[-1]}, {len(path) - 1} hop{'s' if len(path) != 2 else ''}{zone}: {' '.join(map(str, path))}")
    return out


def sheets(count: int) -> str:
    return f"{count} sheet{'s' if count != 1 else ''}"


def plain(mesh: Mesh) -> dict:
    return {"kind": mesh.kind, "size": mesh.size, "name": str(mesh)}


def sheet_told(sheet: Sheet) -> dict:
    return {"version": sheet.version, "mesh": plain(sheet.mesh), "source": sheet.source, "targets": sheet.targets, "paths": [list(path) for path in sheet.paths], "zones": list(sheet.zones)}


def sheet_headline(sheet: Sheet) -> str:
    return f"version {sheet.version}, {sheet.mesh}, from {sheet.source} to {', '.join(map(str, sheet.targets))}"


def alive_told(alive: Survivors) -> dict:
    return {"whole": alive.whole, "entries": [vars(entry) for entry in alive]}


def draw(name: str, picture: Picture) -> None:
    """A page where the name ends in .html, else SVG."""
    made = page(picture) if name.endswith((".html", ".htm")) else svg(picture)
    write(name, made.encode())


# ---- the commands: each gives what --json prints, and the lines that are printed without it


def plan(given: argparse.Namespace) -> tuple[dict, list[str]]:
    mesh, rest = mesh_of(given.request)
    if not rest:
        raise Bad("a plan needs a source and targets after the mesh")
    source, targets = rest[0], rest[1:]
    paths = mesh.plan(source, targets)
    if given.output:
        write(given.output, Sheet.holding(mesh, source, paths, given.zones).write())
    if given.draw:
        draw(given.draw, Picture.of(mesh, paths, f"A fan in {mesh} from {source}", given.zones or ()))
    return {"mesh": plain(mesh), "source": source, "targets": targets, "paths": paths}, lines_of(mesh, paths, given.zones or ())


def bundle(given: argparse.Namespace) -> tuple[dict, list[str]]:
    mesh, rest = mesh_of(given.request)
    if len(rest) != 2:
        raise Bad("a bundle needs two relays after the mesh")
    paths = mesh.bundle(*rest)
    if given.draw:
        draw(given.draw, Picture.of(mesh, paths, f"A bundle in {mesh} from {rest[0]} to {rest[1]}"))
    return {"mesh": plain(mesh), "source": rest[0], "target": rest[1], "paths": paths}, lines_of(mesh, paths)


def show(given: argparse.Namespace) -> tuple[dict, list[str]]:
    sheet = sheet_in(given.file)
    return sheet_told(sheet), [sheet_headline(sheet), *lines_of(sheet.mesh, sheet.paths, sheet.zones if sheet.version == 2 else ())]


def check(given: argparse.Namespace) -> tuple[dict, list[str]]:
    try:
        sheet = Sheet.read(read(given.file))
    except Refused as why:
        mend = MEND.get(why.number)
        raise Refused(why.number, why.path, why.place, f"{given.file}: {why.words}" + (f". To mend: {mend}" if mend else "")) from None
    return {"fine": True, **sheet_told(sheet)}, [f"{given.file}: a fan: {sheet_headline(sheet)}"]


def stop(given: argparse.Namespace) -> tuple[dict, list[str]]:
    sheet = sheet_in(given.file)
    alive = sheet.survivors(given.relays, given.cuts)
    lines = [f"{alive.whole} of {len(alive)} paths are whole"]
    for i, entry in enumerate(alive):
        zone = f", zone {entry.zone}" if sheet.version == 2 else ""
        lines.append(f"path {i} to {entry.target}, {entry.hops} hop{'s' if entry.hops != 1 else ''}{zone}: {'whole' if entry.whole else 'broken'}")
    return alive_told(alive), lines


def move(given: argparse.Namespace) -> tuple[dict, list[str]]:
    data = read(given.file)
    try:
        made = moved(data, given.to)
    except Refused as why:
        raise Refused(why.number, why.path, why.place, f"{given.file}: {why.words}") from None
    write(given.output or given.file, made)
    return {"version": given.to, "bytes": len(made)}, [f"{given.output or given.file}: version {given.to}, {len(made)} bytes"]


def drawing(given: argparse.Namespace) -> tuple[dict, list[str]]:
    sheet = sheet_in(given.file)
    zones = sheet.zones if sheet.version == 2 else ()
    draw(given.output, Picture.of(sheet.mesh, sheet.paths, f"A fan in {sheet.mesh} from {sheet.source}", zones, given.relays, given.cuts))
    return {"drawn": given.output}, [f"{given.output}: {len(sheet.paths)} paths"]


def book_new(given: argparse.Namespace) -> tuple[dict, list[str]]:
    if os.path.exists(given.book):
        raise Bad(f"{given.book}: there is such a file already")
    write(given.book, b"")
    return {"book": given.book, "sheets": 0}, [f"{given.book}: an empty book"]


def book_in(name: str) -> Book:
    try:
        return Book.open(read(name))
    except Refused as why:
        raise Refused(why.number, why.path, why.place, f"{name}: {why.words}") from None


def book_add(given: argparse.Namespace) -> tuple[dict, list[str]]:
    book = book_in(given.book)
    data = read(given.file)
    try:
        start = book.add(data)
    except Refused as why:
        raise Refused(why.number, why.path, why.place, f"{given.file}: {why.words}") from None
    write(given.book, book.used)
    return {"start": start, "bytes": len(data)}, [f"{given.book}: {given.file} from byte {start} on, {len(data)} bytes"]


def book_key(given: argparse.Namespace) -> tuple[Mesh, int]:
    mesh, rest = mesh_of(given.key)
    if len(rest) != 1:
        raise Bad("a sheet in a book is named by its mesh and its source")
    return mesh, rest[0]


def book_find(given: argparse.Namespace) -> tuple[dict, list[str]]:
    mesh, source = book_key(given)
    data = book_in(given.book).find(mesh, source)
    if given.output:
        write(given.output, data)
    sheet = Sheet.read(data)
    return sheet_told(sheet), [sheet_headline(sheet), *lines_of(sheet.mesh, sheet.paths, sheet.zones if sheet.version == 2 else ())]


def book_remove(given: argparse.Namespace) -> tuple[dict, list[str]]:
    mesh, source = book_key(given)
    book = book_in(given.book)
    book.remove(mesh, source)
    write(given.book, book.used)
    return {"sheets": len(book)}, [f"{given.book}: {sheets(len(book))}"]


def book_close(given: argparse.Namespace) -> tuple[dict, list[str]]:
    book = book_in(given.book)
    book.close()
    write(given.book, book.used)
    return {"bytes": len(book.used), "sheets": len(book)}, [f"{given.book}: {sheets(len(book))}, {len(book.used)} bytes"]


def book_list(given: argparse.Namespace) -> tuple[dict, list[str]]:
    book = book_in(given.book)
    held = [Sheet.read(data) for data in book.sheets()]
    return {"bytes": len(book.used), "sheets": [sheet_told(sheet) for sheet in held]}, [f"{given.book}: {sheets(len(held))}, {len(book.used)} bytes", *map(sheet_headline, held)]


def facts(given: argparse.Namespace) -> tuple[dict, list[str]]:
    mesh, rest = mesh_of(given.request)
    if rest:
        raise Bad("facts need a mesh and nothing more")
    told = {"mesh": plain(mesh), "relays": mesh.relays, "links": mesh.links, "longest": mesh.longest, "places": mesh.places}
    return told, [f"{mesh}: {mesh.relays} relays, {mesh.links} links each, paths of at most {mesh.longest} hops"]


def parser() -> argparse.ArgumentParser:
    main = argparse.ArgumentParser(prog="gust", description="Paths that never meet: fans, bundles, sheets and pictures of them.")
    commands = main.add_subparsers(title="commands", metavar="COMMAND", required=True)

    def command(among, name: str, do: Callable, words: str) -> argparse.ArgumentParser:
        made = among.add_parser(name, help=words, description=words[0].upper() + words[1:] + ".")
        made.add_argument("--json", action="store_true", help="print one object of JSON instead of lines")
        made.set_defaults(do=do)
        return made

    mesh = "cube N, two M or meta K M"
    one = command(commands, "plan", plan, "plan a fan from a source to targets")
    one.add_argument("request", nargs="+", metavar="WORD", help=f"{mesh}, the source, the targets: two 3 0 5 9 17 40")
    one.add_argument("-o", "--output", metavar="FILE", help="write its sheet")
    one.add_argument("--zones", type=numbers, metavar="Z,Z,..", help="the build zone of each path; the sheet is then of version 2")
    one.add_argument("--draw", metavar="FILE", help="draw it, as a page where the name ends in .html, else as SVG")
    one = command(commands, "bundle", bundle, "plan as many paths between two relays as a relay has links")
    one.add_argument("request", nargs="+", metavar="WORD", help=f"{mesh}, and the two relays: two 3 0 40")
    one.add_argument("--draw", metavar="FILE", help="draw it, as a page where the name ends in .html, else as SVG")
    one = command(commands, "facts", facts, "tell how large a mesh is")
    one.add_argument("request", nargs="+", metavar="WORD", help=mesh)
    one = command(commands, "show", show, "show what a sheet holds")
    one.add_argument("file", metavar="FILE")
    one = command(commands, "check", check, "say whether a sheet is right, or what to mend")
    one.add_argument("file", metavar="FILE")
    one = command(commands, "stop", stop, "say which paths of a sheet stay whole when relays stop and links are cut")
    one.add_argument("file", metavar="FILE")
    one.add_argument("--relays", type=numbers, default=[], metavar="R,R,..", help="relays that stop: 5,9")
    one.add_argument("--cuts", type=pairs, default=[], metavar="U-V,..", help="links that are cut: 3-7")
    one = command(commands, "move", move, "move a sheet to the other version")
    one.add_argument("file", metavar="FILE")
    one.add_argument("--to", type=whole_number, required=True, choices=(1, 2), help="the version to move it to")
    one.add_argument("-o", "--output", metavar="FILE", help="write it there, and leave FILE as it is")
    one = command(commands, "draw", drawing, "draw a sheet")
    one.add_argument("file", metavar="FILE")
    one.add_argument("-o", "--output", required=True, metavar="FILE", help="a page where the name ends in .html, else SVG")
    one.add_argument("--relays", type=numbers, default=[], metavar="R,R,..", help="relays that have stopped")
    one.add_argument("--cuts", type=pairs, default=[], metavar="U-V,..", help="links that are cut")

    books = commands.add_parser("book", help="keep sheets in a book", description="A book keeps sheets in one file, one for each mesh and source.").add_subparsers(title="commands", metavar="COMMAND", required=True)
    for name, do, words in (("new", book_new, "begin an empty book"), ("list", book_list, "list the sheets of a book"), ("close", book_close, "close a book up over its removed sheets")):
        command(books, name, do, words).add_argument("book", metavar="BOOK")
    one = command(books, "add", book_add, "add a sheet to a book")
    one.add_argument("book", metavar="BOOK")
    one.add_argument("file", metavar="FILE")
    for name, do, words in (("find", book_find, "find a sheet by its mesh and source"), ("remove", book_remove, "remove a sheet by its mesh and source")):
        one = command(books, name, do, words)
        one.add_argument("book", metavar="BOOK")
        one.add_argument("key", nargs="+", metavar="WORD", help=f"{mesh}, and the source")
        if name == "find":
            one.add_argument("-o", "--output", metavar="FILE", help="write the sheet there")
    return main


def main(arguments: Sequence[str] | None = None) -> int:
    """0 where all is well; 1 with a sentence on standard error where the input is not right; 2 for a command line that is none."""
    given = parser().parse_args(arguments)
    try:
        told, lines = given.do(given)
    except Refused as why:
        print(f"gust: {why}", file=sys.stderr)
        if given.json:
            print(json.dumps({"refused": {"number": why.number, "path": why.path, "place": why.place, "words": why.words}}))
        return 1
    except (Bad, ValueError, TypeError) as why:
        print(f"gust: {why}", file=sys.stderr)
        if given.json:
            print(json.dumps({"refused": {"number": None, "words": str(why)}}))
        return 1
    try:
        print(json.dumps(told) if given.json else "\n".join(lines))
        sys.stdout.flush()
    except BrokenPipeError:
        os.dup2(os.open(os.devnull, os.O_WRONLY), sys.stdout.fileno())
    return 0


if __name__ == "__main__":
    sys.exit(main())
