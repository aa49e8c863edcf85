#!/usr/bin/env python3
"""The Python package beside a judge written in Python from the specification (judge_model.py, bundle_model.py, meta_model.py), beside networkx, and its documented examples.

    PYTHONPATH=python python3 tests/python_checks.py
"""
import doctest
import importlib
import sys
import unittest

import networkx
from hypothesis import HealthCheck, assume, given, settings
from hypothesis import strategies as st

import bundle_model
import judge_model
import mesh_model
from gustparsley import Book, Mesh, Record, Refused, Sheet
from gustparsley.draw import Picture, page, svg

MODULES = ("gustparsley", "gustparsley.errors", "gustparsley.mesh", "gustparsley.sheet", "gustparsley.book", "gustparsley.record", "gustparsley.draw")
settings.register_profile("here", max_examples=150, deadline=None, derandomize=True, suppress_health_check=[HealthCheck.too_slow])
settings.load_profile("here")

meshes = st.one_of(st.integers(1, 32).map(Mesh.cube), st.integers(1, 5).map(Mesh.two))
small = st.one_of(st.integers(1, 6).map(Mesh.cube), st.integers(1, 2).map(Mesh.two))
zones = st.integers(0, 2**32 - 1)


@st.composite
def requests(draw, kinds=meshes, least=1):
    """A mesh, a source and different targets."""
    mesh = draw(kinds)
    relays = st.integers(0, mesh.relays - 1)
    listed = draw(st.lists(relays, min_size=min(least, mesh.links) + 1, max_size=min(mesh.links + 1, mesh.relays), unique=True))
    return mesh, listed[0], listed[1:]


@st.composite
def failures(draw, mesh, paths):
    """Relays that stop and links that are cut, most of them on the paths."""
    on = sorted({relay for path in paths for relay in path})
    stopped = draw(st.lists(st.one_of(st.sampled_from(on), st.integers(0, 2**64 - 1)), max_size=4))
    wires = [pair for path in paths for pair in zip(path, path[1:])]
    cuts = draw(st.lists(st.one_of(st.sampled_from(wires), st.sampled_from(wires).map(lambda pair: pair[::-1]), st.tuples(st.sampled_from(on), st.sampled_from(on))), max_size=3))
    return stopped, cuts


def whole(path, stopped, cuts):
    severed = {frozenset(pair) for pair in cuts}
    return not set(path) & set(stopped) and not any(frozenset(pair) in severed for pair in zip(path, path[1:]))


def laid(paths, width):
    places = []
    for path in paths:
        places.extend(path + [judge_model.FILLER] * (width - len(path)))
    return places, [len(path) - 1 for path in paths]


class Plans(unittest.TestCase):
    @given(requests())
    def test_a_plan_is_a_fan(self, request):
        mesh, source, targets = request
        paths = mesh.plan(source, targets)
        places, counts = laid(paths, mesh.places)
        self.assertEqual(judge_model.judge(mesh.kind, mesh.size, source, targets, places, counts), (0, 0, 0))
        self.assertIsNone(mesh.judge(source, targets, paths))

    @given(requests(small), st.data())
    def test_the_judge_finds_what_the_model_finds(self, request, data):
        mesh, source, targets = request
        paths = [list(path) for path in mesh.plan(source, targets)]
        row = data.draw(st.integers(0, len(paths) - 1))
        at = data.draw(st.integers(0, len(paths[row]) - 1))
        how = data.draw(st.sampled_from(("set", "drop", "twice")))
        if how == "set":
            paths[row][at] = data.draw(st.integers(0, mesh.relays + 1))
        elif how == "drop":
            del paths[row][at]
        else:
            paths[row].insert(at, paths[row][at])
        assume(all(paths) and max(map(len, paths)) <= mesh.places)
        places, counts = laid(paths, mesh.places)
        told = judge_model.judge(mesh.kind, mesh.size, source, targets, places, counts)
        found = mesh.judge(source, targets, paths)
        self.assertEqual((found.number, found.path, found.place) if found else (0, 0, 0), told)

    @given(requests(small), st.data())
    def test_survivors_are_the_whole_paths(self, request, data):
        mesh, source, targets = request
        paths = mesh.plan(source, targets)
        stopped, cuts = data.draw(failures(mesh, paths))
        served = data.draw(st.lists(zones, min_size=len(paths), max_size=len(paths)))
        alive = mesh.survivors(source, targets, paths, stopped, cuts, served)
        self.assertEqual([entry.whole for entry in alive], [whole(path, stopped, cuts) for path in paths])
        self.assertEqual([entry.target for entry in alive], targets)
        self.assertEqual([entry.hops for entry in alive], [len(path) - 1 for path in paths])
        self.assertEqual([entry.zone for entry in alive], served)

    @given(st.integers(0, 2**64 - 1), st.integers(0, 2**64 - 1), st.integers(0, 2**64 - 1), st.lists(st.integers(0, 2**64 - 1), max_size=4))
    def test_what_is_refused_is_said(self, kind, size, source, targets):
        mesh = Mesh(kind % 5, size if size % 3 else size % 40)
        told = judge_model.request(mesh_model.mesh_of(mesh.kind, mesh.size) if mesh.kind in (1, 2) else None, source, targets)
        assume(told and mesh.kind != 3)
        with self.assertRaises(Refused) as caught:
            mesh.plan(source, targets)
        self.assertEqual((caught.exception.number, caught.exception.place), told)
        self.assertTrue(caught.exception.words)

    def test_numbers_that_are_none(self):
        for wrong in (-1, 2**64):
            for ask in (lambda: Mesh.cube(3).plan(wrong, [1]), lambda: Mesh.cube(3).plan(0, [wrong]), lambda: Mesh.cube(wrong), lambda: Mesh.cube(3).linked(0, wrong)):
                self.assertRaises(ValueError, ask)
        self.assertRaises(TypeError, lambda: Mesh.cube(3).plan("0", [1]))


class Bundles(unittest.TestCase):
    @given(meshes, st.data())
    def test_a_bundle_is_one(self, mesh, data):
        source, target = data.draw(st.lists(st.integers(0, mesh.relays - 1), min_size=2, max_size=2, unique=True))
        paths = mesh.bundle(source, target)
        places, counts = laid(paths, mesh.places + 1)
        self.assertIsNone(bundle_model.finding(mesh_model.mesh_of(mesh.kind, mesh.size), source, target, places, counts))
        self.assertIsNone(mesh.judge_bundle(source, target, paths))
        stopped, cuts = data.draw(failures(mesh, paths))
        alive = mesh.bundle_survivors(source, target, paths, stopped, cuts)
        self.assertEqual([entry.whole for entry in alive], [whole(path, stopped, cuts) for path in paths])


class Graphs(unittest.TestCase):
    """Beside networkx: as many disjoint paths, and never fewer hops than a shortest path."""

    graphs = {}

    def graph(self, mesh):
        return self.graphs.setdefault(mesh, mesh.to_networkx())

    @settings(max_examples=60)
    @given(requests(small))
    def test_a_fan_is_as_many_disjoint_paths(self, request):
        mesh, source, targets = request
        graph = self.graph(mesh).copy()
        graph.add_edges_from((target, "end") for target in targets)
        ways = list(networkx.node_disjoint_paths(graph, source, "end"))
        self.assertEqual(len(ways), len(targets))
        far = networkx.single_source_shortest_path_length(self.graph(mesh), source)
        for path, target in zip(mesh.plan(source, targets), targets):
            self.assertGreaterEqual(len(path) - 1, far[target])

    @settings(max_examples=60)
    @given(small, st.data())
    def test_a_bundle_is_as_many_as_can_be(self, mesh, data):
        source, target = data.draw(st.lists(st.integers(0, mesh.relays - 1), min_size=2, max_size=2, unique=True))
        self.assertEqual(len(mesh.bundle(source, target)), networkx.node_connectivity(self.graph(mesh), source, target) if not mesh.linked(source, target) else mesh.links)

    @given(st.integers(1, 2).map(Mesh.two), st.data())
    def test_distances_routes_and_ways_round(self, mesh, data):
        source, target = (data.draw(st.integers(0, mesh.relays - 1)) for _ in range(2))
        stopped = data.draw(st.lists(st.integers(0, mesh.relays - 1), max_size=mesh.relays // 2))
        graph = self.graph(mesh)
        self.assertEqual(mesh.distance(source, target), networkx.shortest_path_length(graph, source, target))
        route = mesh.route(source, target)
        self.assertEqual((route[0], route[-1], len(set(route))), (source, target, len(route)))
        self.assertTrue(all(graph.has_edge(*pair) for pair in zip(route, route[1:])))
        if source != target:
            self.assertEqual(route[1], mesh.next_hop(source, target))
        running = graph.subgraph(set(graph) - set(stopped))
        if source in running and target in running and networkx.has_path(running, source, target):
            way = mesh.way_round(source, target, stopped)
            self.assertEqual(len(way) - 1, networkx.shortest_path_length(running, source, target))
            self.assertFalse(set(way) & set(stopped))
        else:
            with self.assertRaises(Refused) as caught:
                mesh.way_round(source, target, stopped)
            self.assertEqual(caught.exception.number, 43 if source in stopped else 44 if target in stopped else 45)

    def test_metacubes(self):
        mesh = Mesh.meta(1, 2)
        graph = mesh.to_networkx()
        self.assertEqual((len(graph), set(dict(graph.degree).values())), (mesh.relays, {mesh.links}))
        self.assertTrue(networkx.is_connected(graph))
        self.assertRaises(Refused, mesh.plan, 0, [1])


class Sheets(unittest.TestCase):
    @given(requests(least=2), st.data())
    def test_round_trips_and_moves(self, request, data):
        mesh, source, targets = request
        assume(mesh.kind == 1 or len(targets) > 1)
        served = data.draw(st.lists(st.one_of(st.just(0), zones), min_size=len(targets), max_size=len(targets)))
        plain, zoned = Sheet.of(mesh, source, targets), Sheet.of(mesh, source, targets, served)
        for sheet in (plain, zoned):
            self.assertEqual(Sheet.read(sheet.write()), sheet)
        self.assertEqual(plain.moved(2).moved(1).write(), plain.write())
        if any(served):
            with self.assertRaises(Refused) as caught:
                zoned.moved(1)
            self.assertEqual((caught.exception.number, caught.exception.path), (38, next(i for i, zone in enumerate(served) if zone)))
        else:
            self.assertEqual(zoned.moved(1).write(), plain.write())
        self.assertEqual(zoned.survivors(), mesh.survivors(source, targets, zoned.paths, zones=served))

    @given(st.binary(max_size=80), st.integers(0, 79), st.integers(0, 255))
    def test_no_bytes_are_a_surprise(self, raw, at, value):
        damaged = bytearray(Sheet.of(Mesh.cube(2), 0, [3, 1], [5, 0]).write())
        damaged[at % len(damaged)] = value
        for data in (raw, bytes(damaged)):
            try:
                self.assertEqual(Sheet.read(data).write(), data)
            except Refused as why:
                self.assertTrue(why.words and why.number)


class Books(unittest.TestCase):
    keys = st.sampled_from([(mesh, source) for mesh in (Mesh.cube(1), Mesh.cube(2), Mesh.two(1)) for source in (0, 1)])

    @settings(max_examples=80)
    @given(st.lists(st.tuples(st.sampled_from(("add", "find", "remove", "open")), keys, st.booleans()), max_size=30))
    def test_a_book_is_a_map(self, calls):
        book, held = Book(room=300, entries=4), {}
        for what, (mesh, source), zoned in calls:
            key = (mesh.kind, mesh.size, source)
            targets = [source ^ 1] if mesh == Mesh.cube(1) else [source ^ 1, source ^ 2]
            data = Sheet.of(mesh, source, targets, [7] * len(targets) if zoned else None).write()
            try:
                if what == "add":
                    book.add(data)
                    self.assertNotIn(key, held)
                    held[key] = data
                elif what == "find":
                    self.assertEqual(book.find(mesh, source), held[key])
                elif what == "remove":
                    book.remove(mesh, source)
                    del held[key]
                else:
                    book = Book.open(book.used, room=300, entries=4)
            except Refused as why:
                self.assertIn(why.number, {"add": (39, 40, 8), "find": (51,), "remove": (51,)}[what])
                if why.number in (39, 51):
                    self.assertEqual(key in held, why.number == 39)
            self.assertEqual(sorted(book.sheets()), sorted(held.values()))
            self.assertEqual(len(book), len(held))


class Frames(unittest.TestCase):
    @given(st.lists(st.integers(0, 200), max_size=60), st.integers(0, 65535))
    def test_no_frame_is_passed_twice(self, offsets, begin):
        record, passed = Record(), []
        for offset in offsets:
            number = (begin + offset) % 65536
            if record.arrive(number):
                passed.append(number)
        self.assertEqual(len(passed), len(set(passed)))
        self.assertEqual(bool(passed), bool(offsets))


class Pictures(unittest.TestCase):
    @settings(max_examples=40)
    @given(requests(), st.data())
    def test_every_fan_can_be_drawn(self, request, data):
        import xml.etree.ElementTree as tree

        mesh, source, targets = request
        paths = mesh.plan(source, targets)
        stopped, cuts = data.draw(failures(mesh, paths))
        drawn = tree.fromstring(svg(Picture.of(mesh, paths, f"A fan in {mesh}", stopped=stopped, cuts=cuts)))
        lanes = [part for part in drawn.iter() if part.get("data-path") is not None]
        self.assertEqual({int(part.get("data-path")) for part in lanes if "broken" in part.get("class")}, {i for i, path in enumerate(paths) if not whole(path, stopped, cuts)})
        shown = {int(part.get("data-relay")) for part in drawn.iter() if part.get("data-relay")}
        self.assertLessEqual({relay for path in paths for relay in path}, shown)
        self.assertIn("</html>", page(Picture.of(mesh, paths, "a fan")))


class Examples(unittest.TestCase):
    def test_documented_examples(self):
        for name in MODULES:
            failed, _ = doctest.testmod(importlib.import_module(name), optionflags=doctest.IGNORE_EXCEPTION_DETAIL * 0)
            self.assertEqual(failed, 0, name)


if __name__ == "__main__":
    unittest.main(verbosity=1, argv=[sys.argv[0], *sys.argv[1:]])
