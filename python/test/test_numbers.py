"""Every number that goes to the library is a whole one that fits its field, or an error that names it."""

from __future__ import annotations

import enum
import unittest
from decimal import Decimal
from typing import Any, Callable, Dict, Iterator, List, NamedTuple

import memplan
from memplan import Fences, Graph, Plan, Tree, Workflow
from memplan.admission import Admission, ResultGraph
from samples import ACROSS, ARROW, EXTRA, FORK, FORKED, ITEMS, OUT, PARENT, SIZES, STEPS, TASKS, Case, numpy, put

FRACTIONS = [2.9, 1.0, float("nan"), True, False, "7", None, Decimal(1), [1], (1,), 1j]
if numpy:
    FRACTIONS += [numpy.float64(2.0), numpy.bool_(True), numpy.array([1])]


class Place(NamedTuple):
    """One number of a call: its name, how many bits it has, and the call with another number there."""

    name: str
    bits: int
    call: Callable[[Any], Any]


def certificate() -> memplan.Certificate:
    return memplan.certify(PARENT, OUT, EXTRA)


def altered(at: int, field: int, value: Any) -> memplan.Certificate:
    """The certificate with another number in a claim."""
    claims = certificate().claims
    return certificate()._replace(claims=put(claims, at, tuple(put(claims[at], field, value))))


def core() -> memplan.Core:
    return memplan.Core.of_tree(PARENT, OUT, EXTRA, ACROSS, 11, 2)


def checked(given: memplan.Certificate) -> None:
    memplan.check(PARENT, OUT, EXTRA, given)


def replayed(item: Any) -> int:
    return memplan.replay_system(TASKS, put(ITEMS, 0, item), [1, 2, 3, 4])


def of_graph(inputs: Any = ((), (0,)), sizes: Any = (1, 1), extras: Any = (1, 1), kept: Any = ()) -> ResultGraph:
    return ResultGraph(inputs, sizes, extras, kept)


TREES = [
    Place("parent[3]", 32, lambda it: memplan.plan(put(PARENT, 3, it), OUT, EXTRA)),
    Place("out[3]", 64, lambda it: memplan.plan(PARENT, put(OUT, 3, it), EXTRA)),
    Place("extra[3]", 64, lambda it: memplan.best_postorder(PARENT, OUT, put(EXTRA, 3, it))),
    Place("share[3]", 64, lambda it: memplan.certify(PARENT, OUT, EXTRA, put([0] * 5, 3, it))),
    Place("order[2]", 32, lambda it: memplan.replay(PARENT, OUT, EXTRA, put(ACROSS, 2, it))),
    Place("order[4]", 32, lambda it: memplan.spill(PARENT, OUT, EXTRA, put(ACROSS, 4, it), 11)),
    Place("bound", 64, lambda it: memplan.spill(PARENT, OUT, EXTRA, ACROSS, it)),
]
CERTIFICATES = [
    Place("peak", 64, lambda it: checked(certificate()._replace(peak=it))),
    Place("order[1]", 32, lambda it: checked(certificate()._replace(order=put(list(certificate().order), 1, it)))),
    Place("claims[1].position", 32, lambda it: checked(altered(1, 0, it))),
    Place("claims[2].backward", 32, lambda it: checked(altered(2, 1, it))),
    Place("claims[3].rest", 64, lambda it: checked(altered(3, 3, it))),
]
SYSTEMS = [
    Place("tasks[1]", 64, lambda it: memplan.replay_system(put(TASKS, 1, it), ITEMS, [1, 2, 3, 4])),
    Place("items[0].size", 64, lambda it: replayed((it, 0, 1))),
    Place("items[0].from", 32, lambda it: replayed((6, it, 1))),
    Place("items[0].to", 32, lambda it: replayed((6, 0, it))),
    Place("order[0]", 32, lambda it: memplan.replay_system(TASKS, ITEMS, [it, 2, 3, 4])),
    Place("tasks[1]", 64, lambda it: memplan.replay_shared(put(FORK, 1, it), FORKED, [1, 2, 3, 4])),
    Place("items[0].size", 64, lambda it: memplan.replay_shared(FORK, put(FORKED, 0, (it, 0, [1, 2])), [1, 2, 3, 4])),
    Place("items[0].from", 32, lambda it: memplan.replay_shared(FORK, put(FORKED, 0, (1, it, [1, 2])), [1, 2, 3, 4])),
    Place("items[0].readers[1]", 32, lambda it: memplan.replay_shared(FORK, put(FORKED, 0, (1, 0, [1, it])), [1, 2, 3, 4])),
    Place("order[0]", 32, lambda it: memplan.replay_shared(FORK, FORKED, [it, 2, 3, 4])),
    Place("start[0]", 32, lambda it: memplan.plan_shared(FORK, FORKED, [it, 2, 3, 4])),
    Place("effort", 64, lambda it: memplan.plan_shared(FORK, FORKED, effort=it)),
]
CORES = [
    Place("bound", 64, lambda it: memplan.Core.of_tree(PARENT, OUT, EXTRA, ACROSS, it, 2)),
    Place("workers", 32, lambda it: memplan.Core.of_tree(PARENT, OUT, EXTRA, ACROSS, 11, it)),
    Place("order[4]", 32, lambda it: memplan.Core.of_tree(PARENT, OUT, EXTRA, put(ACROSS, 4, it), 11, 2)),
    Place("tasks[0]", 64, lambda it: memplan.Core.of_system([it], [], [1], 1, 2)),
    Place("items[0].to", 32, lambda it: memplan.Core.of_system([0], [(1, 0, it)], [1], 1, 2)),
    Place("items[0].readers[0]", 32, lambda it: memplan.Core.of_shared([0], [(1, 0, [it])], [1], 1, 2)),
    Place("bound", 64, lambda it: memplan.Core.of_shared([0], [], [1], it, 2)),
    Place("bound", 64, lambda it: memplan.Core.of_system([0], [], [1], it, 2)),
    Place("workers", 32, lambda it: memplan.Core.of_system([0], [], [1], 0, it)),
    Place("task", 32, lambda it: core().start(it)),
    Place("task", 32, lambda it: core().finish(it)),
    Place("task", 32, lambda it: core().is_startable(it)),
    Place("task", 32, lambda it: core().is_done(it)),
]
FRONTS = [
    Place("indptr[1]", 32, lambda it: memplan.fronts((put(ARROW[0], 1, it), ARROW[1]))),
    Place("indices[2]", 32, lambda it: memplan.fronts((ARROW[0], put(ARROW[1], 2, it)))),
    Place("order[3]", 32, lambda it: memplan.fronts(ARROW, [1, 2, 0, it])),
]
ADMISSION = [
    Place("inputs[1][0]", 32, lambda it: of_graph(inputs=[(), (it,)])),
    Place("sizes[1]", 64, lambda it: of_graph(sizes=[1, it])),
    Place("extras[1]", 64, lambda it: of_graph(extras=[1, it])),
    Place("kept[0]", 32, lambda it: of_graph(kept=[it])),
    Place("order[1]", 32, lambda it: of_graph().least_bound([0, it])),
    Place("order[1]", 32, lambda it: of_graph().planned_from([0, it])),
    Place("order[0]", 32, lambda it: Admission(of_graph(), 9, [it, 1])),
    Place("bound", 64, lambda it: Admission(of_graph(), it, [0, 1])),
    Place("task", 32, lambda it: Admission(of_graph(), 9, [0, 1]).start(it)),
]


def tree(**other: Any) -> Tree:
    return Tree(**{"parent": PARENT, "out": OUT, "extra": EXTRA, **other})


def plan_of_tree(at: int, column: int, value: Any) -> Plan:
    """The plan with another number in a column of its claims."""
    plan: Any = tree().plan(evidence=True)
    columns = [list(map(int, it)) for it in plan.evidence]
    columns[column] = put(columns[column], at, value)
    return plan._replace(evidence=type(plan.evidence)(*columns))  # type: ignore[no-any-return]


def graph(**other: Any) -> Graph:
    return Graph(**{"extra": FORK, "items": FORKED, **other})


def columns(**other: Any) -> Graph:
    given = {"extra": [0, 0], "size": [4], "producer": [1], "starts": [0, 1], "readers": [2]}
    return Graph.of_columns(**{**given, **other})


def fences(**other: Any) -> None:
    made: Fences = tree().fence(ACROSS, 15)
    tree().check_fences(made._replace(**other))


OBJECTS = [
    Place("parent[3]", 32, lambda it: tree(parent=put(PARENT, 3, it))),
    Place("out[3]", 63, lambda it: tree(out=put(OUT, 3, it))),
    Place("extra[3]", 63, lambda it: tree(extra=put(EXTRA, 3, it))),
    Place("share[3]", 63, lambda it: tree(share=put([0] * 5, 3, it))),
    Place("time[3]", 63, lambda it: tree(time=put([1] * 5, 3, it))),
    Place("front_of[1]", 32, lambda it: tree(front_of=[1, it])),
    Place("base", 32, lambda it: tree(base=it)),
    Place("order[2]", 32, lambda it: tree().replay(put(ACROSS, 2, it))),
    Place("order[2]", 32, lambda it: tree().simulate(put(ACROSS, 2, it), 15, 2)),
    Place("priority[2]", 32, lambda it: tree().simulate(ACROSS, 15, 2, put(ACROSS, 2, it))),
    Place("bound", 64, lambda it: tree().simulate(ACROSS, it, 2)),
    Place("workers", 32, lambda it: tree().simulate(ACROSS, 15, it)),
    Place("bound", 64, lambda it: tree().spill(ACROSS, it)),
    Place("bound", 64, lambda it: tree().fence(ACROSS, it)),
    Place("peak", 64, lambda it: tree().check(tree().plan(evidence=True)._replace(peak=it))),
    Place("claims.position[1]", 32, lambda it: tree().check(plan_of_tree(1, 0, it))),
    Place("claims.backward[1]", 32, lambda it: tree().check(plan_of_tree(1, 1, it))),
    Place("claims.rest[1]", 64, lambda it: tree().check(plan_of_tree(1, 3, it))),
    Place("bound", 64, lambda it: fences(bound=it)),
    Place("room", 64, lambda it: fences(room=it)),
    Place("amounts[1]", 63, lambda it: fences(amounts=[1, it])),
    Place("indptr[1]", 32, lambda it: Tree.of_matrix((put(ARROW[0], 1, it), ARROW[1]))),
    Place("indices[2]", 32, lambda it: Tree.of_matrix((ARROW[0], put(ARROW[1], 2, it)))),
    Place("order[3]", 32, lambda it: Tree.of_matrix(ARROW, [1, 2, 0, it])),
    Place("workers", 32, lambda it: Tree.of_matrix(ARROW).fronts(9, it)),
    Place("extra[1]", 63, lambda it: graph(extra=put(FORK, 1, it))),
    Place("share[1]", 63, lambda it: graph(share=put([0] * 4, 1, it))),
    Place("time[1]", 63, lambda it: graph(time=put([1] * 4, 1, it))),
    Place("items[0].size", 63, lambda it: graph(items=put(FORKED, 0, (it, 0, [1, 2])))),
    Place("items[0].readers[1]", 32, lambda it: graph(items=put(FORKED, 0, (1, 0, [1, it])))),
    Place("effort", 64, lambda it: graph().plan(effort=it)),
    Place("effort", 64, lambda it: graph().bound(effort=it)),
    Place("start[0]", 32, lambda it: graph().plan([it, 2, 3, 4])),
    Place("order[0]", 32, lambda it: graph().replay([it, 2, 3, 4])),
    Place("workers", 32, lambda it: graph().check(graph().plan(evidence=True), it)),
    Place("size[0]", 63, lambda it: columns(size=[it])),
    Place("producer[0]", 32, lambda it: columns(producer=[it])),
    Place("starts[1]", 63, lambda it: columns(starts=[0, it])),
    Place("readers[0]", 32, lambda it: columns(readers=[it])),
    Place("edges[0].size", 64, lambda it: Graph.of_edges([("load", "sort", it)])),
    Place("positions[0].size", 64, lambda it: Workflow([("data", it)])),
    Place("positions[1].extra", 64, lambda it: Workflow([("data", 1), ("task", it, 0, 1)])),
    Place("positions[1].count", 64, lambda it: Workflow([("data", 1), ("par", it)])),
]
PLACES = [*TREES, *CERTIFICATES, *SYSTEMS, *CORES, *FRONTS, *ADMISSION, *OBJECTS]
# None says that no fronts are merged.
ZEROS = Place("zeros", 64, lambda it: memplan.fronts(ARROW, [1, 2, 0, 3], zeros=it))
# None says in a mapping that there is none.
MAPPED = Place("extra['sort']", 63, lambda it: Graph.of_mapping(STEPS, SIZES, extra={"sort": it}))
BOUND_OF_CLAIM = Place("claims[1].bound", 64, lambda it: checked(altered(1, 2, it)))


class Scalars(Case):
    def test_what_is_no_whole_number(self) -> None:
        for place in (*PLACES, BOUND_OF_CLAIM, ZEROS, MAPPED):
            for value in FRACTIONS:
                if value is not None or place not in (ZEROS, MAPPED):
                    self.says(TypeError, f"{place.name}: {value!r} is no whole number", place.call, value)

    def test_what_is_negative(self) -> None:
        for place in (*PLACES, ZEROS, MAPPED):
            root = "; the parent of a root is 0" if place.name.startswith("parent") else ""
            self.says(OverflowError, f"{place.name}: -1 is negative{root}", place.call, -1)
            self.says(OverflowError, f"{place.name}: {-2 ** 64} is negative", place.call, -(2 ** 64))

    def test_what_is_too_great(self) -> None:
        for place in (*PLACES, ZEROS, MAPPED):
            for value in (2 ** place.bits, 2 ** place.bits + 1, 2 ** 64 + 5):
                self.says(OverflowError, f"{place.name}: {value} does not fit {place.bits} bits", place.call, value)
            words = f"{place.name}: a number of 16610 bits does not fit {place.bits} bits"
            self.says(OverflowError, words, place.call, 10 ** 5000)

    def test_the_bound_of_a_claim_has_a_sign(self) -> None:
        for value in (2 ** 63, -(2 ** 63) - 1):
            self.says(OverflowError, f"claims[1].bound: {value} does not fit 64 bits with a sign", BOUND_OF_CLAIM.call, value)
        for value in (2 ** 63 - 1, -(2 ** 63)):
            self.assertEqual(self.refused(BOUND_OF_CLAIM.call, value), (3, 43, 2, 0))

    # The greatest number that fits is handed on, and judged by the library.
    def test_what_just_fits(self) -> None:
        self.assertEqual(self.refused(TREES[0].call, 2 ** 32 - 1), (3, 12, 4, 0))
        self.assertEqual(self.refused(TREES[1].call, 2 ** 64 - 1), (4, 14, 4, 0))
        self.assertEqual(self.refused(SYSTEMS[1].call, 2 ** 64 - 1), (4, 52, 1, 0))
        self.assertEqual(self.refused(CORES[1].call, 2 ** 32 - 1), (2, 4, 0, 0))
        self.assertFalse(core().start(2 ** 32 - 1))

    def test_other_types_of_whole_numbers(self) -> None:
        class Number(enum.IntEnum):
            FIVE = 5

        class Five:
            def __index__(self) -> int:
                return 5

        fives: List[Any] = [Number.FIVE, Five()]
        if numpy:
            fives += [numpy.uint8(5), numpy.int64(5), numpy.uint64(5), numpy.array(5)]
        for five in fives:
            self.assertEqual(memplan.replay_system([five], [], [1]), 5)
            self.assertEqual(memplan.replay_system([0], [(five, 0, 1)], [1]), 5)
            self.assertEqual(memplan.Core.of_system([five], [], [1], five, five).activate(), 1)
            self.assertTrue(core().is_startable(five) is False)


class Columns(Case):
    def test_what_is_no_list(self) -> None:
        for value in (None, "95", b"95", 5, {5}, {0: 5}):
            self.says(TypeError, f"extra: {value!r} is no list or array of whole numbers", memplan.plan, [0], [1], value)
            self.says(TypeError, f"order: {value!r} is no list or array of whole numbers", memplan.replay, [0], [1], [1], value)

    def test_a_bool_among_numbers(self) -> None:
        self.says(TypeError, "extra[4]: True is no whole number", memplan.plan, PARENT, OUT, [9, 0, 9, 0, True])

    def test_numbers_for_which_no_type_of_numpy_is(self) -> None:
        self.says(OverflowError, "extra[1]: -1 is negative", memplan.plan, [2, 0], [1, 1], [2 ** 63, -1])
        self.assertEqual(self.refused(memplan.plan, [2, 0], [1, 1], [2 ** 63, 1]), (4, 14, 1, 0))

    def test_tuples_and_ranges(self) -> None:
        self.assertEqual(memplan.plan(tuple(PARENT), tuple(OUT), tuple(EXTRA))[1], 11)
        self.assertEqual(memplan.replay(PARENT, OUT, EXTRA, range(1, 6)), 15)

    @unittest.skipUnless(numpy, "there is no numpy")
    def test_arrays_of_whole_numbers(self) -> None:
        for letter in "bBhHiIlLqQ":
            arrays = [numpy.array(values, letter) for values in (PARENT, OUT, EXTRA, ACROSS)]
            self.assertEqual(memplan.replay(*arrays), 11)
        backwards = [numpy.array(values[::-1])[::-1] for values in (PARENT, OUT, EXTRA)]
        self.assertEqual(memplan.replay(*backwards, numpy.array(ACROSS, ">i4")), 11)
        self.assertEqual(memplan.replay(PARENT, OUT, numpy.array(EXTRA, object), ACROSS), 11)
        self.assertEqual(memplan.replay_system(TASKS, numpy.array(ITEMS), [1, 2, 3, 4]), 13)
        frozen = numpy.array(PARENT)
        frozen.setflags(write=False)
        self.assertEqual(memplan.replay(frozen, OUT, EXTRA, ACROSS), 11)

    @unittest.skipUnless(numpy, "there is no numpy")
    def test_arrays_of_anything_else(self) -> None:
        def planned(extra: Any) -> Any:
            return memplan.plan([2, 0], [1, 1], numpy.array(extra))

        self.says(TypeError, "extra[0]: 1.0 is no whole number", planned, [1.0, 2.0])
        self.says(TypeError, "extra[0]: True is no whole number", planned, [True, False])
        self.says(TypeError, "extra[0]: '1' is no whole number", planned, ["1", "2"])
        self.says(TypeError, "extra[0]: array([1, 2]) is no whole number", planned, [[1, 2], [3, 4]])
        self.says(TypeError, "extra: array(1) is no list or array of whole numbers", planned, 1)
        self.says(OverflowError, "extra[1]: -1 is negative", planned, [1, -1])
        self.says(OverflowError, "extra[1]: 18446744073709551616 does not fit 64 bits", planned, [1, 2 ** 64])
        parents = numpy.array([1, -1])
        self.says(OverflowError, "parent[1]: -1 is negative; the parent of a root is 0", memplan.plan, parents, [1, 1], [1, 1])
        self.assertEqual(self.refused(memplan.plan, numpy.array([]), [], []), (3, 10, 0, 0))


SHAPES: Dict[str, Callable[[Any], Any]] = {
    "parent": lambda it: memplan.plan(it, OUT, EXTRA),
    "out": lambda it: memplan.certify(PARENT, it, EXTRA),
    "extra": lambda it: memplan.best_postorder(PARENT, OUT, it),
    "share": lambda it: memplan.plan(PARENT, OUT, EXTRA, it) if it is not None else tree(share=0),
    "order": lambda it: memplan.replay(PARENT, OUT, EXTRA, it),
    "tasks": lambda it: memplan.replay_system(it, [], []),
    "indptr": lambda it: memplan.fronts((it, [])),
    "indices": lambda it: memplan.fronts(([0, 1], it)),
    "parent of a Tree": lambda it: tree(parent=it),
    "extra of a Graph": lambda it: graph(extra=it),
    "time of a Tree": lambda it: tree(time=it) if it is not None else tree(extra=it),
    "order of a Tree": lambda it: tree().replay(it),
    "order of a Graph": lambda it: graph().replay(it),
    "starts of a Graph": lambda it: columns(starts=it),
    "amounts of Fences": lambda it: fences(amounts=it),
}


class Shapes(Case):
    """What stands in the place of a column, and is none."""

    def refuses(self, value: Any) -> None:
        for what, call in SHAPES.items():
            with self.subTest(what, value=value), self.assertRaises(TypeError) as caught:
                call(value)
            name, none = what.split(" ")[0], "is no (whole number|list or array of whole numbers)"
            self.assertRegex(str(caught.exception), rf"^({name}|extra|share)(\[\d\])?: .* {none}$")

    def test_what_has_no_places(self) -> None:
        for value in (None, 5, 2.9, float("nan"), True, "12345", b"12345", {1, 2}, {0: 5}, object(), iter([1, 2])):
            self.refuses(value)

    def test_lists_in_lists(self) -> None:
        for value in ([[1, 2], [3, 4]], [(1,)], [[]], [None], [b"1"], [range(3)]):
            self.refuses(value)

    @unittest.skipUnless(numpy, "there is no numpy")
    def test_arrays_of_another_shape_or_kind(self) -> None:
        whole = numpy.arange(6)
        shapes = [whole.reshape(2, 3), whole.reshape(6, 1), whole.reshape(1, 2, 3), numpy.array(7), numpy.int64(7)]
        kinds = [whole.astype(kind) for kind in ("float32", "float64", "complex128", "bool", "U3", "S3", "datetime64[s]", "timedelta64[s]")]
        records = numpy.zeros(3, [("out", "int64"), ("extra", "int64")])
        for value in (*shapes, *kinds, records, numpy.array([1, 2.5], object), numpy.array([numpy.nan])):
            self.refuses(value)


class ClaimsThatAreNone(Case):
    def test_claims_of_another_form(self) -> None:
        fields = "(position, backward, bound, rest)"
        for claim in ((1, 0, 2), (1, 0, 2, 3, 4)):
            given = certificate()._replace(claims=put(certificate().claims, 3, claim))
            self.says(ValueError, f"claims[3]: {claim} has not the 4 numbers {fields}", checked, given)
        given = certificate()._replace(claims=put(certificate().claims, 3, "1023"))
        self.says(TypeError, f"claims[3]: '1023' is no tuple {fields}", checked, given)
        self.says(TypeError, f"claims: None is no list of tuples {fields}", checked, certificate()._replace(claims=None))
        self.says(TypeError, f"claims: 7 is no list of tuples {fields}", checked, certificate()._replace(claims=7))
        self.says(TypeError, "certificate: a tuple is no Certificate", checked, tuple(certificate()))

    # What the library takes modulo 2^64 or 2^32 would be the certificate that is right.
    def test_a_certificate_that_was_moved(self) -> None:
        for peak in (11 + 2 ** 64, 11 - 2 ** 64):
            with self.assertRaisesRegex(OverflowError, "^peak: "):
                checked(certificate()._replace(peak=peak))
        for field, offset in ((0, 2 ** 32), (1, 2 ** 32), (2, 2 ** 64), (2, -(2 ** 64)), (3, 2 ** 64)):
            with self.assertRaisesRegex(OverflowError, r"^claims\[1\]\."):
                checked(altered(1, field, certificate().claims[1][field] + offset))

    def test_lists_in_the_place_of_tuples(self) -> None:
        checked(certificate()._replace(claims=[list(claim) for claim in certificate().claims]))


def numbers_that_were_taken_for_others() -> Iterator[Any]:
    """Calls that once had an answer, for other numbers than were given."""
    yield TypeError, "sizes[0]: 2.9 is no whole number", lambda: ResultGraph([(), (0,)], [2.9, 0.9], [0.9, 0.9])
    yield TypeError, "extras[0]: 0.9 is no whole number", lambda: ResultGraph([(), (0,)], [2, 0], [0.9, 0.9])
    yield OverflowError, f"sizes[0]: {2 ** 64} does not fit 64 bits", lambda: ResultGraph([()], [2 ** 64], [0])
    yield OverflowError, f"tasks[0]: {2 ** 64 + 5} does not fit 64 bits", lambda: memplan.replay_system([2 ** 64 + 5], [], [1])
    yield (
        OverflowError,
        f"items[0].size: {2 ** 64 + 5} does not fit 64 bits",
        lambda: memplan.replay_system([0, 0], [(2 ** 64 + 5, 1, 2)], [1, 2]),
    )
    yield (
        OverflowError,
        "items[0].from: 4294967296 does not fit 32 bits",
        lambda: memplan.replay_system([0], [(5, 2 ** 32, 1)], [1]),
    )
    yield TypeError, "extra[1]: True is no whole number", lambda: memplan.plan([2, 0], [1, 1], [1, True])
    yield TypeError, "extra[0]: 1.9 is no whole number", lambda: memplan.plan([0], [1], [1.9])
    yield (
        OverflowError,
        f"workers: {2 ** 32 + 2} does not fit 32 bits",
        lambda: memplan.Core.of_tree(PARENT, OUT, EXTRA, ACROSS, 11, 2 ** 32 + 2),
    )
    yield OverflowError, f"task: {2 ** 32 + 1} does not fit 32 bits", lambda: core().start(2 ** 32 + 1)
    yield OverflowError, f"task: {2 ** 32 + 1} does not fit 32 bits", lambda: core().finish(2 ** 32 + 1)


class Reproductions(Case):
    def test_numbers_that_were_taken_for_others(self) -> None:
        for kind, words, call in numbers_that_were_taken_for_others():
            self.says(kind, words, call)


if __name__ == "__main__":
    unittest.main()
