"""Delayed calls and bags as users of Dask write them, small in bytes. Each function makes one collection, the same in every run."""

from __future__ import annotations

import random
from typing import Any, Dict, Iterable, List, Tuple

import dask
import dask.bag as db
import numpy as np
from dask import delayed

Record = Dict[str, int]

# Delayed calls. Those that are pure have the same keys in every run.


@delayed(pure=True)
def load(number: int, rows: int) -> np.ndarray:
    return np.random.RandomState(number).random_sample((rows, 20))


@delayed(pure=True)
def clean(part: np.ndarray) -> np.ndarray:
    return part[part[:, 0] < 0.7]


@delayed(pure=True)
def summary(part: np.ndarray) -> np.ndarray:
    return part.T @ part


@delayed(pure=True)
def added(parts: List[np.ndarray]) -> np.ndarray:
    return sum(parts)


@delayed(pure=True)
def features(table: np.ndarray, power: int) -> np.ndarray:
    return np.hstack([table**exponent for exponent in range(1, power + 1)])


@delayed(pure=True)
def fold_of(table: np.ndarray, fold: int) -> np.ndarray:
    return np.delete(table, np.s_[fold::5], axis=0)


@delayed(pure=True)
def fitted(table: np.ndarray, strength: float) -> np.ndarray:
    return np.linalg.solve(table.T @ table + strength * np.eye(table.shape[1]), table.sum(axis=0))


@delayed(pure=True)
def score(model: np.ndarray, table: np.ndarray) -> float:
    return float(np.abs(table @ model - 1).mean())


@delayed(pure=True)
def best(scores: List[float]) -> float:
    return min(scores)


@delayed(pure=True)
def merged(left: np.ndarray, right: np.ndarray) -> np.ndarray:
    return np.vstack([left, right])[::2]


@delayed(pure=True)
def scaled(part: np.ndarray, scale: np.ndarray) -> np.ndarray:
    return part @ scale / len(part)


@delayed(pure=True)
def largest(part: np.ndarray) -> np.ndarray:
    return np.sort(part, axis=0)[-10:]


def rows_of(number: int) -> int:
    """How long the file of a number is: no two are alike."""
    return 200 + number * 37 % 400


def map_and_reduce() -> Any:
    return added([summary(clean(load(number, rows_of(number)))) for number in range(32)])


def grid_search() -> Any:
    table = load(0, 1000)
    scores = []
    for power in (1, 2, 3, 4):
        wide = features(table, power)
        for fold in range(5):
            training = fold_of(wide, fold)
            scores += [score(fitted(training, strength), wide) for strength in (0.1, 1.0, 10.0)]
    return best(scores)


def merge_tree() -> Any:
    level = [load(number, rows_of(number)) for number in range(48)]
    while len(level) > 1:
        pairs = [merged(left, right) for left, right in zip(level[::2], level[1::2])]
        level = pairs + level[len(pairs) * 2 :]
    return level[0]


def broadcast_scale() -> Any:
    parts = [clean(load(number, rows_of(number))) for number in range(24)]
    scale = added([summary(part) for part in parts])
    return [largest(scaled(part, scale)) for part in parts]


DELAYED = (map_and_reduce, grid_search, merge_tree, broadcast_scale)

# Bags

WORDS = "order task graph memory bound peak front tree item worker result chunk block plan path".split()


def sentences(partition: int) -> List[str]:
    draw = random.Random(partition)
    return [" ".join(draw.choices(WORDS, k=draw.randrange(3, 12))) for _ in range(60 + 20 * (partition % 7))]


def records(partition: int) -> List[Record]:
    draw = random.Random(partition)
    return [{"shop": draw.randrange(40), "amount": draw.randrange(1000)} for _ in range(100 + 30 * (partition % 5))]


def bag_of_sentences() -> db.Bag:
    return db.from_sequence(range(24), npartitions=24).map(sentences).flatten()


def bag_of_records() -> db.Bag:
    return db.from_sequence(range(16), npartitions=16).map(records).flatten()


def shop_of(record: Record) -> int:
    return record["shop"]


def add_amount(total: int, record: Record) -> int:
    return total + record["amount"]


def add(one: int, other: int) -> int:
    return one + other


def total_of_group(group: Tuple[int, List[Record]]) -> Tuple[int, int]:
    return group[0], sum(record["amount"] for record in group[1])


def word_frequencies() -> Any:
    return bag_of_sentences().map(str.split).flatten().frequencies(split_every=4).topk(5, key=1)


def amounts_by_shop() -> Any:
    return bag_of_records().foldby(shop_of, add_amount, 0, add, 0, split_every=4)


def groups_by_shop() -> Any:
    return bag_of_records().groupby(shop_of, shuffle="tasks", max_branch=4).map(total_of_group)


def shops_joined() -> Any:
    shops = [{"shop": shop, "region": shop % 6} for shop in range(40)]
    joined = bag_of_records().join(shops, shop_of)
    return joined.map(region_and_amount).foldby(first_of, add_second, 0, add, 0)


def region_and_amount(pair: Tuple[Record, Record]) -> Tuple[int, int]:
    return pair[0]["region"], pair[1]["amount"]


def first_of(pair: Tuple[int, int]) -> int:
    return pair[0]


def add_second(total: int, pair: Tuple[int, int]) -> int:
    return total + pair[1]


def lengths(part: Iterable[str]) -> List[int]:
    return [len(sentence) for sentence in part]


def lengths_of_sentences() -> Any:
    numbers = bag_of_sentences().map_partitions(lengths)
    return numbers.mean(), numbers.std(), numbers.max()


BAGS = (word_frequencies, amounts_by_shop, groups_by_shop, shops_joined, lengths_of_sentences)
