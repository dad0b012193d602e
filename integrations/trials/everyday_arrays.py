"""Arrays as users of Dask write them, small in bytes. Each function makes one collection, the same in every run."""

from __future__ import annotations

from typing import Any, Tuple

import dask.array as da
import numpy as np


def random_array(shape: Tuple[int, ...], chunks: Tuple[int, ...], seed: int = 1) -> da.Array:
    return da.random.RandomState(seed).random(shape, chunks=chunks)


def square(seed: int = 1) -> da.Array:
    return random_array((320, 320), (40, 40), seed)


def tall() -> da.Array:
    return random_array((3200, 40), (200, 40))


def sum_of_all() -> Any:
    return square().sum()


def column_means() -> Any:
    return square().mean(axis=0)


def deviation_of_anomaly() -> Any:
    x = square()
    return (x - x.mean(axis=0)).std()


def symmetric_sum() -> Any:
    x = square()
    return (x + x.T).sum()


def matrix_product() -> Any:
    return square(1) @ square(2)


def product_of_rechunked() -> Any:
    x = square().rechunk((320, 20))
    return (x.T @ x.rechunk((40, 40))).mean(axis=0)


def contracted_tensors() -> Any:
    x = random_array((48, 48, 48), (12, 12, 12), 1)
    y = random_array((48, 48, 24), (12, 12, 12), 2)
    return da.tensordot(x, y, axes=([1, 2], [0, 1]))


def singular_values() -> Any:
    u, s, v = da.linalg.svd(tall())
    return u, s, v


def tall_qr() -> Any:
    q, r = da.linalg.qr(tall())
    return q, r


def correlations() -> Any:
    return da.corrcoef(random_array((120, 3200), (40, 200)))


def greatest_values() -> Any:
    x = square()
    return x.topk(5, axis=0), x.argmax(axis=1)


def window_mean(block: np.ndarray) -> np.ndarray:
    total = sum(np.roll(block, (down, right), (0, 1)) for down in (-1, 0, 1) for right in (-1, 0, 1))
    return total / 9


def smoothed_maximum() -> Any:
    return square().map_overlap(window_mean, depth=1, boundary="reflect").max()


def heat_steps() -> Any:
    u = random_array((240,), (20,))
    for _ in range(6):
        u = da.concatenate([u[:1], u[1:-1] + 0.2 * (u[2:] - 2 * u[1:-1] + u[:-2]), u[-1:]]).rechunk(20)
    return u


def power_spectrum() -> Any:
    x = random_array((256, 256), (32, 256))
    rows = da.fft.fft(x, axis=1)
    columns = da.fft.fft(rows.rechunk((256, 32)), axis=0)
    return (abs(columns) ** 2).sum(axis=0)


def running_sums() -> Any:
    return square().cumsum(axis=0)


def histogram_of_values() -> Any:
    counts, _ = da.histogram(square(), bins=50, range=(0, 1))
    return counts


def mean_of_masked() -> Any:
    x, y = square(1), square(2)
    valid = (x > 0.2) & (y < 0.8)
    return da.ma.masked_where(~valid, x).mean(axis=0) - da.where(valid, y, 0).mean(axis=0)


def percentiles() -> Any:
    x = random_array((60_000,), (1500,))
    return da.percentile(x, [5, 50, 95]), x.max() - x.min()


def deviation_of_stack() -> Any:
    years = [random_array((160, 160), (40, 40), seed) for seed in range(1, 9)]
    stacked = da.stack(years)
    return da.concatenate([stacked.std(axis=0), stacked.mean(axis=0)])


ARRAYS = (
    sum_of_all,
    column_means,
    deviation_of_anomaly,
    symmetric_sum,
    matrix_product,
    product_of_rechunked,
    contracted_tensors,
    singular_values,
    tall_qr,
    correlations,
    greatest_values,
    smoothed_maximum,
    heat_steps,
    power_spectrum,
    running_sums,
    histogram_of_values,
    mean_of_masked,
    percentiles,
    deviation_of_stack,
)
