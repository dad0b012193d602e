"""DataFrames, and arrays with names of xarray, as users of Dask write them, small in bytes. Each function makes one collection, the same in
every run. They need pandas and xarray."""

from __future__ import annotations

from typing import Any

import dask.array as da
import dask.dataframe as dd
import dask.datasets
import numpy as np
import pandas as pd
import xarray as xr

# DataFrames


def readings(days: int = 24, seed: int = 1) -> dd.DataFrame:
    """A partition for each day, with a row every five minutes: a number, a name, and two measures."""
    end = pd.Timestamp("2000-01-01") + pd.Timedelta(days=days)
    return dask.datasets.timeseries("2000-01-01", end, freq="5min", partition_freq="1d", seed=seed)


def measures_by_name() -> Any:
    return readings().groupby("name").agg({"x": ["mean", "std"], "y": ["min", "max"]})


def merged_by_number() -> Any:
    left, right = readings(16, 1), readings(12, 2)[["id", "y"]]
    merged = left.merge(right, on="id", how="inner", shuffle="tasks")
    return merged.groupby("id").size()


def sorted_by_measure() -> Any:
    return readings(16).set_index("x", shuffle="tasks")


def rolling_measure() -> Any:
    frame = readings()
    return frame[["x", "y"]].rolling("2h").mean().max()


def names_counted() -> Any:
    frame = readings()
    return frame[frame.x > 0].name.value_counts(split_every=4)


def means_of_quarter_days() -> Any:
    return readings()[["x", "y"]].resample("6h").mean()


def names_without_repeats() -> Any:
    return readings().drop_duplicates(subset=["name", "id"], split_every=4, split_out=2)


def joined_by_time() -> Any:
    left, right = readings(24, 1)[["x"]], readings(24, 2)[["y"]]
    both = left.join(right, how="outer", lsuffix="_left")
    return both.x.corr(both.y)


FRAMES = (
    measures_by_name,
    merged_by_number,
    sorted_by_measure,
    rolling_measure,
    names_counted,
    means_of_quarter_days,
    names_without_repeats,
    joined_by_time,
)

# xarray


def temperature(seed: int = 1, days: int = 730) -> xr.DataArray:
    """Of a grid, a value for each day."""
    data = da.random.RandomState(seed).random((days, 12, 24), chunks=(60, 6, 12))
    coordinates = {"time": pd.date_range("2000-01-01", periods=days), "lat": np.linspace(-80, 80, 12), "lon": np.arange(0, 360, 15)}
    return xr.DataArray(data, coordinates, ("time", "lat", "lon"), name="temperature")


def climatology() -> Any:
    return temperature().groupby("time.month").mean()


def monthly_anomaly() -> Any:
    t = temperature(days=366).groupby("time.month")
    return (t - t.mean()).std("time")


def weighted_mean() -> Any:
    t = temperature()
    return t.weighted(np.cos(np.deg2rad(t.lat))).mean(("lat", "lon"))


def rolling_mean() -> Any:
    return temperature().rolling(time=7, center=True).mean().max("time")


def greatest_monthly_mean() -> Any:
    return temperature().resample(time="1MS").mean().max("time")


def standardized(values: np.ndarray) -> np.ndarray:
    return (values - values.mean(axis=-1, keepdims=True)) / values.std(axis=-1, keepdims=True)


def standardized_in_time() -> Any:
    t = temperature().chunk({"time": -1, "lat": 3, "lon": 6})
    return xr.apply_ufunc(
        standardized, t, input_core_dims=[["time"]], output_core_dims=[["time"]], dask="parallelized", output_dtypes=[float]
    )


def ensemble_spread() -> Any:
    members = xr.concat([temperature(seed, 180) for seed in range(1, 9)], dim="member")
    mean = members.mean("member")
    return mean.mean("time"), (members - mean).std(("member", "time"))


DATASETS = (
    climatology,
    monthly_anomaly,
    weighted_mean,
    rolling_mean,
    greatest_monthly_mean,
    standardized_in_time,
    ensemble_spread,
)
