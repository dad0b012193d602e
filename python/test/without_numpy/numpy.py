"""Stands before numpy on the path, so that memplan is tried without it."""

raise ImportError("numpy is hidden")
