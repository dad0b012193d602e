"""The pictures of draw.py: one file for each, what they have in common, and how files are read."""
