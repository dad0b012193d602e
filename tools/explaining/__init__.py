"""What tools/explain says of a refusal: files, what is wrong with their form, limits, and orders and plans that are judged."""
