"""Changes of three crates, right and wrong, and what `tools/prove --over-kept` makes of each."""
