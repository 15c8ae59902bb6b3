"""Builds the program `sweet` without proofs, and keeps it: what `./sweet-try` runs."""
