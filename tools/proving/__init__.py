"""Proves a crate and those that it stands on, and keeps what is proved: what `tools/prove` runs."""
