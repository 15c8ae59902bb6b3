"""What `tools/check-recheck` is made of."""
