"""What `bench/gate` sees of a gate at work, and the tables that it makes of it."""
