"""What the scripts share that have the kit build a program: the kit itself, the crates, a lock, and how they end."""
