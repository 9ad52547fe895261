"""Has checkpoints of a server that bin/supervise has started."""
