"""What refuses memory to a program, or the disk."""
