"""The parts of tools/slow-input."""
