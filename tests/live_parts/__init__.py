"""The parts of `tests/live`."""
