"""The parts of `tests/judged`."""
