"""The parts of tests/daemon.py: a module for each matter, and a part for each function with `@part`."""
