"""The cases of tests/commands.py: a module for each command of the program, and `words` for what begins with none."""
