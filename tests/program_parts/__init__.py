"""The parts of tests/program.py, by topic. A function whose name begins with `try_` is one part; it is handed an empty folder."""
