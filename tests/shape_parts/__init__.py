"""The shapes of tests/shapes.py, by topic; importing a topic puts its shapes into the table `SHAPES`."""
