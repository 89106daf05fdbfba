"""screenplay: plays a recording of a terminal session in a terminal, and goes to any moment of it."""
