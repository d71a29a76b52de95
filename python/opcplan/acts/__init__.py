"""What an operator wants, turned into a stream of statements: no I/O but in `loaded`."""
