"""A change of definitions, turned into a stream of statements with its preview: no I/O."""
