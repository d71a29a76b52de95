"""Words, output and signals of a command."""
