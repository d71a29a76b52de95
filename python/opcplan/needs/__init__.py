"""What of a plan needs a person: facts in, one list out. Only `loaded` reads files."""
