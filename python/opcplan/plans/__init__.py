"""A plan file, its journal, and what both have: rows, waits, times."""
