"""Nights by a clock that is set by hand, with the files that docs/use/INSTALL.md prints: desk, agent, watch, roll, and
the people who are called."""
