"""Calls somebody when a plan needs it."""
