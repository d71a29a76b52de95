"""The subcommands of ./plan, a module each, with their helpers."""
