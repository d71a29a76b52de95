"""The agent: runs the jobs of what is ready."""
