"""Every command where standard output is full, closed or no longer read; tests/run-streams runs it."""
