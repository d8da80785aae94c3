"""Tests of why a table isn't sound: tests/run-why runs them."""
