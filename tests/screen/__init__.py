"""Tests of the screen: tests/run-screen runs them."""
