"""The tests of ./tape; tests/run-tape runs them."""
