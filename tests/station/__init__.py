"""The station that runs: ./station on this PC, the same on a Cortex-M3, and over monitors with a slip; tests/run-station runs them.

plain   a plain sequential proofreader, by which the printed pages are judged
"""
