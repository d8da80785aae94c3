"""The tests of the translator in portable/; tests/run-portable runs them.

terms      small functions in the words of the MIR
wrong      wrong translators, each of which must be noticed
"""
