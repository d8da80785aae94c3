"""Tests of ./survey.

shops.c   makes logs by the second implementation, with faults planted in them
planting  runs it, and lays the logs out as shops' folders
"""
