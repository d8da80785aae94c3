"""The proved monitor at the desk's service.

monitor   a table kept and asked, by the program serve.c, which build builds over the C in source/
"""
