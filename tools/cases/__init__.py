"""Makers of the lines of cases/*.txt, a module an idea, and make.py, which writes the files of all of them, or checks them.

The scripts are called by their path, from any folder; one that imports another module puts tools/ in front of Python's search path
first, so that every import names its package.
"""
