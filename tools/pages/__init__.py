"""Makers of the pages that the sources give, and what tries or checks pages: a module a page or an idea.

The scripts are called by their path, from any folder; one that imports another module puts tools/ in front of Python's search path
first, so that every import names its package.
"""
