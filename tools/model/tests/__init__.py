"""Tests of the model of values against worked rows of the standards: `python3 -m unittest discover -s tools`.

The rows are written by hand, from the format's definition (CHERI Concentrate, UCAM-CL-TR-987, 128-bit format) and the manuals' words: no
function of the model makes them.
"""
