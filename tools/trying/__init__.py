"""The readers of the cases that tools/try_cases.py tries, a module an idea."""
