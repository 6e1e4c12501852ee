"""Tests of what reads sources for the pages and of what counts the words of pages."""
