"""The tests of what makes cases, worked by hand."""
