"""Puts the package on the path of tests."""
