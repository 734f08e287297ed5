"""Tries the mutants of Rattle crates, many in one check."""
