#!/usr/bin/env python3
"""Builds the program without a proof, as out/unproved/once; tests/unproved.py says how.

usage: build_unproved.py [--to FILE] [FOLDER]
"""
import os
import sys

sys.path.insert(0, os.path.join(os.path.dirname(os.path.dirname(os.path.realpath(__file__))), "tests"))
import unproved

if __name__ == "__main__":
    sys.exit(unproved.main(sys.argv[1:]))
