"""Writes a capture of small frames of many flows: Ethernet, IPv4 and UDP, 60 octets each.

usage: make_capture.py FILE [FRAMES [FLOWS]]

The frames come from one flow after another; times grow by a microsecond a frame.
"""
import os
import sys

sys.path.insert(0, os.path.join(os.path.dirname(os.path.dirname(os.path.abspath(__file__))), "tests"))
from sample_networks import write_capture

if __name__ == "__main__":
    if not 2 <= len(sys.argv) <= 4:
        sys.exit(__doc__)
    frames = int(sys.argv[2]) if len(sys.argv) > 2 else 1_000_000
    flows = int(sys.argv[3]) if len(sys.argv) > 3 else 10_000
    write_capture(sys.argv[1], frames, flows)
