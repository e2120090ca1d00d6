#!/usr/bin/env python3
"""What the program `replay` prints of a log of calls, as document 01 has it (tools/model): tools/log_model.py < LOG"""
import os, sys

sys.path.insert(0, os.path.dirname(os.path.abspath(__file__)))
from model.blocks import replay

if __name__ == "__main__":
    sys.stdout.write(replay(sys.stdin.buffer.read()))
