"""Tests of what developers run. `python3 -m unittest discover -s dev/tests -t .` runs them.

They share `given.py` with the tests of the tools.
"""
import os
import sys

PYTHON = os.path.join(os.path.dirname(os.path.dirname(os.path.dirname(os.path.abspath(__file__)))), "python")
sys.path[1:1] = [PYTHON, os.path.join(PYTHON, "tests")]
