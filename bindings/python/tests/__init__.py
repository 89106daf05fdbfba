"""Tests of the Python module and of share: python3 -m unittest, in the folder above."""
