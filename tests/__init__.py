"""Tests of the whole program."""

import pathlib

TOP = pathlib.Path(__file__).resolve().parent.parent
REGISTERS = ("A", "X", "I1", "I2", "I3", "I4", "I5", "I6", "J")
