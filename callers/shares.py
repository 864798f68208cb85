"""Prints the listing of the day file on standard input."""

import sys

import cormcushion

try:
    sys.stdout.write(cormcushion.shares(sys.stdin.buffer.read()))
except cormcushion.Refusal as refusal:
    print("REFUSED", refusal.number, refusal.place)
