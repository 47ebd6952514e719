"""Directed scripts: each goes along the boundaries of one part of the rules, a value that just passes beside one that just
doesn't. A function here gives a script; tests/compare/directed.py writes them all."""
