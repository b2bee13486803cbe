"""Reads the reports of rtosim: groups the rows, draws runs, and writes them in formats of other tools."""
