"""Checks applications for rtosim: the program's fault with its place in the file, what was meant, and what the format ignores."""
