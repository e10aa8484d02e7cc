"""Draws the words of a file as bars.

Each line of the file has a word and its number.
"""
import sys

# The width of the longest bar, in characters.
WIDTH = 60


def bars(rows):
    """One line for each word."""
    most = max(count for _, count in rows)
    for word, count in rows:
        yield f"{word:>12} {'#' * (WIDTH * count // most)}"


rows = [line.split() for line in open(sys.argv[1])]
print(*bars([(word, int(count)) for word, count in rows]), sep="\n")
