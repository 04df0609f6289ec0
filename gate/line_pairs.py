"""What the programs share that print lines for times_bench and the answers to them."""

import sys


def print_lines(pairs):
    """Prints the lines of the pairs of a line and its answer, or, with --answers as the first word, the answers.

    `pairs` makes them of the numbers that stand on the command line.
    """
    words = sys.argv[1:]
    shows_answers = words[:1] == ["--answers"]
    for line, answer in pairs(*map(int, words[shows_answers:])):
        print(answer if shows_answers else line)
