"""Files that a tool is given by name, or - for standard input."""

LARGEST_FILE = 2**20    # bytes; far above any trace, output or order within the limits


def spoken_file(argument):
    return "standard input" if argument == "-" else argument
