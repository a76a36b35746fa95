"""python3 -m latex.retell MAP BEFORE <LOG: what mathset says of a source that from-latex wrote, by the author's lines.

MAP is the map of from-latex, and BEFORE the number of lines that were put before its output. The lines of the log
without a place in that output are printed as they are.
"""

import bisect
import re
import sys

PLACE = re.compile(r"^source\.tex:(\d+):(\d+): (?:formula \d+: )?(.*)$")


def read_map(name):
    """For each line of the output its columns, and the place of each."""
    found = {}
    with open(name, encoding="utf-8") as file:
        for line in file:
            own_line, own_column, *rest = line.rstrip("\n").split(" ", 4)
            found.setdefault(int(own_line), []).append((int(own_column), rest))
    return found


def main():
    """Prints the log by the author's lines, and on the first line the line of the output that is at fault, or 0."""
    table, before = read_map(sys.argv[1]), int(sys.argv[2])
    lines = sys.stdin.read().splitlines()
    for text in lines:
        place = PLACE.match(text)
        line = int(place[1]) - before if place else 0
        if line in table:
            pieces = table[line]
            at = bisect.bisect_right([column for column, _ in pieces], int(place[2])) - 1
            from_line, column, name = pieces[max(0, at)][1]
            print(int(place[1]))
            print(f"{name}:{from_line}:{column}: {place[3]}")
            return
    print(0)
    print("\n".join(lines))


if __name__ == "__main__":
    main()
