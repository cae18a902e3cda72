"""The sheet of docs/SHEET.md, written from its words alone: a page from the numbers of its lines, and the
numbers read back from a page."""

CELLS = 7, 12, 9, 14, 12, 12, 14
HEADING = "begin", "screen", "end", "cue", "number", "count", "writing"
CUE_COLUMNS = {1: 5, 2: 8}      # by form
MARK = "*"
LINE = sum(CELLS) + 1           # bytes of a line, its line feed among them
MOST = LINE * (168 + 3)         # bytes of a sheet, at most


def line(words):
    """Each word at the right end of its cell."""
    return "".join(word.rjust(cell) for word, cell in zip(words, CELLS)) + "\n"


def rule(form):
    return line("-" * columns for columns in (3, 1, 3, CUE_COLUMNS[form], 3, 2, 1))


def page(form, rows):
    """The bytes of a sheet.  A row is begin, screen, end, cue, number, count and whether it is marked."""
    lines = [line(HEADING), rule(form)]
    for *numbers, marked in rows:
        lines.append(line([*map(str, numbers), MARK if marked else " "]))
    lines.append(" " * (LINE - 1) + "\n")
    return "".join(lines).encode("ascii")


def size(reads):
    """The bytes of a sheet with so many reads."""
    return LINE * (reads + 3)


def read_back(written):
    """The form, and begin, screen, cue, number and count of each answer, by the columns of a page alone."""
    _, dashes, *lines, _ = written.decode("ascii").splitlines()

    def number(text, first, last):
        return int(text[first - 1:last])

    form = 2 if dashes[35 - 1] == "-" else 1
    fields = (5, 7), (19, 19), (35, 42), (52, 54), (65, 66)
    return form, [tuple(number(text, *columns) for columns in fields) for text in lines]
