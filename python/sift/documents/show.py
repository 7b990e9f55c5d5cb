"""How the tools show a place in a file."""
from sift.documents import places

WIDTH = 100  # of what is shown of a line


def window(line, column, width):
    """What is shown of a line, and the column and the width of the mark in it, all from 0."""
    if len(line) <= WIDTH:
        return line, column, width
    begin = max(0, min(column - WIDTH // 3, len(line) - WIDTH))
    shown_part = ("…" if begin else "") + line[begin + (1 if begin else 0) : begin + WIDTH]
    return shown_part + ("…" if begin + WIDTH < len(line) else ""), column - begin, min(width, WIDTH - (column - begin))


def shown(name, text, start, end, why, told, root=None):
    """The place, why, the header of its table, the line with a mark under it, and more in lines of their own."""
    number, column = places.line_and_column(text, start)
    whole = places.line_at(text, start)
    width = max(1, min(end - start, len(whole) - column + 1))
    line, at, width = window(whole, column - 1, width)
    blanks = "".join("\t" if letter == "\t" else " " for letter in line[:at])
    head = f"{name}:{number}:{column}: {why}\n{header_line(text, root, number, start)}"
    return head + f"{number:>5} | {line}\n      | {blanks}{'^' * width}\n" + lines_of(told)


def header_line(text, root, number, place):
    """The line of the header above a place, unless it is the line of the place itself."""
    header = places.header_above(root, place) if root else None
    above = places.line_and_column(text, header.start)[0] if header else number
    return f"{above:>5} | {places.line_at(text, header.start)}\n" if above != number else ""


def lines_of(told):
    """More lines below a place, each with what it is."""
    return "".join(f"  {what}: {words}\n" for what, words in told)
