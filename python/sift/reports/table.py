"""A report as a table: a row for each frame and unit, with the words by their names."""


def columns_of(named):
    """The columns, in their order."""
    return ["f", "u", *named.words(), "skew", "slack", "margin", *(["shed"] if named.sheds() else [])]


def rows_of(named, flight):
    """The rows, each a list of values in the order of the columns."""
    sheds = named.sheds()
    for number, frame in enumerate(flight.frames):
        for unit in range(flight.units):
            margin = "ok" if frame.margin else "lost"
            shed = [named.shed(frame, unit)] if sheds else []
            yield [number, unit, *named.told(frame, unit), frame.skew, frame.slack, margin, *shed]
