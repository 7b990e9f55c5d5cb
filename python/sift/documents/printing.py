"""Prints documents: the one place where the tools write TOML."""
try:
    # What json writes a text by, which takes as long to load as a flight.
    from _json import encode_basestring as quoted  # type: ignore[attr-defined]
except ImportError:
    from json.encoder import encode_basestring as quoted  # type: ignore[attr-defined]


def value_of(value):
    """A value that stands in a line, as TOML writes it."""
    if isinstance(value, str):
        return quoted(value).replace("\x7f", "\\u007F")
    if isinstance(value, list):
        return "[" + ", ".join(map(value_of, value)) + "]"
    return str(value)


def lines_of(table, path=""):
    """The lines of a table below its header, whose name with a dot behind it begins the names of those in it: its values, and then
    the tables in it."""
    lines, inner = [], []
    for key, value in table.items():
        if isinstance(value, dict):
            inner.append((f"[{path}{key}]", f"{path}{key}.", [value]))
        elif isinstance(value, list) and value and isinstance(value[0], dict):
            inner.append((f"[[{path}{key}]]", f"{path}{key}.", value))
        else:
            lines.append(f"{key} = {value_of(value)}")
    for header, name, tables in inner:
        for each in tables:
            lines += ("", header, *lines_of(each, name))
    return lines


def text_of(data):
    """The text of a document's values, with a blank line before each header."""
    return "".join([line + "\n" for line in lines_of(data)])


def faults_text(faults):
    """The text of faults, which stands behind the text of a mission that has none."""
    return text_of({"fault": faults}) if faults else ""
