"""Reads a TOML document, and keeps where in the text each key and each value stands.

It reads TOML 1.1 as the program does: integers have 64 bits, and arrays, inline tables and the parts of a key go 80 deep
at most. What is no document is refused at the first character that no document goes on with.
"""
from sift.forms import Form

DEEPEST = 80
KINDS = {
    "integer": "an integer",
    "float": "a number with a point",
    "boolean": "true or false",
    "date": "a date or a time",
    "string": "a string",
    "array": "an array",
    "table": "a table",
}


class NotADocument(Exception):
    """Why a text is no document, where it shows, from a place up to an end, and what to do."""

    def __init__(self, place, end, why, mend):
        super().__init__(why)
        self.place = place
        self.end = end
        self.why = why
        self.mend = mend


class Value:
    """A value, and where it stands in the text: from the place `start` up to `end`.

    `data` is an int, a float, a bool or a str, the text of a date, the list of an array's values, or the dict of a
    table's entries. The place of a table that a header begins is that of the header.
    """

    def __init__(self, kind, data, start, end):
        self.kind = kind
        self.data = data
        self.start = start
        self.end = end
        self.origin = "value"  # of a table: "value", "header", "dotted" or "implicit"; of an array of tables "header"
        self.places = None  # of a string: the place of each of its characters, and of its end

    def get(self, name):
        """The value of a key, or None."""
        entry = self.data.get(name)
        return entry.value if entry else None

    def place_of_byte(self, byte):
        """Where in the text the byte of a string stands, or its end."""
        before = self.data.encode()[:byte].decode(errors="ignore")
        return self.places[min(len(before), len(self.data))]


class Entry:
    """A key of a table, where it stands, and its value."""

    def __init__(self, start, end, value):
        self.start = start
        self.end = end
        self.value = value


def plain(value):
    """The value without its places: what other readers of TOML make of it."""
    if value.kind == "array":
        return [plain(item) for item in value.data]
    if value.kind == "table":
        return {name: plain(entry.value) for name, entry in value.data.items()}
    return value.data


def headers(table):
    """The tables below a table that headers begin."""
    for entry in table.data.values():
        value = entry.value
        inner = value.data if value.kind == "array" and value.origin == "header" else [value]
        for each in inner:
            if each.kind == "table" and each.origin != "value":
                yield each
                yield from headers(each)


def header_above(root, place):
    """The table whose header is the last one up to a place, or None."""
    above = [table for table in headers(root) if table.origin == "header" and table.start <= place]
    return max(above, key=lambda table: table.start, default=None)


def read(raw):
    """The text and the root table of a document's bytes."""
    try:
        text = raw.decode()
    except UnicodeDecodeError as fault:
        before = raw[: fault.start].decode()
        why = f"the byte 0x{raw[fault.start]:02x} here is no UTF-8"
        raise NotADocument(len(before), len(before) + 1, why, "let the editor save the file as UTF-8") from None
    return text, Reader(text).document()


def line_and_column(text, place):
    """The line and the column of a place, both from 1. A byte order mark takes no column."""
    line = text.count("\n", 0, place) + 1
    begin = text.rfind("\n", 0, place) + 1
    mark = 1 if line == 1 and text.startswith("\ufeff") and place > 0 else 0
    return line, place - begin + 1 - mark


def line_at(text, place):
    """The line of a place, without its end and without a byte order mark."""
    begin = text.rfind("\n", 0, place) + 1
    end = text.find("\n", place)
    return text[begin : len(text) if end < 0 else end].rstrip("\r").lstrip("\ufeff")


DIGITS = frozenset("0123456789")
BARE = DIGITS | frozenset("ABCDEFGHIJKLMNOPQRSTUVWXYZabcdefghijklmnopqrstuvwxyz_-")
WORD = BARE | frozenset(".:+")
BLANKS = frozenset(" \t")
# Forms of what few missions have.
INTEGER = Form(r"[+-]?(?:0|[1-9](?:_?[0-9])*)")
PREFIXED = {
    "x": (16, Form(r"0x[0-9A-Fa-f](?:_?[0-9A-Fa-f])*")),
    "o": (8, Form(r"0o[0-7](?:_?[0-7])*")),
    "b": (2, Form(r"0b[01](?:_?[01])*")),
}
SPECIAL_FLOAT = Form(r"[+-]?(?:inf|nan)")
FLOAT = Form(r"[+-]?(?:0|[1-9](?:_?[0-9])*)(?:\.[0-9](?:_?[0-9])*)?(?:[eE][+-]?[0-9](?:_?[0-9])*)?")
BEGINS_DATE = Form(r"\d+[-:]")
LEADING_ZEROS = Form(r"[+-]?0[0-9_]+")
POINT_AT_END = Form(r"[+-]?(\.[0-9]+|[0-9]+\.)")
LINE_THAT_GOES_ON, BLANK_LINES = Form(r"[ \t]*\r?\n"), Form(r"[ \t\r\n]*")
DATE = r"(?P<year>\d{4})-(?P<month>\d\d)-(?P<day>\d\d)"
TIME = r"(?P<hour>\d\d):(?P<minute>\d\d)(?::(?P<second>\d\d)(?:\.\d+)?)?"
OFFSET = r"(?:[Zz]|[+-](?P<offset_hour>\d\d):(?P<offset_minute>\d\d))"
DATES = (Form(f"{DATE}(?:[Tt ]{TIME}{OFFSET}?)?"), Form(TIME))
BOUNDS = {
    "month": (1, 12),
    "hour": (0, 23),
    "minute": (0, 59),
    "second": (0, 60),
    "offset_hour": (0, 23),
    "offset_minute": (0, 59),
}
ESCAPES = {"b": "\b", "e": "\x1b", "f": "\f", "n": "\n", "r": "\r", "t": "\t", '"': '"', "\\": "\\"}
HEX_ESCAPES = {"x": Form("[0-9A-Fa-f]{2}"), "u": Form("[0-9A-Fa-f]{4}"), "U": Form("[0-9A-Fa-f]{8}")}
CURLY = "\u201c\u201d\u201e\u2018\u2019"


def is_date(word):
    """Whether a word is a date, a time, or both."""
    found = next(filter(None, (form.fullmatch(word) for form in DATES)), None)
    if not found:
        return False
    parts = {name: int(part) for name, part in found.groupdict().items() if part}
    if any(not BOUNDS[name][0] <= part <= BOUNDS[name][1] for name, part in parts.items() if name in BOUNDS):
        return False
    if "day" not in parts:
        return True
    year, month = parts["year"], parts["month"]
    leap = year % 4 == 0 and (year % 100 != 0 or year % 400 == 0)
    days = (31, 29 if leap else 28, 31, 30, 31, 30, 31, 31, 30, 31, 30, 31)[month - 1]
    return 1 <= parts["day"] <= days


def scalar_of(word):
    """The kind and the data of a word that isn't in quotes, or why it is no value."""
    if word in ("true", "false"):
        return "boolean", word == "true"
    digits = word[1:] if word[0] in "+-" else word
    if digits.isdecimal() and (digits[0] != "0" or digits == "0"):
        return integer_of(word, int(word))
    if BEGINS_DATE.match(word):
        if is_date(word):
            return "date", word
        return None, (f"`{word}` is no date and no time", "a mission has none: a number, or a string in quotes")
    if len(word) > 1 and word[0] == "0" and word[1] in PREFIXED:
        base, form = PREFIXED[word[1]]
        if form.fullmatch(word):
            return integer_of(word, int(word.replace("_", ""), base))
        return None, (f"`{word}` is no number", f"digits of base {base} behind the `{word[:2]}`")
    if INTEGER.fullmatch(word):
        return integer_of(word, int(word.replace("_", "")))
    if SPECIAL_FLOAT.fullmatch(word):
        return "float", float(word)
    if FLOAT.fullmatch(word):
        number = float(word.replace("_", ""))
        if abs(number) != float("inf"):
            return "float", number
        return None, (f"`{word}` is too large for a number", "a smaller one")
    return None, why_no_value(word)


def integer_of(word, number):
    """An integer of 64 bits, or why it is none."""
    if -(2**63) <= number < 2**63:
        return "integer", number
    return None, (f"`{word}` doesn't fit an integer of 64 bits", "a smaller one: words of missions have 16 bits")


def why_no_value(word):
    """Why a word is no value, and what to do."""
    if word.lower() in ("true", "false"):
        return f"`{word}` is no value: small letters", f"`{word.lower()}`"
    if LEADING_ZEROS.fullmatch(word):
        return "a number has no leading zeros", f"`{word.lstrip('+-').lstrip('0_') or '0'}`"
    if POINT_AT_END.fullmatch(word):
        return f"`{word}` is no number: a point stands between digits", "`0.5`, as an example"
    if word[0] in BARE - DIGITS - {"-"}:
        return f"`{word}` has no quotes, and is no number", f"a number; or a string: \"{word}\""
    return f"`{word}` is no number", "digits, with a sign before them where it is needed"


class Reader:
    """A text, and the place up to which it is read."""

    def __init__(self, text):
        self.text = text
        self.at = 0

    # Small steps.

    def next(self):
        """The character that comes next, or nothing at the end."""
        return self.text[self.at : self.at + 1]

    def take(self, form):
        """What a form fits here, and goes behind it."""
        found = form.match(self.text, self.at)
        if found:
            self.at = found.end()
        return found[0] if found else ""

    def some_of(self, characters):
        """What comes next of these characters, and goes behind it."""
        text, begin = self.text, self.at
        end = begin
        while text[end : end + 1] in characters:
            end += 1
        self.at = end
        return text[begin:end]

    def word(self):
        """The same of a value without quotes; between a date and a time a blank may stand."""
        word = self.some_of(WORD)
        if word and self.next() == " " and self.text[self.at + 1 : self.at + 2] in DIGITS:
            self.at += 1
            word += " " + self.some_of(WORD)
        return word

    def new_line(self):
        """The end of a line, where one is here, and goes behind it."""
        end = "\r\n" if self.text.startswith("\r\n", self.at) else "\n" if self.next() == "\n" else ""
        self.at += len(end)
        return end

    def comment(self):
        """Goes behind a comment, up to the end of its line or a character that can't stand in it."""
        end = self.text.find("\n", self.at)
        comment = self.text[self.at : end if end >= 0 else len(self.text)]
        stops = () if comment.isprintable() else enumerate(comment)
        self.at += next((place for place, letter in stops if letter < " " and letter != "\t" or letter == "\x7f"), len(comment))

    def refuse(self, why, mend, place=None, end=None):
        place = self.at if place is None else place
        raise NotADocument(place, end or place + 1, why, mend)

    def found_here(self):
        """What stands here, in words."""
        here = self.next()
        if not here:
            return "the document ends"
        if here in "\r\n":
            return "the line ends"
        return f"`{here}` stands" if here.isprintable() else f"the character 0x{ord(here):02x} stands"

    def blanks(self):
        self.some_of(BLANKS)

    def blank_lines(self):
        """Goes past blanks, comments and new lines."""
        self.blanks()
        while self.next() and self.next() in "#\r\n":
            if self.next() == "#":
                self.comment()
            if self.next() and not self.new_line():
                why = f"{self.found_here()}, which can't stand in a comment or between lines"
                self.refuse(why, "take it out; a line ends with LF, or with CR LF")
            self.blanks()

    def first_place(self, at):
        """The line of a place, for a message about another one."""
        return f"line {line_and_column(self.text, at)[0]}"

    # The document.

    def document(self):
        """The root table."""
        if self.text.startswith("\ufeff"):
            self.at = 1
        self.blank_lines()
        root = Value("table", {}, self.at, self.at)
        root.origin = "header"
        table = root
        while self.next():
            if self.next() == "[":
                table = self.header(root)
            else:
                self.pair(table)
            self.line_end()
            self.blank_lines()
        return root

    def line_end(self):
        self.blanks()
        if not self.next() or self.next() in "#\n" or self.text.startswith("\r\n", self.at):
            return
        if self.next() == ",":
            self.refuse("a comma stands behind the value", "a new line: each key has a line of its own")
        if self.text.startswith("//", self.at):
            self.refuse("no comment begins so", "`#`", self.at, self.at + 2)
        if self.text[self.at - 1] in "'\"":
            mend = "a quote within a string is written `\\\"`; or put the string into other quotes"
            self.refuse("the string has ended before here", mend)
        self.refuse(f"the line should end here, and {self.found_here()}", "a new line: each key has a line of its own")

    # Tables.

    def header(self, root):
        """The table that a header begins."""
        start = self.at
        double = self.text.startswith("[[", start)
        self.at += 2 if double else 1
        self.blanks()
        parts = self.key()
        close = "]]" if double else "]"
        if not self.text.startswith(close, self.at):
            self.refuse(f"`{close}` is due here, and {self.found_here()}", f"`{close}`")
        self.at += len(close)
        table = root
        for name, place, end in parts[:-1]:
            table = self.through_header(table, name, place, end)
        return self.at_header(table, parts[-1], double, start)

    def through_header(self, table, name, place, end):
        """The table at a part of a header that isn't its last."""
        entry = table.data.get(name)
        if entry is None:
            inner = Value("table", {}, place, end)
            inner.origin = "implicit"
            table.data[name] = Entry(place, end, inner)
            return inner
        if entry.value.origin == "value":
            self.refuse(f"`{name}` is the value of a key already, in {self.first_place(entry.start)}", "another name", place, end)
        return entry.value.data[-1] if entry.value.kind == "array" else entry.value

    def at_header(self, table, part, double, start):
        """The table that the last part of a header names."""
        name, place, end = part
        entry = table.data.get(name)
        new = Value("table", {}, start, self.at)
        new.origin = "header"
        if entry is None:
            holder = Value("array", [new], start, self.at) if double else new
            holder.origin = "header"
            table.data[name] = Entry(place, end, holder)
            return new
        old = entry.value
        if double and old.kind == "array" and old.origin == "header":
            old.data.append(new)
            return new
        if not double and old.kind == "table" and old.origin == "implicit":
            old.origin, old.start, old.end = "header", start, self.at
            return old
        self.refuse(*self.why_twice(name, old, double, entry.start), start, self.at)

    def why_twice(self, name, old, double, place):
        """Why a header can't name what it names, and what to do."""
        where = self.first_place(place)
        if double and old.kind == "table":
            return f"`[[{name}]]` makes a list, and `{name}` is a table already, in {where}", f"`[[{name}]]` there too"
        if old.kind == "array" and old.origin == "header":
            return f"`{name}` is a list already, in {where}", f"`[[{name}]]`, with double brackets"
        return f"`{name}` stands twice: it is there already, in {where}", "put both into one"

    def pair(self, table):
        """A key and its value, into a table."""
        parts = self.key()
        if self.next() != "=":
            self.refuse(*self.why_no_equals())
        self.at += 1
        self.blanks()
        value = self.value(DEEPEST)
        for name, place, end in parts[:-1]:
            table = self.through_dot(table, name, place, end)
        name, place, end = parts[-1]
        if name in table.data:
            why = f"the key `{name}` stands twice: it is there already, in {self.first_place(table.data[name].start)}"
            self.refuse(why, "keep one of the two", place, end)
        table.data[name] = Entry(place, end, value)

    def why_no_equals(self):
        if self.next() == ":":
            return "a colon stands behind the key", "`=`"
        return f"`=` is due behind the key, and {self.found_here()}", "`=` and a value"

    def through_dot(self, table, name, place, end):
        """The table at a part of a dotted key that isn't its last."""
        entry = table.data.get(name)
        if entry is None:
            inner = Value("table", {}, place, end)
            inner.origin = "dotted"
            table.data[name] = Entry(place, end, inner)
            return inner
        inner = entry.value
        if inner.kind != "table" or inner.origin not in ("implicit", "dotted"):
            why = f"`{name}` can't get a key by a dot: it is there already, in {self.first_place(entry.start)}"
            self.refuse(why, "put both into one", place, end)
        inner.origin = "dotted"
        return inner

    def key(self):
        """The parts of a key, each with its place and its end, and goes behind the blanks that follow it."""
        parts = []
        while True:
            start = self.at
            if len(parts) == DEEPEST:
                self.refuse(f"a key has at most {DEEPEST} parts", "keys of a mission have one")
            if self.next() and self.next() in "'\"":
                name = self.string(lines=False).data
            else:
                name = self.some_of(BARE)
                if not name:
                    self.refuse(f"a key is due here, and {self.found_here()}", "`key = value`, or a comment behind `#`")
            parts.append((name, start, self.at))
            self.blanks()
            if self.next() != ".":
                return parts
            self.at += 1
            self.blanks()

    # Values.

    def value(self, depth):
        """A value, with arrays and inline tables at most this deep in it."""
        start, here = self.at, self.next()
        if here and here in "'\"":
            return self.string(lines=True)
        if here and here in "[{":
            if depth == 0:
                self.refuse(f"arrays and inline tables are nested deeper than {DEEPEST}", "those of a mission go three deep")
            return self.array(depth - 1) if here == "[" else self.inline_table(depth - 1)
        word = self.word()
        if not word:
            self.refuse(*self.why_nothing(here))
        kind, data = scalar_of(word)
        if kind is None:
            self.refuse(*data, start, self.at)
        return Value(kind, data, start, self.at)

    def why_nothing(self, here):
        """Why no value begins here, and what to do."""
        if here and here in CURLY:
            return f"`{here}` is no quote of TOML", "straight ones, as in \"pitch\""
        return f"a value is due here, and {self.found_here()}", "a number, a string in quotes, or `[` and `]` round a list"

    def array(self, depth):
        start = self.at
        self.at += 1
        items = []
        while True:
            self.blank_lines()
            if self.next() == "]":
                break
            items.append(self.value(depth))
            if not self.goes_on("]", "array", start):
                break
        self.at += 1
        return Value("array", items, start, self.at)

    def inline_table(self, depth):
        start = self.at
        self.at += 1
        table = Value("table", {}, start, start)
        while True:
            self.blank_lines()
            if self.next() == "}":
                break
            self.inline_pair(table, depth)
            if not self.goes_on("}", "inline table", start):
                break
        self.at += 1
        close(table)
        table.end = self.at
        return table

    def inline_pair(self, table, depth):
        parts = self.key()
        if self.next() != "=":
            self.refuse(*self.why_no_equals())
        self.at += 1
        self.blanks()
        value = self.value(depth)
        for name, place, end in parts[:-1]:
            table = self.through_dot(table, name, place, end)
        name, place, end = parts[-1]
        if name in table.data:
            self.refuse(f"the key `{name}` stands twice in its table", "keep one of the two", place, end)
        table.data[name] = Entry(place, end, value)

    def goes_on(self, bracket, what, start):
        """Whether a comma follows, and goes behind it; else the closing bracket does."""
        self.blank_lines()
        if self.next() == ",":
            self.at += 1
            return True
        if self.next() != bracket:
            begun = f" that begins in {self.first_place(start)}" if "\n" in self.text[start : self.at] else ""
            why = f"a comma or `{bracket}` is due in the {what}{begun}, and {self.found_here()}"
            self.refuse(why, f"`{bracket}` at its end, or a comma between two values")
        return False

    # Strings.

    def string(self, lines):
        """A string; with `lines` also one in triple quotes."""
        start, quote = self.at, self.next()
        many = lines and self.text.startswith(quote * 3, start)
        self.at += 3 if many else 1
        if many:
            self.new_line()
        data, places = [], []
        while True:
            here = self.at
            piece = self.piece(quote, many, start)
            if piece is None:
                break
            data.append(piece)
            places += range(here, here + len(piece))
        value = Value("string", "".join(data), start, self.at)
        value.places = places + [here]
        return value

    def piece(self, quote, many, start):
        """The next characters of a string, or None at its end, behind which it goes."""
        here = self.next()
        if not here:
            self.refuse("the string that begins here isn't closed", "close it", start)
        if here == quote:
            return self.quotes(quote, many)
        if here == "\\" and quote == '"':
            return self.escape(many)
        if here == "\n" or self.text.startswith("\r\n", self.at):
            if not many:
                mend = f"close it; one over many lines stands in {quote * 3}"
                self.refuse("the string that begins here isn't closed on its line", mend, start)
            return self.new_line()
        if here != "\t" and (here < " " or here == "\x7f"):
            why = f"the character 0x{ord(here):02x} can't stand in a string as it is"
            self.refuse(why, f"`\\u{ord(here):04x}` in double quotes")
        self.at += 1
        return here

    def quotes(self, quote, many):
        """A quote within a string of many lines, or None for the end of the string."""
        if not many:
            self.at += 1
            return None
        count = 6 - len(self.text[self.at : self.at + 6].ljust(6).lstrip(quote))
        if count == 3:
            self.at += 3
            return None
        if count > 5:
            self.refuse("six quotes stand in a row", "a string of many lines ends with three")
        self.at += 1
        return quote

    def escape(self, many):
        """What a backslash and what follows it stand for."""
        start = self.at
        self.at += 1
        if many and LINE_THAT_GOES_ON.match(self.text, self.at):
            self.take(BLANK_LINES)
            return ""
        letter = self.next()
        self.at += 1
        if letter in ESCAPES and letter:
            return ESCAPES[letter]
        if letter in HEX_ESCAPES and letter:
            digits = self.take(HEX_ESCAPES[letter])
            if digits and (int(digits, 16) < 0xD800 or 0xE000 <= int(digits, 16) <= 0x10FFFF):
                return chr(int(digits, 16))
        mend = "`\\\\` is a backslash; in single quotes it stands for itself"
        self.refuse("a backslash and what follows stand for no character", mend, start)


def close(table):
    """Makes the tables of an inline table values: nothing is added to them later."""
    table.origin = "value"
    for entry in table.data.values():
        if entry.value.kind == "table":
            close(entry.value)
