"""Reads task texts: the tree of a text, or the first place that is refused, why, and what could stand there.

Places are bytes of the text, from 0.
"""
import re
import sys

from sift.documents.record import Record

KEYWORDS = ("let", "out", "if", "else", "repeat", "mid", "sense", "now", "last")
LONGEST_TEXT, LONGEST_NAME, LARGEST_WORD, MOST_ROUNDS, MOST_LOCALS, DEEPEST = 4096, 16, 65535, 1024, 32, 32
LONGEST_CODE, MOST_STEPS, COUNTED_STEPS = 1024, 16384, 4294967295

# A chain of operators is a tree as deep as it is long, and has an operator in every second byte at most; each level takes two calls.
sys.setrecursionlimit(max(sys.getrecursionlimit(), 2 * LONGEST_TEXT))

TOKEN = re.compile(
    r"(?P<blank>(?:[ \t\n\r]|#[^\n]*)+)|(?P<word>[a-z][a-z0-9_]*)|(?P<number>0x[0-9A-Fa-f]+|[0-9]+)"
    r"|(?P<mark><<|>>|==|[=<+\-*/%&|^(){},.;])"
)
OPERATORS = [("<", "=="), ("&", "|", "^"), ("+", "-"), ("*", "/", "%"), ("<<", ">>")]
OPERATOR_MARKS = {mark for level in OPERATORS for mark in level}
OPERAND = "a number, a local, `sense`, `now`, `last`, `mid`, `-` or `(`"


class RefusedText(Exception):
    """Why a text is refused: the kind, the bytes from `place` up to `end`, and what to do."""

    def __init__(self, kind, place, end, why, mend=None):
        super().__init__(why)
        self.kind = kind
        self.place = place
        self.end = end
        self.why = why
        self.mend = mend


class Scope(Record):
    """What a text may name: its task, and the tasks and sensors of the mission."""

    own: int  # the number of the task whose text it is
    tasks: list  # of each task its name and its number of words
    sensors: list  # the names of the sensors

    def task(self, name):
        """The number of the task with a name, or None."""
        return next((number for number, (other, _) in enumerate(self.tasks) if other == name), None)


class Token(Record):
    kind: str  # "word", "number", "mark", or "end" of the text
    text: str
    place: int
    end: int
    value: int = 0  # of a number


class Number(Record):
    value: int


class Local(Record):
    name: str


class Sense(Record):
    sensor: int


class Read(Record):
    now: bool  # `now`, and not `last`
    task: int
    word: int


class Minus(Record):
    inner: object


class Operation(Record):
    operator: str
    left: object
    right: object
    place: int  # of the operator
    end: int


class Mid(Record):
    parts: list


class Set(Record):
    """A `let` or an assignment."""

    name: str
    value: object


class Out(Record):
    word: int
    value: object


class If(Record):
    test: object
    then: list
    other: list  # the statements behind `else`, or None


class Repeat(Record):
    rounds: int
    block: list
    place: int
    end: int


class Sized(Record):
    """The code of a text: its instructions, and the steps that it may take."""

    length: int = 0
    steps: int = 0

    def __add__(self, other):
        return Sized(self.length + other.length, self.steps + other.steps)

    def times(self, rounds):
        return Sized(self.length, self.steps * rounds)


ONE = Sized(1, 1)


def read_text(text, scope):
    """The statements of a text."""
    raw = text.encode()
    if len(raw) > LONGEST_TEXT:
        why = f"the text has {len(raw):,} bytes, and at most {LONGEST_TEXT:,} are read"
        raise RefusedText(5, LONGEST_TEXT, LONGEST_TEXT, why, "spread it over two tasks")
    return Parser(raw.decode("latin-1"), scope).task()


def size_of(part):
    """The instructions and steps of an expression, a statement or a list of statements."""
    if isinstance(part, list):
        return sum(map(size_of, part), Sized())
    if isinstance(part, Minus):
        return size_of(part.inner) + ONE + ONE
    if isinstance(part, Operation):
        return size_of(part.left) + size_of(part.right) + ONE
    if isinstance(part, Mid):
        return size_of(part.parts) + ONE
    if isinstance(part, (Set, Out)):
        return size_of(part.value) + ONE
    if isinstance(part, If):
        other = Sized() if part.other is None else ONE + size_of(part.other)
        return size_of(part.test) + ONE + size_of(part.then) + other
    if isinstance(part, Repeat):
        return ONE + (size_of(part.block) + ONE).times(part.rounds)
    return ONE


def parts_of(part):
    """An expression, a statement or a list of statements, and all parts of it, in the order of the text."""
    if isinstance(part, list):
        for each in part:
            yield from parts_of(each)
        return
    yield part
    for name in ("inner", "left", "right", "parts", "test", "value", "then", "other", "block"):
        inner = getattr(part, name, None)
        if inner is not None and not isinstance(inner, (int, str)):
            yield from parts_of(inner)


def nearest(name, names):
    """The name that is most like a misspelled one, or None."""
    import difflib  # which texts that are right do without

    found = difflib.get_close_matches(name, names, 1, 0.7)
    return found[0] if found else None


def choice(names):
    """Names as a sentence lists them."""
    quoted = [f"`{name}`" for name in names]
    return quoted[0] if len(quoted) == 1 else ", ".join(quoted[:-1]) + " and " + quoted[-1]


class Parser(Record):
    """A text, the token that comes next, the locals that live, and what is open."""

    text: str
    scope: Scope
    at: int = 0
    open: int = 0
    token: object = None  # the one that comes next, and the one before it
    before: object = None

    def __init__(self, text, scope):
        super().__init__(text, scope)
        self.locals = []

    # Tokens.

    def scan(self):
        """The token that begins at or behind the place."""
        found = TOKEN.match(self.text, self.at)
        while found and found.lastgroup == "blank":
            self.at = found.end()
            found = TOKEN.match(self.text, self.at)
        if self.at == len(self.text):
            return Token("end", "", self.at, self.at)
        if not found:
            self.refuse_character()
        if found.lastgroup == "number" and re.match(r"[A-Za-z_]", self.text[found.end() : found.end() + 1]):
            whole = re.compile(r"\w+").match(self.text, self.at)
            self.refuse_number(whole[0], whole.end())
        return Token(found.lastgroup, found[0], self.at, found.end())

    def peek(self):
        if self.token is None:
            self.token = self.scan()
        return self.token

    def next(self):
        self.before = self.peek()
        self.at = self.before.end
        self.token = None
        return self.before

    def comes(self, *marks):
        """Whether one of the marks or keywords comes next."""
        token = self.peek()
        return token.kind in ("mark", "word") and token.text in marks

    def expect(self, mark, due):
        """Goes behind the mark, where it comes next."""
        if not self.comes(mark):
            self.refuse_token(due)
        return self.next()

    # Refusals.

    def refuse_character(self):
        here = self.text[self.at]
        word = re.compile(r"[A-Za-z_][A-Za-z0-9_]*").match(self.text, self.at)
        end = word.end() if word else self.at + 1
        two = self.text[self.at : self.at + 2]
        why, mend = f"no word, number or sign begins with `{here}`", None
        if two == ">=":
            why, end, mend = "there is no `>=`", end + 1, "`a >= b` is `(a < b) == 0`"
        elif here == ">":
            why, mend = "there is no `>`", "`a > b` is `b < a`"
        elif two == "!=":
            why, end, mend = "there is no `!=`", end + 1, "`a != b` is `(a == b) == 0`"
        elif here == "!":
            why, mend = "there is no `!`", "`!a` is `a == 0`"
        elif here == "~":
            why, mend = "there is no `~`", "`~a` is `a ^ 65535`"
        elif here in "\"'":
            why = "there are no strings in a task text"
        elif word:
            why = f"a name has small letters, digits and `_`, and begins with a letter: `{word[0]}` is none"
            mend = f"`{word[0].lower().lstrip('_') or 'x'}`"
        elif not 32 < ord(here) < 127:
            why = f"the byte 0x{ord(here):02x} stands outside a comment: a text has the letters, digits and signs of ASCII"
        raise RefusedText(1, self.at, end, why, mend)

    def refuse_number(self, word, end):
        mend = "a product is written with its `*`, as in `2 * x`"
        if word[:2] in ("0x", "0X"):
            mend = "`0x` and hexadecimal digits"
        raise RefusedText(1, self.at, end, f"`{word}` is no number: a letter or `_` follows it directly", mend)

    def refuse_token(self, due):
        """Refuses the token that comes next, where what is due could stand."""
        token = self.peek()
        shown = "the text ends here" if token.kind == "end" else f"`{token.text}` can't stand here"
        ends = "`;`, where a statement ends before here" if due.startswith("`;`") else None
        why, mend = self.slip(token) or (f"{due} could", ends)
        raise RefusedText(2, token.place, token.end, f"{shown}: {why}", mend)

    def slip(self, token):
        """Why, and what to write instead, where this is often written and isn't there; else None."""
        before = self.before or Token("mark", ";", -1, -1)
        pair = before.text + token.text if before.end == token.place else ""
        operand = before.kind == "number" or before.text == ")" or before.kind == "word" and before.text not in KEYWORDS
        if before.text == "else" and token.text == "if":
            return "there is no `else if`", "`else { if .. { .. } }`"
        for written in (pair, self.text[token.place : token.place + 2]):
            if written in SLIPS:
                return SLIPS[written]
        if token.text == "=" and operand:
            return "`=` sets a local or a word, and compares nothing", "`==` compares"
        if token.text == "+" and not operand:
            return "there is no `+` before a word", "leave it out"
        if token.text == "." and before.kind == "number":
            return "words are whole numbers, without a point", "count in smaller steps, such as hundredths"
        if token.text == "." and self.sensed():
            return "a sensor has one word, without a number", f"`sense {before.text}`"
        if token.text == ";" and before.text == "}":
            return "a block ends with its `}`", "leave the `;` out"
        return None

    def sensed(self):
        """Whether the token before is the name behind `sense`."""
        return re.search(r"\bsense\s+[a-z0-9_]+\s*$", self.text[: self.peek().place]) is not None

    def refuse_name(self, token, why, mend=None):
        raise RefusedText(3, token.place, token.end, why, mend)

    # Statements.

    def task(self):
        statements = []
        while self.peek().kind != "end":
            statements.append(self.statement("`let`, `out`, `if`, `repeat` or a local"))
        return statements

    def statement(self, due):
        token = self.peek()
        if token.kind != "word" or token.text in KEYWORDS and token.text not in ("let", "out", "if", "repeat"):
            self.refuse_token(due)
        if token.text in KEYWORDS:
            self.next()
            return getattr(self, "read_" + token.text)()
        name = self.local()
        self.expect("=", "`=`, which sets the local,")
        return self.ended(Set(name, self.expression()))

    def ended(self, statement):
        """The statement, behind its `;`."""
        self.expect(";", "`;` or an operator")
        return statement

    def read_let(self):
        name = self.name("the name of a new local")
        if len(self.locals) == MOST_LOCALS:
            most = f"at most {MOST_LOCALS} live at once, hidden ones counted"
            why = f"`{name.text}` is local number {MOST_LOCALS + 1}, and {most}"
            raise RefusedText(5, name.place, name.end, why, "end blocks sooner, or use a local again")
        self.expect("=", "`=` and the word of the local")
        value = self.expression()
        self.locals.append(name.text)
        return self.ended(Set(name.text, value))

    def read_out(self):
        word = self.word_of(self.scope.own, "the number of an output word, as in `out 0 = ..`,")
        self.expect("=", "`=`")
        return self.ended(Out(word, self.expression()))

    def read_if(self):
        test = self.expression()
        then = self.block("`{` or an operator")
        other = None
        if self.comes("else"):
            self.next()
            other = self.block("`{`")
        return If(test, then, other)

    def read_repeat(self):
        place = self.before.place
        token = self.number("the number of rounds, which is no expression,")
        if token.value > MOST_ROUNDS:
            why = f"{token.text} rounds are more than {MOST_ROUNDS:,}"
            raise RefusedText(5, token.place, token.end, why, "put one `repeat` into another")
        return Repeat(token.value, self.block("`{`"), place, token.end)

    def block(self, due):
        self.enter(self.peek() if self.comes("{") else self.refuse_token(due))
        self.next()
        living = len(self.locals)
        statements = []
        while not self.comes("}"):
            statements.append(self.statement("`}`, `let`, `out`, `if`, `repeat` or a local"))
        self.next()
        del self.locals[living:]
        self.open -= 1
        return statements

    def enter(self, token):
        """Opens a block, a parenthesis or a minus."""
        if self.open == DEEPEST:
            why = f"this is level {DEEPEST + 1}: at most {DEEPEST} blocks, parentheses and minuses are open at once"
            raise RefusedText(5, token.place, token.end, why, "give a part to a local of its own")
        self.open += 1

    # Expressions.

    def expression(self):
        left = self.level(1)
        if self.comes(*OPERATORS[0]):
            operator = self.next()
            right = self.level(1)
            left = Operation(operator.text, left, right, operator.place, operator.end)
        return left

    def level(self, number):
        if number == len(OPERATORS):
            return self.operand()
        left = self.level(number + 1)
        while self.comes(*OPERATORS[number]):
            operator = self.next()
            right = self.level(number + 1)
            left = Operation(operator.text, left, right, operator.place, operator.end)
        return left

    def operand(self):
        token = self.peek()
        if token.kind == "number":
            return Number(self.number("").value)
        if self.comes("-"):
            self.enter(token)
            self.next()
            inner = self.operand()
            self.open -= 1
            return Minus(inner)
        if self.comes("("):
            return self.parenthesis(1)[0]
        if self.comes("mid"):
            self.next()
            return Mid(self.parenthesis(3))
        if self.comes("sense", "now", "last"):
            self.next()
            return self.sense() if token.text == "sense" else self.read_word(token.text == "now")
        if token.kind == "word" and token.text not in KEYWORDS:
            return Local(self.local())
        self.refuse_token(OPERAND)

    def parenthesis(self, count):
        """The expressions between parentheses, which are `count`."""
        self.enter(self.peek() if self.comes("(") else self.refuse_token("`(` and three words, as in `mid(a, b, c)`,"))
        self.next()
        parts = [self.expression()]
        while len(parts) < count:
            self.expect(",", "`,` and one more of the three words of `mid`, or an operator,")
            parts.append(self.expression())
        self.expect(")", "`)` or an operator")
        self.open -= 1
        return parts

    def sense(self):
        token = self.name("the name of a sensor")
        if token.text not in self.scope.sensors:
            self.refuse_sensor(token)
        return Sense(self.scope.sensors.index(token.text))

    def refuse_sensor(self, token):
        like = nearest(token.text, self.scope.sensors)
        mend = f"`sense {like}`" if like else None
        if self.scope.task(token.text) is not None:
            mend = mend or f"it is a task: `last {token.text}.0`, or `now {token.text}.0`"
        there = f"there are {choice(self.scope.sensors)}" if self.scope.sensors else "the mission has no sensors"
        self.refuse_name(token, f"there is no sensor `{token.text}`", mend or there)

    def read_word(self, now):
        token = self.name("the name of a task")
        task = self.scope.task(token.text)
        when = "now" if now else "last"
        if task is None:
            self.refuse_task(token, when)
        if now and task >= self.scope.own:
            whose = "this task itself" if task == self.scope.own else "a later task"
            why = f"`{token.text}` is {whose}, whose word of this frame isn't there yet"
            raise RefusedText(4, token.place, token.end, why, f"`last {token.text}.0`, or an earlier task")
        self.expect(".", f"`.` and the number of the word, as in `{when} {token.text}.0`,")
        return Read(now, task, self.word_of(task, "the number of the word"))

    def refuse_task(self, token, when):
        names = [name for name, _ in self.scope.tasks]
        like = nearest(token.text, names)
        mend = f"`{when} {like}.0`" if like else None
        if token.text in self.scope.sensors:
            mend = f"it is a sensor: `sense {token.text}`"
        self.refuse_name(token, f"there is no task `{token.text}`", mend or f"there are {choice(names)}")

    def local(self):
        """The name of a local that is seen here."""
        token = self.name("a local")
        if token.text not in self.locals:
            self.refuse_local(token)
        return token.text

    def refuse_local(self, token):
        name = token.text
        why, mend = f"there is no local `{name}` here", None
        if name in self.scope.sensors:
            mend = f"a sensor is read by `sense {name}`"
        elif self.scope.task(name) is not None:
            mend = f"a task's word is read by `last {name}.0`, or `now {name}.0`"
        elif name in FOREIGN:
            why, mend = f"there is no `{name}`", FOREIGN[name]
        elif nearest(name, self.locals):
            mend = f"`{nearest(name, self.locals)}`"
        elif nearest(name, KEYWORDS):
            mend = f"the keyword is `{nearest(name, KEYWORDS)}`"
        elif re.search(rf"\blet\s+{name}\b", self.text[: token.place]):
            mend = "a local is seen behind its `let`, and up to the end of its block: give it a `let` before the block"
        self.refuse_name(token, why, mend or f"`let {name} = ..;` makes it")

    # Names and numbers.

    def name(self, due):
        token = self.peek()
        if token.kind != "word" or token.text in KEYWORDS:
            if token.kind == "word":
                due = f"`{token.text}` is a word of the language; {due}"
            self.refuse_token(due)
        if len(token.text) > LONGEST_NAME:
            why = f"`{token.text}` has {len(token.text)} characters, and a name has at most {LONGEST_NAME}"
            raise RefusedText(5, token.place, token.end, why, "a shorter name")
        return self.next()

    def number(self, due):
        token = self.peek()
        if token.kind != "number":
            self.refuse_token(due)
        token.value = int(token.text, 16) if token.text[:2] == "0x" else int(token.text)
        if token.value > LARGEST_WORD:
            why = f"{token.text} is more than {LARGEST_WORD}, the largest word"
            raise RefusedText(5, token.place, token.end, why, "words have 16 bits: count in larger steps")
        return self.next()

    def word_of(self, task, due):
        """The number of a word that the task has."""
        token = self.number(due)
        name, words = self.scope.tasks[task]
        if token.value >= words:
            there = "its one word is 0" if words == 1 else f"its words are 0 to {words - 1}"
            self.refuse_name(token, f"task `{name}` has no word {token.value}: {there}", "each start word makes a word")
        return token.value


SLIPS = {
    "<=": ("there is no `<=`", "`a <= b` is `(b < a) == 0`"),
    "===": ("there is no `===`", "`a == b`"),
    "&&": ("there is no `&&`", "`(a < b) & (c < d)`: comparisons are 0 or 1, and `&` binds tighter than they do"),
    "||": ("there is no `||`", "`(a < b) | (c < d)`: comparisons are 0 or 1, and `|` binds tighter than they do"),
    "**": ("there is no `**`", "multiply, or shift 1 left"),
    "//": ("a comment begins with `#`", "`#` in place of `//`"),
    "/*": ("a comment begins with `#`, and ends with its line", "`#` in place of `/*`"),
    "++": ("there is no `++`", "`x = x + 1;`"),
    "+=": ("there is no `+=`", "`x = x + ..;`"),
    "-=": ("there is no `-=`", "`x = x - ..;`"),
    "*=": ("there is no `*=`", "`x = x * ..;`"),
    "/=": ("there is no `/=`", "`x = x / ..;`"),
}
FOREIGN = {
    "true": "`1`: a condition holds where its word isn't 0",
    "false": "`0`: a condition holds where its word isn't 0",
    "while": "`repeat 10 { .. }` runs a block a number of times",
    "for": "`repeat 10 { .. }` runs a block a number of times",
    "return": "`out 0 = ..;` sets an output word",
    "min": "`mid(-32768, a, b)` is the lesser of two",
    "max": "`mid(a, b, 32767)` is the greater of two",
    "abs": "`let d = x; if d < 0 { d = -d; }`",
    "clamp": "`mid(low, x, high)`",
    "and": "`a & b`, where both are 0 or 1",
    "or": "`a | b`, where both are 0 or 1",
    "not": "`a == 0`",
    "elif": "`else { if .. { .. } }`",
    "var": "`let`",
    "int": "`let`",
    "print": "the words of `out` are printed in the report",
}
