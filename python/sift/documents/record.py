"""Values with named parts. A dataclass is made of text when it is loaded, which takes as long as several flights; these aren't."""
from types import SimpleNamespace


class Record(SimpleNamespace):
    """A value whose class names its parts, in the order in which they are given, and has values for those that may be left out."""

    def __init__(self, *values, **named):
        super().__init__(**dict(zip(type(self).__annotations__, values)), **named)
