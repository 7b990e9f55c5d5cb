"""Forms of texts, which `re` compiles when one is first looked for: that module takes as long to load as some flights, and campaigns
begin without it."""
from __future__ import annotations

TYPE_CHECKING = False  # as typing has it
if TYPE_CHECKING:
    from typing import Any


class Form:
    """A regular expression, with the methods of a compiled one."""

    def __init__(self, pattern: Any) -> None:
        self.pattern = pattern

    def __getattr__(self, name: str) -> Any:  # asked for where there is no such attribute yet
        if name.startswith("_"):
            raise AttributeError(name)
        import re

        value = getattr(re.compile(self.pattern), name)
        setattr(self, name, value)
        return value
