"""A mission as a document states it: read, changed and written, with names in place of numbers.

What isn't changed stays as it was written. Where tomlkit is there comments stay, too, in a document that is changed; without it a
changed document is written anew. Nothing is tested here but names: `sift.check` tells whether a document is a mission.
"""
from __future__ import annotations

import os
import re
from typing import Any, Dict, Iterable, List, MutableMapping, Optional, Sequence, Tuple, Union

from sift.documents import places, printing

SLOT = re.compile(r"(clock|report)|(sense|relay) (\w+)|out (\w+)\.(\d+)|relay-report ([0-7])")
Data = MutableMapping[str, Any]
Units = Union[str, Iterable[int]]


class NoSuchName(KeyError):
    """A name that a mission doesn't have."""

    def __str__(self) -> str:
        return str(self.args[0])


def plain(value: Any) -> Any:
    """A value without what tomlkit keeps beside it."""
    return value.unwrap() if hasattr(value, "unwrap") else value


def digits_of(units: Units) -> str:
    """Units as a document writes them."""
    return units if isinstance(units, str) else "".join(map(str, sorted(set(units))))


def parsed(text: str) -> Tuple[Data, Any]:
    """The values of a document, and tomlkit where it keeps its comments."""
    try:
        import tomlkit

        return tomlkit.parse(text), tomlkit
    except ImportError:
        pass
    except ValueError:
        pass  # tomlkit reads TOML 1.0, and a mission may be written in 1.1
    try:
        return places.plain(places.read(text.encode(errors="surrogateescape"))[1]), None
    except places.NotADocument:
        from sift.refusal import Refusal

        raise Refusal("not a document", 3, ("check",), text.encode(errors="surrogateescape")) from None


class Part:
    """A table of a document, with the mission that it is one of."""

    def __init__(self, mission: Mission, data: Data) -> None:
        self.mission = mission
        self.data = data

    def __repr__(self) -> str:
        return f"<{type(self).__name__}: {plain(self.data)}>"

    def _set(self, key: str, value: Any) -> None:
        """Sets the value of a key; None takes the key away."""
        if value is None:
            self.data.pop(key, None)
        else:
            self.data[key] = self.mission.item(value)


class Sensor(Part):
    """A sensor, with the word that it shows in each frame. A word that is written is from -32768 to 65535, which have 16 bits."""

    @property
    def name(self) -> str:
        return str(self.data["name"])

    @property
    def words(self) -> List[int]:
        """Its words, frame by frame; after the last they begin again."""
        return list(plain(self.data["words"]))

    @words.setter
    def words(self, words: Sequence[int]) -> None:
        self._set("words", list(words))


class Task(Part):
    """A task: its words before frame 0, and how they are computed, by a text or by a factor and a term."""

    @property
    def name(self) -> str:
        return str(self.data["name"])

    @property
    def start(self) -> List[int]:
        """Its words before frame 0, one for each that it puts out."""
        return list(plain(self.data["start"]))

    @start.setter
    def start(self, words: Sequence[int]) -> None:
        self._set("start", list(words))

    @property
    def text(self) -> Optional[str]:
        """How its words are computed, as docs/tasks.md has it; None where `linear` tells it."""
        return None if "text" not in self.data else str(self.data["text"])

    @text.setter
    def text(self, text: str) -> None:
        self._set("linear", None)
        self._set("text", text)

    @property
    def linear(self) -> Optional[Tuple[int, int]]:
        """The factor and the term by which its one word follows from the one before; None where `text` tells it."""
        return None if "linear" not in self.data else (int(self.data["linear"][0]), int(self.data["linear"][1]))

    @linear.setter
    def linear(self, words: Tuple[int, int]) -> None:
        self._set("text", None)
        self._set("linear", list(words))


class Table(Part):
    """The schedule for a number of units. Of each task, by its name, the subframes of its run and its poll and its positions:
    `table["elevator"] = 6, 8, "123"`."""

    @property
    def size(self) -> int:
        """For how many units it is."""
        return int(self.data["size"])

    def __getitem__(self, task: str) -> Tuple[int, int, str]:
        number = self.mission.number_of("task", task)
        return int(self.data["run"][number]), int(self.data["poll"][number]), str(self.data["at"][number])

    def __setitem__(self, task: str, row: Tuple[int, int, Units]) -> None:
        number = self.mission.number_of("task", task)
        for key, value in zip(("run", "poll", "at"), (row[0], row[1], digits_of(row[2]))):
            self.data[key][number] = value

    @property
    def shed(self) -> List[str]:
        """The names of the tasks that it sheds. A task that it is told to shed loses its row; one that it sheds no more needs one."""
        return [self.mission.tasks[number].name for number in plain(self.data.get("shed", []))]

    @shed.setter
    def shed(self, tasks: Iterable[str]) -> None:
        names = sorted(tasks, key=lambda task: self.mission.number_of("task", task))
        self._set("shed", [self.mission.number_of("task", name) for name in names] or None)
        for name in names:
            self[name] = 0, 0, ""
        if names:
            self.mission.version = 2


class Fault(Part):
    """A unit that goes wrong from a frame on, and what it says in place of its own words."""

    @property
    def unit(self) -> int:
        return int(self.data["unit"])

    @unit.setter
    def unit(self, unit: int) -> None:
        self._set("unit", unit)

    @property
    def begin(self) -> int:
        """Its first faulty frame."""
        return int(self.data["from"])

    @begin.setter
    def begin(self, frame: int) -> None:
        self._set("from", frame)

    @property
    def items(self) -> List[Dict[str, Any]]:
        """What it says, each item as the document has it."""
        return [dict(plain(item)) for item in self.data.get("say", [])]

    def say(self, slot: str, value: Optional[int] = None, *, to: Optional[Units] = None, frame: Optional[int] = None) -> Fault:
        """Adds an item: what is said in a slot, such as `out elevator.0`, `sense pitch`, `relay pitch`, `clock`, `report` or
        `relay-report 3`; nothing where no value is given. It is said to all others where no units are given, and in every frame.
        """
        keys = self.mission.slot_of(slot)
        others = [unit for unit in range(self.mission.units) if unit != self.unit and not (keys["slot"] == "relay-report" and unit == keys["index"])]
        item = {**keys, "to": digits_of(others if to is None else to), "frame": frame, "value": value}
        self.mission.append(self.data, "say", {key: each for key, each in item.items() if each is not None})
        return self


class Mission:
    """A mission's document."""

    def __init__(self, text: str = "") -> None:
        """Takes a document's text. One that is no TOML raises its refusal; whether it is a mission `sift.check` tells."""
        self._text = text
        self.data, self._kit = parsed(text)
        self._read = plain_copy(self.data)

    @classmethod
    def read(cls, path: "os.PathLike[str] | str") -> Mission:
        """The document of a file."""
        with open(path, encoding="utf-8", newline="") as file:
            return cls(file.read())

    def write(self, path: "os.PathLike[str] | str") -> None:
        """Writes the document to a file."""
        with open(path, "w", encoding="utf-8", newline="") as file:
            file.write(self.text)

    def copy(self) -> Mission:
        """Another one with the same text."""
        return Mission(self.text)

    @property
    def text(self) -> str:
        """The document's text: as it was read, where nothing was changed."""
        if plain_copy(self.data) == self._read:
            return self._text
        if not self._kit:
            return printing.text_of(self.data)
        # One blank line above a header is enough. No task text has a bracket, so this is none in a string.
        return re.sub(r"\n{3,}(?=\[)", "\n\n", self._kit.dumps(self.data)).rstrip("\n") + "\n"

    def __str__(self) -> str:
        return self.text

    def __repr__(self) -> str:
        return f"<Mission: {self.data.get('units')} units, {self.data.get('frames')} frames, tasks {', '.join(task.name for task in self.tasks)}>"

    def _repr_markdown_(self) -> str:
        return f"```toml\n{self.text}\n```"

    # What is at the root.

    def _integer(self, key: str, missing: int) -> int:
        return int(self.data.get(key, missing))

    @property
    def version(self) -> int:
        return self._integer("version", 1)

    @version.setter
    def version(self, version: int) -> None:
        self.set("version", version)

    @property
    def units(self) -> int:
        return self._integer("units", 0)

    @units.setter
    def units(self, units: int) -> None:
        self.set("units", units)

    @property
    def frames(self) -> int:
        return self._integer("frames", 0)

    @frames.setter
    def frames(self, frames: int) -> None:
        self.set("frames", frames)

    @property
    def subframes(self) -> int:
        """How many subframes a frame has: where the document doesn't tell, 10, and 2 for each task."""
        return self._integer("subframes", 10 + 2 * len(self.tasks))

    @subframes.setter
    def subframes(self, subframes: int) -> None:
        self.set("subframes", subframes)

    @property
    def clock(self) -> Data:
        """The clocks, whose figures are ticks: a table that can be changed in place. Where the document has none it is made."""
        if "clock" not in self.data:
            self.data["clock"] = self._kit.table() if self._kit else {}
        clock: Data = self.data["clock"]
        return clock

    def set(self, key: str, value: Any) -> None:
        """Sets a value of the root. A new one stands above the first header."""
        self.data[key] = self.item(value)

    # Its lists.

    def list(self, key: str) -> Sequence[Data]:
        """The tables of a list, or none."""
        told: Sequence[Data] = self.data.get(key, [])
        return told

    @property
    def sensors(self) -> List[Sensor]:
        return [Sensor(self, each) for each in self.list("sensor")]

    @property
    def tasks(self) -> List[Task]:
        return [Task(self, each) for each in self.list("task")]

    @property
    def tables(self) -> List[Table]:
        return [Table(self, each) for each in self.list("table")]

    @property
    def faults(self) -> List[Fault]:
        return [Fault(self, each) for each in self.list("fault")]

    def sensor(self, name: str) -> Sensor:
        """The sensor of a name; NoSuchName, a KeyError, comes where there is none."""
        return self.sensors[self.number_of("sensor", name)]

    def task(self, name: str) -> Task:
        """The task of a name; NoSuchName, a KeyError, comes where there is none."""
        return self.tasks[self.number_of("task", name)]

    def table(self, size: int) -> Table:
        """The table for a number of units; NoSuchName, a KeyError, comes where there is none."""
        found = next((table for table in self.tables if table.size == size), None)
        if not found:
            raise NoSuchName(f"there is no table for {size} units")
        return found

    def number_of(self, key: str, name: str) -> int:
        """The number of a task or a sensor."""
        names = [str(each["name"]) for each in self.list(key)]
        if name not in names:
            raise NoSuchName(f"there is no {key} {name}; there are {', '.join(names) or 'none'}")
        return names.index(name)

    def slot_of(self, slot: str) -> Dict[str, Any]:
        """The keys of an item for a slot."""
        found = SLOT.fullmatch(slot)
        if not found:
            raise NoSuchName(f"there is no slot {slot}; slots are clock, report, sense SENSOR, relay SENSOR, out TASK.WORD and relay-report UNIT")
        if found[2]:
            return {"slot": found[2], "index": self.number_of("sensor", found[3])}
        if found[4]:
            return {"slot": "out", "index": self.number_of("task", found[4]), "word": int(found[5])}
        return {"slot": "relay-report", "index": int(found[6])} if found[6] else {"slot": found[1]}

    # Changes.

    def add_sensor(self, name: str, words: Sequence[int]) -> Sensor:
        """Adds a sensor."""
        return Sensor(self, self.append(self.data, "sensor", {"name": name, "words": list(words)}))

    def add_task(self, name: str, start: Sequence[int], text: Optional[str] = None, linear: Optional[Tuple[int, int]] = None) -> Task:
        """Adds a task, behind the others, with a text, or with a factor and a term."""
        how: Dict[str, Any] = {"text": text} if text is not None else {"linear": list(linear or ())}
        return Task(self, self.append(self.data, "task", {"name": name, "start": list(start), **how}))

    def add_table(self, size: int, rows: Sequence[Tuple[int, int, Units]]) -> Table:
        """Adds the table for a number of units: of each task the subframes of its run and its poll and its positions."""
        run, poll, at = ([row[0] for row in rows], [row[1] for row in rows], [digits_of(row[2]) for row in rows])
        return Table(self, self.append(self.data, "table", {"size": size, "run": run, "poll": poll, "at": at}))

    def add_fault(self, unit: int, begin: int = 0) -> Fault:
        """Adds a fault, whose items `say` adds."""
        return Fault(self, self.append(self.data, "fault", {"unit": unit, "from": begin}))

    def add_storm(self, unit: int, begin: int, number: int, strays: int) -> Fault:
        """Adds a unit that turns stray from a frame on, whose strays, so many of them, are drawn from a number."""
        fault = self.add_fault(unit, begin)
        fault.data["storm"] = self.item({"number": number, "strays": strays})
        return fault

    def clear(self, key: str) -> None:
        """Takes away all sensors, tasks, tables or faults."""
        self.data.pop(key, None)

    def append(self, data: Data, key: str, table: Dict[str, Any]) -> Data:
        """Adds a table to a list of tables, and tells it as it stands there."""
        if key not in data:
            data[key] = self._kit.aot() if self._kit else []
        tables = data[key]
        inline = self._kit and not isinstance(tables, self._kit.items.AoT)
        tables.append(self.inline(table) if inline else self.item(table))
        added: Data = tables[-1]
        return added

    def item(self, value: Any) -> Any:
        """A value as the document holds it."""
        if not self._kit:
            return value
        if not isinstance(value, dict):
            return self._kit.item(value)
        table = self._kit.table()
        for key, each in value.items():
            table.add(key, each)
        table.add(self._kit.nl())
        return table

    def inline(self, table: Dict[str, Any]) -> Any:
        """A table as it stands within a line."""
        made = self._kit.inline_table()
        made.update(table)
        return made


def plain_copy(data: Data) -> Any:
    """The values of a document as they are now."""
    from copy import deepcopy

    return deepcopy(plain(data))
