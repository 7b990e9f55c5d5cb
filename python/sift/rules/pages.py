"""What the pages say of a refusal: the sentence of its rule, and what to do."""
import re

from sift import where

# Of each sort of refusal the page that has the sentences of its rules, and the heading over them.
SENTENCES = {
    "scenario": ("missions.md", "## Rules"),
    "task": ("tasks.md", "## Refusals"),
    "table": ("tables.md", "## Table rules"),
    "script": ("faults.md", "## Script rules"),
}
REFUSAL = re.compile(
    r"(?P<sort>scenario) rule (?P<rule>\d+) at \d+|(?P<task>task) \d+ kind (?P<kind>\d+) at \d+"
    r"|(?P<table>table) \d+ row \d+ rule (?P<row_rule>\d+)|(?P<script>script) entry \d+ rule (?P<entry_rule>\d+)"
)


def sort_and_rule(line):
    """The sort of a refusal and the number of its rule or kind, or None for another line."""
    found = REFUSAL.fullmatch(line)
    if not found:
        return None
    sort = found["sort"] or found["task"] or found["table"] or found["script"]
    return sort, int(found["rule"] or found["kind"] or found["row_rule"] or found["entry_rule"])


def cells(line):
    """The cells of a line of a table of a page, with each link as the file that it names."""
    linked = re.sub(r"\[([^]]*)\]\(([a-z-]+\.md)(#[^)]*)?\)", lambda link: link[1] if link[3] else f"docs/{link[2]}", line.strip().strip("|"))
    return [cell.strip().replace("\\|", "|") for cell in re.split(r"(?<!\\)\|", linked)]


def rows(page, heading=None):
    """The lines of the tables of a page, or of its section with a heading."""
    with open(where.page(page), encoding="utf-8") as lines:
        inside = heading is None
        for line in lines:
            if heading and line.startswith("## "):
                inside = line.strip() == heading
            if inside and line.startswith("|"):
                yield cells(line)


def sentence(sort, rule):
    """When a rule is broken, or what the case of a kind is."""
    return next(row[1] for row in rows(*SENTENCES[sort]) if row[0] == str(rule))


def mend(sort, rule):
    """What to do, as docs/refusals.md has it."""
    for row in rows("refusals.md"):
        if sort_and_rule(row[0].strip("`")) == (sort, rule):
            return row[3]
    raise LookupError(f"docs/refusals.md has no row for {sort} {rule}")
