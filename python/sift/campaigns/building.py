"""What a continuous build reads of a campaign: a JSON document, or XML as JUnit writes it. Rows are read and written one by one."""
import json
from html import escape
from itertools import islice

from sift.campaigns.findings import finding_of
from sift.campaigns.rows import read_rows


def quoted(text):
    """A text as the value of an attribute."""
    return f'"{escape(text)}"'


def rows_in(table):
    """The rows of a table in a file."""
    with open(table, encoding="utf-8") as lines:
        yield from islice(read_rows(lines), 1, None)


def values_of(row, required):
    """A row as plain values."""
    findings = [finding_of(finding)._asdict() for finding in row.findings]
    return {
        "row": row.number,
        "fault": row.name,
        "fate": row.fate,
        "margin": "lost" if row.lost else "ok",
        "wrong": row.wrong,
        "judge": row.judge,
        "promised": " + ".join(promise or "-" for promise in row.promised),
        "failed": row.is_failure(),
        "required": [{"name": name, **finding} for name, finding in zip(required, findings)],
    }


def json_of(campaign, summary, table):
    """The parts of a JSON document: what the rows come to, and each row."""
    counts = summary.counts
    head = {
        "mission": campaign.options["mission"],
        "runs": counts.runs,
        "failures": summary.failures,
        "outputs_lost": sum(count.outputs for count in counts.kinds.values()),
        "margins_lost": sum(count.margins for count in counts.kinds.values()),
        "required": [{"name": name, "broken": broken} for name, broken in zip(counts.required, counts.broken)],
    }
    yield json.dumps(head)[:-1] + ', "rows": [\n'
    for place, row in enumerate(rows_in(table)):
        yield (",\n" if place else "") + json.dumps(values_of(row, counts.required))
    yield "\n]}\n"


def why_failed(row, required):
    """Why a row is a failure, in words."""
    if row.is_misjudged():
        return f"the program's judge doesn't take the program's report: {row.judge}"
    whys = ["the run isn't as promised"] if row.contradicted else []
    whys += ["the margin was lost"] if row.lost else []
    if row.findings:
        whys += [f"broken: {name} ({finding})" for name, finding, broken in zip(required, row.findings, row.broken) if broken]
    elif row.harmed:
        whys.append(f"{row.wrong:,} wrong {'word' if row.wrong == 1 else 'words'} of {row.cells[9]} from frame {row.cells[8]} on")
    return "; ".join(whys)


def junit_of(campaign, summary, table):
    """The parts of an XML document of one suite, with a case for each row."""
    name = quoted(f"campaign of {campaign.options['mission']}")
    yield '<?xml version="1.0" encoding="UTF-8"?>\n'
    yield f'<testsuites tests="{summary.counts.runs}" failures="{summary.failures}">\n'
    yield f'<testsuite name={name} tests="{summary.counts.runs}" failures="{summary.failures}">\n'
    for row in rows_in(table):
        case = f"<testcase classname={name} name={quoted(f'row {row.number}: {row.name}')}"
        if row.is_failure():
            yield f"{case}><failure message={quoted(why_failed(row, summary.counts.required))}/></testcase>\n"
        else:
            yield f"{case}/>\n"
    yield "</testsuite>\n</testsuites>\n"
