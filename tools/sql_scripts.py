"""Scripts of cases as crates/sql_cases/data has them: read, and run with other commands by a built sql_cases."""
import os
import re
import subprocess
import tempfile

TOP = os.path.dirname(os.path.dirname(os.path.realpath(__file__)))
DATA = f"{TOP}/crates/sql_cases/data"
PROGRAM = f"{TOP}/crates/sql_cases/out/sql_cases"
# Scripts are made of up to so many characters, and a process that runs one has so many seconds.
LONGEST, SECONDS = 4_000_000, 600
# An answer that no command gives.
NONE = "-"


class Query:
    """A query of a script: its name and line, the sections that it is asked over, its text, and the lines wanted."""

    def __init__(self, script, line, setting, heading, text, wanted):
        self.script, self.line, self.setting = script, line, setting
        self.heading, self.text, self.wanted = heading, text, wanted

    def is_answered(self):
        """Tells whether rows or an error of the execution are wanted, and no refusal."""
        return not re.match(r"(USAGE|READ|SCHEMA|DATA|QUERY)\b", self.wanted[0])


def queries():
    """Returns the sections `query` of all scripts, in their order."""
    found = []
    with open(f"{TOP}/crates/sql_cases/args", encoding="utf-8") as it:
        names = it.read().split()
    for name in names:
        with open(f"{DATA}/{name}", encoding="utf-8") as it:
            lines = it.read().split("\n")
        schema, tables, setting, at = [], {}, [], 0
        while at < len(lines):
            if not lines[at] or lines[at].startswith("#"):
                at += 1
                continue
            end = next((it for it in range(at, len(lines)) if not lines[it]), len(lines))
            section = [it for it in lines[at:end] if not it.startswith("#")]
            if section[0].startswith("schema"):
                schema, tables, setting = section, {}, []
            elif section[0].startswith("table "):
                tables[section[0].split(" ")[1]] = section
                setting = []
            elif section[0] in ("query", "query bytes"):
                part = section.index("----")
                # (queries over the same tables share it)
                setting = setting or [schema, *tables.values()]
                found.append(Query(name, at + 1, setting, section[0], section[1:part], section[part + 1:]))
            at = end + 1
    return found


def asked(program, questions):
    """Runs commands over queries, each (query, words of the command, whether the answer is to be told in any case), and
    yields those that are told: the number of the question, the status, and the text that was given."""
    part, size = [], 0
    for number, question in enumerate(questions):
        part.append((number, question))
        size += 200 + sum(map(len, question[0].text)) + sum(map(len, question[0].wanted))
        if size > LONGEST:
            yield from run(program, part)
            part, size = [], 0
    if part:
        yield from run(program, part)


def run(program, part):
    lines, places, last = [], {}, None
    for number, (query, words, is_told) in part:
        if query.setting is not last:
            last = query.setting
            for section in query.setting:
                lines += [*section, ""]
        places[len(lines) + 1] = number
        lines += [f"command {words} s q d" + query.heading[len("query"):], *query.text, "----", *([NONE] if is_told else query.wanted), ""]
    with tempfile.TemporaryDirectory() as room:
        with open(f"{room}/asked", "w", encoding="utf-8") as it:
            it.write("\n".join(lines) + "\n")
        made = subprocess.run([program, "asked"], cwd=room, capture_output=True, timeout=SECONDS, stdin=subprocess.DEVNULL, check=False)
    printed = made.stdout.decode()
    if made.returncode not in (0, 1) or made.stderr:
        raise SystemExit(f"{program} ended with {made.returncode}: {printed[-300:]} {made.stderr.decode(errors='replace')[:300]}")
    pieces = re.split(r"^asked:(\d+):\n", printed, flags=re.M)
    for line, piece in zip(pieces[1::2], pieces[2::2]):
        given = re.search(r"^given, with status (\d+):\n", piece, flags=re.M)
        text = re.sub(r"asked: \d+ cases\n\d+ cases\n\Z", "", piece[given.end():])
        # (one line feed is of what tells it)
        yield places[int(line)], int(given[1]), text[:-1] if text.endswith("\n") else text
