"""What the documents name: records, commands, files and names of the code are each looked for.

- A record in a code span or a table, as `^done,depth="C"`, has to be like a line of the stored sessions: capitals and `..` stand for
  anything. So has each text of the table of errors. Each command of a table is typed in a stored session.
- Each file of the repository that a document names, in a command too, is there: from the top, from the document, or in the crate that is named before it.
- Each name of the code, of a definition or of a file of them in the documents for those who change it stands in some crate,
  the list of crates is whole, and the files of the reading list have as many lines as it says.
"""

import os
import re

from checks.lines import session_lines

BLOCK = re.compile(r"```mi\n\$ \./rvdbg (.*)\n((?:.*\n)*?)```\n")
SHELL = re.compile(r"```sh\n((?:.*\n)*?)```\n")
SPAN = re.compile(r"`([^`\n]+)`")
RECORD = re.compile(r"[\^*=][a-z]|[@&]\"")
ERROR = re.compile(r"^\| [0-9]+ \| ([^|]+?) \|", re.MULTILINE)
COMMAND = re.compile(r"-[a-z]+(?:-[a-z]+)+")
PATH = re.compile(r"(?:crates|tests|bench|examples|editors|docs|tools|\.ci)/[a-z0-9_./-]+|\.\./[A-Z]+\.md|[A-Z]+\.md")
IN_A_CRATE = re.compile(r"(?:src|specs|proofs)/[A-Za-z0-9_/.]+")
NAME = re.compile(r"[A-Za-z]\w*(?:::\w+)*|\w+\.(?:rt|antt)")
READING = re.compile(r"(?m)^\| `(\w+)` ([A-Z]\w+(?:, [A-Z]\w+)*) \| (\d+) \|")
OTHER_NAMES = {"examples", "stdin", "stdout", "objdump", "readelf", "gcc", "clang", "rt", "elf", "Is", "Are", "is_"}
WITH_NAMES = tuple("docs/%s.md" % it for it in ("ARCHITECTURE", "CONTRIBUTING", "DECISIONS", "GUARANTEES", "PERFORMANCE"))


def bytes_of(*path):
    """A file's bytes."""
    with open(os.path.join(*path), "rb") as file:
        return file.read()


def documents(top):
    """The documents: README.md and those of docs/, each with its name and text."""
    names = ["README.md", *sorted(os.path.join("docs", name) for name in os.listdir(os.path.join(top, "docs")))]
    return [(name, bytes_of(top, name).decode()) for name in names if name.endswith(".md")]


def whole_pattern(shown):
    """The lines that a record stands for, with or without a token. One that shows no field stands for those with any."""
    return "(?m)^[0-9]*" + pattern(shown) + ("$" if '"' in shown else "(,.*)?$")


def pattern(shown):
    """The texts that a part of a record stands for."""
    parts = re.split(r"(\.\.|0x[A-Z]|(?<![A-Za-z])[A-Z]+(?![A-Za-z]))", shown.replace("\\|", "|"))
    return "".join(re.escape(part) if at % 2 == 0 else ".*" for at, part in enumerate(parts))


def check_records(rig, lines, name, text):
    """The records that a document shows."""
    outside = BLOCK.sub("", SHELL.sub("", text))
    whole = {span for span in SPAN.findall(outside) if RECORD.match(span)}
    whole |= {line[4:] for line in outside.splitlines() if RECORD.match(line[4:]) and line.startswith("    ")}
    parts = {span for span in SPAN.findall(outside) if '="' in span and not RECORD.match(span)}
    if name.endswith("FORMATS.md"):
        errors = outside[outside.index("\n## Errors") :].split("\n## ")[1]
        whole |= {'^error,msg="%s"..' % error for error in ERROR.findall(errors)}
    unlike = [it for it in sorted(whole) if not re.search(whole_pattern(it), lines)]
    unlike += [it for it in sorted(parts) if not re.search(pattern(it), lines)]
    rig.row("records of %s that no stored session has" % name, unlike, [])


def check_commands(rig, typed, name, text):
    """The commands that a document's tables name."""
    spans = [span for line in text.splitlines() if line.startswith("| `-") for span in SPAN.findall(line.split(" | ")[0])]
    named = {found.group() for span in spans for found in [COMMAND.match(span)] if found}
    rig.row("commands of %s that no stored session types" % name, sorted(it for it in named if it not in typed), [])


def check_paths(rig, top, name, text):
    """The files that a document names."""
    words = [word for line in text.splitlines() if line.startswith("    ") for word in line.split()]
    words += [word for span in SPAN.findall(text) for word in span.split()[:1]] + re.findall(r"\]\(([^)#]+)\)", text)
    named = {found.group() for word in words for found in [PATH.fullmatch(word.removeprefix("../../"))] if found}
    places = [os.path.dirname(os.path.join(top, name)), top]
    lost = [it for it in sorted(named) if not any(os.path.exists(os.path.join(place, it)) for place in places)]
    crates = set(os.listdir(os.path.join(top, "crates")))
    for line in text.splitlines():
        crate = ""
        for span in SPAN.findall(line):
            crate = span if span in crates else crate
            if IN_A_CRATE.fullmatch(span) and crate and not os.path.exists(os.path.join(top, "crates", crate, span)):
                lost.append("%s of %s" % (span, crate))
    rig.row("files that %s names and that aren't there" % name, lost, [])


def code_names(top):
    """The words of the crates' sources, definitions and proofs, and the names of the files of definitions."""
    names = set()
    for folder, _, files in os.walk(os.path.join(top, "crates")):
        for file in [file for file in files if file.endswith((".rt", ".antt")) and "/out/" not in folder + "/"]:
            names.update((file, os.path.splitext(file)[0]))
            names.update(re.findall(r"[A-Za-z]\w*", bytes_of(folder, file).decode()))
    return names | set(re.findall(r"\w+", bytes_of(top, "crates.txt").decode())) | OTHER_NAMES


def check_names(rig, names, name, text):
    """The names of the code that a document has in code spans."""
    spans = [span for span in SPAN.findall(BLOCK.sub("", text)) if NAME.fullmatch(span)]
    unknown = sorted({span for span in spans if not names.issuperset(span.split("::"))})
    rig.row("names of %s that no crate has" % name, unknown, [])


def check_crates(rig, top):
    """The list of crates in ARCHITECTURE has each once."""
    listed = bytes_of(top, "docs", "ARCHITECTURE.md").decode().split("\n## The crates\n")[1].split("\n## ")[0]
    cells = [line.split(" | ")[0] for line in listed.splitlines() if line.startswith("| `")]
    names = [name for cell in cells for name in SPAN.findall(cell)]
    crates = re.findall(r"(?m)^(\w+)[^:\n#]*:", bytes_of(top, "crates.txt").decode())
    rig.row("the crates of ARCHITECTURE", sorted(names), sorted(crates))


def check_reading(rig, top):
    """The files of definitions that GUARANTEES lists have as many lines as it says."""
    rows = READING.findall(bytes_of(top, "docs", "GUARANTEES.md").decode())
    places = [[os.path.join(top, "crates", crate, "specs", it + ".antt") for it in files.split(", ")] for crate, files, _ in rows]
    counts = [sum(bytes_of(it).count(b"\n") for it in files) for files in places]
    rig.row("the lines of the reading list", [int(it) for _, _, it in rows], counts)


def typed_commands(sessions):
    """The commands that the stored sessions type."""
    inputs = [os.path.join(sessions, name, "input") for name in os.listdir(sessions)]
    text = b"\n".join(bytes_of(it) for it in inputs if os.path.exists(it)).decode("ascii", "backslashreplace")
    return set(re.findall(r"(?m)^[0-9]*(-[a-z-]+)", text))


def check_named(rig, top):
    """All that the documents name."""
    sessions = os.path.join(top, "tests", "sessions")
    lines = session_lines(sessions).decode("ascii", "backslashreplace")
    typed, names = typed_commands(sessions), code_names(top)
    check_crates(rig, top)
    check_reading(rig, top)
    for name, text in documents(top):
        check_records(rig, lines, name, text)
        check_commands(rig, typed, name, text)
        check_paths(rig, top, name, text)
        if name in WITH_NAMES:
            check_names(rig, names, name, text)
