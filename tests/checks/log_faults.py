"""What is wrong with a text as the log of a session, found without the program: the first faulty line by "The log of a session" in docs/FORMATS.md."""

import re

MOST = 67_108_864
WORD, LONG = 1 << 32, 1 << 64
RANGES = ((1, 16), (0, 16), (0, 512), (1, 10**12), (0, 1024))
NUMBER = rb"(0|[1-9][0-9]*)"
HEX = rb"(?:[0-9a-f]{2})+"

# Each line of an entry, and the bounds of its numbers.
ENTRIES = [
    (re.compile(rb"#ran " + NUMBER + rb" " + NUMBER), (WORD, LONG)),
    (re.compile(rb"#counted " + NUMBER), (WORD,)),
    (re.compile(rb"#left " + NUMBER + rb" " + NUMBER), (WORD, WORD)),
    (re.compile(rb"#stopped " + NUMBER + rb" break " + NUMBER + rb" (?:none|divzero)"), (WORD, WORD)),
    (re.compile(rb"#stopped " + NUMBER + rb" break " + NUMBER + rb" unread " + NUMBER), (WORD, WORD, WORD)),
    (re.compile(rb"#stopped " + NUMBER + rb" watch " + NUMBER + rb" " + NUMBER + rb" " + NUMBER), (WORD, WORD, WORD, WORD)),
    (re.compile(rb"#stopped " + NUMBER + rb" (?:stepped|finished|interrupted|fault [1-8])"), (WORD,)),
    (re.compile(rb"#did(?: " + HEX + rb")?"), ()),
    (re.compile(rb"#set " + NUMBER + rb" " + NUMBER + rb" " + NUMBER), (WORD, WORD, WORD)),
    (re.compile(rb"#bytes " + NUMBER + rb" " + HEX), (WORD,)),
]
SETTINGS = re.compile(rb"#settings " + rb" ".join([NUMBER] * 5))
END = re.compile(rb"#end " + NUMBER)


def kind_of(line):
    """What a line with `#` and its LF is: "settings", "entry", the number of an end, or None where it is in no row."""
    if not line.endswith(b"\n"):
        return None
    line = line[:-1]
    found = SETTINGS.fullmatch(line)
    if found:
        fits = all(low <= int(it) <= high for it, (low, high) in zip(found.groups(), RANGES))
        return "settings" if fits else None
    found = END.fullmatch(line)
    if found:
        return int(found.group(1)) if int(found.group(1)) < LONG else None
    for form, bounds in ENTRIES:
        found = form.fullmatch(line)
        if found:
            return "entry" if all(int(it) < most for it, most in zip(found.groups(), bounds)) else None
    return None


def fault_of(text):
    """The first fault of a text, as "Line at 3", or None."""
    if len(text) > MOST:
        return "Long at %d" % MOST
    lines = re.findall(rb"[^\n]*\n|[^\n]+", text)
    stage, entries = "said", 0
    for place, line in enumerate(lines, 1):
        if not line.startswith(b"#"):
            if stage != "said":
                return "Order at %d" % place
            continue
        kind = kind_of(line)
        if kind is None:
            return "Line at %d" % place
        if stage == "ended" or (kind == "settings") != (stage == "said"):
            return "Order at %d" % place
        if kind == "settings":
            stage = "log"
        elif kind == "entry":
            entries += 1
        elif kind != entries:
            return "End at %d" % place
        else:
            stage = "ended"
    return None if stage == "ended" else "End at %d" % (len(lines) + 1)
