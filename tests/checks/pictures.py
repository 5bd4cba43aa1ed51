"""`examples/timeline`: what stands in the picture of a log, what is folded, and that it stays small."""

import itertools
import os
import re
import subprocess
import sys
import xml.dom.minidom

from checks.rig import PATIENCE

MOST_BYTES = 2_000_000
STOP = b'*stopped,reason="breakpoint-hit",bkptno="1",frame={addr="0x00010000",%s},thread-id="%d",stopped-threads=["%d"]\n'
TEXT = re.compile(r"<text[^>]*>([^<]*)</text>")


def log(*entries, harts=2):
    """A log of these entries."""
    lines = b"".join(b"#%s\n" % it for it in entries)
    return b"#settings %d 0 16 1000 256\n%s#end %d\n" % (harts, lines, len(entries))


def did(text):
    """The entry of a line."""
    return b"did " + text.hex().encode()


def drawn(top, text, *words):
    """The texts that stand in the picture, but for those of the legend, and the picture."""
    command = [sys.executable, os.path.join(top, "examples", "timeline", "timeline.py"), *words]
    picture = subprocess.run(command, input=text, stdout=subprocess.PIPE, check=True, timeout=4 * PATIENCE).stdout.decode()
    xml.dom.minidom.parseString(picture)
    texts = TEXT.findall(picture)
    return texts[texts.index("thread 1") : texts.index("a line of the user")], picture


def check_marks(rig, top):
    """Each kind of entry: letters, places, lines as typed, numbers."""
    records = STOP % (b'func="f",args=[],file="a.c",line="7"', 2, 2) + STOP % (b'func="g",args=[]', 1, 1) + STOP % (b"", 2, 2)
    entries = [did(b"-gdb-set $a0=1 <&>"), b"set 0 10 1", b"bytes 65536 0a", b"ran 0 1000", b"counted 0", b"ran 1 3", b"stopped 1 break 1 none"]
    entries += [b"stopped 0 stepped", b"stopped 1 interrupted", b"stopped 0 watch 2 1 2", b"stopped 0 fault 7", b"stopped 1 finished", b"left 0 3"]
    texts, picture = drawn(top, records + log(*entries))
    wanted = ["thread 1", "thread 2", "-gdb-set $a0=1 &lt;&amp;&gt;", "1", "", "register x10", "memory at 0x00010000", "1,000", "3", "1"]
    wanted += ["B", "a.c:7", "S", "g", "I", "0x00010000", "W", "", "T", "", "11", "F", "", "x", "exit 3"]
    rig.row("a picture: its texts", [it for it in texts if it], [it for it in wanted if it])
    titles = re.findall("<title>([^<]*)</title>", picture)
    for title in ("stopped: breakpoint 1 a.c:7", "stopped: end of a step g", "stopped: watchpoint 2", "stopped: trap 7"):
        rig.row("a picture: " + title, title in titles, True)
    widths = [int(it) for it in re.findall(r'<rect x="\d+" y="\d+" width="(\d+)" height="14"', picture)]
    rig.row("a picture: widths of 1,000 and 3 instructions", widths[:2], [69, 22])


def check_folds(rig, top):
    """What repeats stands there once; --from and --to draw a part."""
    loop = [did(b"-exec-continue"), b"ran 0 5", b"stopped 0 break 1 none"]
    entries = [did(b"-break-insert f"), *loop * 100, b"ran 0 9", b"left 0 0"]
    records = (STOP % (b'func="f",args=[]', 1, 1)) * 100
    once = ["-break-insert f", "-exec-continue", "5", "B", "f", "99 times more"]

    def shown(*words, text=records + log(*entries, harts=1)):
        return [it for it in drawn(top, text, *words)[0][1:]]

    rig.row("a picture: repeats", [it for it in shown() if it != "1"], [*once, "9", "x", "exit 0"])
    rig.row("a picture: --to", [it for it in shown("--to", "7") if it != "1"], ["-break-insert f", *["-exec-continue", "5", "B", "f"] * 2])
    rig.row("a picture: --from", shown("--from", "302"), ["9", "302", "x", "exit 0"])
    rig.row("a picture: --from a stop", [it for it in shown("--from", "301", "--to", "302") if it != "301"], ["B", "f", "9"])
    arrivals = log(*[b"ran 0 3", b"counted 0"] * 300_000, harts=1)
    rig.row("a picture: many arrivals", shown(text=arrivals), ["900,000", "300,000", "1"])


def check_size(rig, top):
    """However long a session is, its picture has at most two megabytes, with its beginning and its end."""
    kinds = [b"ran %d 7", b"stopped %d stepped", b"counted %d", b"stopped %d watch 1 2 3", b"set %d 5 6", b"left %d 0"]
    shift = itertools.cycle([0, 1, 3, 2, 5, 4, 7, 9, 8, 6, 11])
    entries = [did(b"-first"), *(kinds[(k + next(shift)) % 6] % (k * 7 % 16) for k in range(150_000)), did(b"-last")]
    texts, picture = drawn(top, log(*entries, harts=16))
    out = [it for it in texts if it.endswith(" entries left out")]
    rig.row("a long picture", (len(picture) <= MOST_BYTES, "-first" in texts, "-last" in texts, len(out)), (True, True, True, 1))
    lengths = log(*(b"ran 0 %d" % k for k in range(1, 200_000)), harts=1)
    texts, picture = drawn(top, lengths)
    rig.row("a picture of many lengths", (len(picture) <= MOST_BYTES, len([it for it in texts if it.endswith(" entries left out")])), (True, 1))
    bytes_ = log(*[did(b"<" * 4096 + b"%d" % k) for k in range(2_000)], harts=1)
    rig.row("a picture of long lines", len(drawn(top, bytes_)[1]) <= MOST_BYTES, True)
    entries = [b"set 0 5 6", b"left 0 0"] * 2_000 + [b"ran 0 1", b"ran 1 2"] * 200_000
    texts, _ = drawn(top, log(*entries))
    rig.row("a picture that ends with many runs", len([it for it in texts if it.endswith(" entries left out")]), 1)
    empty = drawn(top, log(harts=1))[0]
    rig.row("a picture of nothing", empty, ["thread 1"])


def check_pictures(rig, top):
    """All of them."""
    for check in (check_marks, check_folds, check_size):
        rig.guarded(check.__name__, lambda: check(rig, top))
