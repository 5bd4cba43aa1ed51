"""GDB's side: packets of its remote serial protocol ("Overview" in the manual's appendix), with a sum behind each."""

import contextlib
import os
import re
import threading

# A packet, or what has come of it; Ctrl-C; the sign that the last answer is to be said again.
SAID = re.compile(rb"\$([^$#]*)(?:#(.{0,2}))?|\x03|-", re.DOTALL)
LONGEST = 1 << 17


def framed(text, mark=b"$"):
    """The bytes of a packet, or of a notification where the mark is `%`."""
    body = text.encode("latin-1", "replace")
    return b"%s%s#%02x" % (mark, body, sum(body) & 255)


def unescaped(text):
    """Binary data as they were before `#`, `$`, `}` and `*` were written as `}` and the byte with bit 5 turned over."""
    return re.sub(rb"(?s)\}(.)", lambda it: bytes((it[1][0] ^ 0x20,)), text.encode("latin-1"))


def numbers(text):
    """Numbers of the protocol: hexadecimal digits alone, with commas between them."""
    if not re.fullmatch("[0-9A-Fa-f]+(,[0-9A-Fa-f]+)*", text):
        raise ValueError("no numbers")
    return [int(it, 16) for it in text.split(",")]


def window(whole, text):
    """A part of a document, as `OFFSET,LENGTH` asks for it."""
    offset, length = numbers(text)
    return ("m" if offset + length < len(whole) else "l") + whole[offset : offset + length]


class Client:
    """GDB: a thread puts what it says into the inbox, once `is_served` is set; answers and notifications are written.

    A packet is acknowledged when it has come, also where its answer takes a while: GDB says it again after two seconds.
    """

    def __init__(self, inbox, reads, writes):
        self.inbox, self.reads, self.writes, self.lock = inbox, reads, writes, threading.Lock()
        self.is_acknowledging, self.last, self.is_served = True, b"", threading.Event()
        threading.Thread(target=self.read, daemon=True).start()

    def read(self):
        """Reads to the end."""
        piece, heard = b" ", b""
        while piece:
            heard, piece = self.take(heard + piece), b""
            with contextlib.suppress(OSError):
                piece = os.read(self.reads, 65536)
        self.put("gone")

    def take(self, heard):
        """Takes what has come whole, and gives the rest. What is no packet is passed over, up to the next one."""
        for found in SAID.finditer(heard):
            whole, body, check = found.group(0, 1, 2)
            if whole == b"\x03":
                self.put("interrupt")
            elif whole == b"-" and self.is_acknowledging:
                self.write(self.last)
            elif check and len(check) == 2:
                is_good = check.lower() == b"%02x" % (sum(body) & 255)
                self.write((b"+" if is_good else b"-") * self.is_acknowledging)
                if is_good:
                    self.put("packet", body.decode("latin-1"))
            elif body is not None and found.end() == len(heard) and len(whole) <= LONGEST:
                return whole
        return b""

    def put(self, *item):
        """Puts into the inbox what has come."""
        self.is_served.wait()
        self.inbox.put((self, *item))

    def write(self, whole):
        """Writes all of it. That GDB has gone is found by the thread that reads."""
        with self.lock, contextlib.suppress(OSError):
            while whole:
                whole = whole[os.write(self.writes, whole) :]

    def send(self, text):
        """Sends a packet."""
        self.last = framed(text)
        self.write(self.last)
