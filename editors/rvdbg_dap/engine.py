"""The editor's side, by messages of the Debug Adapter Protocol, and what the parts of a session have in common."""

import base64
import contextlib
import itertools
import json
import os
import re
import threading
import time

from rvdbg_dap.instructions import Instruction
from rvdbg_dap.mi import Refused, need
from rvdbg_dap.program import Sources

HEADER = re.compile(rb"Content-Length:[ \t]*(\d+)\r?\n(?:[A-Za-z-]+:[^\r\n]*\r?\n)*\r?\n", re.IGNORECASE)
IDLE = re.compile(rb"(?:\s|[A-Za-z-]+:[^\r\n]*\r?\n)*")
LONGEST, LONGEST_HEADERS = 1 << 24, 1 << 16
READ_PIECE, WRITE_PIECE, WORD = 4096, 1024, 1 << 32
# The events that only some editors take, and by which word these say so.
ASKED = {"memory": "supportsMemoryEvent", "invalidated": "supportsInvalidatedEvent"}
ASKED.update(dict.fromkeys(("progressStart", "progressUpdate", "progressEnd"), "supportsProgressReporting"))


class Framing:
    """Cuts the editor's bytes into messages. What is none is told and passed over, up to the next header."""

    def __init__(self):
        self.bytes = bytearray()

    def add(self, piece):
        """Yields what has come whole: `("message", object, what is wrong with it)`, with an empty object for none."""
        self.bytes += piece
        while header := HEADER.search(self.bytes):
            found, ends = ({}, "bytes that are no message were passed over"), header.start()
            if IDLE.fullmatch(self.bytes, 0, header.start()):
                found, ends = self.message(header.end(), int(header[1][:12]))
            if found is None:
                return
            del self.bytes[:ends]
            yield ("message", *found)
        if len(self.bytes) > LONGEST_HEADERS:
            self.bytes.clear()

    def message(self, begins, length):
        """The message there and its end, or None while more is to come. The length of a short one may be wrong."""
        came = len(self.bytes) - begins
        is_whole = came >= length or length > LONGEST
        if not is_whole and (came > LONGEST_HEADERS or not self.bytes.rstrip().endswith(b"}")):
            return None, begins
        value, text = None, self.bytes[begins:].decode("utf-8", "surrogateescape")
        with contextlib.suppress(ValueError, RecursionError):
            value, end = json.JSONDecoder().raw_decode(text)
        if not isinstance(value, dict):
            return ({}, "a message is no JSON object") if is_whole else None, begins
        used = len(text[:end].encode("utf-8", "surrogateescape"))
        return (value, "a message is longer than its header says" if used > length else None), begins + used


class Client:
    """The editor: a thread reads what it asks for into the inbox, and answers and events are written to it."""

    def __init__(self, inbox, reads=0, writes=1):
        self.inbox, self.reads, self.writes, self.seq = inbox, reads, writes, 0
        threading.Thread(target=self.read, daemon=True).start()

    def read(self):
        framing, piece = Framing(), b" "
        while piece:
            piece = os.read(self.reads, 65536)
            for item in framing.add(piece):
                self.inbox.put((self, *item))
        self.inbox.put((self, "gone"))

    def send(self, message):
        self.seq += 1
        # Half a surrogate, which stands for a byte that isn't UTF-8, isn't JSON to every editor, and is replaced.
        text = json.dumps(dict(message, seq=self.seq), ensure_ascii=False).encode("utf-8", "replace")
        body = json.dumps(json.loads(text)).encode()
        whole = b"Content-Length: %d\r\n\r\n%s" % (len(body), body)
        while whole:
            whole = whole[os.write(self.writes, whole) :]

    def answer(self, request, body=None, error=None):
        message = dict(type="response", request_seq=request["seq"], command=request["command"], success=error is None)
        if error is not None:
            body = {"error": {"id": 1, "format": re.sub("[{}]", "", error), "showUser": True}}
            message["message"] = error
        self.send(message if body is None else dict(message, body=body))


def place(arguments):
    reference = arguments.get("memoryReference") or arguments["instructionReference"]
    return (int(reference, 0) + int(arguments.get("offset") or 0)) % WORD


class Thread:
    """A thread: `is_wanted` says that it is to stop where it is met next, `trap` at which trap it stands."""

    def __init__(self, identity):
        self.identity, self.trap = identity, None
        self.is_running = self.is_stepping = self.is_wanted = False


class Engine:
    """The debugger in the middle. The parts of a session build on it; their `on_..` are the requests they serve."""

    def __init__(self, inbox):
        self.client, self.sources, self.hears, self.threads, self.after = Client(inbox), Sources(), {}, {}, []
        self.launch = self.program = self.debugger = self.last = self.request = None
        self.is_open, self.deadline, self.awaited = False, 0.0, set()
        self.points, self.identities, self.dropped = [], itertools.count(1), set()

    def reply(self, command):
        """Has the debugger do a line, and gives its result and which threads go on. What else happens waits."""
        need(self.is_open, "no program is loaded")
        result, running = self.debugger.do(command, self.deadline - time.monotonic())
        for identity in running:
            self.thread(identity).is_running = True
        return result, running

    def ask(self, command):
        """Has the debugger do a line, and gives the fields of its result where it isn't an error."""
        result, _ = self.reply(command)
        if result.name == "error":
            raise Refused(result.fields.get("msg", result.text))
        return result.fields

    def thread(self, identity):
        need(identity in self.threads, "there is no thread %.20r", identity)
        return self.threads[identity]

    def standing(self):
        return [it for it in self.threads.values() if not it.is_running]

    def event(self, event, **body):
        """Tells the editor what happens, where it takes that: behind the answer to a request that is being done."""
        if event not in ASKED or self.hears.get(ASKED[event]):
            send = self.after.append if self.request else self.client.send
            send(dict(type="event", event=event, body=body))

    def say(self, text, category="console", **place):
        self.client.send(dict(type="event", event="output", body=dict(category=category, output=text + "\n", **place)))

    def on_read_memory(self, arguments):
        begins, count = place(arguments), max(0, int(arguments["count"]))
        data = base64.b64encode(found := self.bytes_at(begins, count)).decode()
        return {"address": "0x%08x" % begins, "data": data, "unreadableBytes": count - len(found)}

    def bytes_at(self, begins, count):
        """So many bytes, or those before the first that can't be read."""
        found = b""
        while len(found) < count:
            at, most = (begins + len(found)) % WORD, min(READ_PIECE, count - len(found))
            result, _ = self.reply("-data-read-memory-bytes 0x%08x %d" % (at, most))
            if result.name == "done":
                found += bytes.fromhex(result.fields["memory"][0]["contents"])
            else:
                bad = re.search(r"Cannot access memory at address (0x[0-9a-f]+)", result.fields["msg"])
                need(bad, "%s", result.fields["msg"])
                count = len(found) + (int(bad[1], 16) - at) % WORD
        return found

    def on_write_memory(self, arguments):
        start, content = place(arguments), base64.b64decode(arguments["data"], validate=True)
        for at in range(0, len(content), WRITE_PIECE):
            self.ask("-data-write-memory-bytes 0x%08x %s" % ((start + at) % WORD, content[at : at + WRITE_PIECE].hex()))
        self.event("invalidated", areas=["variables"])
        return {"bytesWritten": len(content)}

    def written(self, address, count):
        self.event("memory", memoryReference="0x%08x" % address, offset=0, count=count)
        self.event("invalidated", areas=["variables"])

    def on_disassemble(self, arguments):
        count, first = int(arguments["instructionCount"]), int(arguments.get("instructionOffset") or 0)
        need(0 <= count <= 1 << 16, "at most 65,536 instructions are taken apart at once, not %d", count)
        begins, is_named = (place(arguments) & ~3) + 4 * first, arguments.get("resolveSymbols") is not False
        near = self.program.near if is_named else lambda _: ""
        return {"instructions": [self.disassembled((begins + 4 * it) % WORD, near) for it in range(count)]}

    def instruction_at(self, address):
        content = self.bytes_at(address, 4)
        is_whole = len(content) == 4 and self.program.is_text(address)
        return Instruction(int.from_bytes(content, "little"), address) if is_whole else None

    def disassembled(self, address, near):
        told, found, name = {"address": "0x%08x" % address}, self.instruction_at(address), near(address)
        if found is None:
            return dict(told, instruction="no instruction", presentationHint="invalid")
        told.update({"symbol": name} if name else {}, instructionBytes=found.word.to_bytes(4, "little").hex())
        text, row = found.text() or ".word 0x%08x" % found.word, self.program.row(address)
        goes = re.search(r",0x([0-9a-f]{8})$", text)
        there = goes and near(int(goes[1], 16))
        told["instruction"] = "%s <%s>" % (text, there) if there else text
        return dict(told, location=self.sources.source(row.path, address), line=row.line) if row else told
