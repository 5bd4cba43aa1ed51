"""What the Debug Adapter Protocol allows in the messages of an adapter: version 1.68 of its specification, written out here by hand.

A shape is a text of fields: `name:type` has to be there, `name?:type` may be, and no other field may. A type is `int` (up to 2^53), `str`,
`bool`, `any`, `NAME` of another shape, `[type]`, a list, or texts with `|` between them, one of which it is; `type*` may be null too.
"""

import re

SHAPES = {
    "Source": "name?:str path?:str sourceReference?:int presentationHint?:normal|emphasize|deemphasize",
    "StackFrame": "id:int name:str source?:Source line:int column:int instructionPointerReference?:str presentationHint?:normal|label|subtle",
    "Scope": "name:str presentationHint?:arguments|locals|registers|globals variablesReference:int expensive:bool",
    "Hint": "kind?:str attributes?:[static|constant|readOnly|rawString|hasObjectId|canHaveObjectId|hasSideEffects|hasDataBreakpoint] lazy?:bool",
    "Variable": "name:str value:str type?:str presentationHint?:Hint evaluateName?:str variablesReference:int memoryReference?:str",
    "Breakpoint": "id?:int verified:bool message?:str source?:Source line?:int column?:int instructionReference?:str offset?:int reason?:pending|failed",
    "Thread": "id:int name:str",
    "Instruction": "address:str instructionBytes?:str instruction:str symbol?:str location?:Source line?:int column?:int presentationHint?:normal|invalid",
    "Error": "id:int format:str showUser?:bool variables?:any",
}
REASONS = "step|breakpoint|exception|pause|entry|goto|function breakpoint|data breakpoint|instruction breakpoint"
EVENTS = {
    "initialized": "",
    "stopped": "reason:%s description?:str threadId?:int preserveFocusHint?:bool text?:str allThreadsStopped?:bool hitBreakpointIds?:[int]" % REASONS.replace(" ", "_"),
    "continued": "threadId:int allThreadsContinued?:bool",
    "thread": "reason:started|exited threadId:int",
    "output": "category?:console|important|stdout|stderr output:str source?:Source line?:int column?:int",
    "breakpoint": "reason:changed|new|removed breakpoint:Breakpoint",
    "exited": "exitCode:int",
    "terminated": "restart?:any",
    "invalidated": "areas?:[all|stacks|threads|variables] threadId?:int stackFrameId?:int",
    "memory": "memoryReference:str offset:int count:int",
    "progressStart": "progressId:str title:str requestId?:int cancellable?:bool message?:str percentage?:int",
    "progressUpdate": "progressId:str message?:str percentage?:int",
    "progressEnd": "progressId:str message?:str",
}
CAPABILITIES = (
    "ConfigurationDoneRequest FunctionBreakpoints ConditionalBreakpoints HitConditionalBreakpoints EvaluateForHovers StepBack SetVariable "
    "RestartFrame GotoTargetsRequest StepInTargetsRequest CompletionsRequest ModulesRequest RestartRequest ExceptionOptions "
    "ValueFormattingOptions ExceptionInfoRequest DelayedStackTraceLoading LoadedSourcesRequest LogPoints TerminateThreadsRequest "
    "SetExpression TerminateRequest DataBreakpoints ReadMemoryRequest WriteMemoryRequest DisassembleRequest CancelRequest "
    "BreakpointLocationsRequest ClipboardContext SteppingGranularity InstructionBreakpoints ExceptionFilterOptions "
    "SingleThreadExecutionRequests DataBreakpointBytes"
)
POINTS = "breakpoints:[Breakpoint]"
BODIES = {
    "initialize": " ".join("supports%s?:bool" % it for it in CAPABILITIES.split()) + " exceptionBreakpointFilters?:[any]",
    "threads": "threads:[Thread]",
    "stackTrace": "stackFrames:[StackFrame] totalFrames?:int",
    "scopes": "scopes:[Scope]",
    "variables": "variables:[Variable]",
    "evaluate": "result:str type?:str presentationHint?:Hint variablesReference:int memoryReference?:str",
    "setVariable": "value:str type?:str variablesReference?:int memoryReference?:str",
    "setExpression": "value:str type?:str variablesReference?:int memoryReference?:str",
    "continue": "allThreadsContinued?:bool",
    "readMemory": "address:str unreadableBytes?:int data?:str",
    "writeMemory": "offset?:int bytesWritten?:int",
    "disassemble": "instructions:[Instruction]",
    "exceptionInfo": "exceptionId:str description?:str breakMode:never|always|unhandled|userUnhandled details?:any",
    "source": "content:str mimeType?:str",
    "dataBreakpointInfo": "dataId:str* description:str accessTypes?:[read|write|readWrite] canPersist?:bool",
    "setBreakpoints": POINTS,
    "setFunctionBreakpoints": POINTS,
    "setInstructionBreakpoints": POINTS,
    "setDataBreakpoints": POINTS,
}
NONE = ("launch", "restart", "configurationDone", "next", "stepIn", "stepOut", "pause", "terminate", "disconnect", "setExceptionBreakpoints")
PLAIN = {"int": int, "str": str, "bool": bool}


def faults(value, shape, place):
    """What is wrong with an object by a shape: texts that say where."""
    if not isinstance(value, dict):
        return ["%s is no object" % place]
    found, rows = [], [re.fullmatch(r"(\w+)(\??):(\S+)", it) for it in shape.split()]
    for name, is_free, kind in (it.groups() for it in rows):
        if name in value:
            found += of_type(value[name], kind, "%s.%s" % (place, name))
        elif not is_free:
            found.append("%s has no %s" % (place, name))
    return found + ["%s has a %s" % (place, it) for it in value if it not in [row[1] for row in rows]]


def of_type(value, kind, place):
    """What is wrong with a value by a type."""
    if kind.endswith("*") and value is None or kind == "any":
        return []
    kind = kind.rstrip("*")
    if kind in SHAPES:
        return faults(value, SHAPES[kind], place)
    if kind[0] == "[":
        rows = value if isinstance(value, list) else [None]
        return [it for number, row in enumerate(rows) for it in of_type(row, kind[1:-1], "%s[%d]" % (place, number))]
    if kind in PLAIN:
        is_fine = type(value) is PLAIN[kind] and (kind != "int" or abs(value) < 1 << 53)
        return [] if is_fine and (kind != "str" or is_text(value)) else ["%s is no %s: %r" % (place, kind, value)]
    return [] if isinstance(value, str) and value.replace(" ", "_") in kind.split("|") else ["%s isn't one of %s: %r" % (place, kind, value)]


def is_text(value):
    """Whether a text can be written as UTF-8."""
    return not any("\ud800" <= it <= "\udfff" for it in value)


def event_faults(message):
    """What is wrong with an event."""
    name = message.get("event")
    if name not in EVENTS:
        return ["there is no event %r" % name]
    return faults(message, "seq:int type:event event:str body?:any", "event") + faults(message.get("body", {}), EVENTS[name], name)


def answer_faults(message, command):
    """What is wrong with the answer to a request of that name."""
    found = faults(message, "seq:int type:response request_seq:int success:bool command:str message?:str body?:any", "answer")
    if message.get("command") != command:
        found.append("the answer to %r is of %r" % (command, message.get("command")))
    if message.get("success"):
        shape = "" if command in NONE else BODIES.get(command)
        found += ["%r was served" % command] if shape is None else faults(message.get("body") or {}, shape, command)
        return found + (["a message beside success"] if "message" in message else [])
    return found + faults(message.get("body"), "error:Error", "error") + ([] if "message" in message else ["no message"])
