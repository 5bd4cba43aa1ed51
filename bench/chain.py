"""Which crates decided when a run of the gate ended: each with the one of its libraries that it waited for last."""


def libraries(text):
    """The libraries of each crate, as `crates.txt` lists them."""
    rows = [line.split(":") for line in text.splitlines() if line and line[0] != "#"]
    return {name.split()[0]: used.split() for name, used in rows}


def chain(below, times):
    """The crates that decided the end, from below: the one that ended last, the one of its libraries that ended last, and so on."""
    found, left = [], [*times]
    while left:
        found.insert(0, max(left, key=lambda it: times[it][1]))
        left = [it for it in below[found[0]] if it in times]
    return found


def ready(crate, below, times):
    """When the last of a crate's libraries had ended, from the start of the run."""
    return max((times[it][1] for it in below[crate] if it in times), default=0)


def chain_lines(below, times, queued):
    """The rows of the chain. `times` are seconds from the start of the run; `queued` are those that a prover had no processor."""
    lines = ["| Chain | began | ended | seconds | waited before | waited within |", "|---|---|---|---|---|---|"]
    for it in chain(below, times):
        began, ended = times[it]
        cells = [began, ended, ended - began, began - ready(it, below, times), queued[it]]
        lines.append(f"| `{it}` | " + " | ".join(f"{cell:.0f}" for cell in cells) + " |")
    return lines
