"""What the start script runs: what was built of these sources, the release, or what it builds first. The kit and the program are scripts."""

import os
import shutil
import signal
import tempfile

from checks.clones import PROGRAM, Clone, written
from checks.rig import BUILT_AT, PATIENCE, USAGE

RELEASE = ("release", "rvdbg-x86_64-linux")
NOT_BUILT = "the program isn't built yet"
NO_KIT = "The command rt isn't found"
OTHERS = "rvdbg: the release is of other sources than these, so it isn't used\n"
SAID = "rvdbg: proving and building dbg_program and the crates below it, once: "


def silent(rig, name, clone):
    """A session says nothing of the script's own, and nothing is built for it."""
    rig.row(name, (clone.run("0"), clone.runs()), ((0, b"", ""), []))


def building(rig, name, clone, first="", asked="ci"):
    """A session builds first, once."""
    status, output, error = clone.run("0")
    rig.row(name, (status, output, error.startswith(first + SAID), clone.runs()), (0, b"", True, [asked]))


def check_fresh(rig, clone):
    """Nothing is built: it says so, and without a kit that it can't be."""
    for words in ([], ["--help"]):
        status, output, error = clone.run(*words)
        rig.row("fresh: %s" % words, (status, output, NOT_BUILT in error, NO_KIT in error), (1, USAGE, True, False))
    status, output, error = clone.run("--help", has_kit=False)
    rig.row("fresh, no kit: --help", (status, output, NOT_BUILT in error, NO_KIT in error), (1, USAGE, True, True))
    for words in (["0"], ["--build"]):
        status, output, error = clone.run(*words, has_kit=False)
        rig.row("fresh, no kit: %s" % words, (status, output, NO_KIT in error, clone.runs()), (127, b"", True, []))
    status, _, error = clone.run("--version")
    rig.row("fresh: --version", (status, NOT_BUILT in error, clone.runs()), (0, True, []))


def check_step(rig, clone):
    """It is built once, and anew where a source has another content: not where one was touched, and not in a copy."""
    building(rig, "the first session builds", clone)
    silent(rig, "the second doesn't", clone)
    rig.row("built: --version", "proved and built by: the kit of the tests" in clone.run("--version")[2], True)
    os.utime(clone.path("crates", "low", "src", "lib.rt"))
    silent(rig, "a source was touched", clone)
    clone.change("// more\n", "crates", "other", "src", "lib.rt")
    silent(rig, "a crate that the program doesn't stand on has changed", clone)
    clone.change("notes\n", "crates", "low", "src", "notes.txt")
    silent(rig, "a file that is no source is new", clone)
    for name, change in (
        ("a source has changed", lambda: clone.change("// more\n", "crates", "low", "src", "lib.rt")),
        ("a source is new", lambda: written(clone.path("crates", "low", "specs", "More.antt"), "")),
        ("a source is gone", lambda: os.remove(clone.path("crates", "low", "specs", "More.antt"))),
        ("crates.txt has changed", lambda: written(clone.path("crates.txt"), "low:\ndbg_program: low low\n")),
        ("the built program has changed", lambda: clone.change("# more\n", *BUILT_AT)),
        ("its sums are gone", lambda: os.remove(clone.path(*BUILT_AT[:-1], "SHA256SUMS"))),
    ):
        change()
        building(rig, name, clone)
        silent(rig, name + ", and was built", clone)
    os.makedirs(clone.path(*BUILT_AT[:-1], "incremental"))
    clone.change("// more\n", "crates", "low", "src", "lib.rt")
    building(rig, "a crate that was checked in place is built there", clone, asked="run")
    os.rmdir(clone.path(*BUILT_AT[:-1], "incremental"))
    original, clone.folder = clone.folder, clone.folder + "-copy"
    shutil.copytree(original, clone.folder, copy_function=shutil.copyfile)
    for name in ("rvdbg", "tools/build", "/".join(BUILT_AT)):
        os.chmod(clone.path(name), 0o755)
    silent(rig, "a copy", clone)
    clone.folder = original
    status, _, error = clone.run("--build")
    rig.row("--build builds in any case", (status, error.startswith(SAID), clone.runs()), (0, True, ["ci"]))


def release(clone):
    """Makes the release of what is built, and gives the status."""
    return clone.run(script="tools/release")[0]


def check_release_runs(rig, clone):
    """The release runs where nothing is built and it is of these sources; where it isn't used that is said."""
    rig.row("a release of what was built", release(clone), 0)
    shutil.rmtree(clone.path(*BUILT_AT[:-1]))
    silent(rig, "the release runs", clone)
    rig.row("the release: without a kit", clone.run("0", has_kit=False), (0, b"", ""))
    said = "rvdbg: the release runs, which is of these sources: %s\n" % clone.path(*RELEASE)
    rig.row("the release: --version", clone.run("--version")[2].startswith(said), True)
    os.utime(clone.path("crates", "low", "src", "lib.rt"))
    silent(rig, "a source was touched: the release runs", clone)
    rig.row("no release of what isn't built", release(clone), 1)
    clone.change("// more\n", "crates", "low", "src", "lib.rt")
    building(rig, "a source has changed: the release doesn't run", clone, OTHERS)
    clone.change("// more\n", "crates", "low", "src", "lib.rt")
    rig.row("no release of what was built of other sources", release(clone), 1)
    building(rig, "a source has changed again", clone, OTHERS)
    for name, said, change in (
        ("damaged", "release/rvdbg-x86_64-linux isn't the file that release/SHA256SUMS names", lambda: clone.change("#\n", *RELEASE)),
        ("without its sums", "the release has no release/SHA256SUMS", lambda: os.remove(clone.path("release", "SHA256SUMS"))),
    ):
        rig.row("a release", release(clone), 0)
        shutil.rmtree(clone.path(*BUILT_AT[:-1]))
        silent(rig, "the release runs before it is " + name, clone)
        change()
        building(rig, "a release that is " + name, clone, "rvdbg: %s, so it isn't used\n" % said)


def check_foreign(rig, clone):
    """A release that can't be started here isn't used, and it is said why."""
    kept = os.path.join(clone.bin, "program")
    written(kept, "#!/bin/sh\necho 'no such C library' >&2\nexit 1\n", 0o755)
    clone.run("--build")
    release(clone)
    written(kept, PROGRAM, 0o755)
    shutil.rmtree(clone.path(*BUILT_AT[:-1]))
    clone.runs()
    machine = os.uname().machine
    said = "rvdbg: the release doesn't start on this machine, %s: no such C library, so it isn't used\n" % machine
    building(rig, "a release that doesn't start", clone, said)
    shutil.rmtree(clone.path("release"))


def hear(process, start, count):
    """Reads standard error until so many lines with this beginning came, and gives the last of them."""
    while count > 0:
        line = process.stderr.readline().decode()
        count -= line.startswith(start)
        if not line:
            break
    return line


def check_turns(rig, clone):
    """One build runs at a time. The second session waits for it; one that was killed keeps nobody from building."""
    clone.run("--build")
    clone.runs()
    clone.change("// more\n", "crates", "low", "src", "lib.rt")
    clone.hold()
    first = clone.start("0")
    began = clone.began()
    shown = hear(first, "rvdbg: proving, ", 3)
    rig.row("a build shows that it is alive", (began, " of 100: 0 minutes have passed, about " in shown), (True, True))
    second = clone.start("0")
    rig.row("two at once: the second waits", hear(second, "rvdbg: ", 1), "rvdbg: another build is under way here, and is waited for\n")
    rig.row("two at once: it shows that it waits", hear(second, "rvdbg: ", 2), "rvdbg: still waiting for the other build\n")
    clone.let_go()
    for process in (first, second):
        process.communicate(timeout=PATIENCE)
    rig.row("two at once: one build", (first.returncode, second.returncode, clone.runs()), (0, 0, ["ci"]))
    for number in (signal.SIGKILL, signal.SIGTERM, signal.SIGINT):
        clone.change("// more\n", "crates", "low", "src", "lib.rt")
        clone.hold()
        killed = clone.start("0")
        began = clone.began()
        killed.send_signal(number)
        killed.communicate(timeout=PATIENCE)
        rig.row("a build is ended by signal %d" % number, (began, killed.returncode, clone.runs()), (True, -number, ["ci"]))
        clone.let_go()
        building(rig, "after a build that signal %d ended" % number, clone)


def check_failed(rig, clone):
    """A build that makes nothing: the session ends."""
    clone.change("// more\n", "crates", "low", "src", "lib.rt")
    kept = os.path.join(clone.bin, "program")
    os.rename(kept, kept + ".away")
    status, output, error = clone.run("0")
    rig.row("nothing was built", (status, output, error.endswith("rvdbg: dbg_program was not built\n")), (126, b"", True))
    os.rename(kept + ".away", kept)
    clone.runs()
    building(rig, "then it was", clone)


def check_meanwhile(rig, clone):
    """Sources that change during a build, or during the gate: what was built isn't taken for theirs."""
    source = ("crates", "low", "src", "lib.rt")
    meanwhile = written(os.path.join(clone.bin, "meanwhile"), clone.path(*source) + "\n")
    clone.change("// more\n", *source)
    status, _, error = clone.run("0")
    said = "rvdbg: the sources have changed since that build began: the next one takes them\n"
    rig.row("a source changes during a build", (status, error.endswith(said)), (126, True))
    status, _, error = clone.run(script=".ci/run")
    said = "record: the sources changed meanwhile, so it isn't known what the program is of\n"
    rig.row("a source changes during the gate", (status, error), (1, said))
    os.remove(meanwhile)
    clone.runs()
    rig.row("the gate", (clone.run(script=".ci/run")[0], clone.runs()), (0, ["ci"]))
    silent(rig, "what the gate built runs", clone)


def check_builds(rig, top):
    """All of them, one after the other in one clone."""
    with tempfile.TemporaryDirectory(prefix="rvdbg-builds-") as folder:
        clone = Clone(top, folder)
        for check in (check_fresh, check_step, check_release_runs, check_foreign, check_turns, check_failed, check_meanwhile):
            rig.guarded(check.__name__, lambda: check(rig, clone))
