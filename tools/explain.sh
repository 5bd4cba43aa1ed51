# shellcheck shell=sh
# What the start script says beside a session, on standard error. Sourced by `rvdbg`, whose `here`, `program`, `sum` and `status` it takes.
# shellcheck disable=SC2154

say() {
    echo "rvdbg: $*" >&2
}

help() {
    cat >&2 <<'END'
rvdbg: runs the RISC-V program FILE under lines of GDB/MI that come on standard input, and writes records on standard output.

    rvdbg [--harts N] [--workers N] [--slots N] [--budget N] [--slice N] [--log] FILE
    rvdbg --check FILE
    rvdbg --gen N [--slots N] [--budget N] [--slice N]
    rvdbg --build | --version | --help

  --harts N     harts of the machine, which are the threads: 1 to 16, else 1
  --workers N   threads of the debugger: 0 to 16, else 2. With 0 one does all, and each run is like the last
  --slots N     scratch slots for displaced stepping: 0 to 512, else 16
  --budget N    instructions after which the session ends: 1 to 1000000000000, else 100000000
  --slice N     the most instructions of a slice: 0 to 1024, else 256
  --log         the session's log stands behind its records
  --check FILE  reads a session of FILE with its log, and says whether it is one
  --gen N       a session over a generated program and generated lines: 1 to 1000000
  --build       proves and builds the program here, in any case
  --version     says which program runs, and of which sources it is
  --help        says this

The environment's RVDBG_MEMORY is the most memory in megabytes, 0 for no bound; else it is what the machine has free, or 4 GB.
Statuses: 0 done; 1 bad command line; 2 file refused; 3 budget used up; 4 history full; 5 file or input can't be read; 6 output can't be
written; 7 out of memory; 8 log rejected; 126 not built; 127 no kit to build with. docs/FORMATS.md has the commands.
END
}

# The usage line and the status that the program itself has for no words and for --help, and what there is to say beside.
show_usage() {
    echo '^error,msg="usage: rvdbg [--harts N] [--workers N] [--slots N] [--budget N] [--slice N] FILE"' 2>/dev/null
    help
    say_which
    exit 1
}

# Which program a session runs, or that it has to be built.
say_which() {
    choose
    [ -z "$passed_over" ] || say "$passed_over, so it isn't used"
    case $program in
    "$release") say "the release runs, which is of these sources: $here/$program" && return ;;
    ?*) say "the program is built: $here/$program" && return ;;
    esac
    say "the program isn't built yet. The first run on a FILE proves and builds it: $("$here/tools/build" expect)"
    command -v rt >/dev/null || say "$no_kit"
}

no_kit="The command rt isn't found: install the Rattle kit, and put its folder bin on PATH"

show_version() {
    say_which
    if [ -n "$program" ]; then
        say "its checksum: $(sha256sum "$here/$program" | cut -c 1-64)"
        say "proved and built by: $(said "${program%/*}" kit)"
    fi
    say "the sources' checksum: $sum"
    exit 0
}

# Proves and builds the program, also where there is one, where the word is `anew`.
build() {
    if ! command -v rt >/dev/null; then
        [ "$1" = anew ] || say "the program isn't built yet."
        say "$no_kit"
        exit 127
    fi
    exec 3</dev/null
    start become TERM "$here/tools/build" "$@" >&2
    await
    [ "$1" != anew ] || exit "$status"
}

# Finds the program of these sources, or builds it.
prepare() {
    choose
    [ -z "$program" ] || return 0
    if [ -z "$sum" ]; then
        say "the sources in $here can't all be read, or there is no memory for that: it isn't known which program is of them"
        exit 126
    fi
    name_unreadable "$@"
    [ -z "$passed_over" ] || say "$passed_over, so it isn't used"
    build once
    choose
    [ -z "$program" ] || return 0
    if [ "$status" -eq 0 ]; then
        say "the sources have changed since that build began: the next one takes them"
    else
        say "dbg_program was not built"
    fi
    exit 126
}

# Sets `file` to the FILE among the words, and `budget` to what is given.
read_words() {
    file='' budget=100000000
    while [ $# -gt 0 ]; do
        case $1 in
        --budget=*) budget=${1#*=} ;;
        --harts | --workers | --slots | --budget | --slice | --gen | --check)
            case $1 in --budget) budget=${2:-} ;; --check) file=${2:-} ;; esac
            [ $# -eq 1 ] || shift
            ;;
        --check=*) file=${1#*=} ;;
        --)
            [ $# -eq 1 ] || file=$2
            return 0
            ;;
        -?*) ;;
        *) file=$1 ;;
        esac
        shift
    done
}

# Names the FILE where it can't be read. The program itself then ends with status 5 and writes nothing.
name_unreadable() {
    read_words "$@"
    [ -n "$file" ] || return 0
    if [ ! -e "$file" ]; then
        say "cannot read '$file': no such file"
    elif [ -d "$file" ]; then
        say "cannot read '$file': it is a folder"
    elif [ ! -r "$file" ]; then
        say "cannot read '$file': permission denied"
    else
        return 1
    fi
}

# Somebody at a terminal is told where variables are in a form that isn't read. Files with units of DWARF 5 have this section.
note_variables() {
    read_words "$@"
    if [ -f "$file" ] && grep -a -q -F .debug_line_str "$file" 2>/dev/null; then
        say "the variables of '$file' are in the form of DWARF 5, which isn't read: -gdwarf-4 makes one that is"
    fi
}

# Why a session ended, and what helps.
show_end() {
    case $status in
    1) . "$here/tools/words.sh" && show_fault "$@" ;;
    2) show_refusal "$@" ;;
    3) read_words "$@"
        say "the budget of $budget instructions is used up: --budget sets another, up to 1000000000000."
        say "(if it waited in -exec-wait: that isn't answered while a hart runs; where harts wait for each other, tools/rvdbg-script waits for the next stop)" ;;
    4) say "the history is full, with 4194304 stops, counted arrivals, exits, lines and writes, or 64 MiB of input: begin a new session" ;;
    5) name_unreadable "$@" || say "standard input or '$file' couldn't be read to its end" ;;
    6) say "standard output couldn't be written: its reader has gone, or there is no room" ;;
    7) say "memory ran out: RVDBG_MEMORY=MEGABYTES in the environment sets another bound, 0 none" ;;
    8) say "the input isn't a session of this FILE with its log, or not all of it" ;;
    *) [ "$status" -le 128 ] || end_by_signal ;;
    esac
}

# The program was ended by a signal that this script didn't hand on: it ends so, too.
end_by_signal() {
    name=$(kill -l $((status - 128))) || return 0
    say "the program was ended by the signal $name"
    kill -s "$name" $$
}

# What the fault of a refused file means. The program says it once more, which changes nothing.
show_refusal() {
    read_words "$@"
    [ -f "$file" ] || return 0
    fault=$("$here/$program" "$@" 2>/dev/null </dev/null | sed -n 's/.*Not an accepted ELF file: \([A-Za-z]*\) at.*/\1/p')
    case $fault in
    Large) means="it has more than 32 MiB, or wants more than 16 MiB of memory" ;;
    Short) means="it ends before what its header says" ;;
    Magic) means="it is no ELF file" ;;
    Class) means="it is a 64-bit file: -march=rv32ima -mabi=ilp32 make one of 32 bits" ;;
    Order) means="it is big-endian" ;;
    Kind) means="it has no fixed addresses, or isn't linked: link it with -static, without -shared, -pie, -r and -c" ;;
    Machine) means="it isn't for RISC-V" ;;
    Flags) means="it has compressed instructions, or is for RV32E: leave 'c' and 'e' out of -march, for the libraries too" ;;
    Segment) means="its segments are faulty, overlap, or end above 0xE0000000" ;;
    Section) means="its sections are faulty, or compressed: leave out -gz" ;;
    Text) means="it has no text, or text that isn't whole words of an executable segment" ;;
    Entry) means="its entry isn't in text: start code defines _start" ;;
    *) return 0 ;;
    esac
    say "'$file' is refused: $means. examples/runtime shows how a program is made"
}
