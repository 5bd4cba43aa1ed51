# shellcheck shell=sh
# What the program stands on, and which program is of these sources. Sourced, with `here` set to the clone; names of files are from there.
# shellcheck disable=SC2034,SC2154
built=crates/dbg_program/out
state=$built/in-step

# The lines of crates.txt for the program and the crates below it: each line names some of the lines above it. `$1` is the clone or a copy.
program_lines() {
    awk -F: '
    { split($1, head, " "); name[NR] = head[1]; uses[NR] = $2; line[NR] = $0 }
    END {
        wanted["dbg_program"]
        for (row = NR; row > 0; row--) {
            if (!(name[row] in wanted)) continue
            count = split(uses[row], below, " ")
            for (k = 1; k <= count; k++) wanted[below[k]]
            all = line[row] "\n" all
        }
        printf "%s", all
    }' "$1/crates.txt"
}

program_crates() {
    program_lines "$1" | sed 's/[ :].*//'
}

# The folders that hold the program's sources, or, with the word `missing`, those that would and aren't there.
source_folders() {
    for crate in $(program_crates "$1"); do
        for part in src specs proofs; do
            if [ -d "$1/crates/$crate/$part" ]; then found=there; else found=missing; fi
            [ $found != "${2:-there}" ] || echo "crates/$crate/$part"
        done
    done
}

# The checksum of the sources: of their lines of crates.txt, and of each file's name and checksum, in the order of their names. It fails
# where they can't all be read.
sources_sum() {
    lines=$(program_lines "$1") && folders=$(source_folders "$1") && [ -n "$folders" ] || return 1
    sums=$(
        # shellcheck disable=SC2086
        CDPATH='' cd -- "$1" && find $folders -type f \( -name '*.rt' -o -name '*.antt' \) -exec sha256sum {} +
    ) || return 1
    sums=$(echo "$sums" | LC_ALL=C sort -k 2 && echo whole) && [ "${sums%whole}" != "$sums" ] || return 1
    sum_of_all=$(printf '%s\n%s\n' "$lines" "$sums" | sha256sum) && [ ${#sum_of_all} -eq 67 ] && echo "${sum_of_all%% *}"
}

# What the sums in a folder say of the program that lies beside them: `sources`, the checksum of what it is of, or `kit`, what built it.
said() {
    sed -n "s/^# $2 //p" "$here/$1/SHA256SUMS" 2>/dev/null
}

# Whether a folder's program is the one of its sums.
is_whole() {
    (CDPATH='' cd -- "$here/$1" && [ -x "$2" ] && grep -q "  $2\$" SHA256SUMS && sha256sum --check --status SHA256SUMS) 2>/dev/null
}

# Puts the sums beside a program.
write_sums() {
    (
        CDPATH='' cd -- "$here/$1" || exit 1
        sum=$(sha256sum "$2") || exit 1
        printf '# sources %s\n# kit %s\n%s\n' "$3" "$4" "$sum" >SHA256SUMS.new && mv SHA256SUMS.new SHA256SUMS
    )
}

# Sets `program` to the program of these sources, if there is one: what was built here, else the release. `passed_over` says why the
# release isn't it, `sum` is the checksum of the sources, empty where they can't be read.
choose() {
    program='' passed_over='' begun=$(date +%s)
    sum=$(sources_sum "$here") || return 0
    if [ "$(said $built sources)" = "$sum" ] && is_whole $built dbg_program; then
        program=$built/dbg_program
    else
        choose_release
    fi
    [ -z "$program" ] || remember
}

release=release/rvdbg-x86_64-linux
choose_release() {
    [ -e "$here/$release" ] || return 0
    if [ ! -e "$here/release/SHA256SUMS" ]; then
        passed_over="the release has no release/SHA256SUMS"
    elif ! is_whole release "${release#release/}"; then
        passed_over="$release isn't the file that release/SHA256SUMS names"
    elif [ "$(said release sources)" != "$sum" ]; then
        passed_over="the release is of other sources than these"
    elif ! starts "$here/$release"; then
        passed_over="the release doesn't start on this machine, $(uname -m): $trouble"
    else
        program=$release
    fi
}

# Whether a program starts here: without words it answers with its usage.
starts() {
    trouble=$("$1" -- 2>&1 </dev/null | head -n 1)
    case $trouble in '^error,msg="usage: '*) ;; *) return 1 ;; esac
}

# Keeps what was found, for as long as nothing is changed that it was found from. The time is that before all was read, in whole seconds.
remember() {
    mkdir -p "$here/$built" 2>/dev/null && {
        echo "program=$program"
        echo "missing='$(source_folders "$here" missing | tr '\n' ' ')'"
        echo "looked_at='crates.txt $program ${program%/*}/SHA256SUMS $(source_folders "$here" | tr '\n' ' ')'"
    } 2>/dev/null >"$here/$state.$$" && touch -d "@$begun" "$here/$state.$$" && mv -f "$here/$state.$$" "$here/$state"
}

# Sets `program` to what was found earlier, where that still holds.
recall() {
    program=''
    [ -r "$here/$state" ] || return 0
    # (a shell reads a line byte by byte, and a file of its own at once)
    # shellcheck disable=SC1090
    . "$here/$state"
    for folder in $missing; do
        [ ! -e "$here/$folder" ] || program=''
    done
    # shellcheck disable=SC2086
    changed=$(CDPATH='' cd -- "$here" 2>&1 && find $looked_at -cnewer $state -print -quit 2>&1)
    [ -z "$changed" ] || program=''
}
