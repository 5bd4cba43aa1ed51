# shellcheck shell=sh
# What is wrong with words that the program refused. Sourced by `explain.sh`.

# Says it, and stops looking.
wrong() {
    say "$*; rvdbg --help says more"
    is_found=1
}

# The range of an option's number.
range_of() {
    case $1 in
    harts) echo 1 16 ;;
    workers) echo 0 16 ;;
    slots) echo 0 512 ;;
    budget) echo 1 1000000000000 ;;
    slice) echo 0 1024 ;;
    gen) echo 1 1000000 ;;
    esac
}

# Looks at an option's number.
check_number() {
    # shellcheck disable=SC2046
    set -- "$1" "$2" $(range_of "$1")
    digits=${2#+}
    case $digits in '' | *[!0-9]*)
        wrong "--$1 takes a number from $3 to $4, not '$2'"
        return
        ;;
    esac
    while [ "${digits#0}" != "$digits" ] && [ ${#digits} -gt 1 ]; do digits=${digits#0}; done
    if [ ${#digits} -gt 13 ] || [ "$digits" -lt "$3" ] || [ "$digits" -gt "$4" ]; then
        wrong "--$1 takes a number from $3 to $4, and $2 isn't"
    fi
}

# Looks at one option, with its value.
check_option() {
    case " $given " in *" $1 "*) wrong "--$1 is there twice" ;; esac
    given="$given $1"
    case $1 in
    log | check) ;;
    *) [ -n "$is_found" ] || check_number "$1" "$2" ;;
    esac
}

# Looks at a word that isn't FILE's, with the one behind it. Sets `taken` to how many words it takes.
check_word() {
    taken=1 name=${1#--}
    case $1 in
    --log) check_option log '' ;;
    --log=*) wrong "--log has no value" ;;
    --harts=* | --workers=* | --slots=* | --budget=* | --slice=* | --gen=* | --check=*) check_option "${name%%=*}" "${name#*=}" ;;
    --harts | --workers | --slots | --budget | --slice | --gen | --check)
        taken=2
        case $#,${2:-} in
        1,* | 2,-?*) wrong "$1 wants a value behind it" ;;
        *) check_option "$name" "$2" ;;
        esac
        ;;
    --help | --version | --build) wrong "$1 stands alone" ;;
    *) wrong "there is no option '$1'" ;;
    esac
}

check_file() {
    [ -z "$has_file" ] || wrong "there is one FILE, and '$1' is a second"
    has_file=1
}

# What goes together.
check_together() {
    case " $given " in
    *" check "*)
        [ "$given$has_file" = " check" ] || wrong "--check FILE stands alone"
        ;;
    *" gen "*)
        for name in harts workers log; do
            case " $given " in *" $name "*) wrong "--gen and --$name don't go together" && return ;; esac
        done
        [ -z "$has_file" ] || wrong "--gen makes its own program, and takes no FILE"
        ;;
    *) [ -n "$has_file" ] || wrong "FILE is missing" ;;
    esac
}

# Finds the first fault of the words.
show_fault() {
    is_found='' given='' has_file='' is_behind=''
    while [ $# -gt 0 ] && [ -z "$is_found" ]; do
        taken=1
        case $is_behind$1 in
        --) is_behind=FILE ;;
        FILE* | '' | - | [!-]*) check_file "$1" ;;
        *) check_word "$1" ${2+"$2"} ;;
        esac
        [ "$taken" -lt $# ] || break
        shift "$taken"
    done
    [ -n "$is_found" ] || check_together
    [ -n "$is_found" ] || wrong "words have to be UTF-8"
}
