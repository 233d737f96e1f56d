# What the scripts `read` and `cut` share. They read it in (.) once `me` is the script's name and `here` the repository's folder:
#
#   say WORDS        a line on standard error, with the script's name before it
#   stop N WORDS     the same, and ends with status N
#   take FILE        takes standard input from that file, or ends with status 2
#   build NAME       proves and builds that program, if that is not done yet, or ends with status 3
#   keep FILE        keeps the letter on standard input, as far as a program takes it, in that file
#   run NAME WORDS   runs it with those words: standard input to standard output
#   $standard        the word that asks a program for standard reading: the reading's number, as in host/elduvarn.h
#   explain NUMBER PLACE FILE   tells a refusal's name, place and condition, and shows the bytes around the place in the letter
#
# shellcheck shell=sh disable=SC2034,SC2154

standard=2

say() {
    printf '%s: %s\n' "$me" "$*" >&2
}

stop() {
    status=$1
    shift
    say "$*"
    exit "$status"
}

take() {
    [ -e "$1" ] || stop 2 "there is no file $1"
    [ ! -d "$1" ] || stop 2 "$1 is a folder, not a letter"
    [ -r "$1" ] || stop 2 "$1 cannot be read"
    exec <"$1"
}

# The longest letter is 65,536 bytes; a byte more shows that one is longer.
keep() {
    head -c 65537 >"$1"
}

need_rt() {
    command -v rt >/dev/null || stop 3 "rt, of the Rattle kit, is not on the path: it is needed to prove and build the program"
}

# The crates of the repository that $1 needs, itself the last, a line each, in the order in which rt proves them. A name without a
# line in crates.txt is a library of the kit.
list_crates() {
    awk -v top="$1" '
        function reach(name, words, count, i) {
            if (!(name in needs) || name in seen)
                return
            seen[name] = 1
            count = split(needs[name], words, " ")
            for (i = 1; i <= count; i++)
                reach(words[i])
            print name
        }
        { sub(/#.*/, "") }
        split($0, part, ":") == 2 { split(part[1], head, " "); needs[head[1]] = part[2] }
        END { reach(top) }' "$here/crates.txt"
}

# Keeps what rt says in the file $1, and shows a line for each crate that is proved now: its place in the list $2, and how long it
# took. Of crates that were proved before rt says nothing, and they are not shown; the last place is the program's.
follow() {
    total=$(printf '%s\n' "$2" | wc -l) crate='' began=$(date +%s)
    while IFS= read -r line; do
        printf '%s\n' "$line" >&3
        case $line in
            'rt: chose --jobs '*' for '*) crate=${line##* } began=$(date +%s) ;;
            'logic=proved '*)
                place=$(printf '%s\n' "$2" | grep -nx "$crate" || :)
                say "${place%%:*} of $((total)), $crate, $(($(date +%s) - began)) s"
                ;;
        esac
    done 3>"$1"
}

build() {
    # rt links a program only once it and all crates below are proved. One that is there is not built again.
    program=crates/$1/out/$1
    [ ! -x "$here/$program" ] || return 0
    need_rt
    log=target/$1.log
    say "proving and building the program once, crate by crate, in some minutes; $log has the details"
    mkdir -p "$here/target"
    {
        status=0
        (cd "$here/crates/$1" && rt run) </dev/null 2>&1 || status=$?
        echo "rt ended with status $status"
    } | follow "$here/$log" "$(list_crates "$1")"
    # rt has also run it, without a letter, and ended with its status
    [ ! -x "$here/$program" ] || return 0
    say "FAILED: the program could not be proved and built; the last lines of $log:"
    grep -v -e '^library ' -e '^statements ' -e '^logic ' "$here/$log" | tail -n 15 >&2
    exit 3
}

# Programs are for x86-64; on another processor ELDUVARN_EMULATOR names what runs them, since the kit has no emulator. In a shell of
# its own, so that one that stops does not take the script with it.
# shellcheck disable=SC2086
run() (
    program=$here/crates/$1/out/$1
    shift
    case $(uname -m) in
        x86_64 | amd64) exec "$program" "$@" ;;
    esac
    [ -n "${ELDUVARN_EMULATOR:-}" ] ||
        stop 3 'the program is for x86-64 and this machine is not: name an emulator in ELDUVARN_EMULATOR'
    exec $ELDUVARN_EMULATOR "$program" "$@"
)

# The number's row in the catalogue; the numbers that carry a place are those that it names (docs/REFUSALS.md).
explain() {
    case $1 in
        [3-6] | 9 | 1[0-6]) where=", at byte $2" ;;
        *) where= ;;
    esac
    row=$(awk -F ' *[|] *' -v n="$1" -v where="$where" '$2 == n { print n ", " $3 where ": " $4 }' "$here/docs/REFUSALS.md")
    say "refused by $row (docs/REFUSALS.md)"
    [ -z "$where" ] || point "$2" "$3"
}

# The letter around byte $1 of the file $2, and a mark below that byte. What does not print stands as a dot.
point() {
    from=$(($1 > 30 ? $1 - 30 : 0))
    say "    $(tail -c +$((from + 1)) "$2" | head -c 60 | LC_ALL=C tr -c ' -~' .)"
    say "    $(printf "%$(($1 - from))s^" '')"
}
