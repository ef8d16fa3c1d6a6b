# What the bash scripts of the repository share. Sourced at their top level: it looks at their first word. The comment at the head of a script is its help,
# which -h and --help print, and the first line of it begins with the usage, up to a colon. No script has any other option.
#
# Statuses are the same everywhere: 0 all is well; 1 something was refused, differs or was found; 2 a wrong word, a missing file or command, or nothing to do;
# 3 something that is needed could not be built.

root=$(cd "$(dirname "${BASH_SOURCE[0]}")/.." && pwd -P)
me=$(basename "$0")

die() { # STATUS WORD..
    local status=$1
    shift
    printf '%s: %s\n' "$me" "$*" >&2
    exit "$status"
}

misuse() { die 2 "$*; usage: $(sed -n '2s/^# \([^:]*\):.*/\1/p' "$0")"; }

# Dies unless the words are so many.
expect() { # LEAST MOST GIVEN
    [ "$3" -ge "$1" ] || misuse "a word is missing"
    [ "$3" -le "$2" ] || misuse "too many words"
}

# The kit that is meant is the one whose `rt version` prints the line of the file KIT.
meant=$(cat "$root/KIT")

# Says where the kit that is here is another than the one that is meant; nothing else is made of it, since a newer one may well prove it all.
told_kit() {
    local here
    here=$(rt version 2>/dev/null) || here='one without a version'
    [ "$here" = "$meant" ] || printf '%s: the Rattle kit here is "%s", and "%s" is meant (file KIT)\n' "$me" "$here" "$meant" >&2
}

# Dies unless the commands are there. Which kit is here is said once: not again by the scripts that this one runs.
need() { # COMMAND..
    local command
    for command; do
        if command -v "$command" >/dev/null; then
            if [ "$command" = rt ] && [ -z "${RIDDOSKAM_KIT_TOLD:-}" ]; then told_kit; export RIDDOSKAM_KIT_TOLD=1; fi
            continue
        fi
        [ "$command" != rt ] ||
            die 2 "no command rt here: the Rattle kit is missing, which proves and builds all of this; \"$meant\" is meant, and README.md says more"
        die 2 "no command $command here"
    done
}

# Dies unless there is a file to read.
readable() { # FILE
    [ -e "$1" ] || die 2 "no such file: ${1@Q}"
    [ ! -d "$1" ] || die 2 "it is a folder: ${1@Q}"
    [ -r "$1" ] || die 2 "it may not be read: ${1@Q}"
}

# Prints the crates of the repository that NAME is made of, itself last, in the order in which rt proves them.
reached() { # NAME
    awk -v name="$1" '
        function visit(n,    words, i, m, l) {
            if (n in level || !(n in uses)) return
            level[n] = l = 0
            m = split(uses[n], words, " ")
            for (i = 1; i <= m; i++) {
                visit(words[i])
                if (words[i] in level && level[words[i]] >= l) l = level[words[i]] + 1
            }
            level[n] = l
            print l, n
        }
        { sub(/#.*/, ""); i = index($0, ":"); split(substr($0, 1, i - 1), words, " "); if (words[1] != "") uses[words[1]] = substr($0, i + 1) }
        END { visit(name) }' "$root/crates.txt" | sort -s -n -k1,1 | cut -d ' ' -f 2
}

# Looks at all that NAME is made of, by find's words: each file of its crates but the wrong programs and what rt makes there.
among_sources() { # NAME WORD..
    local crates
    mapfile -t crates < <(reached "$1" | sed 's:^:crates/:')
    shift
    (cd "$root" && find crates.txt "${crates[@]}" -regex 'crates/[^/]*/\(out\|must-fail\|wrong\)' -prune -o "$@")
}

# Prints a number for the kit and the sources of NAME. It is the contents that count, so that nothing depends on clocks, and a file that is gone counts too.
number() { # NAME
    {
        cat "$(dirname "$(readlink -f "$(command -v rt)")")/../KIT-ID" 2>/dev/null || rt version
        among_sources "$1" -type f -exec sha256sum {} + | LC_ALL=C sort
    } | sha256sum | cut -c 1-16
}

# One build at a time: rt locks the crates that it is at, but not what is made of them here. For a subshell that has the repository's folder open as 9. The
# prover inherits the lock, so that one which outlives its script is waited for.
lock() {
    flock -n 9 && return
    echo "$me: waiting for another build" >&2
    flock 9
}

# Shows on standard error how far something is: in one line that is written over on a terminal, else in a line of its own.
shown_line() { # LINE
    if [ -t 2 ]; then printf '\r\033[K%s' "$1" >&2; else printf '%s\n' "$1" >&2; fi
}

end_of_line() { [ ! -t 2 ] || printf '\r\033[K' >&2; }

# Prints what changes when it is time for the next line: every second on a terminal, every ten seconds elsewhere.
beat() { if [ -t 2 ]; then echo "$SECONDS"; else echo $((SECONDS / 10)); fi; }

# Runs a command, and tells on standard error for how long and how far it is, as the last line has it that it wrote to the descriptor which RIDDOSKAM_HOW_FAR
# names, if it writes any. The status is the command's. What the command prints comes at its end where all of it goes to a terminal.
watched() { # WHAT COMMAND..
    local what=$1 line far='' ended told=0 out status printed=
    shift
    SECONDS=0
    if [ -t 1 ] && [ -t 2 ]; then printed=$(mktemp) || exit 2; fi
    if [ -n "$printed" ]; then exec {out}>"$printed"; else exec {out}>&1; fi
    RIDDOSKAM_HOW_FAR=3 "$@" 3>&1 >&"$out" | while :; do
        ended=0
        IFS= read -r -t 1 line || ended=$?
        if [ "$ended" = 0 ]; then far=", $line"; elif [ "$ended" -le 128 ]; then break; fi
        if [ "$(beat)" = "$told" ]; then continue; fi
        told=$(beat)
        shown_line "$what$far, $SECONDS s"
    done
    status=${PIPESTATUS[0]}
    exec {out}>&-
    end_of_line
    if [ -n "$printed" ]; then
        cat "$printed"
        rm -f "$printed"
    fi
    return "$status"
}

# For watched: all that a command says goes to LOG.
logged() { # LOG COMMAND..
    local log=$1
    shift
    "$@" >"$log" 2>&1
}

# Runs rt on NAME with the words, what it says going to LOG, and tells on standard error which of the crates of NAME it is at, and not in the first two
# seconds. The status is rt's. Standard input is left to the program that is run later.
followed() { # LOG NAME WORD..
    local log=$1 name=$2 crate at='' now told='' line ended status said='^rt: chose --jobs [0-9]+ for ([A-Za-z0-9_]+)$'
    local -A place=()
    shift 2
    for crate in $(reached "$name"); do place[$crate]=$((${#place[@]} + 1)); done
    SECONDS=0
    (cd "$root/crates/$name" && rt "$@" 2>&1 </dev/null) | while :; do
        ended=0
        IFS= read -r -t 1 line || ended=$?
        if [ "$ended" = 0 ]; then
            printf '%s\n' "$line"
            if [[ $line =~ $said ]]; then at="crate ${place[${BASH_REMATCH[1]}]:-} of ${#place[@]} (${BASH_REMATCH[1]}), "; fi
        else
            printf '%s' "$line"
            [ "$ended" -gt 128 ] || break # neither a line nor a second that has passed: the end
        fi
        now="$at $(beat)"
        if [ "$SECONDS" -lt 2 ] || [ "$now" = "$told" ]; then continue; fi
        told=$now
        shown_line "building $name: $at$SECONDS s"
    done >"$log"
    status=${PIPESTATUS[0]}
    end_of_line
    return "$status"
}

not_built() { # LOG WHAT
    tail -n 12 "$1" >&2
    told_kit
    die 3 "$2 could not be built; all that was said is in $1"
}

# Makes target/staticlib/libriddoskam.a of today's sources, where it isn't: the static library that is the crate riddoskam_c, in the code of every x86-64
# processor.
static_library() {
    local log=$root/target/run/libriddoskam.log made=$root/target/staticlib now
    need rt flock
    mkdir -p "$root/target/run" "$made" || exit 3
    (
        lock
        now=$(number riddoskam_c)
        [ ! -e "$made/libriddoskam.a" ] || [ "$now" != "$(cat "$made/number")" ] || exit 0
        rm -f "$made/number"
        followed "$log" riddoskam_c lib --cpu=x86-64 || not_built "$log" libriddoskam.a
        [ "$(number riddoskam_c)" = "$now" ] || die 3 "a source of riddoskam_c was changed while it was built: run it again"
        cp "$root/crates/riddoskam_c/out/libriddoskam_c.a" "$made/libriddoskam.a"
        echo "$now" >"$made/number"
    ) 9<"$root"
}

# RIDDOSKAM_LIB is the folder of the static library that is meant: the one that it names, as it stands, else that of today's sources, which is made.
some_library() {
    if [ -z "${RIDDOSKAM_LIB:-}" ]; then
        static_library
        RIDDOSKAM_LIB=$root/target/staticlib
    fi
    [ -f "$RIDDOSKAM_LIB/libriddoskam.a" ] || die 2 "$RIDDOSKAM_LIB: there is no libriddoskam.a"
}

case ${1:-} in
-h | --help)
    sed -n '2,${/^#/!q;s/^# \{0,1\}//p;}' "$0"
    exit 0
    ;;
-?*) misuse "no such option: ${1@Q}" ;;
esac
