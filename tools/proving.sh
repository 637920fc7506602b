# shellcheck shell=sh
# Read by ./demo and ./list_frames: a program is run only where rt has proved it as it stands, and how far that is stands on standard error.
# `rt run` knows by its own stamps what is unchanged, all of it in about a second; nothing is printed then. The times of files say nothing.

tool=${0##*/}

fail() {
    printf '%s: %s\n' "$tool" "$1" >&2
    exit 1
}

# prove_with_progress TOP NAME: rt proves the program NAME of the repository at TOP, and all that it stands on, and runs it on its own file stdin.
# What it wrote, which is held to its file stdout, is then TOP/target/NAME.stdout, and the program itself TOP/crates/NAME/out/NAME.
prove_with_progress() {
    command -v rt >/dev/null 2>&1 || fail "missing: the Rattle toolchain's command 'rt' is not on PATH"
    { command -v flock && command -v setsid; } >/dev/null 2>&1 || fail "missing: 'flock' and 'setsid', of util-linux"
    mkdir -p "$1/target" 2>/dev/null || :
    for folder in target "crates/$2"; do
        [ -w "$1/$folder" ] || fail "$1/$folder cannot be written, so rt cannot tell whether the program is proved"
    done

    # Two runs at once would write the same files. Every process of a run inherits the lock, also one that an interrupted run leaves behind.
    exec 9>"$1/target/proving.lock"
    flock -w 3 9 || { echo "$tool: waits until another run has proved" >&2 && flock 9; }

    # A session of its own can be ended whole: what rt starts would ignore the interrupt of a terminal.
    # shellcheck disable=SC2016 # the inner shell's own $1
    (cd "$1" && exec setsid sh -c '. tools/proving.sh && run_and_tell "$1"' "$tool" "$2") &
    session=$!
    trap 'stop_proving INT' INT
    trap 'stop_proving TERM' TERM
    trap 'stop_proving HUP' HUP
    ended=0
    wait "$session" || ended=$?
    trap - INT TERM HUP
    exec 9>&-
    [ "$ended" -ne 0 ] || return 0

    # What rt said of the crate that it came to last, without the lines that count modules or name what is proved.
    awk '/^rt: chose / { count = 0; next }
        /^(logic|statements|library|crate|axioms|linked|only)[ =]/ || /: proved$/ { next }
        { line[++count] = $0 }
        END { for (k = count > 20 ? count - 19 : 1; k <= count; k++) print line[k] }' "$1/target/$2.log" >&2
    fail "$2 is not proved, or did not write what it should: $1/target/$2.log has all that rt said"
}

stop_proving() { # SIGNAL
    { kill -s TERM -- "-$session" || kill -s TERM "$session"; } 2>/dev/null || :
    wait "$session" 2>/dev/null || :
    echo "$tool: interrupted; what was proved stays so, and the next run goes on from there" >&2
    trap - "$1"
    kill -s "$1" "$$"
}

# What follows runs in the session, at the top of the repository.

run_and_tell() { # NAME: a line for each crate that is proved now. All that rt says goes to target/NAME.log. The status is not 0 where the program may not be used.
    crates=$(crates_below "$1")
    input=crates/$1/stdin
    [ -e "$input" ] || input=/dev/null
    written=target/$1.stdout
    {
        ended=0
        (cd "crates/$1" && exec rt run) 2>&1 <"$input" >"$written.new" || ended=$?
        if [ "$ended" -ne 0 ]; then
            :
        elif cmp -s "$written.new" "crates/$1/stdout"; then
            mv "$written.new" "$written" # a run that reads the one before still has it
        else
            echo "what $1 wrote, $written.new, is not what crates/$1/stdout has"
            ended=1
        fi
        echo "rt ended with $ended"
    } | tell_crates "$1" "$crates" 3>"target/$1.log"
}

crates_below() { # NAME: the crates that the program stands on, in the order in which rt proves them, and itself
    awk -v name="$1" '
        { sub(/#.*/, ""); crate = $1; sub(/:.*/, "", crate) }
        crate != "" { sub(/^[^:]*:?/, ""); below[crate] = $0 }
        function visit(crate,    names, count, k) {
            if (!(crate in below) || crate in visited) return
            visited[crate]
            count = split(below[crate], names, " ")
            for (k = 1; k <= count; k++) visit(names[k])
            print crate
        }
        END { visit(name) }' crates.txt
}

tell_crates() { # NAME CRATES: of the lines that rt says, which also go to descriptor 3. The status is the one that the last line has.
    total=$(echo "$2" | wc -w)
    told=
    crate=
    written_over=
    for each in $2; do # a stamp is gone before rt has a word of a crate that is new
        [ -e "crates/$each/out/rlib/stamp" ] || [ -e "crates/$each/out/$each.stamp" ] || tell_begin "$1"
    done
    while IFS= read -r line; do
        case $line in
        "rt: chose --jobs "*)
            tell_begin "$1"
            crate=${line##* }
            ;;
        "logic=proved "*)
            tell_crate "$2" "$crate"
            crate=
            ;;
        "rt: "*"waiting for "*) echo "$line" >&2 ;;
        "rt ended with "*)
            ended=${line##* }
            [ "$ended" -eq 0 ] || [ -z "$crate" ] || tell_crate "$2" "$crate" " NOT PROVED"
            [ -z "$written_over" ] || echo >&2
            return "$ended"
            ;;
        esac
        printf '%s\n' "$line" >&3
    done
    return 1
}

tell_begin() { # NAME: once
    [ -n "$told" ] || echo "Proving what is new or changed of $1 and the crates below it, $total in all: some minutes the first time." >&2
    told=yes
}

tell_crate() { # CRATES CRATE WORDS: on a terminal the line before is written over
    place=$(echo "$1" | grep -n -x -e "$2" | cut -d : -f 1)
    if [ -t 2 ]; then
        printf '\r\033[K%s' "$place of $total $2${3:-}" >&2
        written_over=yes
    else
        echo "$place of $total $2${3:-}" >&2
    fi
}
