# Proves and builds a program unless that is already done. Sourced by ./run.
#
# A proved program is kept as .run/bin/NAME. Its stamp contains the kit, a quick fingerprint of every source that it depends
# on (names, sizes, times, inodes) and a hash of their contents. If neither matches, ./run proves the program again before it
# runs it. The gate (`rt ci`) removes the programs of crates/NAME/out/ but not .run/. If another `rt` works in this repository,
# ./run waits for it, and stops its own proof if one starts meanwhile.

# Sets $kit, and $under: the command under which a program runs, which is the kit's loader with its C library.
use_kit() { # KIT
    local tools=$1/toolchain
    kit=$1
    under=("$tools/lib/ld-linux-x86-64.so.2" --library-path "$tools/lib")
}

find_kit() {
    local doc
    doc=$(rt doc 2>/dev/null) || { say "the Rattle kit is missing: there is no command rt"; exit 3; }
    use_kit "${doc%/*}"
}

# Prints the crates that programs depend on, including the programs themselves.
below() { # NAME ..
    local -A needs=() seen=()
    local line name todo=("$@")
    while IFS= read -r line; do
        case $line in '#'* | '') ;; *) name=${line%%:*} needs[${name%% *}]=${line#*:} ;; esac
    done <"$root/crates.txt"
    while [ ${#todo[@]} != 0 ]; do
        name=${todo[0]}
        todo=("${todo[@]:1}")
        [ -n "${needs[$name]+there}" ] && [ -z "${seen[$name]-}" ] || continue
        seen[$name]=1
        todo+=(${needs[$name]})
    done
    printf '%s\n' "${!seen[@]}"
}

# What `find` passes over in a crate: what rt keeps there.
built=(-regex 'crates/[^/]*/out' -prune -o)

# Prints a fingerprint of a program's sources and of the built program, without reading them.
quick_print() { # NAME CRATES
    (cd "$root" && find crates.txt ${2//$'\n'/ } .run/bin/"$1" "$kit/KIT-ID" "${built[@]}" -type f -printf '%p %s %T@ %C@ %i\n') | sha256sum
}

# Prints a hash of the contents of a program's sources.
whole_print() { # NAME CRATES
    (cd "$root" && find crates.txt ${2//$'\n'/ } "$kit/KIT-ID" "${built[@]}" -type f -print0 | LC_ALL=C sort -z | xargs -0 sha256sum) | sha256sum
}

# Whether a program is built from exactly these sources. Sets $program to its path.
is_built() { # NAME CRATES
    local stamp=$root/.run/$1.stamp was quick whole bin
    program=$root/.run/bin/$1
    [ -x "$program" ] && [ -r "$stamp" ] || return 1
    { IFS= read -r was; IFS= read -r quick; IFS= read -r whole; IFS= read -r bin; } <"$stamp"
    [ -f "$was/KIT-ID" ] || return 1
    use_kit "$was"
    [ "$(quick_print "$1" "$2")" != "$quick" ] || return 0
    [ "$(whole_print "$1" "$2")" = "$whole" ] && [ "$(sha256sum <"$program")" = "$bin" ] || return 1
    stamp "$1" "$2" "$whole" 2>/dev/null
    return 0
}

# Writes the stamp of a proved program: what it was built from.
stamp() { # NAME CRATES WHOLE
    printf '%s\n' "$kit" "$(quick_print "$1" "$2")" "$3" "$(sha256sum <"$root/.run/bin/$1")" >"$root/.run/$1.stamp.$$" &&
        mv -f "$root/.run/$1.stamp.$$" "$root/.run/$1.stamp"
}

# Copies a proved program to .run/ and stamps it.
keep() { # NAME CRATES WHOLE
    cp -f "$root/crates/$1/out/$1" "$root/.run/bin/$1.$$" && mv -f "$root/.run/bin/$1.$$" "$root/.run/bin/$1" && stamp "$@"
}

# Prints the ID of a process of another `rt` that works in this repository. It forks nothing, since it is called often, and
# changes the folder: call it in a subshell.
other_rt() { # OUR_SESSION
    local process words stat
    for process in /proc/[0-9]*; do
        { mapfile -d '' words <"$process/cmdline"; } 2>/dev/null || continue
        case "${words[*]} " in *"/rt "*) ;; *) continue ;; esac
        cd -P -- "$process/cwd" 2>/dev/null || continue
        case $PWD in "$root" | "$root"/crates/*) ;; *) continue ;; esac
        { IFS= read -r stat <"$process/stat"; } 2>/dev/null || continue
        set -- "$1" ${stat##*) }
        [ "$5" = "$1" ] || { echo "${process#/proc/}"; return; }
    done
}

wait_for_others() {
    local other
    other=$(other_rt 0)
    [ -n "$other" ] || return 0
    say "another rt works in this repository (process $other); waiting for it"
    while [ -n "$(other_rt 0)" ]; do sleep 1; done
}

# Exits with the system's reason if the results of a proof could not be written.
need_folders() { # CRATES
    local said crate places=("$root/.run/bin")
    for crate in $1; do places+=("$root/$crate/out"); done
    said=$(LC_ALL=C mkdir -p "${places[@]}" 2>&1 && LC_ALL=C touch "${places[@]/%//.written}" 2>&1) || {
        said=${said%%$'\n'*}
        say "nothing is proved, since the results cannot be written: ${said#*: }"
        exit 3
    }
    rm -f "${places[@]/%//.written}"
}

# The seconds that a proof takes on one processor, measured by the clock from nothing: for each crate, and for each million
# bytes of sources. Time in which one processor waits for the other is part of them.
SECONDS_A_CRATE=10
SECONDS_A_MILLION=200

size_of() { # CRATES
    (cd "$root" && find ${1//$'\n'/ } "${built[@]}" \( -name '*.rt' -o -name '*.antt' \) -printf '%s\n' 2>/dev/null) | { local n sum=0; while read -r n; do sum=$((sum + n)); done; echo $sum; }
}

# Prints the time that a proof of so many crates and bytes takes, in words.
left() { # CRATES BYTES
    local seconds=$((($1 * SECONDS_A_CRATE + $2 / 1000 * SECONDS_A_MILLION / 1000) / jobs))
    if [ $seconds -lt 90 ]; then echo "$seconds seconds"; else echo "$(((seconds + 30) / 60)) minutes"; fi
}

# Prints lines of rt; of a proved crate all but the prover's own notes.
pass_on() { # LINES [PROVED]
    local line
    [ -n "$1" ] || return 0
    while IFS= read -r line; do
        case ${2-}$line in proved"note: "* | proved"help: "* | proved" "* | proved*": note: "* | proved) continue ;; esac
        printf '%s\n' "$line" >&2
    done <<<"${1%$'\n'}"
}

# Passes on rt's lines, except those on what is proved, and prints the progress. A crate that was proved before has no line;
# with a crate all crates below it are done. What a program prints when it is built is left out.
progress() { # CRATES
    local line name='' crate runs=no held='' done=0 all bytes
    local -A seen=()
    all=$(printf '%s\n' "$1" | grep -c .)
    bytes=$(size_of "$1")
    while IFS= read -r line; do
        case $line in
        "built "*) runs=no; continue ;;
        "rt: running "*) runs=yes; continue ;;
        "rt: chose "* | "rt: "*": begins with "* | "rt: nothing has changed since "* | "so far: "* | '') continue ;;
        "statements "* | "library "* | "logic "* | "linked "* | "axioms "* | "only="*) continue ;;
        "fn "*": proved" | "struct "*": proved" | "enum "*": proved") continue ;;
        "crate "*) name=${line#crate }; name=${name%%:*}; continue ;;
        "logic=proved "*) [ -n "$name" ] || continue ;;
        *) [ $runs = yes ] || held+=$line$'\n'; continue ;;
        esac
        pass_on "$held" proved
        held=''
        for crate in $(below "$name"); do
            [ -z "${seen[$crate]-}" ] || continue
            seen[$crate]=1
            done=$((done + 1))
            bytes=$((bytes - $(size_of "crates/$crate")))
        done
        say "$name: $done of $all crates, about $(left $((all - done)) "$bytes") left"
    done
    pass_on "$held"
}

# Builds programs with `rt run`, one after the other, and thereby proves them and the crates below them. It runs them too:
# without arguments they do nothing, and those that read their cases find none.
BUILD='for name; do cd "../$name" && rt run 2>&1 </dev/null >/dev/null && echo "built $name" || exit; done'

# Proves and builds programs. If another `rt` starts in this repository, stops it, waits, and does it again.
check() { # CRATES NAME ..
    local crates=$1 ours other told
    shift
    while :; do
        wait_for_others
        exec 8> >(progress "$crates")
        told=$!
        (cd "$root/crates/$1" && exec setsid bash -c "$BUILD" rt-run "$@") >&8 2>&1 8>&- &
        ours=$!
        exec 8>&-
        trap 'kill -- -$ours 2>/dev/null; exit 130' INT TERM HUP
        while kill -0 $ours 2>/dev/null; do
            other=$(other_rt $ours)
            [ -z "$other" ] || { kill -- -$ours 2>/dev/null; break; }
            sleep 0.5
        done
        wait $ours
        set -- $? "$@"
        trap - INT TERM HUP
        wait $told 2>/dev/null
        [ -n "$other" ] || return "$1"
        say "another rt began to work here (process $other): this proof is stopped and started again after it"
        shift
    done
}

# Proves and builds programs. A lock ensures that only one ./run does so at a time.
prove_all() { # CRATES NAME ..
    local crates=$1 before name
    shift
    find_kit
    estimate "$crates" >/dev/null
    exec 9<"$root/crates.txt"
    if command -v flock >/dev/null && ! flock -n 9; then
        say "another ./run is proving; waiting for it"
        flock 9
    fi
    wait_for_others
    need_folders "$crates"
    before=$(whole_print x "$crates")
    check "$crates" "$@" || { say "$* is not proved; see: rt check in ${*/#/crates/}"; exit 3; }
    [ "$(whole_print x "$crates")" = "$before" ] || { say "a source changed while it was being proved; call again"; exit 3; }
    for name; do
        keep "$name" "$(folders "$name")" "$(whole_print x "$(folders "$name")")" || { say "$name is proved, but cannot be copied to .run/"; exit 3; }
    done
    exec 9<&-
}

# Prints the source folders of all crates that programs depend on.
folders() { # NAME ..
    local name
    for name in $(below "$@"); do printf 'crates/%s\n' "$name"; done | LC_ALL=C sort
}

# Prints how long a proof of these crates takes if none is proved yet. Sets $jobs: rt proves one crate after the other, and
# uses a second processor for each.
estimate() { # CRATES
    jobs=$(nproc 2>/dev/null || echo 1)
    [ "$jobs" -le 2 ] || jobs=2
    left "$(printf '%s\n' "$1" | grep -c .)" "$(size_of "$1")"
}

# Sets $program and $under for a program, and proves it first if necessary.
prove() { # NAME
    local crates
    crates=$(folders "$1")
    is_built "$1" "$crates" && return
    say "proving $1 and the crates below it: about $(estimate "$crates") on a free machine, less where some are proved already"
    prove_all "$crates" "$1"
    is_built "$1" "$crates" || { say "$1 is not built"; exit 3; }
}

build_all() {
    local names=(job current write convert differ inspect) crates
    crates=$(folders "${names[@]}")
    say "proving and building ${#names[@]} programs: about $(estimate "$crates") on a free machine, less where some are proved already"
    prove_all "$crates" "${names[@]}"
    say "built: ${names[*]}"
}
