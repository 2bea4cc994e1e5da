# Runs a program and writes its OUT safely. Sourced by ./run.
#
# A program that writes gets a temporary file in OUT's folder (mode 0600). If it succeeds, ./run gives the file the mode of
# the OUT that it replaces and renames it. A link is resolved first. A device or a pipe is opened once and written whole. A
# stopped run removes its temporary file; the next run of the same user removes one that a killed run left.

MARK=.snoekeldraf-

# Removes temporary files of this user whose processes no longer exist.
clean_up() { # FOLDER
    local file process
    for file in "$1$MARK"*; do
        [ -f "$file" ] && [ -O "$file" ] || continue
        process=${file##*/"$MARK"}
        process=${process%%-*}
        [ -d "/proc/$process" ] || kill -0 "$process" 2>/dev/null || rm -f -- "$file"
    done
}

cannot_write() { # OUT WHY
    print_out "OUT cannot be written"
    [ ! -f "$1" ] || set -- "$1" "$2. It is unchanged"
    say "$1 cannot be written: $2"
    exit 3
}

# Sets $descriptor to the number of the open descriptor that a path names, by itself or through links: such a path is not
# opened again, for that would truncate a file behind it.
find_descriptor() { # PATH
    local path=$1 target
    descriptor=''
    case $path in /*) ;; *) path=$PWD/$path ;; esac
    for _ in {1..40}; do
        case $path in
        /dev/stdout) descriptor=1; return ;;
        /dev/stderr) descriptor=2; return ;;
        /dev/fd/[0-9]* | /proc/self/fd/[0-9]*) descriptor=${path##*/}; return ;;
        esac
        [ -L "$path" ] && target=$(readlink -- "$path") || return 0
        case $target in /*) path=$target ;; *) path=${path%/*}/$target ;; esac
    done
}

# Whether a path is written as a stream: a device, a pipe, or the name of an open descriptor.
is_stream() { # PATH
    [ -n "$descriptor" ] || { [ -e "$1" ] && [ ! -f "$1" ]; }
}

# Creates the temporary file in OUT's folder, and sets $temporary, $ours (how the names of this run's files begin), $stream
# (yes or no) and $place (the file to replace).
prepare_out() { # OUT RING
    local said folder=${TMPDIR:-/tmp}/
    [ "$1" -ef "$2" ] && { say "OUT is the ring: nothing is written"; exit 2; }
    [ -n "$1" ] || cannot_write OUT "its name is empty"
    [ ! -d "$1" ] || cannot_write "$1" "it is a folder"
    place=$1 stream=no
    find_descriptor "$1"
    if is_stream "$1"; then
        stream=yes
    else
        [ ! -L "$1" ] || place=$(readlink -m -- "$1")
        [ ! -L "$place" ] || cannot_write "$1" "Too many levels of symbolic links"
        case $place in */*) folder=${place%/*}/ ;; *) folder=./ ;; esac
    fi
    clean_up "$folder"
    # "run": the office program removes names of two numbers that no run has locked
    ours=$folder$MARK$$-run-
    # set before the file exists: a signal between the two would leave it
    trap 'rm -f -- "$ours"*' EXIT
    trap 'exit 129' HUP
    trap 'exit 130' INT
    trap 'exit 143' TERM
    said=$(umask 077; LC_ALL=C mktemp -- "${ours}XXXXXX" 2>&1) || cannot_write "$1" "${said##*: }"
    temporary=$said
}

# Writes the finished file to a device, a pipe or an open descriptor.
write_stream() { # OUT
    local said
    trap '' PIPE
    if [ -n "$descriptor" ]; then
        { said=$(LC_ALL=C cat -- "$temporary" 2>&1 >&5); } 5>&"$descriptor"
    else
        said=$(LC_ALL=C; { cat -- "$temporary" >"$1"; } 2>&1)
    fi || cannot_write "$1" "${said##*: }"
}

# Gives a file the owner, group and mode of another, as far as we may: if the group cannot be kept, it gets no access. Plain
# text stays the owner's alone.
keep_mode() { # FROM TO PLAIN
    local mode
    mode=0$(stat -L -c %a -- "$1")
    [ "$3" = no ] || mode=$((mode & 0600))
    chown --reference="$1" -- "$2" 2>/dev/null || chgrp --reference="$1" -- "$2" 2>/dev/null || mode=$((mode & ~070))
    chmod "$(printf %o $((mode)))" -- "$2"
}

# Gives the finished file its mode and moves it to OUT.
place_out() { # OUT PLAIN
    local said
    [ $stream = no ] || { write_stream "$1"; return; }
    if [ -e "$place" ]; then
        [ -w "$place" ] || cannot_write "$1" "Permission denied"
        keep_mode "$place" "$temporary" "$2"
    elif [ "$2" = no ]; then
        chmod "$(printf %o $((0666 & ~$(umask))))" -- "$temporary"
    fi
    said=$(LC_ALL=C mv -T -f -- "$temporary" "$place" 2>&1) || cannot_write "$1" "${said##*: }"
}

# Prints the program's output. A reader that has closed the pipe (| head) is no error; a full disk is. If OUT is the standard
# output, the text goes to the standard error.
print_out() { # TEXT
    local said to=1
    [ -n "$1" ] || return 0
    [ "${descriptor-}" != 1 ] || to=2
    trap '' PIPE
    { said=$(LC_ALL=C; { printf '%s\n' "$1" >&4; } 2>&1); } 4>&$to
    case $said in '' | *"Broken pipe"*) ;; *) say "the standard output cannot be written: ${said##*: }"; exit 3 ;; esac
}

# Summarises the output of `inspect`: how many entries, how many wrong, which jobs. Fails if a tag is wrong.
sum_up() { # TEXT
    local line all=0 wrong=()
    while IFS= read -r line; do
        case $line in
        entries\ *) ;;
        *\ 0) all=$((all + 1)) ;;
        *\ 8) all=$((all + 1)) wrong+=("${line% 8}") ;;
        esac
    done <<<"$1"
    if [ ${#wrong[@]} = 0 ]; then say "$all entries, every tag is right"; return 0; fi
    say "$all entries, ${#wrong[@]} wrong: job ${wrong[*]}"
    [ ${#wrong[@]} != "$all" ] || say "every tag is wrong: is it the right ring?"
    say "do not use an entry whose tag is wrong"
    return 1
}

# Returns the exit status for a program's output, by its first line, and explains a refusal.
judge() { # NAME TEXT ARGS ..
    local name=$1 text=$2 first
    shift 2
    read -r -a first <<<"${text%%$'\n'*}"
    local file=$1
    case $name,${1-} in write,back | write,reseal | convert,back) file=$2 ;; esac
    case $name,${first[0]-} in
    inspect,entries) sum_up "$text" ;;
    differ,first) [ "$text" = $'first\nsecond\ndiffer' ] ;;
    inspect,refused) refuse "$name" "$1" "${first[1]}" "${first[2]}" "$file" '' "$2" ;;
    differ,refused) shift $((first[1] - 1)); refuse "$name" '' "${first[2]}" "${first[3]}" "$1" "$1: " '' ;;
    *,0) return 0 ;;
    current,[0-9]*) refuse_current "${first[@]:0:3}" "$@" ;;
    *,[0-9]*) refuse "$name" "$1" "${first[0]}" "${first[1]}" "$file" '' "${@:$#-1:1}" ;;
    *) return 3 ;;
    esac
}

# Says a refusal. An input that cannot be read counts as no bytes: then the system's reason is said, not the status's, and the
# exit status is 3, so that a mistyped path is not taken for a bad file.
refuse() { # NAME FIRST_ARGUMENT STATUS ROW FILE WHOSE RING
    local input='' why=''
    case $3 in
    20) input=$5; why=$(reason "$input") ;;
    2) input=$7; why=$(reason "$input") ;;
    esac
    if [ -n "$why" ]; then
        say "$3: ${input:-''} cannot be read: $why"
        return 3
    fi
    means "$1" "$2" "$3" "$4" "$5" "$6"
    [ ! -f "$input" ] || say "$input is $(stat -L -c %s -- "$input") bytes long"
    advise "$1" "$3"
    return 1
}

refuse_current() { # STATUS FILE ROW AMENDMENT DAY RING JOB
    case $2 in
    1) refuse current '' "$1" "$3" "$4" "the amendment: " "$6" ;;
    2) refuse current '' "$1" "$3" "$5" "the day's file: " "$6" ;;
    *) refuse current '' "$1" "$3" "$5" '' "$6" ;;
    esac
}

# Runs $program and sets $text to its output; its standard error goes to the descriptor ERRORS (1: into the text).
call_program() { # ERRORS NAME ARGS ..
    local errors=$1 name=$2 code
    shift 2
    text=$("${under[@]}" "$program" "$@" 2>&"$errors"; echo "status $?")
    code=${text##*status }
    text=${text%status *}
    text=${text%$'\n'}
    [ "$code" = 0 ] || { say "$name ended with status $code"; exit 3; }
}

# Runs a program that writes OUT.
run_writer() { # NAME ARGS ..
    local name=$1 out=${!#} ring='' plain=no
    shift
    [ "$name" = convert ] || ring=${@:$#-1:1}
    [ "$name,$1" != write,back ] || plain=yes
    prepare_out "$out" "$ring"
    call_program 1 "$name" "${@:1:$#-1}" "$temporary"
    case $text in
    *"OUT cannot be written"*) text=${text#*"$temporary"*: }; cannot_write "$out" "${text%%$'\n'*}" ;;
    0*) place_out "$out" $plain ;;
    esac
}

# Runs a program with its arguments, prints its output, and exits with its status.
run_program() { # NAME ARGS ..
    local text
    case $1 in
    write | convert) run_writer "$@" ;;
    *) call_program 2 "$@" ;;
    esac
    print_out "$text"
    judge "$1" "$text" "${@:2}"
    exit $?
}

# Runs a built program by its path, without checking that it is proved; the program writes OUT itself.
run_path() { # PATH ARGS ..
    local name=${1##*/} text
    program=$1
    [ -f "$program" ] || { say "there is no file $program"; exit 2; }
    find_kit
    shift
    case $name in
    job | current | write | convert | differ | inspect) ;;
    *) exec "${under[@]}" "$program" "$@" ;;
    esac
    call_program 2 "$name" "$@"
    [ -n "$text" ] || exit 2
    print_out "$text"
    judge "$name" "$text" "$@"
    exit $?
}
