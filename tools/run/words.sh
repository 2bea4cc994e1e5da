# Explains a status: the library's words, the row with its job, and what to do next. Sourced by ./run.

# Prints the words of a status: the last string of its line in library/words.c.
words_of() { # STATUS
    local line
    while IFS= read -r line; do
        case $line in
        "    WORDS($1, "* | "    FILE_WORDS($1, "*)
            line=${line%\"*}
            printf '%s' "${line##*\"}"
            return ;;
        esac
    done <"$root/library/words.c"
    printf 'status %s has no words' "$1"
}

# Prints " (job N)" for a row of a shift file, from the file's table; nothing if the row cannot be read.
job_of() { # FILE ROW
    local edition job
    [ -f "$1" ] || return 0
    edition=$(od -An -tu2 -N2 -- "$1" 2>/dev/null) || return 0
    job=$(od -An -tu4 -j $((8 + $2 * (edition == 2 ? 36 : 32))) -N4 -- "$1" 2>/dev/null) || return 0
    [ -z "${job// /}" ] || printf ' (job %s)' "${job// /}"
}

# Prints the system's reason why a file cannot be read; nothing if it can be.
reason() { # FILE
    if [ -d "$1" ]; then echo "it is a folder"; return; fi
    if [ -e "$1" ] && [ ! -f "$1" ]; then return; fi
    local said
    said=$(LC_ALL=C head -c 1 -- "$1" 2>&1 >/dev/null) || echo "${said##*: }"
}

# Prints the greatest length of a file that a program accepts; document 02 has a lower limit for two of them.
limit_of() { # NAME
    case $1 in differ | inspect) echo 65,280 ;; *) echo 1,048,576 ;; esac
}

# Prints which editions a call accepts.
editions_of() { # NAME FIRST_ARGUMENT
    case $1,$2 in
    write,back | write,reseal) echo "edition 1" ;;
    write,*) echo "edition 0, a draft" ;;
    convert,back) echo "edition 2" ;;
    convert,*) echo "edition 1" ;;
    *) echo "edition 1 or 2" ;;
    esac
}

# Explains a status in words, with row, job and file.
means() { # NAME FIRST_ARGUMENT STATUS ROW FILE WHOSE
    local words
    words=$(words_of "$3")
    case $words in "the row"*) words="row $4$(job_of "$5" "$4")${words#the row}" ;; esac
    case $1,$3 in write,8) words="row $4$(job_of "$5" "$4"): $words" ;; esac
    case $3 in
    20) words="$words; $1 takes 8 to $(limit_of "$1") bytes" ;;
    21) words="$words: this call takes $(editions_of "$1" "$2")" ;;
    esac
    say "$3: $6$words"
}

# Says what to do after a refusal.
advise() { # NAME STATUS
    case $1,$2 in
    write,10) say "seal suite 4 entries again first: ./run write reseal FILE RING OUT on the sealed file; a draft needs another suite" ;;
    write,8) say "the file is not restored: this entry is forged or damaged, or it is not the right ring" ;;
    *,8) say "do not use this entry: it is forged or damaged, or it is not the right ring" ;;
    esac
}
