# Completion of snoekeldraf for bash.

_snoekeldraf() {
    local word=${COMP_WORDS[COMP_CWORD]} before=${COMP_WORDS[COMP_CWORD - 1]} options=
    COMPREPLY=()
    if [ "$COMP_CWORD" = 1 ]; then
        COMPREPLY=($(compgen -W "list verify open current diff draft seal unseal reseal convert completion help --help --version" -- "$word"))
        return
    fi
    case $before in
    --to) COMPREPLY=($(compgen -W "1 2" -- "$word")); return ;;
    completion) COMPREPLY=($(compgen -W "bash zsh fish" -- "$word")); return ;;
    help) COMPREPLY=($(compgen -W "list verify open current diff draft seal unseal reseal convert completion" -- "$word")); return ;;
    esac
    case ${COMP_WORDS[1]} in
    list) options="--ring --csv --json" ;;
    verify | seal | unseal | reseal) options="--ring" ;;
    open | current) options="--ring --out --json" ;;
    diff) options="--csv --json" ;;
    draft) options="--nonces" ;;
    convert) options="--to" ;;
    esac
    case $word in
    -*) COMPREPLY=($(compgen -W "$options --help" -- "$word")) ;;
    esac
}

# Everything else is the name of a file.
complete -o default -F _snoekeldraf snoekeldraf
