# Completion of clverify for bash: source this file, or put it as `clverify` into a folder of bash-completion.

# Files that begin with a word; where an ending is given, those with it, if there are any.
_clverify_files() {
    compopt -o filenames 2>/dev/null
    if [ -n "${2-}" ]; then
        mapfile -t COMPREPLY < <(compgen -f -X "!*$2" -- "$1"; compgen -d -- "$1")
        [ ${#COMPREPLY[@]} = 0 ] || return 0
    fi
    mapfile -t COMPREPLY < <(compgen -f -- "$1")
}

_clverify_words() {
    mapfile -t COMPREPLY < <(compgen -W "$2" -- "$1")
}

_clverify_verify() {
    local word=$1 before=${COMP_WORDS[COMP_CWORD - 1]} at names=0 left='--script --workers --stock'
    # (bash takes --script=F apart: its words are --script, = and F)
    if [ "$before" = = ]; then
        before=${COMP_WORDS[COMP_CWORD - 2]}
    elif [ "$word" = = ]; then
        word='' before=${COMP_WORDS[COMP_CWORD - 1]}
    fi
    case $before in
    --script) _clverify_files "$word"; return ;;
    --workers) _clverify_words "$word" '1 2 4 8 16'; return ;;
    --stock) _clverify_files "$word" .stock; return ;;
    esac
    for ((at = 2; at < COMP_CWORD; at++)); do
        case ${COMP_WORDS[at]} in
        --script | --workers | --stock)
            left=${left/${COMP_WORDS[at]}/}
            [ "${COMP_WORDS[at + 1]}" = = ] && ((at++))
            ((at++))
            ;;
        --) left='' ;;
        *) ((names++)) ;;
        esac
    done
    if [[ $word == -* && -n $left ]]; then
        _clverify_words "$word" "$left"
    elif [ "$names" = 0 ]; then
        _clverify_files "$word"
    elif [ "$names" = 1 ]; then
        _clverify_files "$word" .toml
    else
        _clverify_words "$word" "$left"
    fi
}

_clverify() {
    local word=${COMP_WORDS[COMP_CWORD]}
    COMPREPLY=()
    if [ "$COMP_CWORD" = 1 ]; then
        _clverify_words "$word" 'certify check list point save selftest verify'
        return
    fi
    # These words have one order: CL X Y Z --depth M --slabs N of point, CL SETUP I of certify, CL SETUP I CERT of check,
    # CL SETUP --script F --stock F of save.
    case ${COMP_WORDS[1]}:$COMP_CWORD in
    verify:*) _clverify_verify "$word" ;;
    list:2 | point:2 | certify:2 | check:2 | save:2) _clverify_files "$word" ;;
    certify:3 | check:3 | save:3) _clverify_files "$word" .toml ;;
    save:4) _clverify_words "$word" '--script --stock' ;;
    save:5 | save:7)
        if [ "${COMP_WORDS[COMP_CWORD - 1]}" = --stock ]; then _clverify_files "$word" .stock; else _clverify_files "$word"; fi
        ;;
    save:6) [ "${COMP_WORDS[4]}" != --script ] || _clverify_words "$word" --stock ;;
    check:5) _clverify_files "$word" .cert ;;
    point:6) _clverify_words "$word" --depth ;;
    point:7) _clverify_words "$word" '0 1 2 3 4 5 6 7 8 9 10' ;;
    point:8) _clverify_words "$word" --slabs ;;
    point:9) _clverify_words "$word" '1 2 4 8 16 32 64 128 256' ;;
    esac
}

complete -F _clverify clverify
