# Completion of snapc's words for bash.
_snapc() {
    local commands="obs deps check equal routes compile place trace demo"
    local current=${COMP_WORDS[COMP_CWORD]} files=0 dashes=0 demand=0 hops=0 turns=0 runs= word last= only=
    COMPREPLY=()
    if [ "$COMP_CWORD" -eq 1 ]; then
        COMPREPLY=($(compgen -W "$commands" -- "$current"))
        return
    fi
    # An option and its file are two words, or one with a `=`, which bash gives as three words.
    for word in "${COMP_WORDS[@]:2:COMP_CWORD-2}"; do
        case $last:$word in
        --schedule:= | --changes:= | --workers:=) word=$last ;;
        --schedule:* | --changes:* | --workers:*) word= ;;
        *:--) dashes=1 ;;
        *:--on-demand) demand=1 ;;
        *:--hops) hops=1 ;;
        *:--ordered) turns=1 ;;
        *:--schedule | *:--changes | *:--workers) runs=$word ;;
        *) files=$((files + 1)) ;;
        esac
        last=$word
    done
    local wanted=${COMP_WORDS[1]}:$files
    case $last in
    --schedule | --changes | --workers)
        # Behind such a `=` the word has no letter yet.
        [[ $current == "=" ]] && current=
        wanted=$last
        ;;
    esac
    # `--` may stand once. Behind `compile` and before it `--on-demand` may; behind `trace` `--hops`, one of `--schedule`, `--changes` and
    # `--workers`, and `--ordered` but beside `--changes`.
    if [[ $current == -* && $wanted != -* ]]; then
        [ "$dashes" -eq 1 ] && return
        only=--
        [[ ${COMP_WORDS[1]} == compile && $demand -eq 0 ]] && only+=" --on-demand"
        if [[ ${COMP_WORDS[1]} == trace ]]; then
            [ "$hops" -eq 0 ] && only+=" --hops"
            [ -z "$runs" ] && only+=" --schedule --workers"
            [ -z "$runs" ] && [ "$turns" -eq 0 ] && only+=" --changes"
            [ "$turns" -eq 0 ] && [[ $runs != --changes ]] && only+=" --ordered"
        fi
        COMPREPLY=($(compgen -W "$only" -- "$current"))
        return
    fi
    case $wanted in
    obs:0 | deps:0 | check:0 | equal:0 | equal:1 | compile:0 | place:0) only='!*.snap' ;;
    routes:0 | compile:1 | compile:2 | place:1 | place:2) only='!*.toml' ;;
    obs:1 | trace:0 | trace:1 | --schedule | --changes) ;;
    demo:0 | --workers)
        COMPREPLY=($(compgen -W "$(echo {1..64})" -- "$current"))
        return
        ;;
    *) return ;;
    esac
    local IFS=$'\n'
    compopt -o filenames 2> /dev/null
    # Files of the usual name and folders; where there are none, any file. A folder may have such a name too.
    [ -n "$only" ] && COMPREPLY=($({ compgen -f -X "$only" -- "$current"; compgen -d -- "$current"; } | sort -u))
    [ "${#COMPREPLY[@]}" -gt 0 ] || COMPREPLY=($(compgen -f -- "$current"))
}
complete -F _snapc snapc
