# Completion of ruzkemp for bash, made by `ruzkemp help --completions bash`.

# The options and operands of a command.
_ruzkemp_command() {
    case $1 in
@COMMANDS@
    *) return 1 ;;
    esac
}

# Completes to words too.
_ruzkemp_words() { # CURRENT WORDS
    mapfile -t -O ${#COMPREPLY[@]} COMPREPLY < <(compgen -W "$2" -- "$1")
}

# Completes to files too: an action of compgen says to which.
_ruzkemp_files() { # CURRENT ACTION
    compopt -o filenames -o default 2> /dev/null
    mapfile -t -O ${#COMPREPLY[@]} COMPREPLY < <(compgen "$2" -- "$1")
}

# The names of the files of an image, which lies in its file as the options in form say.
_ruzkemp_names() { # IMAGE
    local image=${1/#\~\//$HOME/}
    ruzkemp ls "${form[@]}" -- "${image//[\\\"\']/}" 2> /dev/null < /dev/null | sed -n '1d; s/^\([A-Za-z][A-Za-z0-9]*\) .*/\1/p'
}

# Completes to what a kind of word can be.
_ruzkemp_kind() { # CURRENT KIND IMAGE
    case ${2%+} in
    file) _ruzkemp_files "$1" -f ;;
    folder) _ruzkemp_files "$1" -d ;;
    name) [ -z "$3" ] || _ruzkemp_words "$1" "$(_ruzkemp_names "$3")" ;;
    esac
}

# Completes an operand, after so many others: to its kind, and to that of one before it of which there may be more.
_ruzkemp_operand() { # CURRENT SEEN IMAGE
    local -a kinds
    local kind
    read -ra kinds <<< "$operands"
    _ruzkemp_kind "$1" "${kinds[$2]:-}" "$3"
    for kind in "${kinds[@]:0:$2}"; do
        [[ $kind != *+ ]] || _ruzkemp_kind "$1" "$kind" "$3"
    done
}

_ruzkemp_help() { # CURRENT
    case $COMP_CWORD,${COMP_WORDS[2]} in
    2,*) _ruzkemp_words "$1" '@NAMES@ --man --completions' ;;
    3,--completions) _ruzkemp_words "$1" '@SHELLS@' ;;
    esac
}

_ruzkemp() {
    local current=${COMP_WORDS[COMP_CWORD]} flags valued operands
    COMPREPLY=()
    if ((COMP_CWORD == 1)); then
        _ruzkemp_words "$current" '@NAMES@ help --help --version'
        return
    fi
    if [ "${COMP_WORDS[1]}" = help ]; then
        _ruzkemp_help "$current"
        return
    fi
    _ruzkemp_command "${COMP_WORDS[1]}" || return 0
    # The operands so far, whether -- stood among them, the kind of the value that an option waits for, and the
    # options that say how the image lies in its file. Readline divides --name=value into three words.
    local word image='' waits='' option='' ended='' seen=0
    local -a form=()
    for word in "${COMP_WORDS[@]:2:COMP_CWORD-2}"; do
        if [ -n "$waits" ]; then
            [ "$word" != = ] || continue
            [ "$option" != --offset ] || form+=(--offset "$word")
            waits=''
        elif [ -z "$ended" ] && [ "$word" = -- ]; then
            ended=yes
        elif [ -z "$ended" ] && [[ $word == -?* ]]; then
            option=$word
            [ "$word" != --low-byte-first ] || form+=("$word")
            [[ " $valued " != *" $word:"* ]] || { waits=${valued#*"$word:"} && waits=${waits%% *}; }
        else
            image=${image:-$word} seen=$((seen + 1))
        fi
    done
    [ "$current" != = ] || current=''
    if [ -n "$waits" ]; then
        _ruzkemp_kind "$current" "$waits" "$image"
    elif [ -z "$ended" ] && [[ $current == -* ]]; then
        # shellcheck disable=SC2001
        _ruzkemp_words "$current" "$flags $(sed 's/:[a-z]*//g' <<< "$valued")"
    else
        _ruzkemp_operand "$current" "$seen" "$image"
    fi
}

complete -F _ruzkemp ruzkemp
