#compdef ruzkemp
# Completion of ruzkemp for zsh, made by `ruzkemp help --completions zsh`.

# The names of the files of the image, which is the first operand and lies in its file as two options say.
_ruzkemp_names() {
    local -a names form
    (( $+opt_args[--low-byte-first] )) && form+=(--low-byte-first)
    (( $+opt_args[--offset] )) && form+=(--offset ${(Q)opt_args[--offset]})
    names=(${(f)"$(ruzkemp ls $form -- ${(Q)line[1]} 2> /dev/null < /dev/null | sed -n '1d; s/^\([A-Za-z][A-Za-z0-9]*\) .*/\1/p')"})
    compadd -a names
}

_ruzkemp_commands() {
    local -a commands
    commands=(
@SUMMARIES@
    )
    _describe -t commands 'command' commands
}

_ruzkemp_help() {
    local -a options
    options=('--man:print the manual page' '--completions:print the completions for a shell')
    if (( CURRENT == 2 )); then
        _ruzkemp_commands
        _describe -o -t options 'option' options
    elif [[ $words[2] == --completions ]]; then
        compadd @SHELLS@
    fi
}

_ruzkemp_arguments() {
    case $words[1] in
    help)
        _ruzkemp_help
        ;;
@ARGUMENTS@
    esac
}

_ruzkemp() {
    local curcontext=$curcontext state line
    typeset -A opt_args
    _arguments -C \
        '(- *)--help[list the commands]' \
        '(- *)--version[name the tool, its library and the kit that proved it]' \
        '1:command:->command' \
        '*::argument:->argument'
    case $state in
    command)
        _ruzkemp_commands
        compadd help
        ;;
    argument)
        _ruzkemp_arguments
        ;;
    esac
}

_ruzkemp "$@"
