# Completion of ruzkemp for fish, made by `ruzkemp help --completions fish`.

# Whether the command itself is still to come.
function __ruzkemp_first
    test (count (commandline -opc)) -eq 1
end

# Whether a command is given.
function __ruzkemp_of # COMMAND
    set -l words (commandline -opc)
    test (count $words) -ge 2; and test $words[2] = $argv[1]
end

# The operands given so far; the options named have a value.
function __ruzkemp_operands # OPTION...
    set -l words (commandline -opc)
    set -l value no
    for word in $words[3..-1]
        if test $value = yes
            set value no
        else if contains -- $word $argv
            set value yes
        else if not string match -q -- '-?*' $word
            echo $word
        end
    end
end

# Whether the word at the cursor is an operand of a command: that of the place, or with + a later one too.
function __ruzkemp_at # COMMAND PLACE OPTION...
    __ruzkemp_of $argv[1]; or return 1
    set -l seen (count (__ruzkemp_operands $argv[3..-1]))
    set -l place (string replace + '' $argv[2])
    test $seen -eq $place; and return 0
    string match -q '*+' $argv[2]; and test $seen -gt $place
end

# The options given so far that say how the image lies in its file.
function __ruzkemp_form
    set -l words (commandline -opc)
    string match -- --low-byte-first $words
    string match -- '--offset=*' $words
    set -l place (contains -i -- --offset $words); and printf '%s\n' --offset $words[(math $place + 1)]
end

# The names of the files of the image, which is the first operand.
function __ruzkemp_names # OPTION...
    set -l image (__ruzkemp_operands $argv)[1]
    test -n "$image"; and ruzkemp ls (__ruzkemp_form) -- $image 2>/dev/null </dev/null | sed -n '1d; s/^\([A-Za-z][A-Za-z0-9]*\) .*/\1/p'
end

complete -c ruzkemp -f
complete -c ruzkemp -n __ruzkemp_first -a help -d 'list the commands, or say all about one'
complete -c ruzkemp -n __ruzkemp_first -l version -d 'name the tool, its library and the kit that proved it'
complete -c ruzkemp -l help -d 'print the page of the command'
complete -c ruzkemp -n '__ruzkemp_at help 0' -a '@NAMES@'
complete -c ruzkemp -n '__ruzkemp_of help' -l man -d 'print the manual page'
complete -c ruzkemp -n '__ruzkemp_of help' -l completions -x -a '@SHELLS@' -d 'print the completions for a shell'
@COMMANDS@
