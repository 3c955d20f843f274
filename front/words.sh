# What help.txt says of words. ../nkrun and try read these functions, and have set top. Nothing here judges a word: the
# program does.
# shellcheck shell=sh disable=SC2154

help=$top/front/help.txt

say() {
        printf '%s: %s\n' "${name:-nkrun}" "$*" >&2
}

list_commands() {
        sed -n 's/^  \([a-z][a-z]*\) [A-Z ]*$/\1/p' "$help" | paste -s -d , - | sed 's/,/, /g'
}

# The words that a command takes, by their names; there are none where there is no such command.
words_of() { # COMMAND
        while read -r command words; do
                [ "$command" != "$1" ] || { echo "$words"; return; }
        done <<END_OF_FORMS
$(sed -n 's/^  \([a-z][a-z]* [A-Z ]*\)$/\1/p' "$help")
END_OF_FORMS
}

# What a word must be, beginning with its name; there is nothing of a file's name.
range_of() { # NAME
        sed -n "s/^  \($1 is .*\)/\1/p" "$help"
}

# Says what the words should have been, once the program has refused them.
explain() { # WORDS..
        [ $# -gt 0 ] || { say "no command: the commands are $(list_commands)"; return; }
        case $1 in --help | --version) say "$1 stands alone"; return ;; esac
        names=$(words_of "$1")
        [ -n "$names" ] || { say "unknown command: $1; the commands are $(list_commands)"; return; }
        given=$(($# - 1))
        # shellcheck disable=SC2086
        wanted=$(set -- $names && echo $#)
        [ "$given" -eq "$wanted" ] || { say "wrong number of words: $1 takes $wanted, $names, and not $given"; return; }
        for each in $names; do
                shift
                range=$(range_of "$each")
                [ -z "$range" ] || say "$range; given: $1"
        done
}
