# Completion of bash for catalogue: the commands and options that the program's own help names, then file names.
_catalogue() {
    local program=$1 word=$2 command=${COMP_WORDS[1]-} names=''
    case $command:$COMP_CWORD:$word in
    *:1:* | help:2:*) names="$("$program" --help 2>/dev/null | sed -n 's/^  \([a-z]\+\)\( .*\)\?$/\1/p') --help --version" ;;
    *:-*) names=$("$program" help "$command" 2>/dev/null | sed -n 's/^  \(--[a-z-]\+\).*/\1/p') ;;
    class:4:* | add:5:*) names='open room closed' ;;
    esac
    mapfile -t COMPREPLY < <(compgen -W "$names" -- "$word")
}
complete -o default -F _catalogue catalogue
