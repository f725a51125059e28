# Bash completion for runvestol: commands, the options of each, and files. A new command or option comes into the lists of the
# first three functions; tests/c/manual holds them to what `runvestol --help` has.

_runvestol_commands() {
    echo 'plain infer join below admits check run try'
}

# The options that stand behind a command, or before any.
_runvestol_options() { # COMMAND
    case $1 in
    '') echo '--limits --help --version' ;;
    infer) echo '--from --files-from --lines' ;;
    admits | try) echo '--files-from --lines' ;;
    run) echo '--steps --files-from --lines' ;;
    esac
}

# Whether an option has a word behind it, and what that is: the largest and the smallest set of limits, or nothing for a file.
_runvestol_value() { # OPTION
    case $1 in
    --limits) echo '16384,512,32,65536 1024,16,4,256' ;;
    --from | --files-from) ;;
    *) return 1 ;;
    esac
}

# What the word may be that is written now, by those before it. Where that is nothing bash completes names of files.
_runvestol_words() { # CURRENT BEFORE...
    local current=$1 command='' value
    shift
    while [ $# -gt 0 ]; do
        if value=$(_runvestol_value "$1"); then
            [ $# -gt 1 ] || { echo "$value" && return; }
            shift
        elif [[ $1 != -?* ]]; then
            # options stand before the files
            [ -z "$command" ] || return
            command=$1
        fi
        shift
    done
    if [[ $current == -* ]]; then
        _runvestol_options "$command"
    elif [ -z "$command" ]; then
        _runvestol_commands
    fi
}

_runvestol() {
    local current=${COMP_WORDS[COMP_CWORD]}
    mapfile -t COMPREPLY < <(compgen -W "$(_runvestol_words "$current" "${COMP_WORDS[@]:1:COMP_CWORD-1}")" -- "$current")
}

complete -o default -F _runvestol runvestol
