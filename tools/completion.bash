# completion.bash: completes curlewstep's verbs, options and file names in bash. Read it from ~/.bashrc; an installation has it where
# bash-completion looks.
# shellcheck shell=bash

_curlewstep() {
    local word=${COMP_WORDS[COMP_CWORD]} before=${COMP_WORDS[COMP_CWORD - 1]} verb='' options='-q' files=-f i
    COMPREPLY=()
    for ((i = 1; i < COMP_CWORD && ${#verb} == 0; i++)); do
        [[ ${COMP_WORDS[i]} == -q ]] || verb=${COMP_WORDS[i]}
    done
    if [[ -z $verb ]]; then
        mapfile -t COMPREPLY < <(compgen -W '-q translate room check log compare install version help' -- "$word")
        return
    fi
    case $verb in
    translate) options='-q -o -d -j -0 --names --' ;;
    room) options='-q --steps --' ;;
    check | log) options='-q --' ;;
    install) files=-d ;;
    *) return ;;
    esac
    case $verb$before in
    translate-j | room--steps) return ;;
    translate-d) files=-d ;;
    translate-o | translate--names) ;;
    *)
        if [[ $word == -* ]]; then
            mapfile -t COMPREPLY < <(compgen -W "$options" -- "$word")
            return
        fi
        ;;
    esac
    # names with spaces are quoted, and folders end with /
    compopt -o filenames 2>/dev/null
    mapfile -t COMPREPLY < <(compgen "$files" -- "$word")
}

complete -F _curlewstep curlewstep
