# Completion of the commands and options of sisal, for bash: source this file, or copy it to
# ~/.local/share/bash-completion/completions/sisal.
_sisal() {
    local word=${COMP_WORDS[COMP_CWORD]} before=${COMP_WORDS[COMP_CWORD - 1]} options=
    COMPREPLY=()
    if [ "$COMP_CWORD" = 1 ]; then
        mapfile -t COMPREPLY < <(compgen -W 'run compile if1 mean gen link verify again --help --version --build' -- "$word")
        return
    fi
    case $before in --entry | --limit | --workers | --order) return ;; esac
    [[ " ${COMP_WORDS[*]:1:COMP_CWORD-1} " == *' -- '* ]] && return
    case ${COMP_WORDS[1]} in
    run) options='--if1 --entry --workers --limit --order --stats --opt --trace --' ;;
    mean | verify) options='--entry --limit --' ;;
    again) options='--if1 --entry --limit --' ;;
    compile) options='--opt --dot --why --code' ;;
    esac
    [[ $word != -* ]] || mapfile -t COMPREPLY < <(compgen -W "$options" -- "$word")
}
complete -o default -F _sisal sisal ./sisal
