# Completion of streamrun-merge for bash, by the helpers of bash-completion.
_streamrun_merge() {
    # shellcheck disable=SC2034  # _init_completion sets them
    local cur prev words cword split
    _init_completion -s || return
    case $prev in
        --rows) return ;;
        --language) mapfile -t COMPREPLY < <(compgen -W '2 3' -- "$cur"); return ;;
    esac
    $split && return
    case $cur in
        -*) mapfile -t COMPREPLY < <(compgen -W '--rows --json --language -h --help -V --version' -- "$cur") ;;
        *) _filedir '@(jobs|json)' ;;
    esac
} && complete -F _streamrun_merge streamrun-merge
