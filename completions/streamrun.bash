# Completion of streamrun for bash, by the helpers of bash-completion. Made by scripts/shell_files from completions/options.txt.
_streamrun() {
    # shellcheck disable=SC2034  # _init_completion sets them
    local cur prev words cword split
    _init_completion -s || return
    case $prev in
        --separator) mapfile -t COMPREPLY < <(compgen -W ', \\; \\| tab' -- "$cur"); return ;;
        --blank) return ;;
        --workers) mapfile -t COMPREPLY < <(compgen -W '1 4 64' -- "$cur"); return ;;
        --threshold) mapfile -t COMPREPLY < <(compgen -W '1 1024 1048576' -- "$cur"); return ;;
        --nodes) mapfile -t COMPREPLY < <(compgen -W '0 4096 1048576' -- "$cur"); return ;;
        --language) mapfile -t COMPREPLY < <(compgen -W '2 3' -- "$cur"); return ;;
        --columns) _filedir csv; return ;;
    esac
    $split && return
    case $cur in
        -*) mapfile -t COMPREPLY < <(compgen -W '--columns --only-named --separator --blank --workers --threshold --nodes --language --json --fail -h --help -V --version' -- "$cur") ;;
        *) _filedir jobs ;;
    esac
} && complete -F _streamrun streamrun
