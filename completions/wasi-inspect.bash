# Completion of `wasi-inspect` for bash: source this file, or put it under the program's name into the folder of completions.

# the names of files that end so, and of folders
_wasi_inspect_files() {
    local kind=$1 name
    COMPREPLY=()
    while IFS= read -r name; do
        if [[ -d $name || $name == *$kind ]]; then
            COMPREPLY+=("$name")
        fi
    done < <(compgen -f -- "$cur")
    compopt -o filenames 2>/dev/null
}

_wasi_inspect() {
    local cur=${COMP_WORDS[COMP_CWORD]}
    case ${COMP_WORDS[COMP_CWORD - 1]} in
        -p | --policy) _wasi_inspect_files .toml; return ;;
    esac
    if [[ $cur == -* ]]; then
        COMPREPLY=($(compgen -W "--policy" -- "$cur"))
    else
        _wasi_inspect_files .wasm
    fi
}

complete -F _wasi_inspect wasi-inspect
