# Completion of `wasi-virt` for bash: source this file, or put it under the program's name into the folder of completions.

# the names of files that end so, and of folders
_wasi_virt_files() {
    local kind=$1 name
    COMPREPLY=()
    while IFS= read -r name; do
        if [[ -d $name || $name == *$kind ]]; then
            COMPREPLY+=("$name")
        fi
    done < <(compgen -f -- "$cur")
    compopt -o filenames 2>/dev/null
}

# the options of a command that are not there yet, and files for its other words
_wasi_virt_words() {
    local kind=$1 word said=" ${COMP_WORDS[*]:0:COMP_CWORD} "
    shift
    COMPREPLY=()
    for word in "$@"; do
        if [[ $word == "$cur"* && $said != *" $word "* ]]; then
            COMPREPLY+=("$word")
        fi
    done
    if [[ $cur != -* ]]; then
        _wasi_virt_files "$kind"
    fi
}

_wasi_virt() {
    local cur=${COMP_WORDS[COMP_CWORD]} before=${COMP_WORDS[COMP_CWORD - 1]}
    if ((COMP_CWORD == 1)); then
        COMPREPLY=($(compgen -W "virt run gen plug" -- "$cur"))
        return
    fi
    case $before in
        -p | --policy) _wasi_virt_files .toml; return ;;
        -s | --script) _wasi_virt_files .json; return ;;
        -o | --out) _wasi_virt_files .wasm; return ;;
        --steps) COMPREPLY=(); return ;;
    esac
    case ${COMP_WORDS[1]} in
        virt | plug) _wasi_virt_words .wasm --policy --out ;;
        run) _wasi_virt_words .wasm --script --policy --steps ;;
        gen) if ((COMP_CWORD == 3)); then _wasi_virt_files .wasm; else COMPREPLY=(); fi ;;
        *) COMPREPLY=() ;;
    esac
}

complete -F _wasi_virt wasi-virt
