# Completion of `wasi-inspect` for fish: put this file into ~/.config/fish/completions.

complete -c wasi-inspect -f -k -a "(__fish_complete_suffix .wasm)"
complete -c wasi-inspect -s p -l policy -r -k -a "(__fish_complete_suffix .toml)" -d "the policy under which is inspected"
