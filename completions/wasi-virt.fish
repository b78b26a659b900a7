# Completion of `wasi-virt` for fish: put this file into ~/.config/fish/completions.

set -l commands virt run gen plug

complete -c wasi-virt -f
complete -c wasi-virt -n "not __fish_seen_subcommand_from $commands" -a virt -d "wrap a component under a policy"
complete -c wasi-virt -n "not __fish_seen_subcommand_from $commands" -a run -d "run a component over a script"
complete -c wasi-virt -n "not __fish_seen_subcommand_from $commands" -a gen -d "make, wrap and run a component of N functions"
complete -c wasi-virt -n "not __fish_seen_subcommand_from $commands" -a plug -d "make one component of two and wrap it under a policy"

complete -c wasi-virt -n "__fish_seen_subcommand_from $commands" -k -a "(__fish_complete_suffix .wasm)"
complete -c wasi-virt -n "__fish_seen_subcommand_from virt run plug" -s p -l policy -r -k -a "(__fish_complete_suffix .toml)" -d "the policy"
complete -c wasi-virt -n "__fish_seen_subcommand_from virt plug" -s o -l out -r -k -a "(__fish_complete_suffix .wasm)" -d "the component that is written"
complete -c wasi-virt -n "__fish_seen_subcommand_from run" -s s -l script -r -k -a "(__fish_complete_suffix .json)" -d "the script that answers for the machine"
complete -c wasi-virt -n "__fish_seen_subcommand_from run" -l steps -x -d "the most steps of the run"
