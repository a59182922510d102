# Completes the words of flux and ./flux in fish: ./flux install puts it where fish finds it. Made by editors/make.
complete -c flux -f -n __fish_use_subcommand -a check
complete -c flux -f -n __fish_use_subcommand -a plan
complete -c flux -f -n __fish_use_subcommand -a format
complete -c flux -f -n __fish_use_subcommand -a run
complete -c flux -f -n __fish_use_subcommand -a audit
complete -c flux -f -n __fish_use_subcommand -a load
complete -c flux -f -n __fish_use_subcommand -a serve
complete -c flux -f -n __fish_use_subcommand -a help
complete -c flux -f -n __fish_use_subcommand -a simulate
complete -c flux -f -n __fish_use_subcommand -a swarm
complete -c flux -f -n __fish_use_subcommand -a version
complete -c flux -f -n __fish_use_subcommand -a nodes
complete -c flux -f -n __fish_use_subcommand -a lsp
complete -c flux -f -n '__fish_use_subcommand; and string match -q "*/*" (commandline -opc)[1]' -a prove
complete -c flux -f -n '__fish_use_subcommand; and string match -q "*/*" (commandline -opc)[1]' -a install
complete -c flux -f -n '__fish_use_subcommand; and string match -q "*/*" (commandline -opc)[1]' -a new
complete -c flux -f -n '__fish_use_subcommand; and string match -q "*/*" (commandline -opc)[1]' -a --nodes
complete -c flux -n '__fish_seen_subcommand_from run load serve' -l runtime -x -a 'event event= perflow pool= script='
complete -c flux -n '__fish_seen_subcommand_from run audit serve simulate swarm' -l docs -x -a '(__fish_complete_directories)'
complete -c flux -n '__fish_seen_subcommand_from run' -l journal -x -a '1 2'
complete -c flux -n '__fish_seen_subcommand_from serve' -l port -x
complete -c flux -n '__fish_seen_subcommand_from serve' -l batches -x
complete -c flux -n '__fish_seen_subcommand_from serve' -l at-once -x
complete -c flux -n '__fish_seen_subcommand_from simulate' -l processors -x
complete -c flux -n '__fish_seen_subcommand_from simulate' -l costs -x
