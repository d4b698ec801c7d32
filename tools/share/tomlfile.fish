# Completion of tomlfile for fish.
set -l commands get has edit keys json check fmt
complete -c tomlfile -n "not __fish_seen_subcommand_from $commands" -f -a "strict normal $commands --help --version"
complete -c tomlfile -n "__fish_seen_subcommand_from get" -l raw -l lines -l default
complete -c tomlfile -n "__fish_seen_subcommand_from keys" -l all
complete -c tomlfile -n "__fish_seen_subcommand_from fmt" -l check -l diff -l keys -l sort -l force -l equals -l dots -l comments -l blank-lines -l indentation -l indent -l arrays -l rows -l commas -l bracket-space -l brace-space -l width -l inline-tables -l bare-keys -l left-alone
complete -c tomlfile -n "__fish_seen_subcommand_from edit" -l script -l dry-run -l diff -l output -l locked -l force
complete -c tomlfile -n "__fish_seen_subcommand_from edit" \
    -a "set string header table section remove append insert take rename move sort comment"
