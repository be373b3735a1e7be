# Completion of mixrev's words in fish: those of its --help.
function __mixrev_words -a condition
  mixrev $argv[2..] --help 2>/dev/null | sed -nE "
    s/'/\\\\&/g
    /^Commands:/,/^\$/s/^  ([a-z]+) +(.*)/-n __fish_use_subcommand -f -a \1 -d '\2'/p
    s/^Usage:[^<]*\$/-n '$condition' -f/p
    s/^ +-(.), --([a-z]+) +(.*)/-n '$condition' -s \1 -l \2 -d '\3'/p
    s/^ +--([a-z]+) <N> +(.* ([0-9]+) to ([0-9]+).*)/-n '$condition' -l \1 -x -a '(seq \3 \4)' -d '\2'/p
    s/^ +--([a-z]+) <PART> +(.*)/-n '$condition' -l \1 -x -a 'A X I1 I2 I3 I4 I5 I6 J over cmp' -d '\2'/p
    s/^ +--([a-z]+) <FILE> +(.*)/-n '$condition' -l \1 -r -F -d '\2'/p
    s/^ +--([a-z]+) <[A-Z]+> +(.*)/-n '$condition' -l \1 -x -d '\2'/p
    s/^ +--([a-z]+) +(.*)/-n '$condition' -l \1 -d '\2'/p" | sed 's/^/complete -c mixrev /'
end
__mixrev_words __fish_use_subcommand | source
for command in (__mixrev_words __fish_use_subcommand | string match -rg -- '-a ([a-z]+) ')
  __mixrev_words "__fish_seen_subcommand_from $command" $command | source
end
