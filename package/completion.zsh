#compdef mixrev
# Completion of mixrev's words in zsh: those of its --help.
local -a specs commands
if ((CURRENT > 2)); then
  shift words
  ((CURRENT -= 1))
  commands=($words[1])
fi
specs=(${(f)"$(mixrev $commands --help 2>/dev/null | sed -nE '
  s/^Usage:.*<SOURCE>.*/*:file:_files/p
  /^Options:/,$!d
  s/[][\\]/\\&/g
  s/^ +(-.), (--[a-z]+) +(.*)/(- *)\1[\3]\n(- *)\2[\3]/p
  s/^ +(--unit) <N> +(.* ([0-9]+) to ([0-9]+).*)/*\1=[\2]:number:({\3..\4})/p
  s/^ +(--[a-z]+) <PART> +(.*)/\1=[\2]:part:(A X I1 I2 I3 I4 I5 I6 J over cmp)/p
  s/^ +(--[a-z]+) <FILE> +(.*)/\1=[\2]:file:_files/p
  s/^ +(--[a-z]+) <([A-Z]+)> +(.*)/\1=[\3]:\2: /p
  s/^ +(--[a-z]+) +(.*)/\1[\2]/p')"})
if ((! $#commands)); then
  commands=(${(f)"$(mixrev --help | sed -nE '/^Commands:/,/^$/s/^  ([a-z]+) +(.*)/\1\\:"\2"/p')"})
  specs+=("1:command:(($commands))")
fi
_arguments $specs
