# An interactive zsh that keeps what is offered after a line.
fpath=($ZDOTDIR $fpath)
autoload -Uz compinit && compinit -u
compadd() {
  local -a offered
  ((${@[(I)-[AOD]]})) || { builtin compadd -O offered "$@"; print -rl -- $offered >>$ZDOTDIR/offered }
  builtin compadd "$@"
}
zle-line-init() { BUFFER=$LINE CURSOR=$#LINE; zle list-choices; exit }
zle -N zle-line-init
