# Compares the numbers that `show values` and its replies have, in the order of `cells`, with those
# of the file `wanted`, and the clock, the steps, the counts and the writes with the file `limits`.
# What is wrong first is said on standard error, and the status is 1. All is read even then: a
# program whose reader has gone ends by a failed write, and gets no verdict. No label, however it is
# written, is a measure.
function wrong(reason) { if (!failed) print reason >"/dev/stderr"; failed = 1 }
function compare(place, number) {
  gsub(/ /, "", number)
  at++
  if ((getline line <wanted) <= 0 || number != line) wrong("number " at " is not what is wanted: " place " holds " number)
}
BEGIN { while ((getline line <cells) > 0) named[line] }
failed { next }
/^ran / {
  measure["steps"] = $2
  measure["clock"] = $6 + 0
  place = " at " $4 " clock " $6 + 0
  sub(/^[^:]*: /, "")
  if ($0 != "halt") wrong("no halt: " $0 place)
}
/^show values / { asked = $3 == $4 ? $3 : $3 " or " $4 }
/^show writes / { asked = $4; shown = asked ? "writes " asked : "conflicts"; measure[shown] = 0 }
/^ *[0-9]+  [0-9][0-9][0-9][0-9]  / { measure[shown]++ }
/^\? / { wrong("the source lacks the name " asked) }
/^[0-9][0-9][0-9][0-9] [+-] / { compare("cell " $1, substr($0, 22, 12)) }
/^(A|X|I[1-6]|J) / && ($1 in named) { compare("r" $1, substr($0, 20, 12)) }
/^ *[0-9]+ +[0-9]+  [0-9][0-9][0-9][0-9] / {
  times = $1
  sub(/^ *[0-9]+ +[0-9]+  [0-9]+ +[0-9]+[ *] /, "")
  if (/^[^ \t]/) count[toupper($1)] = times
}
END {
  if (failed) exit 1
  if ((getline line <wanted) > 0) wrong("there are fewer numbers than are wanted")
  while ((getline line <limits) > 0) {
    match(line, / [<>]?= /)
    name = substr(line, 1, RSTART - 1)
    sign = substr(line, RSTART + 1, RLENGTH - 2)
    limit = substr(line, RSTART + RLENGTH) + 0
    if (!(name in measure) && !(toupper(name) in count)) wrong("no line has the label " name)
    found = (name in measure ? measure[name] : count[toupper(name)]) + 0
    if (!(sign == "<=" && found <= limit || sign == ">=" && found >= limit || sign == "=" && found == limit))
      wrong(name " is " found ", and not " sign " " limit)
  }
  exit failed
}
