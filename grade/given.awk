# Writes a source with the constants and the blocks of the file `data` instead of its own, as README.md says of a case's data. If the source has no such
# line, it says which on standard error, and the status is 1.
BEGIN {
  while ((getline line <data) > 0) {
    if (line ~ /^\* end of /) name = ""
    else if (line ~ /^\* /) { name = substr(line, 3); block[name] = "" }
    else if (name != "") block[name] = block[name] line "\n"
    else if (split(line, word)) constant[toupper(word[1])] = line
  }
}
{ line = $0; sub(/\r$/, "", line) }
open != "" && line != "* end of " open { next }
{ open = "" }
line ~ /^\* / && (substr(line, 3) in block) { open = substr(line, 3); met[open]; print; printf "%s", block[open]; next }
/^[^ \t*]/ && (toupper($1) in constant) { met[toupper($1)]; print constant[toupper($1)]; next }
{ print }
END {
  for (name in constant) if (!(name in met)) missing = name
  for (name in block) if (!(name in met)) missing = "* " name
  if (open != "") missing = "* end of " open
  if (missing != "") { print missing >"/dev/stderr"; exit 1 }
}
