# A source of so many lines for bench/assembler/run: awk -v lines=20000 -f source.awk
# Of each 200 lines 39 are instructions, each with a symbol of its own that a later line defines, and 160 give a symbol its value by EQU: by a
# number, or by the symbol of the line before and 1. The others are remarks in front, and END.
BEGIN {
  words = int(lines * 39 / 200)
  symbols = int(lines * 160 / 200)
  operations = split("LDA STA ADD SUB LD1 ST6 LDX STX CMPA CMPX CMP1 JMP JANZ J1P JXNZ ENTA ENTX INC1 MUL DIV", operation, " ")
  for (k = words + symbols + 1; k < lines; k++) print "*       a line that says nothing to the assembler"
  for (k = 0; k < words; k++) printf "        %-4s NAME%05d\n", operation[k % operations + 1], k * 7 % symbols
  for (k = 0; k < symbols; k++) {
    if (k % 2 == 0) printf "NAME%05d EQU %d\n", k, k % 4000
    else printf "NAME%05d EQU NAME%05d+1\n", k, k - 1
  }
  print "        END 0"
}
