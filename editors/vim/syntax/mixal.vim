" Vim syntax of MIXAL, and of bundles: LOC, OP, ADDRESS and remarks by the rules of docs/LANGUAGE.md.
if exists("b:current_syntax")
  finish
endif

" A marker may stand far above.
syntax sync fromstart
syntax case ignore

" LOC at the first byte of the line, or none; then OP.
syntax match mixalNoLocation "^[ \t]\+" nextgroup=@mixalOp
syntax match mixalBadSymbol "^[^ \t]\+" nextgroup=mixalBlank
syntax match mixalLabel "^\%([0-9]*[A-Z]\)\@=[A-Z0-9]\{1,10}\%([ \t]\+[^ \t]\)\@=" nextgroup=mixalBlank
syntax match mixalBadSymbol "^[0-9][BF][ \t]\@=" nextgroup=mixalBlank
syntax match mixalLocalLabel "^[0-9]H\%([ \t]\+[^ \t]\)\@=" nextgroup=mixalBlank
syntax match mixalBlank "[ \t]\+" contained nextgroup=@mixalOp
syntax match mixalComment "^\*.*$"

syntax cluster mixalOp contains=mixalUnknown,mixalOperation,mixalRemarked,mixalPseudo,mixalAlf,mixalEnd
syntax match mixalUnknown "[^ \t]\+" contained nextgroup=mixalRemark
syntax match mixalOperation "\%(NOP\|ADD\|SUB\|MUL\|DIV\|SLA\|SRA\|SLAX\|SRAX\|SLC\|SRC\|MOVE\|LD[A1-6X]\|LD[A1-6X]N\|ST[A1-6X]\|STJ\|STZ\|JBUS\|IOC\|IN\|OUT\|JRED\|JMP\|JSJ\|JOV\|JNOV\|JL\|JE\|JG\|JGE\|JNE\|JLE\|J[A1-6X]N\|J[A1-6X]Z\|J[A1-6X]P\|J[A1-6X]NN\|J[A1-6X]NZ\|J[A1-6X]NP\|INC[A1-6X]\|DEC[A1-6X]\|ENT[A1-6X]\|ENN[A1-6X]\|CMP[A1-6X]\)\%([ \t]\|$\)\@=" contained nextgroup=mixalAddress skipwhite
syntax match mixalRemarked "\%(HLT\|NUM\|CHAR\)\%([ \t]\|$\)\@=" contained nextgroup=mixalLetterRemark,mixalNoLetter skipwhite
syntax match mixalPseudo "\%(EQU\|ORIG\|CON\)\%([ \t]\|$\)\@=" contained nextgroup=mixalAddress skipwhite

" After HLT, NUM and CHAR a text that begins with a letter is a remark.
syntax match mixalLetterRemark "[A-Z].*$" contained
syntax match mixalRemark "[ \t].*$" contained
syntax match mixalNoLetter "[^A-Z \t][^ \t]*" contained contains=@mixalExpression nextgroup=mixalRemark
syntax match mixalAddress "[^ \t]\+" contained contains=@mixalExpression nextgroup=mixalRemark

" The characters of ALF: in quotes, or five after one blank, or five after two.
syntax match mixalAlf "ALF\%([ \t]\|$\)\@=" contained nextgroup=mixalFive,mixalFiveAfterTwo,mixalQuoted,mixalBadQuoted
syntax match mixalFiveAfterTwo "[ \t]\{2}.\{,5}" contained nextgroup=mixalRest
syntax match mixalFive "[ \t]\%([^ \t]\)\@=.\{,5}" contained nextgroup=mixalRest
syntax match mixalRest ".\+$" contained
syntax match mixalBadQuoted "[ \t]\+\".*$" contained
syntax match mixalQuoted "[ \t]\+\"[^\"]\{,5}\"" contained nextgroup=mixalRemark

" Atoms and operators. A star is the location where an atom is due, and else an operator.
syntax cluster mixalExpression contains=mixalBad,mixalEquals,mixalSymbol,mixalNumber,mixalBadAtom,mixalLocal,mixalOperator,mixalHere,mixalPunctuation
syntax match mixalBad "[^A-Z0-9=]" contained
syntax match mixalEquals "=" contained
syntax match mixalBadAtom "[A-Z0-9]\+" contained
syntax match mixalNumber "[0-9]\{1,10}[A-Z0-9]\@!" contained
syntax match mixalSymbol "\%([0-9]*[A-Z]\)\@=[A-Z0-9]\{1,10}[A-Z0-9]\@!" contained
syntax match mixalBadAtom "[0-9]H[A-Z0-9]\@!" contained
syntax match mixalLocal "[0-9][BF][A-Z0-9]\@!" contained
syntax match mixalPunctuation "[,()]" contained
syntax match mixalOperator "//\|[-+/:*]" contained
syntax match mixalOperator "\*\*\@=" contained nextgroup=mixalNextHere
syntax match mixalNextHere "\*" contained
syntax match mixalHere "[A-Z0-9*]\@<!\*" contained

" After END nothing is read, up to a marker; then the deck, and the script.
syntax match mixalEnd "END\%([ \t]\|$\)\@=" contained nextgroup=mixalLast skipwhite
syntax region mixalAfterEnd start="^\%(\%([^ \t*][^ \t]*\)\?[ \t]\+END\%([ \t].*\)\?\n\)\@<=" end="^\%(%DEVICES$\|%SCRIPT$\)\@=" keepend
syntax match mixalLast "[^ \t]\+" contained contains=@mixalExpression nextgroup=mixalRemark
syntax case match
syntax region mixalDeck matchgroup=mixalMarker start="^%DEVICES$" end="^\%(%SCRIPT$\)\@=" contains=mixalHeader
syntax region mixalScript matchgroup=mixalMarker start="^%SCRIPT$" end="\%$" contains=mixalComment,mixalCommand
syntax case ignore
syntax match mixalHeader "^%UNIT[ \t].*$" contained contains=mixalUnit,mixalNumber
syntax match mixalUnit "^%UNIT\|delay" contained
syntax match mixalCommand "^[ \t]*\%(step\|run\|trace\|back\|forth\|goto\|set\|break\|clear\|show\)\%([ \t]\|$\)\@=" contained

highlight default link mixalComment Comment
highlight default link mixalRemark Comment
highlight default link mixalLetterRemark Comment
highlight default link mixalRest Comment
highlight default link mixalAfterEnd Comment
highlight default link mixalLabel Label
highlight default link mixalLocalLabel Label
highlight default link mixalBadSymbol Error
highlight default link mixalOperation Statement
highlight default link mixalRemarked Statement
highlight default link mixalUnknown Error
highlight default link mixalPseudo PreProc
highlight default link mixalAlf PreProc
highlight default link mixalEnd PreProc
highlight default link mixalFive String
highlight default link mixalFiveAfterTwo String
highlight default link mixalQuoted String
highlight default link mixalBadQuoted Error
highlight default link mixalBad Error
highlight default link mixalBadAtom Error
highlight default link mixalEquals Delimiter
highlight default link mixalPunctuation Delimiter
highlight default link mixalSymbol Identifier
highlight default link mixalLocal Identifier
highlight default link mixalNumber Number
highlight default link mixalHere Special
highlight default link mixalNextHere Special
highlight default link mixalOperator Operator
highlight default link mixalMarker PreProc
highlight default link mixalUnit Special
highlight default link mixalCommand Statement

let b:current_syntax = "mixal"
