
What help says, to the letter: --help of each word of the command line, and help of each word of a session. tests/test_commands.py compares
what both say with docs/FORMATS.md.

  $ mixrev --help
  Knuth's MIX computer, its assembler MIXAL, and a debugger that runs backwards
  
  Usage: mixrev <COMMAND>
  
  Commands:
    run    Runs a program to its halt and writes what it prints
    debug  Executes commands on the program of a source, forwards and backwards
    list   Writes the listing of a source
    check  Reports all faults of sources
    dap    Is the debug adapter of an editor
    lsp    Is the language server of an editor
  
  Options:
    -h, --help     Print help
    -V, --version  Print version
  
  A source is a program in the language MIXAL. A deck says what tapes, disks and
  cards hold before the program runs. A script is a text file of commands, one a
  line, such as: step 4, back 2, forth 1, set A 7, break LOOP, run 1000, show
  regs.
  
  Without any words, mixrev reads a bundle from standard input, if that is no
  terminal: the source; after a line %DEVICES a deck; after a line %SCRIPT a
  script. The deck and the script may be left out. As the name of a file, - is
  standard input.
  
  Examples:
    mixrev run primes.mixal
    mixrev debug primes.mixal
    mixrev debug primes.mixal session.txt --devices tapes.deck
    mixrev list primes.mixal
    mixrev check primes.mixal sieve.mixal
  
  The status is 0 if all is accepted, 1 if a source is refused, and 3 if a command
  is refused, a step meets a fault, the steps of a run are used up or a strict run
  ends before a conflict. It is 2 if nothing could be run to its end: a mistake in
  the words, a file that cannot be opened, read or replaced, a deck that is
  refused, a text that is too long, an output that takes no more, or no memory.
  $ mixrev run --help
  Runs a program to its halt and writes what it prints
  
  Usage: mixrev run [OPTIONS] <SOURCE>
  
  Arguments:
    <SOURCE>  The file with the program, in the language MIXAL
  
  Options:
        --cards <FILE>       The cards of the reader, one a line, not the deck's
        --typewriter <FILE>  The lines that the typewriter gives, not the deck's
        --devices <FILE>     The deck: what tapes, disks and cards hold at first
        --steps <N>          The most steps that are done, 1000000000 if left out
        --unit <N>           Only the rows of this unit, 17 to 20; may be repeated
        --trace              Writes each step too, before what it prints
        --registers          Writes the registers and the clock at the end too
        --strict             Ends before a step that conflicts with a transfer
        --keep <FILE>        Writes what the units hold at the end, as a deck
        --svg <FILE>         Writes a picture of which lines were executed when
        --counts             Writes no rows, but how often each line was executed
        --formulas <NAMES>   Writes no rows, but formulas beside counts: N=10,A=1
        --writes <PART>      Writes no rows, but changes of this part: A, 100, X+1
        --csv                Writes the table, or the trace, as CSV
        --json               Writes the table, or the trace, as JSON
        --latex              Writes the table, or the trace, as LaTeX
    -h, --help               Print help
  
  The program runs to its halt, and what it prints is written at once: the rows of
  the card punch, the printer, the typewriter and the paper tape in the order in
  which they are printed, without the blanks at their ends, and a page mark as a
  form feed. If a step meets a fault, or the steps are used up, one line on
  standard error says where. It cannot go back.
  A step that uses cells of a transfer that is not over is a mistake, such as a
  store into a line that is still printed. The first of them is printed there, and
  how many there are; with --strict the run ends before it.
  With --trace the line of each step, with what it altered, comes before what it
  prints. With --registers the lines of `show regs` are written at the end. With
  --keep the tapes and disks are there for the next program: it reads that file
  with --devices. With --svg the picture has the lines of the source against the
  steps of the run: darker where a line was executed more often.
  With --counts a table has a row for each instruction that was executed: the line
  of the source, the location, how often, and the time in u. With --formulas it
  has one for each line with a formula in brackets, such as [N-1]: how often it
  was executed, the value of the formula, and whether they agree. With --writes it
  has a row for each change of a part, with its values before and after. With
  --trace and one of --csv, --json and --latex it has a row for each step. A run
  with --svg, --counts or --formulas keeps its history, so a program without an
  end needs --steps.
  A bundle may take the place of a source: its deck is taken, unless --devices
  names another, and its script is left out.
  
  Example:
    mixrev run primes.mixal --unit 18
  $ mixrev debug --help
  Executes commands on the program of a source, forwards and backwards
  
  Usage: mixrev debug [OPTIONS] <SOURCE> [SCRIPT]
  
  Arguments:
    <SOURCE>  The file with the program, in the language MIXAL
    [SCRIPT]  The file with the commands, one a line; without it standard input
  
  Options:
        --devices <FILE>  The deck: what tapes, disks and cards hold at first
        --echo            Writes each command of SCRIPT before its reply
    -h, --help            Print help
  
  Without a script it is interactive: it reads a command from standard input,
  executes it and prints its reply before it reads the next. At a terminal, help
  lists the commands, and quit ends the session, as the end of the input does.
  
  A script is a text file of commands, one a line: step N and run N go on, trace N
  shows each step, back N takes changes back, forth N does them again, goto N goes
  to the state after the first N, set, break and clear change the machine, and
  show shows its state, the last changes, what differs and how often each
  instruction was executed. With until A, until cell 100 and the like, run N, back
  and forth stop when that is altered. A deck is a text file that says what tapes,
  disks and cards hold before the program runs: a line such as %UNIT 0, and its
  blocks after it.
  A bundle may take the place of a source: its deck is taken, unless --devices
  names another, and its script is left out.
  
  Example: with the two lines `run 1000` and `show regs` in the file session.txt,
    mixrev debug primes.mixal session.txt
  runs the program up to its halt and shows the registers.
  $ mixrev list --help
  Writes the listing of a source
  
  Usage: mixrev list [OPTIONS] <SOURCE>
  
  Arguments:
    <SOURCE>  The file with the program, in the language MIXAL
  
  Options:
        --latex  Writes the lines as a table of LaTeX
    -h, --help   Print help
  
  A source is a text file with a program in the language MIXAL, which ends with a
  line END. The listing has each line with its location and its word, and then the
  program's symbols. If the source is refused, it has only the first fault.
  With --latex a table has each line in the columns of the book: its number, LOC,
  OP, ADDRESS, the formula in brackets and the remark.
  
  Example:
    mixrev list primes.mixal
  $ mixrev check --help
  Reports all faults of sources
  
  Usage: mixrev check [OPTIONS] <SOURCE>...
  
  Arguments:
    <SOURCE>...  The files with the programs, in the language MIXAL
  
  Options:
        --json  Writes each fault as one JSON object a line
    -h, --help  Print help
  
  Nothing is run. Each fault is reported as compilers do, with its file, line and
  column, the line and a mark; the sources one after the other. A source without
  faults gives nothing. The status is 1 if a source has a fault.
  
  Example:
    mixrev check primes.mixal sieve.mixal
  $ mixrev dap --help
  Is the debug adapter of an editor
  
  Usage: mixrev dap
  
  Options:
    -h, --help  Print help
  
  It speaks the Debug Adapter Protocol on standard input and output, for the
  editor that starts it: breakpoints in the source, steps forth and back,
  registers, cells and units.
  $ mixrev lsp --help
  Is the language server of an editor
  
  Usage: mixrev lsp
  
  Options:
    -h, --help  Print help
  
  It speaks the Language Server Protocol on standard input and output, for the
  editor that starts it: faults and warnings as one writes, where a name is
  defined and used, and a new name for it.
  $ for command in '' run debug list check dap lsp; do mixrev $command --help; done | grep -E '.{81}'
  [1]

A session whose input is a terminal; the echo and the prompts are left out.
  $ printf ' END 0\n' > s
  $ talk() { printf "$1" > in; script -qec 'mixrev debug s > out' /dev/null < in > /dev/null; sed 's/(mixrev) //g' out; }
  $ talk 'help\n'
  stderr: Type a command, such as step, back 1 or show regs; help lists them all, quit ends.
  stderr: step, run, trace     go on, step by step; run stops at breakpoints, trace shows each step
  stderr: back, forth, goto    take changes back, do them again, go to a numbered state
  stderr: set                  changes the machine
  stderr: break, clear         set a breakpoint, take one away; finish goes on to where a subroutine returns
  stderr: show                 shows the machine, its code, its past, counts
  stderr: quit                 ends the session
  stderr: A command may be shortened: s is step, b break, ba back, u until; n is step too, c is run.
  stderr: back and forth alone take 1, run alone 1000000. Who wrote cell 100? run, then back until cell 100.
  stderr: watch COND makes run, back and forth stop there from now on; delete ends that.
  stderr: print shows a register, cell E or a word W; list shows the source, where what comes next.
  stderr: display shows what print shows after each stop; undisplay ends that.
  stderr: save FILE saves what was done, as a bundle: mixrev < FILE does it again.
  stderr: source FILE does the lines of FILE, as if they were typed.
  stderr: reload reads the source again, and does there what was done so far.
  stderr: help COMMAND explains one, as help back. A blank line repeats the last command.
  stderr: 
  $ talk 'help step\nhelp run\nhelp trace\nhelp back\nhelp forth\nhelp goto\nhelp set\nhelp break\nhelp clear\nhelp show\nhelp quit\nhelp until\nhelp cond\nhelp print\nhelp x\nhelp where\nhelp list\nhelp watch\nhelp delete\nhelp display\nhelp undisplay\nhelp save\nhelp source\nhelp reload\nhelp help\nhelp me\n'
  stderr: Type a command, such as step, back 1 or show regs; help lists them all, quit ends.
  stderr: step             does one step
  stderr: step N           does N steps, 1 to 1000000, fewer if a halt or a fault comes
  stderr: After a halt, step and run without a number do nothing. rs takes one step back.
  stderr: run N            does N steps, 1 to 1000000, fewer if a halt, a fault or a breakpoint comes
  stderr: run N until COND also stops when a step reaches COND, and shows that step
  stderr: advance E is run until loc E; finish is that with the location that rJ has: where the subroutine
  stderr: returns that was entered last, until another JMP is done.
  stderr: trace            does one step and shows what it altered
  stderr: trace N          does N steps as step N, and shows each
  stderr: back N           takes the last N changes back
  stderr: back all         takes every change back
  stderr: back break       takes changes back up to a breakpoint
  stderr: back until COND  takes changes back until COND is reached, and shows the last: who wrote this?
  stderr: forth N          does the next N changes again that were taken back
  stderr: forth all        does all of them again
  stderr: forth until COND does them again until COND is reached, and shows the last
  stderr: goto N           goes to the state after the first N changes, back or forth
  stderr: set REG W        puts the word W into a register: A, X, I1 to I6, J
  stderr: set cell E W     puts the word W into cell E
  stderr: set loc E        sets the location
  stderr: set over on      sets the overflow toggle; or off
  stderr: set cmp L        sets the comparison indicator: L, E or G
  stderr: Each is a change, and can be taken back.
  stderr: break E          gives cell E a breakpoint, where run stops; clear E takes it away
  stderr: break line N     the same for the first line of the source, from line N on, that gives a word
  stderr: clear all takes all away. What you type here is no change, and back takes none of it back: each run
  stderr: waits for it, as until loc E. In a script, as of mixrev debug SOURCE SCRIPT, it is a change.
  stderr: break E          gives cell E a breakpoint, where run stops; clear E takes it away
  stderr: break line N     the same for the first line of the source, from line N on, that gives a word
  stderr: clear all takes all away. What you type here is no change, and back takes none of it back: each run
  stderr: waits for it, as until loc E. In a script, as of mixrev debug SOURCE SCRIPT, it is a change.
  stderr: show regs        the registers, toggle, indicator, location and clock
  stderr: show all         everything in use: registers, cells, breakpoints, units
  stderr: show cells E E   the cells from the first to the second
  stderr: show unit N      a unit, 0 to 20, and what it holds
  stderr: show code [E E]  the cell at the location, or cells: word, instruction, line of the source
  stderr: show value W     a word as bytes, as a number and in characters
  stderr: show values [E E]  the registers, or cells, in the same way
  stderr: show last N      what the last N changes altered
  stderr: show writes COND  each change done that reaches COND, and what it altered, the first one first
  stderr: show diff N      what differs between the state after N changes and now
  stderr: show counts      how often each instruction was executed, and the time that it took
  stderr: show conflicts   each change done that conflicts with a transfer under way, and with which
  stderr: show clock, show breaks, show changes, show symbols
  stderr: show nodes from E to E, N words each, label F, links F, heads H  lists and trees in cells
  stderr: show passages E of ITEM  the parts ITEM each time that E was reached; assert A > 0 tests them
  stderr: show analysis [N=10]  the counts in brackets in the source, as [N-1], beside the measured ones
  stderr: show map         which instructions were executed when
  stderr: quit             ends the session, as the end of the input does
  stderr: COND is a register, over, cmp, cell E, unit N, loc E or conflict: a change reaches it by altering
  stderr: what it names, by leading to location E, or by a conflict with a transfer under way. As:
  stderr: run 1000 until A, back until cell 100, run 1000 until conflict. Up to eight may be joined
  stderr: by or: run 1000 until A or loc LOOP ends with the first step that reaches one of them.
  stderr: COND is a register, over, cmp, cell E, unit N, loc E or conflict: a change reaches it by altering
  stderr: what it names, by leading to location E, or by a conflict with a transfer under way. As:
  stderr: run 1000 until A, back until cell 100, run 1000 until conflict. Up to eight may be joined
  stderr: by or: run 1000 until A or loc LOOP ends with the first step that reaches one of them.
  stderr: print A          shows rA; print over, cmp, loc, clock that; print alone the registers
  stderr: print cell E     shows cell E as bytes, as a number and in characters; x E does too
  stderr: print W          shows the word W in the same way; a symbol is its location
  stderr: If a symbol has a register's name, print X and watch X mean the symbol, and rX the register.
  stderr: where            shows what comes next, as show code
  stderr: list             shows the lines of the source around what comes next; again those after them
  stderr: list LINE        shows those around a line, or around the line of a symbol
  stderr: print A          shows rA; print over, cmp, loc, clock that; print alone the registers
  stderr: print cell E     shows cell E as bytes, as a number and in characters; x E does too
  stderr: print W          shows the word W in the same way; a symbol is its location
  stderr: If a symbol has a register's name, print X and watch X mean the symbol, and rX the register.
  stderr: where            shows what comes next, as show code
  stderr: list             shows the lines of the source around what comes next; again those after them
  stderr: list LINE        shows those around a line, or around the line of a symbol
  stderr: print A          shows rA; print over, cmp, loc, clock that; print alone the registers
  stderr: print cell E     shows cell E as bytes, as a number and in characters; x E does too
  stderr: print W          shows the word W in the same way; a symbol is its location
  stderr: If a symbol has a register's name, print X and watch X mean the symbol, and rX the register.
  stderr: where            shows what comes next, as show code
  stderr: list             shows the lines of the source around what comes next; again those after them
  stderr: list LINE        shows those around a line, or around the line of a symbol
  stderr: print A          shows rA; print over, cmp, loc, clock that; print alone the registers
  stderr: print cell E     shows cell E as bytes, as a number and in characters; x E does too
  stderr: print W          shows the word W in the same way; a symbol is its location
  stderr: If a symbol has a register's name, print X and watch X mean the symbol, and rX the register.
  stderr: where            shows what comes next, as show code
  stderr: list             shows the lines of the source around what comes next; again those after them
  stderr: list LINE        shows those around a line, or around the line of a symbol
  stderr: watch COND       run stops there too from now on, back and forth alone go up to it: until COND
  stderr: delete           nothing is watched any more
  stderr: Each watch adds to what is watched, up to eight conditions. COND is as after until; help until
  stderr: says more. A symbol alone is its cell.
  stderr: watch COND       run stops there too from now on, back and forth alone go up to it: until COND
  stderr: delete           nothing is watched any more
  stderr: Each watch adds to what is watched, up to eight conditions. COND is as after until; help until
  stderr: says more. A symbol alone is its cell.
  stderr: display A        shows rA now, and after each stop from now on
  stderr: display cell E   shows cell E, and display W a word, in the same way: as print does
  stderr: undisplay        nothing is displayed any more
  stderr: display A        shows rA now, and after each stop from now on
  stderr: display cell E   shows cell E, and display W a word, in the same way: as print does
  stderr: undisplay        nothing is displayed any more
  stderr: save FILE        saves the source, the deck and what was done in FILE, as a bundle
  stderr: mixrev < FILE does the same again. A file that holds something else is not replaced.
  stderr: save! FILE       replaces it, whatever it holds
  stderr: source FILE      does the lines of FILE, one after the other, as if each were typed here
  stderr: If FILE can't be read, nothing is done. FILE can't use source, save or reload itself.
  stderr: reload           assembles the source again, as it is now, and does there what was done so far
  stderr: Breakpoints stay, and what is watched or displayed: break LOOP is at LOOP again, if that has moved.
  stderr: If the source is refused, the session goes on as it was.
  stderr: step, run, trace     go on, step by step; run stops at breakpoints, trace shows each step
  stderr: back, forth, goto    take changes back, do them again, go to a numbered state
  stderr: set                  changes the machine
  stderr: break, clear         set a breakpoint, take one away; finish goes on to where a subroutine returns
  stderr: show                 shows the machine, its code, its past, counts
  stderr: quit                 ends the session
  stderr: A command may be shortened: s is step, b break, ba back, u until; n is step too, c is run.
  stderr: back and forth alone take 1, run alone 1000000. Who wrote cell 100? run, then back until cell 100.
  stderr: watch COND makes run, back and forth stop there from now on; delete ends that.
  stderr: print shows a register, cell E or a word W; list shows the source, where what comes next.
  stderr: display shows what print shows after each stop; undisplay ends that.
  stderr: save FILE saves what was done, as a bundle: mixrev < FILE does it again.
  stderr: source FILE does the lines of FILE, as if they were typed.
  stderr: reload reads the source again, and does there what was done so far.
  stderr: help COMMAND explains one, as help back. A blank line repeats the last command.
  stderr: There is no help on that; help alone names the commands.
  stderr: 

Wrong words are answered with the right ones.
  $ talk 'step x\nrun x\ntrace x\nback x\nforth x\ngoto x\nset x\nbreak\nclear\nshow me\nwatch\ndelete x\ndisplay\nundisplay x\nlist x y\nsave\nsource\nreload x\n'
  ? C2 bad argument
  ? C2 bad argument
  ? C2 bad argument
  ? C2 bad argument
  ? C2 bad argument
  ? C2 bad argument
  ? C2 bad argument
  ? C2 bad argument
  ? C2 bad argument
  ? C2 bad argument
  ? C1 no such command
  ? C1 no such command
  ? C1 no such command
  stderr: Type a command, such as step, back 1 or show regs; help lists them all, quit ends.
  stderr: step takes a number, 1 to 1000000, or nothing
  stderr: run takes a number, 1 to 1000000, until COND, both or nothing
  stderr: trace takes a number, 1 to 1000000, or nothing
  stderr: back takes a number, all, break or until COND
  stderr: forth takes a number, all or until COND
  stderr: goto takes a number
  stderr: set takes REG W, cell E W, loc E, over on, over off or cmp L, E, G
  stderr: break takes E, a cell, or line N
  stderr: clear takes E, a cell, line N or all; show breaks lists them
  stderr: show takes regs, all, cells E E, unit N, code, value W, values, last N, writes COND, diff N,
  stderr: counts, conflicts, clock, breaks, changes, symbols, nodes, passages, analysis or map
  stderr: watch takes COND: a register, over, cmp, cell E, unit N, loc E or conflict
  stderr: delete takes nothing: it forgets what is watched; clear E takes a breakpoint away
  stderr: A  + 00 00 00 00 00           0  "     "
  stderr: X  + 00 00 00 00 00           0  "     "
  stderr: I1 + 00 00                    0  "  "
  stderr: I2 + 00 00                    0  "  "
  stderr: I3 + 00 00                    0  "  "
  stderr: I4 + 00 00                    0  "  "
  stderr: I5 + 00 00                    0  "  "
  stderr: I6 + 00 00                    0  "  "
  stderr: J  + 00 00                    0  "  "
  stderr: undisplay takes nothing: nothing is displayed any more
  stderr: list takes the number of a line, a symbol, or nothing
  stderr: save takes the name of a file
  stderr: source takes the name of a file
  stderr: reload takes nothing
  stderr: 
  $ talk 'watch cell 0\nwatch cell 1\nwatch cell 2\nwatch cell 3\nwatch cell 4\nwatch cell 5\nwatch cell 6\nwatch cell 7\nwatch cell 8\n'
  stderr: Type a command, such as step, back 1 or show regs; help lists them all, quit ends.
  stderr: watching cell 0
  stderr: watching cell 0 or cell 1
  stderr: watching cell 0 or cell 1 or cell 2
  stderr: watching cell 0 or cell 1 or cell 2 or cell 3
  stderr: watching cell 0 or cell 1 or cell 2 or cell 3 or cell 4
  stderr: watching cell 0 or cell 1 or cell 2 or cell 3 or cell 4 or cell 5
  stderr: watching cell 0 or cell 1 or cell 2 or cell 3 or cell 4 or cell 5 or cell 6
  stderr: watching cell 0 or cell 1 or cell 2 or cell 3 or cell 4 or cell 5 or cell 6 or cell 7
  stderr: no more than eight are watched or are breakpoints; delete forgets those, clear all these
  stderr: 

Commands of gdb and of mixvm: each is refused, whatever follows it, and what to type here is written. Capitals count the same.
  $ hints() { talk "$(printf '%s\\n' "$@")" | grep -v -e '^stderr: $' -e 'Type a command' | uniq -c; }
  $ hints 'load a.mixal' 'file a.mixal'
        2 ? C1 no such command
        2 stderr: mixrev debug SOURCE opens a source; quit ends this session
  $ hints start
        1 ? C1 no such command
        1 stderr: run takes a number, 1 to 1000000, until COND, both or nothing
  $ hints 'info registers'
        1 ? C1 no such command
        1 stderr: show takes regs, all, cells E E, unit N, code, value W, values, last N, writes COND, diff N,
        1 stderr: counts, conflicts, clock, breaks, changes, symbols, nodes, passages, analysis or map
  $ hints 'i b'
        1 ? C1 no such command
        1 stderr: show takes regs, all, cells E E, unit N, code, value W, values, last N, writes COND, diff N,
        1 stderr: counts, conflicts, clock, breaks, changes, symbols, nodes, passages, analysis or map
  $ hints 'preg A' pflags pc pstat
        4 ? C1 no such command
        4 stderr: print shows the registers, print A rA alone; show regs has the toggle and the indicator
  $ hints pall
        1 ? C1 no such command
        1 stderr: show all shows everything in use
  $ hints 'pmem 100'
        1 ? C1 no such command
        1 stderr: print cell E shows a cell, x E E cells
  $ hints psym
        1 ? C1 no such command
        1 stderr: show symbols shows them all, print SYMBOL one
  $ hints 'weval 5+3'
        1 ? C1 no such command
        1 stderr: print takes W, a word
  $ hints w2d
        1 ? C1 no such command
        1 stderr: print takes W, a word: 5 or LOOP+1
  $ hints 'sreg A 5' 'smem 100 5' scmp sover
        4 ? C1 no such command
        4 stderr: set REG W sets a register, set cell E W a cell, set over on the toggle, set cmp L
  $ hints ssym
        1 ? C1 no such command
        1 stderr: a symbol keeps its value; set cell E W sets the cell
  $ hints 'jump 3'
        1 ? C1 no such command
        1 stderr: set loc E sets the location; goto takes a number of changes
  $ hints 'sbp 3' 'sbpa 2' 'sbpr A' sbpm sbpc sbpo rwatch enable awatch hbreak catch
       11 ? C1 no such command
       11 stderr: break takes E, a cell, or line N; watch takes COND
  $ hints 'tbreak 2' thbreak
        2 ? C1 no such command
        2 stderr: advance E stops at E once; break E each time
  $ hints 'condition 1 A' 'ignore 1 2' commands
        3 ? C1 no such command
        3 stderr: a breakpoint has no condition: run until COND stops once, watch COND each time
  $ hints 'cbp 3' cbpa cabp disable
        4 ? C1 no such command
        4 stderr: clear takes E, a cell, line N or all; show breaks lists them
  $ hints 'cbpr A' cbpm cbpc cbpo
        4 ? C1 no such command
        4 stderr: delete forgets what is watched
  $ hints 'strace on' pbt sbt bt backtrace history when
        7 ? C1 no such command
        7 stderr: show last N shows what the last N changes altered; trace N shows each step
  $ hints stime ptime
        2 ? C1 no such command
        2 stderr: show clock shows the time
  $ hints up down
        2 ? C1 no such command
        2 stderr: finish goes on to where the subroutine returns: print J shows where that is
  $ hints 'finish 1'
        1 ? C1 no such command
        1 stderr: finish takes nothing; run until loc E stops at E
  $ hints reverse-finish
        1 ? C1 no such command
        1 stderr: back until loc E goes back to E: the JMP that called
  $ hints reverse-continue rc undo
        3 ? C1 no such command
        3 stderr: back takes a number, all, break or until COND
  $ hints seek record
        2 ? C1 no such command
        2 stderr: all is recorded: back takes changes back, goto N goes to one
  $ hints restart
        1 ? C1 no such command
        1 stderr: back all begins anew
  $ hints disassemble 'disas LOOP' frame
        3 ? C1 no such command
        3 stderr: where shows what comes next, where E E cells as instructions; list shows the source
  $ hints ptype 'whatis A' 'inspect A' 'output A' printf 'call A'
        6 ? C1 no such command
        6 stderr: print takes a register, over, cmp, loc, clock, cell E or a word W
  $ hints kill k
        2 ? C1 no such command
        2 stderr: quit ends this session
  $ hints pline psrc pprog layout
        4 ? C1 no such command
        4 stderr: list takes the number of a line, a symbol, or nothing
  $ hints edit compile sedit pedit sasm pasm
        6 ? C1 no such command
        6 stderr: edit the source elsewhere: reload reads it again
  $ hints 'shell ls' '!' '!ls' sddir pddir scm scmf slog prompt pwd 'cd x'
       11 ? C1 no such command
       11 stderr: a shell has that: quit ends this session
  $ hints x/ 'x/4x 100' 'x/4 100'
        3 ? C1 no such command
        3 stderr: x E shows a cell, x E E those from the first to the second
  $ hints p/ 'p/x A' print/ print/x
        4 ? C1 no such command
        4 stderr: print shows bytes, number and characters at once
  $ hints '&'
        1 ? C1 no such command
        1 stderr: a symbol is its location: x X shows the cell
  $ hints LOAD Bt X/4X
        3 ? C1 no such command
        1 stderr: mixrev debug SOURCE opens a source; quit ends this session
        1 stderr: show last N shows what the last N changes altered; trace N shows each step
        1 stderr: x E shows a cell, x E E those from the first to the second
