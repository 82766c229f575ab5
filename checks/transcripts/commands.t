Help and the version go to standard output. A line with a dot alone stands for an empty one.

  $ tdelay --help | sed 's/^$/./'
  Worst transition delay of a netlist of Verilog gate primitives
  .
  Usage: tdelay <COMMAND>
  .
  Commands:
    sim    Simulates one pair of vectors: when each output changes last
    path   Shows the changes that lead to the last change of an output
    bound  Bounds the delay of all pairs of vectors that patterns allow
    worst  Searches for the worst delay, and a pair of vectors that has it
    parts  Cuts the question of `worst` into parts, and prints the options of each
    join   Joins the certificates of a question's parts into one
    check  Checks the certificate of a worst delay by the netlist alone
    info   Prints a netlist's size, depth and delays, its inputs and its outputs
    help   Print this message or the help of the given subcommand(s)
  .
  Options:
    -h, --help     Print help
    -V, --version  Print version
  .
  Examples:
    tdelay sim c17.v 00000 11111 --vcd c17.vcd
    tdelay path c17.v 00000 11111
    tdelay bound c17.v --first 0....
    tdelay worst c17.v --cert c17.cert
    tdelay parts c17.v --parts 4
    tdelay join c17.v 1.cert 2.cert 3.cert 4.cert --cert c17.cert
    tdelay check c17.v c17.cert
    tdelay info c17.v
  .
  A vector has a character for each input, in the order of the module's port list,
  and of a port of several bits from its left number to its right one. `info`
  shows that order, a line for each input: `input 0 N1` is that of a vector's
  first character. FILE may be `-` for standard input.
  Standard output has one figure a line, a key and its value: docs/MANUAL.md.
  With `--json` it has one JSON object with these keys.
  With `--hints`, or at a terminal, a refused command also prints to standard
  error what to do.
  .
  Exit status:
    0  done
    1  the text of the netlist or of a certificate is refused, or no pair is
       admitted
    2  the command line is bad, or a vector on it
    3  the search was cut short: the worst delay lies between two figures
    4  a certificate is refused, or certificates can't be joined
    5  a device failed, or memory ran out
    6  a pair is later than the required moment
  $ tdelay sim --help | sed 's/^$/./'
  Simulates one pair of vectors: when each output changes last
  .
  Usage: tdelay sim [OPTIONS] <FILE> <FROM> <TO>
  .
  Arguments:
    <FILE>  The netlist, a path, or `-` or `stdin` for standard input
    <FROM>  The first vector: 0, 1 or x for each input in the
            order that `info` shows, or `none` if there are no
            inputs
    <TO>    The second vector, which the inputs take from time 0
            or those of --at on
  .
  Options:
    -h, --help     Print help
    -V, --version  Print version
  .
  Question:
        --at <TIMES>        When each input takes its second level: a number of
                            steps for each in order, separated by commas; all 0
                            if left out. Or NAME=T, the time of the input of
                            this name, as often as needed
        --default-rise <N>  Rise delay in steps of gates without
                            a delay [default: 1]
        --default-fall <N>  Fall delay in steps of gates without
                            a delay [default: 1]
  .
  Output:
        --vcd <OUT>   Writes the waves of the pair to this file, as a
                      value change dump
        --net <NAME>  With --vcd: writes the waves of the net of this name
                      alone, as `info` or the netlist names it. Any number
                      of times: of these, in this order
        --outputs     After the other lines, which output changes last,
                      the first of several: `output NAME`
        --hints       After the line of a refusal, prints to standard
                      error what it means and what to do, as at a terminal
        --json        Prints the report as one JSON object, which has the
                      keys of the report's lines
    -q, --quiet       Prints no report: the exit status shows how the
                      command ended
  .
  Search:
        --seconds <N>  Ends the whole run, tables too, after this many
                       seconds of the clock. What `worst` leaves open then
                       lies between two figures; `sim`, `path` and `check`
                       end with status 3 and print nothing
  .
  Example:
    tdelay sim c17.v 00000 11111 --vcd c17.vcd
  $ tdelay --version
  tdelay 1 (reads certificates of versions 1 to 4)
  $ for it in sim path bound worst parts join check info; do tdelay $it --version; tdelay $it -V; done | uniq -c | sed 's/^ *//'
  16 tdelay 1 (reads certificates of versions 1 to 4)
  $ tdelay worst nowhere.v --budget 5 -V | cat
  tdelay 1 (reads certificates of versions 1 to 4)
  $ tdelay --help 2>&1 >/dev/null; tdelay sim --help 2>&1 >/dev/null; tdelay --version 2>&1 >/dev/null

Command lines that are refused: it is told why, nothing goes to standard output, and the status is 2.

  $ cat > refused <<'END'
  > #!/usr/bin/env bash
  > # Carries out a command, and shows what it writes to standard output as it is, and to standard error with a dot for an empty line.
  > tdelay "$@" 2> told
  > status=$?
  > sed 's/^$/./' told
  > exit $status
  > END
  $ bash refused simulate nor.v 0 1
  error: unrecognized subcommand 'simulate'
  .
    tip: a similar subcommand exists: 'sim'
  .
  Usage: tdelay <COMMAND>
  .
  For more information, try '--help'.
  [2]
  $ bash refused sim nor.v 0 --default-rise=0
  error: invalid value '0' for '--default-rise <N>': 0 is not in 1..=1000000000
  .
  For more information, try '--help'.
  [2]
  $ bash refused sim nor.v 0 --default-fall=1000000001
  error: invalid value '1000000001' for '--default-fall <N>': 1000000001 is not in 1..=1000000000
  .
  For more information, try '--help'.
  [2]
  $ bash refused sim nor.v 0 --default-rise=x
  error: invalid value 'x' for '--default-rise <N>': invalid digit found in string
  .
  For more information, try '--help'.
  [2]
  $ bash refused sim nor.v 0 --default-rise=1
  error: the following required arguments were not provided:
    <TO>
  .
  Usage: tdelay sim --default-rise <N> <FILE> <FROM> <TO>
  .
  For more information, try '--help'.
  [2]

Numbers outside their ranges, another name of a strategy, a value behind a flag, and a flag twice.

  $ while read -r words; do tdelay $words 2> told; echo $? $(head -c 6 told); done <<'END'
  > worst lost.v --budget=10000001
  > worst lost.v --workers=0
  > worst lost.v --workers=65
  > worst lost.v --default-fall=0
  > worst lost.v --strategy most
  > worst lost.v --strategy LEAD
  > worst lost.v --strategy=
  > bound lost.v --edges=true
  > bound lost.v --edges --edges
  > END
  2 error:
  2 error:
  2 error:
  2 error:
  2 error:
  2 error:
  2 error:
  2 error:
  2 error:

No line of help is wider than 80 columns.

  $ (tdelay --help; for command in sim path bound worst parts join check info; do tdelay $command --help; done) | awk 'length > 80 { print } END { print (NR > 150) }'
  1
