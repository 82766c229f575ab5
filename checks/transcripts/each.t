Each output by itself: `worst --each`.

  $ cat > two.v <<'END'
  > module two(a, b, y, \z+ );
  > input a, b;
  > output y;
  > output [1:0] \z+ ;
  > and #2 (y, a, b);
  > not #(5,4) (\z+ [1], a);
  > xor (\z+ [0], a, b);
  > endmodule
  > END
  $ tdelay worst two.v --each
  unit 1 ns
  defaulted 1
  each y exact 2 edges 2
  each \z+ [1] exact 5 edges 5
  each \z+ [0] exact 1 edges 1
  $ tdelay worst $NETLISTS/c17.v --each
  unit 1 ns
  defaulted 6
  each N22 exact 3 edges 3
  each N23 exact 3 edges 3
  $ tdelay worst $NETLISTS/adder_8.v --each
  unit 1 ns
  defaulted 0
  each s0 exact 9 edges 9
  each s1 exact 14 edges 14
  each s2 exact 19 edges 19
  each s3 exact 24 edges 24
  each s4 exact 29 edges 29
  each s5 exact 34 edges 34
  each s6 exact 39 edges 39
  each s7 exact 44 edges 44
  each cout exact 45 edges 45

Each line is what a search of this output alone says, and the bound by edges of this output alone.

  $ tdelay worst two.v --output '\z+ [1]' | grep exact
  exact 5
  $ tdelay bound two.v --edges --output '\z+ [1]' | grep '^e '
  e 5

Options that say what is asked go along. The whole budget is each output's. Where one is cut short, the status is 3.

  $ tdelay worst two.v --each --pin a=1 --at b=3
  unit 1 ns
  defaulted 1
  each y exact 5 edges 5
  each \z+ [1] exact 0 edges 0
  each \z+ [0] exact 4 edges 4
  $ tdelay worst two.v --each --first 0. --hold-input b
  unit 1 ns
  defaulted 1
  each y exact 2 edges 2
  each \z+ [1] exact 4 edges 4
  each \z+ [0] exact 1 edges 1
  $ tdelay worst two.v --each --budget 0
  unit 1 ns
  defaulted 1
  each y between 2 2 edges 2
  each \z+ [1] between 4 5 edges 5
  each \z+ [0] between 0 1 edges 1
  [3]
  $ tdelay worst $NETLISTS/lost_pulse.v --each --strategy least --budget 3
  unit 1 ns
  defaulted 0
  each y between 0 3 edges 3
  [3]
  $ tdelay worst $NETLISTS/lost_pulse.v --each --strategy least --budget 7
  unit 1 ns
  defaulted 0
  each y exact 0 edges 3
  $ tdelay worst two.v --each --default-rise 4 --workers 2 --strategy lead --seconds 600
  unit 1 ns
  defaulted 1
  each y exact 2 edges 2
  each \z+ [1] exact 5 edges 5
  each \z+ [0] exact 4 edges 4
  $ tdelay worst --each -- two.v
  unit 1 ns
  defaulted 1
  each y exact 2 edges 2
  each \z+ [1] exact 5 edges 5
  each \z+ [0] exact 1 edges 1

As JSON, and from standard input.

  $ tdelay worst two.v --each --json
  {"proved":true,"command":"worst","file":"two.v","question":{"default":{"rise":1,"fall":1},"output":[],"named":[]},"unit":"1 ns","defaulted":1,"each":[{"output":"y","exact":2,"edges":2},{"output":"\\z+ [1]","exact":5,"edges":5},{"output":"\\z+ [0]","exact":1,"edges":1}]}
  $ tdelay worst two.v --json --each --budget 0
  {"proved":true,"command":"worst","file":"two.v","question":{"default":{"rise":1,"fall":1},"output":[],"named":[]},"unit":"1 ns","defaulted":1,"each":[{"output":"y","between":[2,2],"edges":2},{"output":"\\z+ [1]","between":[4,5],"edges":5},{"output":"\\z+ [0]","between":[0,1],"edges":1}]}
  [3]
  $ tdelay worst - --each < two.v
  unit 1 ns
  defaulted 1
  each y exact 2 edges 2
  each \z+ [1] exact 5 edges 5
  each \z+ [0] exact 1 edges 1

With `--vectors` a row has a pair that shows its figure, in JSON too, where one is known: also of an output that isn't searched.

  $ tdelay worst two.v --each --vectors
  unit 1 ns
  defaulted 1
  each y exact 2 edges 2 from 00 to 11
  each \z+ [1] exact 5 edges 5 from 10 to 01
  each \z+ [0] exact 1 edges 1 from 00 to 01
  $ tdelay worst two.v --each --vectors --json
  {"proved":true,"command":"worst","file":"two.v","question":{"default":{"rise":1,"fall":1},"output":[],"named":[]},"unit":"1 ns","defaulted":1,"each":[{"output":"y","exact":2,"edges":2,"from":"00","to":"11"},{"output":"\\z+ [1]","exact":5,"edges":5,"from":"10","to":"01"},{"output":"\\z+ [0]","exact":1,"edges":1,"from":"00","to":"01"}]}
  $ tdelay worst two.v --vectors --budget 0 --each
  unit 1 ns
  defaulted 1
  each y between 2 2 edges 2 from 00 to 11
  each \z+ [1] between 4 5 edges 5 from 00 to 11
  each \z+ [0] between 0 1 edges 1 from 00 to 11
  [3]
  $ tdelay worst two.v --each --vectors --changes --required 4
  unit 1 ns
  defaulted 1
  each y exact 2 edges 2 from 00 to 11 rise 2 fall 2 glitch never required met slack 2
  each \z+ [1] exact 5 edges 5 from 10 to 01 rise 5 fall 4 glitch never required violated slack -1
  each \z+ [0] exact 1 edges 1 from 00 to 01 rise 1 fall 1 glitch never required met slack 3
  [6]
  $ tdelay worst two.v --each --vectors --seconds 0 --keep y=01
  unit 1 ns
  defaulted 1
  each y between none 2 edges 2
  each \z+ [1] between none 5 edges 5
  each \z+ [0] between none 1 edges 1
  [3]
  $ tdelay worst two.v --each --vectors --strategy refute
  unit 1 ns
  defaulted 1
  each y exact 2 edges 2 from 00 to 11
  each \z+ [1] exact 5 edges 5 from 10 to 01
  each \z+ [0] exact 1 edges 1 from 10 to 00
  $ tdelay worst $NETLISTS/c17.v --each --vectors --seconds 0
  unit 1 ns
  defaulted 6
  each N22 between 2 3 edges 3 from 00000 to 11111
  each N23 exact 3 edges 3 from 00000 to 11111
  [3]
  $ tdelay worst $NETLISTS/c17.v --each --vectors --keep N22=01 --keep N23=01
  unit 1 ns
  defaulted 6
  each N22 exact 3 edges 3 from 00110 to 11010
  each N23 exact 3 edges 3 from 00110 to 10101

Each pair has the figure, as the run of it says.

  $ for net in c17 adder_8 hazard late_fall passed_pulse; do
  >   tdelay worst $NETLISTS/$net.v --each --vectors | grep ^each > rows
  >   while read -r _ name _ figure _ _ _ from _ to; do
  >     tdelay sim $NETLISTS/$net.v $from $to | grep -qx "last $name $figure" || echo "$net $name $from $to isn't $figure"
  >   done < rows
  >   wc -l < rows
  > done; rm rows
  2
  9
  1
  1
  1

It is an option of `--each` alone.

  $ tdelay worst nowhere.v --vectors
  tdelay: --vectors is part of --each: write --each --vectors
  [2]
  $ tdelay worst nowhere.v --vectors --hazards
  tdelay: --vectors is part of --each: write --each --vectors
  [2]
  $ tdelay worst nowhere.v --vectors --each --hazards
  tdelay: --hazards doesn't go together with --each, --changes or --figures: leave it or them out
  [2]
  $ tdelay worst nowhere.v --vectors --each --path
  tdelay: --each doesn't go together with --path: write --output NAME in place of --each
  [2]
  $ tdelay worst two.v --each --vectors --vectors 2>&1 | head -1
  error: the argument '--vectors' cannot be used multiple times

With `--progress` standard error names each output as it is begun, and has its line once it is found. Standard output is as without it.

  $ tdelay worst two.v --each --progress 2> told | grep -c ^each
  3
  $ sed 's/ seconds [0-9]*$/ ../' told
  rows 0 of 3 output y ..
  each y exact 2 edges 2
  rows 1 of 3 output \z+ [1] ..
  each \z+ [1] exact 5 edges 5
  rows 2 of 3 output \z+ [0] ..
  each \z+ [0] exact 1 edges 1
  $ tdelay worst two.v --each --changes --json --progress 2> told | cmp - <(tdelay worst two.v --each --changes --json); wc -l < told
  6
  $ tdelay worst two.v --each --changes --vectors --required 3 --progress > rows 2> told; echo $?
  6
  $ grep ^each rows | cmp - <(grep ^each told); rm told rows

Without outputs there is no line.

  $ printf "module wire_only(a); input a; endmodule" > bare.v
  $ tdelay worst bare.v --each
  unit 1 ns
  defaulted 0
  $ tdelay worst bare.v --each --json
  {"proved":true,"command":"worst","file":"bare.v","question":{"default":{"rise":1,"fall":1},"output":[],"named":[]},"unit":"1 ns","defaulted":0}

Options that belong to one answer: the first of them is named, and no file is read or written.

  $ tdelay worst nowhere.v --each --output y
  tdelay: --each doesn't go together with --output: leave one of them out
  [2]
  $ tdelay worst nowhere.v --each --outputs
  tdelay: --each doesn't go together with --outputs: leave one of them out
  [2]
  $ tdelay worst nowhere.v --each --cert c
  tdelay: --each doesn't go together with --cert: write --output NAME in place of --each
  [2]
  $ tdelay worst nowhere.v --each -o c
  tdelay: --each doesn't go together with --cert: write --output NAME in place of --each
  [2]
  $ tdelay worst nowhere.v --each --vcd v
  tdelay: --each doesn't go together with --vcd: write --output NAME in place of --each
  [2]
  $ tdelay worst nowhere.v --each --path
  tdelay: --each doesn't go together with --path: write --output NAME in place of --each
  [2]
  $ tdelay worst two.v --progress --path --each --vcd two.v --cert c --hints
  tdelay: --each doesn't go together with --cert: write --output NAME in place of --each
  [2]
  $ tdelay worst two.v --each --outputs --json
  {"proved":true,"command":"worst","file":"two.v","question":{"default":{"rise":1,"fall":1},"output":[],"named":[]},"error":{"kind":"command","message":"--each doesn't go together with --outputs: leave one of them out"},"status":2}
  tdelay: --each doesn't go together with --outputs: leave one of them out
  [2]
  $ ls
  bare.v
  two.v

Other refusals are as without it.

  $ tdelay worst nowhere.v --each
  tdelay: cannot read nowhere.v
  [5]
  $ echo 'module t(a); input a; output y; endmodule' > bad.v; tdelay worst bad.v --each
  tdelay: netlist fault 15 PortUndeclared at line 1
  [1]
  $ tdelay worst two.v --each --first 0
  tdelay: bad vector first
  [2]
  $ tdelay worst two.v --each --first 0. --second 1. --hold =.
  tdelay: no admitted pair
  [1]
  $ tdelay worst two.v --each --pin c=1
  tdelay: no input c
  [2]
  $ tdelay worst two.v --each > /dev/full
  tdelay: cannot write stdout
  [5]
  $ tdelay worst two.v --each --json > /dev/full
  tdelay: cannot write stdout
  [5]

Hints are as without it, but of the search for some output.

  $ tdelay worst two.v --each --first 0 --hints
  tdelay: bad vector first
  --first: 2 characters, one for each of a b; got 1
    help: write 0, 1 or . (free) for each, the first character for the first input
  [2]
  $ tdelay worst two.v --each --budget 0 --hints > said
  the search for some output ended before it was done: 0 nodes are the budget of each, unless memory, time or --stop ended it; all figures are true
    help: a greater --budget, at most 10000000
    help: --workers N, as many as the machine has processors
    help: or fewer pairs: --first, --second, --hold, --flips; or `tdelay parts`
  [3]

It is an option of `worst` alone, once, without a value. After `--` it is none.

  $ tdelay bound two.v --each 2>&1 | head -1
  error: unexpected argument '--each' found
  $ tdelay check two.v c --each 2>&1 | head -1
  error: unexpected argument '--each' found
  $ tdelay worst two.v --each --each 2>&1 | head -1
  error: the argument '--each' cannot be used multiple times
  $ tdelay worst two.v --each=y 2>&1 | head -1
  error: unexpected value 'y' for '--each' found; no more were expected
  $ tdelay worst two.v -- --each 2>&1 | head -1
  error: unexpected argument '--each' found
  $ tdelay worst --each 2>&1 | head -2
  error: the following required arguments were not provided:
    <FILE>
  $ tdelay worst --each --help | cmp - <(tdelay worst --help)
