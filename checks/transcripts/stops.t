What ends a search before it is done: a file, by `--stop`, and the clock, by `--seconds`.

  $ touch there
  $ tdelay worst $NETLISTS/adder_8.v --stop there
  unit 1 ns
  defaulted 0
  between 10 45
  cause stop
  from 00000000000000000
  to 11111111111111111
  nodes 0
  [3]
  $ tdelay worst $NETLISTS/adder_8.v --stop there --json
  {"proved":true,"command":"worst","file":"$NETLISTS/adder_8.v","question":{"default":{"rise":1,"fall":1},"output":[],"named":[]},"unit":"1 ns","defaulted":0,"between":[10,45],"cause":"stop","from":"00000000000000000","to":"11111111111111111","nodes":0,"units":0}
  [3]
  $ tdelay worst $NETLISTS/adder_8.v --stop there --hints
  unit 1 ns
  defaulted 0
  between 10 45
  cause stop
  from 00000000000000000
  to 11111111111111111
  nodes 0
  the file of --stop ended the search; both figures are true
  [3]

Both figures have a certificate.

  $ tdelay worst $NETLISTS/adder_8.v --stop there --cert open.cert --cert-between > said; echo $?
  3
  $ tdelay check $NETLISTS/adder_8.v open.cert
  accepted between 10 45
  $ tdelay worst $NETLISTS/adder_8.v --stop there --cert none.cert > said; ls none.cert
  ls: cannot access 'none.cert': No such file or directory
  [2]

A folder is there too. Each strategy ends, with any number of workers.

  $ for way in least lead refute auto; do tdelay worst $NETLISTS/adder_8.v --stop . --strategy $way -j 3 | grep cause; done
  cause stop
  cause stop
  cause stop
  cause stop

A file that isn't there ends nothing, and isn't made.

  $ tdelay worst $NETLISTS/adder_8.v > without; echo $?
  0
  $ tdelay worst $NETLISTS/adder_8.v --stop absent > with; echo $?
  0
  $ cmp without with; ls absent
  ls: cannot access 'absent': No such file or directory
  [2]

It may come later.

  $ (sleep 1; touch later) & tdelay worst $NETLISTS/mult_8.v --strategy least --budget 10000000 --stop later > said; echo $?
  3
  $ cut -d ' ' -f 1 said | head -4; grep cause said
  unit
  defaulted
  between
  cause
  cause stop

What comes first ends the search; where both were there before, the file.

  $ tdelay worst $NETLISTS/adder_8.v --stop there --seconds 0 | grep cause
  cause stop
  $ tdelay worst $NETLISTS/adder_8.v --stop absent --seconds 0 | grep cause
  cause time
  $ tdelay worst $NETLISTS/adder_8.v --stop there --seconds 1000 | grep cause
  cause stop
  $ tdelay worst $NETLISTS/adder_8.v --stop there --budget 0 | grep cause
  cause budget

A moment may be met or violated all the same.

  $ tdelay worst $NETLISTS/adder_8.v --stop there --required 1000
  unit 1 ns
  defaulted 0
  between 10 45
  cause required
  from 00000000000000000
  to 11111111111111111
  nodes 0
  required 1000 met
  $ tdelay worst $NETLISTS/adder_8.v --stop there --required 1
  unit 1 ns
  defaulted 0
  between 10 45
  cause required
  from 00000000000000000
  to 11111111111111111
  nodes 0
  required 1 violated
  [6]

A table ends, too. What is open has two figures, or none and a bound.

  $ tdelay worst $NETLISTS/c17.v --each --stop there
  unit 1 ns
  defaulted 6
  each N22 between 2 3 edges 3
  each N23 exact 3 edges 3
  [3]
  $ tdelay worst $NETLISTS/c17.v --each --seconds 0
  unit 1 ns
  defaulted 6
  each N22 between 2 3 edges 3
  each N23 exact 3 edges 3
  [3]
  $ tdelay worst $NETLISTS/c17.v --each --changes --figures --stop there
  unit 1 ns
  defaulted 6
  each N22 between 2 3 edges 3 rise none..3 fall none..3 glitch none..3
  each N23 exact 3 edges 3 rise none..3 fall none..3 glitch none..3
  [3]
  $ tdelay worst $NETLISTS/c17.v --each --stop absent
  unit 1 ns
  defaulted 6
  each N22 exact 3 edges 3
  each N23 exact 3 edges 3
  $ tdelay worst $NETLISTS/c17.v --hazards --stop there
  unit 1 ns
  defaulted 6
  hazard N22 0 open
  hazard N22 1 open
  hazard N23 0 open
  hazard N23 1 open
  [3]
  $ tdelay worst $NETLISTS/c17.v --hazards --seconds 0
  unit 1 ns
  defaulted 6
  hazard N22 0 open
  hazard N22 1 open
  hazard N23 0 open
  hazard N23 1 open
  [3]
  $ tdelay worst $NETLISTS/c17.v --hazards --stop absent
  unit 1 ns
  defaulted 6
  hazard N22 0 can 10010 01111
  hazard N22 1 can 10110 11001
  hazard N23 0 can 00000 11111
  hazard N23 1 never
  $ tdelay worst $NETLISTS/c17.v --hazards --stop there --hints 2>&1 > said
  the search for some output ended before it was done: 1000000 nodes are the budget of each, unless memory, time or --stop ended it; all figures are true
    help: a greater --budget, at most 10000000
    help: --workers N, as many as the machine has processors
    help: or fewer pairs: --first, --second, --hold, --flips; or `tdelay parts`
  [3]

A long simulation ends, too. Where no pair was measured by then, it is one of equal vectors, if one
is admitted. Else the first simulation is finished.

  $ cat > doubling.sh <<'END'
  > echo 'module t (x0, y); input x0; output y;'
  > for level in $(seq 0 $(($1 - 1))); do
  >   echo "buf #$((2 << $1 - 1 - level)) (c$level, x$level); xor #1 (x$((level + 1)), x$level, c$level);"
  > done
  > echo "buf #1 (y, x$1); endmodule"
  > END
  $ bash doubling.sh 26 > doubling_26.v; bash doubling.sh 20 > doubling_20.v
  $ tdelay worst doubling_26.v --stop there
  unit 1 ns
  defaulted 0
  between 0 134217753
  cause stop
  from 0
  to 0
  nodes 0
  [3]
  $ for way in least lead refute auto; do tdelay worst doubling_26.v --seconds 0 --strategy $way -j 3 | grep between; done
  between 0 134217753
  between 0 134217753
  between 0 134217753
  between 0 134217753
  $ tdelay worst doubling_26.v --stop there --each
  unit 1 ns
  defaulted 0
  each y between 0 134217753 edges 134217753
  [3]
  $ tdelay worst doubling_20.v --stop there --first 0 --second 1
  unit 1 ns
  defaulted 0
  exact 2097171
  from 0
  to 1
  nodes 1

With conditions.

  $ tdelay worst $NETLISTS/c17.v --keep N22=01 --stop there
  unit 1 ns
  defaulted 6
  between none 3
  cause stop
  [3]
  $ tdelay worst $NETLISTS/c17.v --keep N22=01 --seconds 0
  unit 1 ns
  defaulted 6
  between none 3
  cause time
  [3]

A run and a check have no outcome then. Nothing goes out, and no file is written.

  $ tdelay worst $NETLISTS/c17.v --cert c17.cert > said
  $ tdelay sim $NETLISTS/c17.v 00000 11111 --seconds 0 --vcd c17.vcd
  tdelay: out of time
  [3]
  $ tdelay path $NETLISTS/c17.v 00000 11111 --seconds 0
  tdelay: out of time
  [3]
  $ tdelay check $NETLISTS/c17.v c17.cert --seconds 0
  tdelay: out of time
  [3]
  $ tdelay check $NETLISTS/c17.v c17.cert --seconds 0 --json
  {"proved":true,"command":"check","file":"$NETLISTS/c17.v","question":{"certificate":"c17.cert"},"error":{"kind":"time","message":"out of time","hint":"the seconds were over before this was done\n  help: more --seconds, or none"},"status":3}
  tdelay: out of time
  [3]
  $ tdelay sim $NETLISTS/c17.v 00000 11111 --seconds 0 --quiet
  tdelay: out of time
  [3]
  $ tdelay check $NETLISTS/c17.v c17.cert --seconds 0 --hints
  tdelay: out of time
  the seconds were over before this was done
    help: more --seconds, or none
  [3]
  $ ls c17.vcd
  ls: cannot access 'c17.vcd': No such file or directory
  [2]

With more seconds they are as without. What is wrong with the words, or that a file is not there, is said in any case.

  $ tdelay sim $NETLISTS/hazard.v 111 011 --seconds 1000 | cmp - <(tdelay sim $NETLISTS/hazard.v 111 011)
  $ tdelay path $NETLISTS/hazard.v 111 011 --seconds=1000 | cmp - <(tdelay path $NETLISTS/hazard.v 111 011)
  $ tdelay check $NETLISTS/c17.v c17.cert --seconds 18446744073709551615
  accepted 3
  $ tdelay sim nowhere.v 0 1 --seconds 0
  tdelay: cannot read nowhere.v
  [5]
  $ tdelay bound $NETLISTS/c17.v --seconds 1 2>&1 | head -1
  error: unexpected argument '--seconds' found
  $ tdelay sim $NETLISTS/c17.v 00000 11111 --seconds x 2>&1 | head -1
  error: invalid value 'x' for '--seconds <N>': invalid digit found in string
  $ tdelay path $NETLISTS/c17.v 00000 11111 --seconds 1 --seconds 2 2>&1 | head -1
  error: the argument '--seconds <N>' cannot be used multiple times
  $ tdelay check $NETLISTS/c17.v c17.cert --seconds 2>&1 | head -1
  error: a value is required for '--seconds <N>' but none was supplied

The file is neither read nor written, so it may be one of the others. Only `worst` has the option.

  $ cp $NETLISTS/adder_8.v adder.v
  $ tdelay worst adder.v --stop adder.v | grep cause
  cause stop
  $ tdelay parts $NETLISTS/c17.v --parts 2 --stop there 2>&1 | head -1
  error: unexpected argument '--stop' found
  $ tdelay worst $NETLISTS/c17.v --stop 2>&1 | head -1
  error: a value is required for '--stop <FILE>' but none was supplied
  $ tdelay worst $NETLISTS/c17.v --stop there --stop there 2>&1 | head -1
  error: the argument '--stop <FILE>' cannot be used multiple times

A search that has nothing more to try ends for its effort: `refute` can't follow a run through a
parity gate of more than 12 inputs. The default goes on with a tree, of some 200,000 nodes.

  $ cat > wide.v << END
  > module wide(a, b, c, d, e, f, g, h, i, j, k, l, m, s, y);
  >   input a, b, c, d, e, f, g, h, i, j, k, l, m, s;
  >   output y;
  >   xor #9 g1(w, a, b, c, d, e, f, g, h, i, j, k, l, m);
  >   not #1 g2(n, s);
  >   and #1 g3(p, w, s);
  >   and #1 g4(y, p, n);
  > endmodule
  > END
  $ tdelay worst wide.v --strategy refute
  unit 1 ns
  defaulted 0
  between 0 11
  cause effort
  from 00000000000000
  to 11111111111111
  nodes 0
  [3]
  $ tdelay worst wide.v --strategy refute --json
  {"proved":true,"command":"worst","file":"wide.v","question":{"default":{"rise":1,"fall":1},"output":[],"named":[]},"unit":"1 ns","defaulted":0,"between":[0,11],"cause":"effort","from":"00000000000000","to":"11111111111111","nodes":0,"units":0}
  [3]
  $ tdelay worst wide.v --strategy refute --hints 2>&1 > said
  the search has nothing more to try; both figures are true
    help: --strategy lead, which goes on where pairs keep no conditions
    help: or fewer pairs: --first, --second, --hold, --flips; or `tdelay parts`
  [3]
  $ tdelay worst wide.v | grep -E '^(between|cause|nodes)'
  between 0 11
  cause effort
  nodes 218000
  $ tdelay worst wide.v --budget 100 | grep cause
  cause budget

With `--verbose` an answer also tells how many units of work searches by spans took.

  $ tdelay worst $NETLISTS/hazard.v --strategy refute --verbose | tail -2
  nodes 1
  units 0
  $ tdelay worst $NETLISTS/mult_8.v --strategy refute --budget 100 --verbose | tail -2
  nodes 0
  units 114
  $ tdelay worst $NETLISTS/c17.v --budget 0 --verbose | tail -2
  nodes 0
  units 0

A search that lacks memory ends with what it has.

  $ (ulimit -v 20000; tdelay worst $NETLISTS/mult_8.v --strategy least --budget 3000000 > said; echo $?)
  3
  $ grep cause said
  cause memory

With `--memory N` a search by spans takes N MiB at most, about.

  $ tdelay worst $NETLISTS/mult_8.v --strategy refute --memory 0
  unit 1 ns
  defaulted 0
  between 71 121
  cause memory
  from 0000000000000000
  to 1111111111111111
  nodes 0
  [3]
  $ tdelay worst $NETLISTS/mult_8.v --strategy refute --memory 0 --hints 2>&1 > said
  the search wants more memory than --memory gives it; both figures are true
    help: more --memory, or none
    help: or fewer pairs: --first, --second, --hold, --flips; or `tdelay parts`
  [3]
  $ tdelay worst $NETLISTS/mult_8.v --strategy refute --memory 0 --keep p9=01 | grep -E '^(between|cause)'
  between none 121
  cause memory
  $ tdelay worst $NETLISTS/mult_8.v --strategy refute --memory 0 --each | grep -E 'p[01] '
  each p0 exact 4 edges 4
  each p1 between 0 8 edges 8
  $ tdelay worst $NETLISTS/mult_8.v --strategy refute --memory 1000 | cmp - <(tdelay worst $NETLISTS/mult_8.v --strategy refute)
  $ tdelay worst $NETLISTS/mult_8.v --memory 18446744073709551615 | cmp - <(tdelay worst $NETLISTS/mult_8.v)
  $ tdelay worst $NETLISTS/mult_8.v --memory x 2>&1 | head -1
  error: invalid value 'x' for '--memory <N>': invalid digit found in string
  $ tdelay sim $NETLISTS/c17.v 00000 11111 --memory 1 2>&1 | head -1
  error: unexpected argument '--memory' found
