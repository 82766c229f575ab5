What `--quiet` leaves: messages, files and the status, and no report.

  $ tdelay worst $NETLISTS/hazard.v --quiet --cert hazard.cert
  $ tdelay check $NETLISTS/hazard.v -q hazard.cert && echo right
  right
  $ tdelay check $NETLISTS/c17.v -q hazard.cert
  [4]
  $ tdelay worst $NETLISTS/adder_8.v -q --strategy least --budget 20
  [3]
  $ tdelay sim $NETLISTS/c17.v 00000 1111 -q
  tdelay: bad vector TO
  [2]
  $ tdelay info missing.v -q
  tdelay: cannot read missing.v
  [5]

The letter stands alone or before others, and the last one may have a value. What follows `-j` or `-o` is its value.

  $ tdelay worst $NETLISTS/c17.v -qj2
  $ tdelay worst $NETLISTS/c17.v -j2 -qoc17.cert && head -1 c17.cert
  tdelay-cert 1
  $ tdelay worst $NETLISTS/c17.v -oq && ls q
  unit 1 ns
  defaulted 6
  exact 3
  from 00000
  to 11111
  nodes 1
  q
  $ tdelay worst $NETLISTS/c17.v -j2q 2>&1 | head -1
  error: invalid value '2q' for '--workers <N>': invalid digit found in string

A file that goes to standard output goes there, and help is printed.

  $ tdelay worst $NETLISTS/c17.v -q --cert - | cmp - c17.cert
  $ tdelay worst $NETLISTS/c17.v --each -q
  $ tdelay worst --each -q --help | head -1
  Searches for the worst delay, and a pair of vectors that has it
  $ tdelay sim -q --help | head -1
  Simulates one pair of vectors: when each output changes last
  $ tdelay info $NETLISTS/c17.v -- -q 2>&1 | head -1
  error: unexpected argument '-q' found
  $ tdelay info -q $NETLISTS/c17.v --json
  $ tdelay info -qq $NETLISTS/c17.v 2>&1 | head -1
  error: the argument '--quiet' cannot be used multiple times
