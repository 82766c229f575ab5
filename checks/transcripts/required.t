Whether all outputs settle by a required moment (`--required`), and certificates of answers that
stay open (`--cert-between`).

  $ cp "$NETLISTS/hazard.v" "$NETLISTS/c17.v" "$NETLISTS/mult_8.v" .

Violated by the given pair, met, and met with room.

  $ tdelay worst hazard.v --required 4
  unit 1 ns
  defaulted 0
  exact 5
  from 000
  to 101
  nodes 9
  required 4 violated
  [6]
  $ tdelay worst hazard.v --required 5
  unit 1 ns
  defaulted 0
  exact 5
  from 000
  to 101
  nodes 9
  required 5 met
  $ tdelay worst hazard.v --required 6 --strategy lead
  unit 1 ns
  defaulted 0
  exact 5
  from 110
  to 011
  nodes 1
  required 6 met
  $ tdelay worst hazard.v --required 0 --path --outputs
  unit 1 ns
  defaulted 0
  exact 5
  from 000
  to 101
  nodes 9
  required 0 violated
  output y
  change 0 s 0 1 input
  change 3 n 1 0 not 3
  change 4 q 1 0 and 1
  change 5 y 1 0 or 1
  [6]

By spans the search ends once that is known: the figures that decide it stay open.

  $ tdelay worst mult_8.v --strategy refute --required 100 --cert late.cert
  unit 1 ns
  defaulted 0
  between 105 121
  cause required
  from 0000111111110001
  to 0110011101010111
  nodes 0
  required 100 violated
  [6]
  $ tdelay check mult_8.v late.cert
  accepted between 105 121
  $ tdelay worst mult_8.v --strategy refute --required 125 --cert met.cert
  unit 1 ns
  defaulted 0
  between 71 121
  cause required
  from 0000000000000000
  to 1111111111111111
  nodes 0
  required 125 met
  $ tdelay check mult_8.v met.cert
  accepted between 71 121

A required moment that stays open has no certificate, unless that is asked for.

  $ tdelay worst mult_8.v --strategy least --budget 200 --required 100 --cert open.cert
  unit 1 ns
  defaulted 0
  between 71 134
  cause budget
  from 0000000000000000
  to 1111111111111111
  nodes 200
  required 100 open
  [3]
  $ test -e open.cert
  [1]
  $ tdelay worst mult_8.v --strategy least --budget 200 --required 100 --cert open.cert --cert-between
  unit 1 ns
  defaulted 0
  between 71 134
  cause budget
  from 0000000000000000
  to 1111111111111111
  nodes 200
  required 100 open
  [3]
  $ tdelay check mult_8.v open.cert
  accepted between 71 134

Without a required moment.

  $ tdelay worst mult_8.v --strategy least --budget 200 --cert plain.cert
  unit 1 ns
  defaulted 0
  between 71 134
  cause budget
  from 0000000000000000
  to 1111111111111111
  nodes 200
  [3]
  $ test -e plain.cert
  [1]
  $ tdelay worst mult_8.v --strategy refute --budget 20 --cert plain.cert --cert-between
  unit 1 ns
  defaulted 0
  between 117 121
  cause budget
  from 0001010011110001
  to 1100100111110011
  nodes 0
  [3]
  $ tdelay check mult_8.v plain.cert
  accepted between 117 121
  $ tdelay worst c17.v --cert c17.cert --cert-between
  unit 1 ns
  defaulted 6
  exact 3
  from 00000
  to 11111
  nodes 1
  $ head -2 c17.cert
  tdelay-cert 1
  circuit 5 6

With conditions: of a pair that keeps them, of none that is known, and of none that there is.

  $ tdelay worst hazard.v --keep y=01 --required 4 --cert kept.cert
  unit 1 ns
  defaulted 0
  exact 5
  from 100
  to 001
  nodes 1
  required 4 violated
  [6]
  $ tdelay check hazard.v kept.cert
  accepted 5
  keep 8 01
  $ tdelay worst hazard.v --keep y=01 --required 5
  unit 1 ns
  defaulted 0
  between 2 5
  cause required
  from 000
  to 111
  nodes 0
  required 5 met
  $ tdelay worst mult_8.v --keep p15=11 --required 200 --budget 0
  unit 1 ns
  defaulted 0
  between none 121
  cause required
  required 200 met
  $ tdelay worst mult_8.v --keep p15=11 --required 100 --budget 0
  unit 1 ns
  defaulted 0
  between none 121
  cause budget
  required 100 open
  [3]
  $ tdelay worst hazard.v --keep a=10 --keep a=01 --required 5
  unit 1 ns
  defaulted 0
  none
  nodes 1
  [1]

No input changes, and no pair.

  $ tdelay worst hazard.v --hold === --required 0
  unit 1 ns
  defaulted 0
  exact 0
  from 000
  to 000
  nodes 31
  required 0 met
  $ tdelay worst hazard.v --first 0.. --second 1.. --hold =.. --required 5
  tdelay: no admitted pair
  [1]

Of each output by itself: how the required moment stands, and its slack, which is below 0 where the
output is later. The search for an output ends once that is known. The status is that of the worst
row.

  $ tdelay worst c17.v --each --required 3
  unit 1 ns
  defaulted 6
  each N22 exact 3 edges 3 required met slack 0
  each N23 exact 3 edges 3 required met slack 0
  $ tdelay worst c17.v --each --required 2
  unit 1 ns
  defaulted 6
  each N22 exact 3 edges 3 required violated slack -1
  each N23 exact 3 edges 3 required violated slack -1
  [6]
  $ tdelay worst mult_8.v --each --strategy refute --budget 1 --required 110 | tail -6
  each p10 between 58 100 edges 100 required met slack 10..52
  each p11 between 54 105 edges 105 required met slack 5..56
  each p12 between 69 110 edges 110 required met slack 0..41
  each p13 between 112 115 edges 115 required violated slack -5..-2
  each p14 between 115 120 edges 120 required violated slack -10..-5
  each p15 between 112 121 edges 121 required violated slack -11..-2
  $ tdelay worst mult_8.v --each --strategy refute --budget 1 --required 121 --quiet
  $ tdelay worst mult_8.v --each --strategy refute --budget 1 --required 110 --quiet
  [6]
  $ tdelay worst mult_8.v --each --strategy refute --budget 1 --required 90 --quiet
  [6]

With changes, whose figures are searched for as without it; of pairs that keep conditions, where none
is known, and where there is none.

  $ tdelay worst c17.v --each --changes --required 2
  unit 1 ns
  defaulted 6
  each N22 exact 3 edges 3 rise 3 fall 3 glitch 3 required violated slack -1
  each N23 exact 3 edges 3 rise 3 fall 3 glitch 3 required violated slack -1
  [6]
  $ tdelay worst c17.v --each --required 2 --keep N22=11 --budget 0
  unit 1 ns
  defaulted 6
  each N22 between none 3 edges 3 required open slack -1..none
  each N23 between none 3 edges 3 required open slack -1..none
  [3]
  $ tdelay worst hazard.v --each --required 4 --keep a=10 --keep a=01
  unit 1 ns
  defaulted 0
  each y none edges 5 required met slack none
  $ tdelay worst hazard.v --each --required 4 --keep a=10 --keep a=01 --json | grep -o '"named.*'
  "named":[{"option":"--keep","word":"a=10"},{"option":"--keep","word":"a=01"}],"required":4},"unit":"1 ns","defaulted":0,"each":[{"output":"y","none":true,"edges":5,"standing":"met","slack":{"none":true}}]}

By bounds alone, those by edges too: met, or open at once. Inputs may be held, and flips counted.

  $ tdelay bound hazard.v --required 5
  unit 1 ns
  defaulted 0
  a 5
  t none
  m 5
  e 5
  n 5
  required 5 met
  $ tdelay bound hazard.v --required 4 --outputs --earliest
  unit 1 ns
  defaulted 0
  a 5
  t none
  m 5
  e 5
  n 5
  output y
  earliest 2
  required 4 open
  [3]
  $ tdelay bound hazard.v --pin s=1 --hold ==. --flips 1 --required 4
  unit 1 ns
  defaulted 0
  a 2
  t none
  m 2
  e 2
  n 2
  required 4 met
  $ tdelay bound hazard.v --hold-input s --at a=2 --required 6
  unit 1 ns
  defaulted 0
  a 5
  t none
  m 5
  e 5
  n 5
  required 6 met
  $ tdelay bound hazard.v --hold ==
  tdelay: bad vector hold
  [2]
  $ tdelay bound hazard.v --hold-input q
  tdelay: no input q
  [2]

`parts` hands it on to each part.

  $ tdelay parts hazard.v --parts 2 --required 4 --flips 2 --at 0,0,1
  --first 0.. --second ... --flips 2 --at 0,0,1 --required 4
  --first 1.. --second ... --flips 2 --at 0,0,1 --required 4

Words that say no moment, and options that don't go together.

  $ tdelay worst hazard.v --required
  error: a value is required for '--required <N>' but none was supplied
  
  For more information, try '--help'.
  [2]
  $ tdelay worst hazard.v --required -1
  error: unexpected argument '-1' found
  
  Usage: tdelay worst [OPTIONS] <FILE>
  
  For more information, try '--help'.
  [2]
  $ tdelay worst hazard.v --required soon
  error: invalid value 'soon' for '--required <N>': invalid digit found in string
  
  For more information, try '--help'.
  [2]
  $ tdelay worst hazard.v --required 18446744073709551615
  unit 1 ns
  defaulted 0
  exact 5
  from 000
  to 101
  nodes 9
  required 18446744073709551615 met
  $ tdelay worst hazard.v --required 18446744073709551616
  error: invalid value '18446744073709551616' for '--required <N>': number too large to fit in target type
  
  For more information, try '--help'.
  [2]
  $ tdelay worst hazard.v --hazards --required 5
  tdelay: --hazards doesn't go together with --required: write --output NAME --keep NAME== in place of --hazards
  [2]
  $ tdelay sim hazard.v 000 101 --required 5
  error: unexpected argument '--required' found
  
    help: bound, worst, parts and join take --required, sim doesn't
  
  Usage: tdelay sim <FILE> <FROM> <TO>
  
  For more information, try '--help'.
  [2]
  $ tdelay bound hazard.v --required soon
  error: invalid value 'soon' for '--required <N>': invalid digit found in string
  
  For more information, try '--help'.
  [2]
  $ tdelay worst hazard.v --cert-between
  tdelay: --cert-between wants --cert: write --cert OUT beside it
  [2]
