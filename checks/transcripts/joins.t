What certificates are joined into, and what keeps them from being joined. Those whose times are made up are joined with `--no-check`: `join`
says nothing of their times and bounds then.

  $ cat > two.v <<'END'
  > module t(a, b, y);
  > input a, b;
  > output y;
  > and #2 g(y,a,b);
  > endmodule
  > END
  $ cat > part.sh <<'END'
  > # The text of a certificate: the circuit, the pins of both vectors, what is held, the flips, the moments if any, the time, its pair and
  > # the lines of the tree.
  > [ -z "$6" ] && version=2 || version=3
  > printf '%s\n' "tdelay-cert $version" "circuit $1" "first $2" "second $3" "hold $4" "flips $5" ${6:+"at $6"} "time $7" "from $8" "to $9" "${@:10}"
  > END
  $ cat > tree.sh <<'END'
  > # What certificates are joined into: the report without its head, and the tree.
  > tdelay join two.v --no-check "$@" --cert whole | sed 1,2d | paste -sd' '
  > sed '1,/^to /d' whole | paste -sd,
  > END

Two halves by the first level of the first input, in both orders, and one with a tree of its own.

  $ bash part.sh '2 1' 0. .. .. 2 '' 3 00 11 'b a 3' > low
  > bash part.sh '2 1' 1. .. .. 2 '' 5 10 01 'b a 5' > high
  > bash part.sh '2 1' 0. .. .. 2 '' 3 00 11 's 2' 'b a 3' 'b a 2' > grown
  $ bash tree.sh low high
  > bash tree.sh high grown
  unchecked 5 from 10 to 01 nodes 3
  s 0,b a 3,b a 5
  unchecked 5 from 10 to 01 nodes 5
  s 0,s 2,b a 3,b a 2,b a 5

Where the first input is held, cubes without a pair are left out between them. The words give the question of the whole.

  $ bash part.sh '2 1' 0. 0. =. 2 '' 3 00 01 'b a 3' > low_held
  > bash part.sh '2 1' 1. 1. =. 2 '' 5 10 11 'b a 5' > high_held
  $ bash tree.sh low_held high_held --hold =.
  > bash tree.sh high_held --first 1. --second .. --hold-input a
  unchecked 5 from 10 to 11 nodes 7 first .. second .. hold =. flips 2
  s 0,s 1,b a 3,none,s 1,none,b a 5
  unchecked 5 from 10 to 11 nodes 3 first 1. second .. hold =. flips 2
  s 1,none,b a 5

Certificates of other circuits and of other questions.

  $ bash part.sh '2 2' 1. .. .. 2 '' 5 10 01 'b a 5' > more_gates
  > bash part.sh '3 1' 1.. ... ... 2 '' 5 100 011 'b a 5' > more_inputs
  > bash part.sh '2 1' 1. .. =. 2 '' 5 10 01 'b a 5' > other_hold
  > bash part.sh '2 1' 1. .. .. 1 '' 5 10 01 'b a 5' > other_flips
  > bash part.sh '2 1' 1. .. .. 2 '0 7' 5 10 01 'b a 5' > other_moments
  $ for other in more_gates more_inputs other_hold other_flips other_moments; do tdelay join two.v --no-check low $other 2>&1 || echo $?; done
  tdelay: more_gates: other circuit
  4
  tdelay: more_inputs: other circuit
  4
  tdelay: cannot join low and other_hold: other inputs held
  4
  tdelay: cannot join low and other_flips: other flips
  4
  tdelay: cannot join low and other_moments: other input times
  4

Pins that aren't a part of those of the whole, and pins of another number of inputs.

  $ tdelay join two.v --no-check low high --first 0. --second ..
  tdelay: high: other pins
  [4]
  $ tdelay join two.v --no-check low --first ... --second ...
  tdelay: bad vector first
  [2]

A pair in both, also where neither is a part of the other. Three that fit as bricks do. A part that is missing. A leaf without a pair where all
pairs are admitted.

  $ cp low again
  > bash part.sh '2 1' .0 .. .. 2 '' 5 10 01 'b a 5' > across
  > bash part.sh '2 1' 0. 1. .. 2 '' 3 00 11 'b a 3' > brick
  > bash part.sh '2 1' .1 0. .. 2 '' 5 11 01 'b a 5' > other_brick
  > bash part.sh '2 1' 10 .. .. 2 '' 5 10 01 'b a 5' > last_brick
  > bash part.sh '2 1' 1. .. .. 2 '' 0 10 10 none > empty
  $ tdelay join two.v --no-check low high again
  tdelay: cannot join low and again: a pair in both
  [4]
  $ tdelay join two.v --no-check low across
  tdelay: cannot join low and across: a pair in both
  [4]
  $ tdelay join two.v --no-check brick other_brick last_brick
  tdelay: cannot join brick and last_brick: no position parts them
  [4]
  $ tdelay join two.v --no-check low --first .. --second ..
  tdelay: no part for --first 1. --second ..
  [4]
  $ tdelay join two.v --no-check low empty
  tdelay: empty: a leaf without a pair
  [4]

Parts that claim that no pair is admitted: what is joined claims what another part does, and that no pair is admitted where all do.

  $ cat > none.sh <<'END'
  > # The text of a certificate about the pairs in which y ends so: the pins of the second vector, the form, and the lines of claim and tree.
  > printf '%s\n' 'tdelay-cert 4' 'circuit 2 1' 'default 1 1' 'output all' 'first ..' "second $1" 'hold ..' 'flips 2' 'at 0 0' "keep 4 $2" "${@:3}"
  > END
  $ bash none.sh 0. .1 'time none' none > never
  > bash none.sh 1. .1 'time 2' 'high 2' 'from 00' 'to 11' 'b e 2' > rises
  $ tdelay join two.v never rises --keep y=.1 --cert whole
  unit 1 ns
  defaulted 0
  exact 2
  from 00
  to 11
  nodes 3
  keep 4 .1
  $ tdelay check two.v whole
  accepted 2
  keep 4 .1
  $ bash none.sh 01 .1 'time none' x 'f 2' 'f 4' 'k 2' 't 3 0' 'u 1' 'l 0 0 1 2' 'q none' > steps
  > bash none.sh 00 .1 'time none' none > least
  $ tdelay join two.v steps least --second 0. --keep y=.1 --cert whole
  unit 1 ns
  defaulted 0
  none
  nodes 3
  second 0.
  keep 4 .1
  $ tdelay check two.v whole
  accepted none
  second 0.
  keep 4 .1
  $ sed -n '/^time/,$p' whole | paste -sd,
  time none,s 3,none,x,f 2,f 4,k 2,t 3 0,u 1,l 0 0 1 2,q none
  $ sed 's/^l .*/l 0 0 1/' steps > hintless; tdelay join two.v hintless least --second 0. --keep y=.1
  tdelay: hintless: refused 10 BadStep line 18
  [4]
  $ tdelay join two.v hintless least --second 0. --keep y=.1 --no-check
  unit 1 ns
  defaulted 0
  unchecked none
  nodes 3
  second 0.
  keep 4 .1

Each part is checked unless the words say `--no-check`. The whole is the question of the words, and a part that is missing is refused, be there
words or none. The words of a narrower question ask for that alone, and the report says what it is about, as `check` does of the whole.

  $ cat > cut.sh <<'END'
  > # The parts of the question of these words, searched: part-1, part-2, ..
  > rm -f part-*
  > tdelay parts two.v --parts 3 "$@" > lines
  > while read -r line; do part=$((part + 1)); tdelay worst two.v $line --strategy least --cert part-$part --quiet; done < lines
  > END
  $ bash cut.sh
  $ tdelay join two.v part-1 part-2 part-3 --cert whole
  unit 1 ns
  defaulted 0
  exact 2
  from 11
  to 00
  nodes 9
  $ tdelay check two.v whole
  accepted 2
  $ tdelay join two.v part-1 part-3
  tdelay: no part for --first 1. --second ..
  [4]
  $ tdelay join two.v part-1
  tdelay: no part for --first 0. --second 1.
  [4]
  $ tdelay join two.v part-1 $(sed -n 1p lines)
  unit 1 ns
  defaulted 0
  exact 0
  from 00
  to 01
  nodes 1
  first 0.
  second 0.
  hold ..
  flips 2
  $ tdelay join two.v part-2 part-3 --first 1.
  tdelay: part-3: other pins
  [4]
  $ tdelay join two.v part-1 part-2 part-3 --no-check
  unit 1 ns
  defaulted 0
  unchecked 2
  from 11
  to 00
  nodes 9
  $ tdelay join two.v part-1 part-2 part-3 --no-check --json
  {"proved":true,"command":"join","file":"two.v","question":{"default":{"rise":1,"fall":1},"output":[],"named":[]},"unit":"1 ns","defaulted":0,"unchecked":{"exact":2},"from":"11","to":"00","nodes":9}
  $ sed 's/^time .*/time 1/' part-2 > wrong; tdelay join two.v part-1 wrong part-3
  tdelay: wrong: refused 2 PairTime
  [4]
  $ tdelay join two.v part-1 wrong part-3 --no-check --quiet; echo $?
  0

Each option that says what is asked: the parts are joined with it, and the lines after `nodes` are those of `check`. Without it, or with more,
they are parts of another question.

  $ cat > asked.sh <<'END'
  > # What the parts of the question of these words are joined into with them, the lines that `check` has after its first, and what comes
  > # without them.
  > bash cut.sh "$@"
  > tdelay join two.v part-? "$@" --cert whole | sed 1,2d | paste -sd,
  > tdelay check two.v whole | sed 1d | paste -sd,
  > tdelay join two.v part-? 2>&1
  > END
  $ bash asked.sh --first 1.
  exact 2,from 10,to 11,nodes 5,first 1.,second ..,hold ..,flips 2
  first 1.,second ..,hold ..,flips 2
  tdelay: no part for --first 0. --second ..
  [4]
  $ bash asked.sh --second .0
  exact 2,from 11,to 00,nodes 5,first ..,second .0,hold ..,flips 2
  first ..,second .0,hold ..,flips 2
  tdelay: no part for --first 0. --second .1
  [4]
  $ bash asked.sh --pin a=1
  exact 2,from 11,to 10,nodes 5,first 1.,second 1.,hold ..,flips 2
  first 1.,second 1.,hold ..,flips 2
  tdelay: no part for --first 0. --second ..
  [4]
  $ bash asked.sh --hold .=
  exact 2,from 11,to 01,nodes 13,first ..,second ..,hold .=,flips 2
  first ..,second ..,hold .=,flips 2
  tdelay: parts of another question: other inputs held
  [4]
  $ bash asked.sh --hold-input b
  exact 2,from 11,to 01,nodes 13,first ..,second ..,hold .=,flips 2
  first ..,second ..,hold .=,flips 2
  tdelay: parts of another question: other inputs held
  [4]
  $ bash asked.sh --flips 1
  exact 2,from 11,to 01,nodes 13,first ..,second ..,hold ..,flips 1
  first ..,second ..,hold ..,flips 1
  tdelay: parts of another question: other flips
  [4]
  $ bash asked.sh --at 0,7
  exact 9,from 10,to 11,nodes 9,first ..,second ..,hold ..,flips 2,at 0 7
  first ..,second ..,hold ..,flips 2,at 0 7
  tdelay: parts of another question: other input times
  [4]
  $ bash asked.sh --at a=3 --flips 1 --pin b=1
  exact 5,from 11,to 01,nodes 5,first .1,second .1,hold ..,flips 1,at 3 0
  first .1,second .1,hold ..,flips 1,at 3 0
  tdelay: no part for --first 00 --second 0.
  [4]
  $ bash cut.sh
  $ tdelay join two.v part-1 part-2 part-3 --hold .=
  tdelay: parts of another question: other inputs held
  [4]
  $ tdelay join two.v part-1 part-2 part-3 --flips 1
  tdelay: parts of another question: other flips
  [4]
  $ tdelay join two.v part-1 part-2 part-3 --at 0,7
  tdelay: parts of another question: other input times
  [4]

Of a certificate of version 4 what isn't plain.

  $ tdelay worst two.v --strategy lead --flips 1 --first 0. --cert low > said; tdelay worst two.v --strategy lead --flips 1 --first 1. --cert high > said
  $ tdelay join two.v low high --flips 1 --cert whole
  unit 1 ns
  defaulted 0
  exact 2
  from 01
  to 11
  nodes 3
  flips 1
  $ tdelay check two.v whole
  accepted 2
  flips 1
  $ tdelay join two.v low high --flips 1 --json
  {"proved":true,"command":"join","file":"two.v","question":{"default":{"rise":1,"fall":1},"output":[],"named":[],"flips":1},"unit":"1 ns","defaulted":0,"exact":2,"from":"01","to":"11","nodes":3,"flips":1}

The output and the default delays, of which certificates of versions 1 to 3 say nothing.

  $ printf 'module t(a, b, y, z);\ninput a, b;\noutput y, z;\nand g(y,a,b);\nxor #4 h(z,a,b);\nendmodule\n' > outputs.v
  $ cat > named.sh <<'END'
  > # Two parts with these words, joined with them, and the words for `check`.
  > for bit in 0 1; do tdelay worst outputs.v --strategy least --first $bit. "$@" --cert $bit --quiet; done
  > tdelay join outputs.v 0 1 "$@" --cert whole | paste -sd,
  > tdelay check outputs.v whole "$@" | paste -sd,
  > tdelay join outputs.v 0 1 2>&1 | tail -1
  > END
  $ bash named.sh --output y
  unit 1 ns,defaulted 1,exact 1,from 00,to 11,nodes 7,output 0
  accepted 1,output 0
  tdelay: 0: refused 11 OtherQuestion line 4
  $ bash named.sh --default-rise 9
  unit 1 ns,defaulted 1,exact 9,from 00,to 11,nodes 9
  accepted 9
  tdelay: 0: refused 2 PairTime
  $ bash named.sh --default-fall 9 --output z
  unit 1 ns,defaulted 1,exact 4,from 00,to 01,nodes 11,default 1 9,output 1
  accepted 4,default 1 9,output 1
  tdelay: 0: refused 11 OtherQuestion line 3

With `examples/many_machines.sh` each of them goes to `parts`, `worst`, `join` and `check`.

  $ for words in --first=1. '--second .0' '--pin a=1' '--hold .=' '--hold-input b' --flips=1 '--at 0,7' '--at a=3'; do
  >   TDELAY=tdelay JOBS=2 $NETLISTS/many_machines.sh two.v 3 whole $words | sed 1,2d | paste -sd,
  > done
  unchecked 2,from 10,to 11,nodes 5,first 1.,second ..,hold ..,flips 2,accepted 2
  unchecked 2,from 11,to 00,nodes 5,first ..,second .0,hold ..,flips 2,accepted 2
  unchecked 2,from 11,to 10,nodes 5,first 1.,second 1.,hold ..,flips 2,accepted 2
  unchecked 2,from 11,to 01,nodes 13,first ..,second ..,hold .=,flips 2,accepted 2
  unchecked 2,from 11,to 01,nodes 13,first ..,second ..,hold .=,flips 2,accepted 2
  unchecked 2,from 11,to 01,nodes 13,first ..,second ..,hold ..,flips 1,accepted 2
  unchecked 9,from 10,to 11,nodes 9,first ..,second ..,hold ..,flips 2,at 0 7,accepted 9
  unchecked 5,from 10,to 01,nodes 5,first ..,second ..,hold ..,flips 2,at 3 0,accepted 5
  $ for words in '--output y' --default-rise=9 '--default-fall 9 --output z' '--output y --strategy lead'; do
  >   TDELAY=tdelay JOBS=2 $NETLISTS/many_machines.sh outputs.v 3 whole $words | sed 1,2d | paste -sd,
  > done
  unchecked 1,from 11,to 00,nodes 9,output 0,accepted 1
  unchecked 9,from 10,to 11,nodes 11,accepted 9
  unchecked 4,from 00,to 01,nodes 15,default 1 9,output 1,accepted 4
  unchecked 1,from 11,to 00,nodes 5,output 0,accepted 1

Parts that were cut short are joined where they have a certificate of both figures. The whole has the greatest of each, and its line is that of
`worst`. The netlist has the worst delay 5; `short.sh` searches the parts by the first input, each within so many nodes.

  $ cat > late.v <<'END'
  > module t(a, b, y, z);
  > input a, b;
  > output y, z;
  > not #(2,3) g(y,a);
  > xor #(4,5) h(z,a,b);
  > endmodule
  > END
  $ cat > short.sh <<'END'
  > tdelay worst late.v --strategy least --first 0. --budget $1 --cert-between --cert low
  > tdelay worst late.v --strategy least --first 1. --budget $2 --cert-between --cert high
  > END
  $ bash short.sh 0 0 | grep '^[eb]'
  between 3 5
  between 2 5
  $ tdelay join late.v low high --cert whole
  unit 1 ns
  defaulted 0
  between 3 5
  from 00
  to 11
  nodes 3
  [3]
  $ tdelay join late.v high low --no-check --json
  {"proved":true,"command":"join","file":"late.v","question":{"default":{"rise":1,"fall":1},"output":[],"named":[]},"unit":"1 ns","defaulted":0,"unchecked":{"between":[3,5]},"from":"00","to":"11","nodes":3}
  [3]
  $ tdelay check late.v whole; paste -sd, whole
  accepted between 3 5
  tdelay-cert 4,circuit 2 2,default 1 1,output all,first ..,second ..,hold ..,flips 2,at 0 0,keep none,time 3,high 5,from 00,to 11,s 0,b m 5,b m 5

A required moment is met where no part's upper figure is above it, and violated by the given pair.

  $ for moment in 5 4 3 2; do tdelay join late.v low high --required $moment | tail -1; echo ${PIPESTATUS[0]}; done
  required 5 met
  0
  required 4 open
  3
  required 3 open
  3
  required 2 violated
  6
  $ tdelay join late.v low high --required 2 --no-check
  unit 1 ns
  defaulted 0
  unchecked between 3 5
  from 00
  to 11
  nodes 3
  required 2 violated
  [6]
  $ tdelay join late.v low high --required 4 --no-check --json
  {"proved":true,"command":"join","file":"late.v","question":{"default":{"rise":1,"fall":1},"output":[],"named":[],"required":4},"unit":"1 ns","defaulted":0,"unchecked":{"between":[3,5]},"from":"00","to":"11","nodes":3,"required":{"time":4,"standing":"open"}}
  [3]
  $ tdelay join late.v low high --required 4 --first 0.
  tdelay: high: other pins
  [4]
  $ tdelay join late.v low high --required
  error: a value is required for '--required <N>' but none was supplied
  
  For more information, try '--help'.
  [2]

A part that is exact, and as late as the others may be, makes the whole exact. A part in which no pair is admitted counts for nothing.

  $ bash short.sh 0 1000 | grep '^[eb]'
  between 3 5
  exact 5
  $ tdelay join late.v low high --required 4 --cert whole
  unit 1 ns
  defaulted 0
  exact 5
  from 10
  to 00
  nodes 9
  required 4 violated
  [6]
  $ tdelay check late.v whole
  accepted 5
  $ for half in 0. 1.; do tdelay worst late.v --keep y=11 --first $half --cert kept-$half; done | grep '^[ebn]'
  exact 5
  nodes 1
  none
  nodes 1
  $ sed -i 's/^high 5/high 7/' kept-0.
  $ tdelay join late.v kept-0. kept-1. --keep y=11 --required 6 --cert whole
  unit 1 ns
  defaulted 0
  between 5 7
  from 01
  to 00
  nodes 3
  required 6 open
  keep 4 11
  [3]
  $ tdelay check late.v whole
  accepted between 5 7
  keep 4 11

Parts whose upper figure is too low aren't accepted.

  $ bash short.sh 0 0 > report; sed -i 's/^high 5/high 4/' low high
  $ tdelay join late.v low high
  tdelay: low: refused 4 LeafAboveTime line 15
  [4]
  $ tdelay join late.v low high --no-check --cert whole | sed -n 3p
  unchecked between 3 4
  $ tdelay check late.v whole
  refused 4 LeafAboveTime line 16
  [4]

With `examples/many_machines.sh` the options are those of each search, and of `join`.

  $ for words in '--budget 0 --cert-between' '--budget 0 --cert-between --required 5' '--budget 0 --required=2' '--budget=0 --required 4' '--budget 0'; do
  >   TDELAY=tdelay JOBS=2 $NETLISTS/many_machines.sh late.v 2 whole --strategy least $words | paste -sd,; echo ${PIPESTATUS[0]}
  > done
  unit 1 ns,defaulted 0,unchecked between 3 5,from 00,to 11,nodes 3,accepted between 3 5
  3
  unit 1 ns,defaulted 0,unchecked between 3 5,from 00,to 11,nodes 3,required 5 met,accepted between 3 5
  0
  unit 1 ns,defaulted 0,unchecked between 3 5,from 00,to 11,nodes 3,required 2 violated,accepted between 3 5
  6
  unit 1 ns,defaulted 0,unchecked between 3 5,from 00,to 11,nodes 3,required 4 open,accepted between 3 5
  3
  between 3 5
  3
