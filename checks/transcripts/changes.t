The changes of each output by the levels at which it settles (`worst --each --changes`).

  $ cp "$NETLISTS/hazard.v" "$NETLISTS/c17.v" "$NETLISTS/lost_pulse.v" .
  $ tdelay worst c17.v --each --changes
  unit 1 ns
  defaulted 6
  each N22 exact 3 edges 3 rise 3 fall 3 glitch 3
  each N23 exact 3 edges 3 rise 3 fall 3 glitch 3
  $ tdelay worst hazard.v --each --changes
  unit 1 ns
  defaulted 0
  each y exact 5 edges 5 rise 5 fall 5 glitch 5
  $ tdelay worst hazard.v --each --changes --figures
  unit 1 ns
  defaulted 0
  each y exact 5 edges 5 rise 5 fall 5 glitch 5
  $ tdelay worst lost_pulse.v --each --changes
  unit 1 ns
  defaulted 0
  each y exact 0 edges 3 rise none fall none glitch never

Each column is what `--keep` says of this output alone.

  $ tdelay worst hazard.v --output y --keep y=01 | grep exact
  exact 5
  $ tdelay worst hazard.v --output y --keep y=10 | grep exact
  exact 5
  $ tdelay worst hazard.v --output y --keep y== | grep exact
  exact 5

An output may rise and fall and never glitch, or settle at one level; `never` is said where no such pair changes it after moment 0.

  $ cat > levels.v <<'EOF'
  > module t (a, b, y, z, k);
  > input a, b;
  > output y, z, k;
  > buf #2 (y, a);
  > nor #3 (z, a, n);
  > not #1 (n, a);
  > or #(2,1) (k, z, b, 1'b1);
  > endmodule
  > EOF
  $ tdelay worst levels.v --each --changes
  unit 1 ns
  defaulted 0
  each y exact 2 edges 2 rise 2 fall 2 glitch never
  each z exact 0 edges 4 rise none fall none glitch never
  each k exact 0 edges 0 rise none fall none glitch never
  $ tdelay worst levels.v --each --changes --at a=4
  unit 1 ns
  defaulted 0
  each y exact 6 edges 6 rise 6 fall 6 glitch never
  each z exact 0 edges 8 rise none fall none glitch never
  each k exact 0 edges 0 rise none fall none glitch never

Pins, held inputs, flips, moments, default delays and conditions go along; conditions that contradict a column leave no pair of it.

  $ tdelay worst c17.v --each --changes --pin N3=1 --flips 1
  unit 1 ns
  defaulted 6
  each N22 exact 3 edges 3 rise 3 fall 3 glitch never
  each N23 exact 3 edges 3 rise 3 fall 3 glitch never
  $ tdelay worst c17.v --each --changes --hold-input N6 --at N1=4 --default-rise 3
  unit 1 ns
  defaulted 6
  each N22 exact 8 edges 8 rise 8 fall 8 glitch 7..8
  each N23 exact 7 edges 7 rise 7 fall 5 glitch 5..7
  $ tdelay worst hazard.v --each --changes --keep s==
  unit 1 ns
  defaulted 0
  each y exact 2 edges 5 rise 2 fall 2 glitch never
  $ tdelay worst hazard.v --each --changes --keep y=0.
  unit 1 ns
  defaulted 0
  each y exact 5 edges 5 rise 5 fall none glitch 5
  $ tdelay worst hazard.v --each --changes --keep y=01
  unit 1 ns
  defaulted 0
  each y exact 5 edges 5 rise 5 fall none glitch none
  $ tdelay worst hazard.v --each --changes --keep y== --keep y=11
  unit 1 ns
  defaulted 0
  each y exact 5 edges 5 rise none fall none glitch 5
  $ tdelay worst hazard.v --each --changes --keep y=0. --keep y=1.
  unit 1 ns
  defaulted 0
  each y none edges 5 rise none fall none glitch none
  $ tdelay worst hazard.v --each --changes --first 1.. --second 0.. --hold-input s
  tdelay: no admitted pair
  [1]

Where a search is cut short, its column is open. A glitch that is only asked whether is answered once a late one is known, or that there is none.

  $ tdelay worst c17.v --each --changes --budget 0
  unit 1 ns
  defaulted 6
  each N22 between 2 3 edges 3 rise none..3 fall none..3 glitch none..3
  each N23 between 3 3 edges 3 rise none..3 fall none..3 glitch none..3
  [3]
  $ tdelay worst levels.v --each --changes --budget 0
  unit 1 ns
  defaulted 0
  each y between 2 2 edges 2 rise none..2 fall none..2 glitch none..2
  each z between 0 4 edges 4 rise none..4 fall none..4 glitch none..4
  each k between 0 0 edges 0 rise none..0 fall none..0 glitch none..0
  [3]

As JSON, and by two workers.

  $ tdelay worst hazard.v --each --changes --json
  {"proved":true,"command":"worst","file":"hazard.v","question":{"default":{"rise":1,"fall":1},"output":[],"named":[]},"unit":"1 ns","defaulted":0,"each":[{"output":"y","exact":5,"edges":5,"rise":{"exact":5},"fall":{"exact":5},"glitch":{"exact":5}}]}
  $ tdelay worst levels.v --each --changes --figures --json
  {"proved":true,"command":"worst","file":"levels.v","question":{"default":{"rise":1,"fall":1},"output":[],"named":[]},"unit":"1 ns","defaulted":0,"each":[{"output":"y","exact":2,"edges":2,"rise":{"exact":2},"fall":{"exact":2},"glitch":{"exact":0}},{"output":"z","exact":0,"edges":4,"rise":{"none":true},"fall":{"none":true},"glitch":{"exact":0}},{"output":"k","exact":0,"edges":0,"rise":{"none":true},"fall":{"none":true},"glitch":{"exact":0}}]}
  $ tdelay worst c17.v --each --changes --budget 0 --json
  {"proved":true,"command":"worst","file":"c17.v","question":{"default":{"rise":1,"fall":1},"output":[],"named":[]},"unit":"1 ns","defaulted":6,"each":[{"output":"N22","between":[2,3],"edges":3,"rise":{"between":[null,3]},"fall":{"between":[null,3]},"glitch":{"between":[null,3]}},{"output":"N23","between":[3,3],"edges":3,"rise":{"between":[null,3]},"fall":{"between":[null,3]},"glitch":{"between":[null,3]}}]}
  [3]
  $ tdelay worst c17.v --each --changes --figures --workers 2
  unit 1 ns
  defaulted 6
  each N22 exact 3 edges 3 rise 3 fall 3 glitch 3
  each N23 exact 3 edges 3 rise 3 fall 3 glitch 3
  $ printf "module wire_only(a); input a; endmodule" > bare.v
  $ tdelay worst bare.v --each --changes
  unit 1 ns
  defaulted 0

Options that belong to these, or to none of them.

  $ tdelay worst nowhere.v --changes
  tdelay: --changes is part of --each: write --each --changes
  [2]
  $ tdelay worst nowhere.v --figures
  tdelay: --figures is part of --each --changes: write --each --changes --figures
  [2]
  $ tdelay worst nowhere.v --changes --figures
  tdelay: --changes is part of --each: write --each --changes
  [2]
  $ tdelay worst nowhere.v --each --figures
  tdelay: --figures is part of --each --changes: write --each --changes --figures
  [2]
  $ tdelay worst nowhere.v --each --changes --strategy least
  tdelay: --changes doesn't go together with --strategy least or lead: leave --strategy out
  [2]
  $ tdelay worst nowhere.v --each --changes --strategy lead
  tdelay: --changes doesn't go together with --strategy least or lead: leave --strategy out
  [2]
  $ tdelay worst nowhere.v --each --changes --strategy lead --keep y=11
  tdelay: --keep doesn't go together with --strategy least or lead: leave --strategy out
  [2]
  $ tdelay worst nowhere.v --each --changes --output y
  tdelay: --each doesn't go together with --output: leave one of them out
  [2]
  $ tdelay worst nowhere.v --each --changes --cert c
  tdelay: --each doesn't go together with --cert: write --output NAME in place of --each
  [2]
  $ tdelay worst c17.v --each --changes --strategy refute
  unit 1 ns
  defaulted 6
  each N22 exact 3 edges 3 rise 3 fall 3 glitch 3
  each N23 exact 3 edges 3 rise 3 fall 3 glitch 3
