The hazards of each output (`worst --hazards`): whether it can change after moment 0 where it settles at 0 under both vectors, and where at 1.

  $ cp "$NETLISTS/hazard.v" "$NETLISTS/c17.v" "$NETLISTS/lost_pulse.v" .
  $ tdelay worst hazard.v --hazards
  unit 1 ns
  defaulted 0
  hazard y 0 can 000 101
  hazard y 1 can 110 001
  $ tdelay worst c17.v --hazards
  unit 1 ns
  defaulted 6
  hazard N22 0 can 10010 01111
  hazard N22 1 can 10110 11001
  hazard N23 0 can 00000 11111
  hazard N23 1 never
  $ tdelay worst lost_pulse.v --hazards
  unit 1 ns
  defaulted 0
  hazard y 0 never
  hazard y 1 none

The pair shows it.

  $ tdelay worst hazard.v --hazards | grep -o 'y 1 can .*' | { read -r name level can from to; tdelay sim hazard.v "$from" "$to"; tdelay path hazard.v "$from" "$to"; }
  unit 1 ns
  defaulted 0
  last y 5
  time 5
  unit 1 ns
  defaulted 0
  change 0 s 1 0 input
  change 3 n 0 1 not 3
  change 4 q 0 1 and 1
  change 5 y 0 1 or 1

An output that settles at one level alone, and one that never glitches.

  $ cat > levels.v <<'EOF'
  > module t (a, b, y, z, k);
  > input a, b;
  > output y, z, k;
  > buf #2 (y, a);
  > nor #3 (z, a, n);
  > not #1 (n, a);
  > or #(2,1) (k, z, b, 1'b1);
  > endmodule
  > EOF
  $ tdelay worst levels.v --hazards
  unit 1 ns
  defaulted 0
  hazard y 0 never
  hazard y 1 never
  hazard z 0 never
  hazard z 1 none
  hazard k 0 none
  hazard k 1 never

With one input that changes these are the hazards of fundamental mode.

  $ tdelay worst hazard.v --hazards --flips 1
  unit 1 ns
  defaulted 0
  hazard y 0 never
  hazard y 1 can 111 011
  $ tdelay worst c17.v --hazards --flips 1
  unit 1 ns
  defaulted 6
  hazard N22 0 never
  hazard N22 1 can 11110 11010
  hazard N23 0 never
  hazard N23 1 never

Pins, held inputs, moments and conditions go along; conditions that contradict a level leave no pair of it.

  $ tdelay worst hazard.v --hazards --pin b=0
  unit 1 ns
  defaulted 0
  hazard y 0 never
  hazard y 1 never
  $ tdelay worst hazard.v --hazards --hold-input s
  unit 1 ns
  defaulted 0
  hazard y 0 never
  hazard y 1 never
  $ tdelay worst hazard.v --hazards --at 2,0,1
  unit 1 ns
  defaulted 0
  hazard y 0 can 000 101
  hazard y 1 can 110 001
  $ tdelay worst hazard.v --hazards --keep s==
  unit 1 ns
  defaulted 0
  hazard y 0 never
  hazard y 1 never
  $ tdelay worst hazard.v --hazards --keep y=1.
  unit 1 ns
  defaulted 0
  hazard y 0 none
  hazard y 1 can 110 001
  $ tdelay worst hazard.v --hazards --keep y=11
  unit 1 ns
  defaulted 0
  hazard y 0 none
  hazard y 1 can 110 001
  $ tdelay worst hazard.v --hazards --keep y=01
  unit 1 ns
  defaulted 0
  hazard y 0 none
  hazard y 1 none
  $ tdelay worst hazard.v --hazards --keep y=0. --keep y=1.
  unit 1 ns
  defaulted 0
  hazard y 0 none
  hazard y 1 none
  $ tdelay worst hazard.v --hazards --first 1.. --second 0.. --hold-input s
  tdelay: no admitted pair
  [1]

Where a search is cut short, its row is open.

  $ tdelay worst c17.v --hazards --budget 0
  unit 1 ns
  defaulted 6
  hazard N22 0 open
  hazard N22 1 open
  hazard N23 0 open
  hazard N23 1 open
  [3]
  $ tdelay worst levels.v --hazards --budget 0
  unit 1 ns
  defaulted 0
  hazard y 0 open
  hazard y 1 open
  hazard z 0 open
  hazard z 1 open
  hazard k 0 never
  hazard k 1 never
  [3]

As JSON, by two workers, and without outputs.

  $ tdelay worst hazard.v --hazards --json
  {"proved":true,"command":"worst","file":"hazard.v","question":{"default":{"rise":1,"fall":1},"output":[],"named":[]},"unit":"1 ns","defaulted":0,"hazard":[{"output":"y","level":"0","answer":"can","from":"000","to":"101"},{"output":"y","level":"1","answer":"can","from":"110","to":"001"}]}
  $ tdelay worst levels.v --hazards --json
  {"proved":true,"command":"worst","file":"levels.v","question":{"default":{"rise":1,"fall":1},"output":[],"named":[]},"unit":"1 ns","defaulted":0,"hazard":[{"output":"y","level":"0","answer":"never"},{"output":"y","level":"1","answer":"never"},{"output":"z","level":"0","answer":"never"},{"output":"z","level":"1","answer":"none"},{"output":"k","level":"0","answer":"none"},{"output":"k","level":"1","answer":"never"}]}
  $ tdelay worst c17.v --hazards --budget 0 --json
  {"proved":true,"command":"worst","file":"c17.v","question":{"default":{"rise":1,"fall":1},"output":[],"named":[]},"unit":"1 ns","defaulted":6,"hazard":[{"output":"N22","level":"0","answer":"open"},{"output":"N22","level":"1","answer":"open"},{"output":"N23","level":"0","answer":"open"},{"output":"N23","level":"1","answer":"open"}]}
  [3]
  $ tdelay worst c17.v --hazards --workers 2 --flips 1
  unit 1 ns
  defaulted 6
  hazard N22 0 never
  hazard N22 1 can 11110 11010
  hazard N23 0 never
  hazard N23 1 never
  $ printf "module wire_only(a); input a; endmodule" > bare.v
  $ tdelay worst bare.v --hazards
  unit 1 ns
  defaulted 0

What doesn't go together with it: no file is read or written.

  $ tdelay worst nowhere.v --hazards --each
  tdelay: --hazards doesn't go together with --each, --changes or --figures: leave it or them out
  [2]
  $ tdelay worst nowhere.v --hazards --changes
  tdelay: --hazards doesn't go together with --each, --changes or --figures: leave it or them out
  [2]
  $ tdelay worst nowhere.v --hazards --figures
  tdelay: --hazards doesn't go together with --each, --changes or --figures: leave it or them out
  [2]
  $ tdelay worst nowhere.v --hazards --output y
  tdelay: --hazards doesn't go together with --output: leave one of them out
  [2]
  $ tdelay worst nowhere.v --hazards --outputs
  tdelay: --hazards doesn't go together with --outputs: leave one of them out
  [2]
  $ tdelay worst nowhere.v --hazards --cert c
  tdelay: --hazards doesn't go together with --cert: write --output NAME --keep NAME== in place of --hazards
  [2]
  $ tdelay worst nowhere.v --hazards --vcd v
  tdelay: --hazards doesn't go together with --vcd: write --output NAME --keep NAME== in place of --hazards
  [2]
  $ tdelay worst nowhere.v --hazards --path
  tdelay: --hazards doesn't go together with --path: write --output NAME --keep NAME== in place of --hazards
  [2]
  $ tdelay worst nowhere.v --hazards --progress
  tdelay: --hazards doesn't go together with --progress: write --output NAME --keep NAME== in place of --hazards
  [2]
  $ tdelay worst nowhere.v --hazards --required 5
  tdelay: --hazards doesn't go together with --required: write --output NAME --keep NAME== in place of --hazards
  [2]
  $ tdelay worst nowhere.v --hazards --strategy least
  tdelay: --hazards doesn't go together with --strategy least or lead: leave --strategy out
  [2]
  $ tdelay worst nowhere.v --hazards --strategy lead
  tdelay: --hazards doesn't go together with --strategy least or lead: leave --strategy out
  [2]
  $ tdelay worst nowhere.v --hazards --strategy lead --keep y=11
  tdelay: --keep doesn't go together with --strategy least or lead: leave --strategy out
  [2]
  $ tdelay worst nowhere.v --hazards --output y --each --cert c
  tdelay: --hazards doesn't go together with --each, --changes or --figures: leave it or them out
  [2]
  $ tdelay worst c17.v --hazards --strategy refute
  unit 1 ns
  defaulted 6
  hazard N22 0 can 10010 01111
  hazard N22 1 can 10110 11001
  hazard N23 0 can 00000 11111
  hazard N23 1 never
