Conditions in a file (`--keep-file`): a line for each, which says what a word of `--keep` says.

  $ cp "$NETLISTS/hazard.v" .
  $ cat > stays <<'END'
  > # y stays at 1, and s where it is
  > 
  > y	11   # at both vectors
  >   s ==
  > END
  $ tdelay worst hazard.v --keep-file stays
  unit 1 ns
  defaulted 0
  exact 0
  from 110
  to 111
  nodes 1
  $ tdelay worst hazard.v --keep y=11 --keep s==
  unit 1 ns
  defaulted 0
  exact 0
  from 110
  to 111
  nodes 1

Its conditions and those of `--keep` are one set, sorted, each once.

  $ printf 'y .1\ny 0.\ny .1\n' > rise
  $ tdelay worst hazard.v --keep s=1. --keep y=.1 --keep-file rise --cert written
  unit 1 ns
  defaulted 0
  exact 5
  from 100
  to 001
  nodes 1
  $ tdelay check hazard.v written
  accepted 5
  keep 2 1. 8 .1 8 0.
  $ tdelay worst hazard.v --keep-file rise --keep y=1.
  unit 1 ns
  defaulted 0
  none
  nodes 1
  [1]
  $ tdelay worst hazard.v --each --keep-file rise --json
  {"proved":true,"command":"worst","file":"hazard.v","question":{"default":{"rise":1,"fall":1},"output":[],"named":[],"keep_file":"rise"},"unit":"1 ns","defaulted":0,"each":[{"output":"y","exact":5,"edges":5}]}

A file that says nothing asks about all pairs. It may end in the middle of a line, and have lines that end in a carriage return.

  $ printf '# nothing\n\n' > nothing
  $ tdelay worst hazard.v --keep-file nothing
  unit 1 ns
  defaulted 0
  exact 5
  from 000
  to 101
  nodes 9
  $ printf 'y 11\r\ns ==' | tdelay worst hazard.v --keep-file -
  unit 1 ns
  defaulted 0
  exact 0
  from 110
  to 111
  nodes 1

Parts take the file by its name, and their certificates join into one of the question with its conditions, and of no other.

  $ tdelay parts hazard.v --parts 2 --keep a=1. --keep-file rise
  --first 0.. --second ... --keep a=1. --keep-file rise
  --first 1.. --second ... --keep a=1. --keep-file rise
  $ tdelay parts hazard.v --parts 2 --keep-file rise | while read -r words; do tdelay worst hazard.v $words --cert part-$((count += 1)) > out; done
  $ tdelay join hazard.v part-1 part-2 --keep-file rise
  unit 1 ns
  defaulted 0
  exact 5
  from 100
  to 011
  nodes 3
  keep 8 .1 8 0.
  $ tdelay join hazard.v part-1 part-2 --keep y=0. --keep y=.1
  unit 1 ns
  defaulted 0
  exact 5
  from 100
  to 011
  nodes 3
  keep 8 .1 8 0.
  $ tdelay join hazard.v part-1 part-2 --keep-file stays
  tdelay: parts of another question: other conditions
  [4]

Lines that say no condition, and names of no net. The first of them is told, with its line, and behind the words of `--keep`.

  $ for line in y 'y 1' 'y ..' 'y 12' 'y 111' 11 == 'y 1x' y=11 'y 11 s' 'y = 11'; do printf 'y 11\n\n %s # bad\nz 11\n' "$line" > bad; tdelay worst hazard.v --keep-file bad; done
  tdelay: bad keep y at line 3
  tdelay: bad keep y 1 at line 3
  tdelay: bad keep y .. at line 3
  tdelay: bad keep y 12 at line 3
  tdelay: bad keep y 111 at line 3
  tdelay: bad keep 11 at line 3
  tdelay: bad keep == at line 3
  tdelay: bad keep y 1x at line 3
  tdelay: bad keep y=11 at line 3
  tdelay: bad keep y 11 s at line 3
  tdelay: no net y = at line 3
  [2]
  $ printf 'z 11\ny ..\n' > bad
  $ tdelay worst hazard.v --keep-file bad
  tdelay: no net z at line 1
  [2]
  $ tdelay worst hazard.v --keep-file bad --keep w=11
  tdelay: no net w
  [2]
  $ printf 'y ..\n' | tdelay worst hazard.v --keep-file - --hints
  tdelay: bad keep y .. at line 1
  a line has a net's name, a blank and two levels, each 0, 1 or ., or the name and ==
    help: ok 11 keeps a net at 1, y 01 asks for its rise, y .. asks nothing, y == for equal levels
  [2]

The last field of a line is what is asked. A name that begins with a backslash may hold `#`, and a blank before its bit.

  $ cat > escaped.v <<'END'
  > module t (\a#b , y);
  > input [1:0] \a#b ;
  > output y;
  > not #2 n (y, \a#b [1]);
  > endmodule
  > END
  $ printf '\\a#b [1] 01# its rise\n' > escaped
  $ tdelay worst escaped.v --keep-file escaped
  unit 1 ns
  defaulted 0
  exact 2
  from 00
  to 11
  nodes 1

Files that can't be read, or would be overwritten; a second one; trees of cubes; commands that take none.

  $ tdelay worst hazard.v --keep-file missing
  tdelay: cannot read missing
  [5]
  $ tdelay worst hazard.v --keep-file rise --cert rise
  tdelay: rise is rise
  [2]
  $ tdelay worst hazard.v --keep-file rise --vcd ./rise
  tdelay: ./rise is rise
  [2]
  $ tdelay join hazard.v part-1 part-2 --keep-file rise --cert rise
  tdelay: rise is rise
  [2]
  $ tdelay worst hazard.v --keep-file rise --keep-file stays 2>&1 | head -n 1
  error: the argument '--keep-file <FILE>' cannot be used multiple times
  $ tdelay worst hazard.v --keep-file nothing --strategy least
  tdelay: --keep doesn't go together with --strategy least or lead: leave --strategy out
  [2]
  $ tdelay bound hazard.v --keep-file rise 2>&1 | head -n 1
  error: unexpected argument '--keep-file' found
  $ head -c 67108865 /dev/zero | tdelay worst hazard.v --keep-file -
  tdelay: keep file too long
  [1]
