Command lines that ask for nothing the program does, and options whose order and form are free. What is wrong with the words is a
line on standard error, and then the usage; here are the first line and the status.

  $ cat > first.sh <<'EOF'
  > # The first line of what a command says on standard error, and its status.
  > tdelay "$@" 2> said > out
  > status=$?
  > head -1 said
  > echo "status $status, $(wc -c < out) bytes"
  > EOF
  $ cp "$NETLISTS/c17.v" .
  $ for words in "parts c17.v" "parts --parts 4" "parts c17.v --parts 0" "parts c17.v --parts 65537" "parts c17.v --parts four" "parts c17.v --parts 4 --workers 2"; do bash first.sh $words; done
  error: the following required arguments were not provided:
  status 2, 0 bytes
  error: the following required arguments were not provided:
  status 2, 0 bytes
  error: invalid value '0' for '--parts <N>': 0 is not in 1..=65536
  status 2, 0 bytes
  error: invalid value '65537' for '--parts <N>': 65537 is not in 1..=65536
  status 2, 0 bytes
  error: invalid value 'four' for '--parts <N>': invalid digit found in string
  status 2, 0 bytes
  error: unexpected argument '--workers' found
  status 2, 0 bytes
  $ for words in "join c17.v" "join c17.v --check --cert a" "join c17.v a --cert b --cert c" "join c17.v a --strategy lead"; do bash first.sh $words; done
  error: the following required arguments were not provided:
  status 2, 0 bytes
  error: the following required arguments were not provided:
  status 2, 0 bytes
  error: the argument '--cert <OUT>' cannot be used multiple times
  status 2, 0 bytes
  error: unexpected argument '--strategy' found
  status 2, 0 bytes
  $ for words in "worst c17.v --progress --progress" "" "halve c17.v" "sim c17.v 00000" "check c17.v" "path c17.v 00000 11111 --output" "bound c17.v --edges=1" "info"; do bash first.sh $words; done
  error: the argument '--progress' cannot be used multiple times
  status 2, 0 bytes
  error: 'tdelay' requires a subcommand but one was not provided
  status 2, 0 bytes
  error: unrecognized subcommand 'halve'
  status 2, 0 bytes
  error: the following required arguments were not provided:
  status 2, 0 bytes
  error: the following required arguments were not provided:
  status 2, 0 bytes
  error: a value is required for '--output <NAME>' but none was supplied
  status 2, 0 bytes
  error: unexpected value '1' for '--edges' found; no more were expected
  status 2, 0 bytes
  error: the following required arguments were not provided:
  status 2, 0 bytes

Help and the version go to standard output.

  $ tdelay join --help | head -1; tdelay --version; tdelay --help | head -3
  Joins the certificates of a question's parts into one
  tdelay 1 (reads certificates of versions 1 to 4)
  Worst transition delay of a netlist of Verilog gate primitives
  
  Usage: tdelay <COMMAND>

Options stand anywhere, with `=` or without, and a word after `--` is none.

  $ tdelay parts --parts=3 --first 0.... --second 1.... --hold .==== --flips 2 --at 0,7,0,0,0 --strategy lead --default-rise 3 --default-fall 2 c17.v
  --first 0.... --second 100.. --hold .==== --flips 2 --at 0,7,0,0,0 --default-rise 3 --default-fall 2
  --first 0.... --second 1.1.. --hold .==== --flips 2 --at 0,7,0,0,0 --default-rise 3 --default-fall 2
  --first 0.... --second 110.. --hold .==== --flips 2 --at 0,7,0,0,0 --default-rise 3 --default-fall 2
  $ tdelay worst c17.v --first 0.... --second . 2>&1; echo $?
  tdelay: bad vector second
  2
  $ tdelay worst c17.v --first 0.... --cert=a > /dev/null
  > tdelay worst --cert=--check --first 1.... c17.v > /dev/null
  > ls
  --check
  a
  c17.v
  first.sh
  out
  said
  $ tdelay join --cert=- c17.v -- a --check | head -3
  tdelay-cert 1
  circuit 5 6
  time 3
  $ tdelay join c17.v --check a ./--check --first ..... --second ..... | head -3
  unit 1 ns
  defaulted 6
  exact 3
  $ tdelay join c17.v a -- --check
  unit 1 ns
  defaulted 6
  exact 3
  from 00000
  to 11111
  nodes 3
