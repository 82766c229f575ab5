What to do about a command line that is refused. `said` shows the first line of standard error, and
those with advice.

  $ cat > said <<'END'
  > #!/usr/bin/env bash
  > tdelay "$@" 2>&1 > /dev/null | grep -E '^(error|tdelay|  tip|  help|word)'
  > END

Options stand after the command.

  $ bash said --json worst f.v; bash said --budget 10 worst f.v; bash said -q sim f.v 0 1; bash said --pin a=1 worst f.v
  error: unexpected argument '--json' found
    help: write options after the command: tdelay worst --json f.v
  error: unexpected argument '--budget' found
    help: write options after the command: tdelay worst --budget 10 f.v
  error: unexpected argument '-q' found
    help: write options after the command: tdelay sim -q f.v 0 1
  error: unexpected argument '--pin' found
    help: write options after the command: tdelay worst --pin a=1 f.v
  $ bash said --json worst; bash said --cert 'my file' worst 'it'\''s.v'; bash said --seconds 5 -q check f.v a.cert --json
  error: unexpected argument '--json' found
    help: write options after the command: tdelay worst --json
  error: unexpected argument '--cert' found
    help: write options after the command: tdelay worst --cert 'my file' 'it'\''s.v'
  error: unexpected argument '--seconds' found
    help: write options after the command: tdelay check --seconds 5 -q f.v a.cert --json
  $ bash said --jsn worst f.v; bash said --json f.v; bash said --verison
  error: unexpected argument '--jsn' found
    help: write options after the command
  error: unexpected argument '--json' found
    help: write a command first: sim, path, bound, worst, parts, join, check or info
  error: unexpected argument '--verison' found
    tip: a similar argument exists: '--version'
  $ tdelay --json worst f.v
  error: unexpected argument '--json' found
  
    help: write options after the command: tdelay worst --json f.v
  
  Usage: tdelay <COMMAND>
  
  For more information, try '--help'.
  [2]

A command comes first, and its name may be misspelt.

  $ for it in f.v wosrt prats simulate chekc delay 'help wrst' '-- worst f.v'; do bash said $it; done
  error: unrecognized subcommand 'f.v'
    help: write a command before the file, as in tdelay worst f.v
  error: unrecognized subcommand 'wosrt'
    tip: a similar subcommand exists: 'worst'
  error: unrecognized subcommand 'prats'
    tip: a similar subcommand exists: 'parts'
  error: unrecognized subcommand 'simulate'
    tip: a similar subcommand exists: 'sim'
  error: unrecognized subcommand 'chekc'
    tip: a similar subcommand exists: 'check'
  error: unrecognized subcommand 'delay'
    help: the commands are sim, path, bound, worst, parts, join, check and info
  error: unrecognized subcommand 'wrst'
    tip: a similar subcommand exists: 'worst'
  error: unexpected argument 'worst' found
    tip: subcommand 'worst' exists; to use it, remove the '--' before it

An option that is misspelt, or that no command has.

  $ for it in versoin ouput certificate buget threads timeout delay; do bash said worst f.v --$it 4; done
  error: unexpected argument '--versoin' found
    tip: a similar argument exists: '--version'
  error: unexpected argument '--ouput' found
    tip: a similar argument exists: '--output'
  error: unexpected argument '--certificate' found
    tip: a similar argument exists: '--cert'
  error: unexpected argument '--buget' found
    tip: a similar argument exists: '--budget'
  error: unexpected argument '--threads' found
  error: unexpected argument '--timeout' found
  error: unexpected argument '--delay' found
  $ tdelay worst f.v --threads 4
  error: unexpected argument '--threads' found
  
  Usage: tdelay worst [OPTIONS] <FILE>
  
  For more information, try '--help'.
  [2]

An option of other commands.

  $ bash said sim f.v 0 1 --workers 4; bash said sim f.v 0 1 --output y; bash said worst f.v --parts 4; bash said bound f.v --budget 4; bash said info f.v --seconds 3; bash said check f.v c --cert c; bash said join f.v c -j 4; bash said parts f.v --parts 4 --keep=a=11 --check
  error: unexpected argument '--workers' found
    help: worst takes --workers, sim doesn't
  error: unexpected argument '--output' found
    tip: a similar argument exists: '--outputs'
    help: path, bound, worst, parts, join and check take --output, sim doesn't
  error: unexpected argument '--parts' found
    help: parts takes --parts, worst doesn't
  error: unexpected argument '--budget' found
    help: worst takes --budget, bound doesn't
  error: unexpected argument '--seconds' found
    help: sim, path, worst and check take --seconds, info doesn't
  error: unexpected argument '--cert' found
    help: worst and join take --cert, check doesn't
  error: unexpected argument '-j' found
    help: worst takes -j, join doesn't
  error: unexpected argument '--check' found
    help: join takes --check, parts doesn't

A value, a file whose name begins with `-`, and one file too many.

  $ bash said worst f.v --strategy fast; bash said worst f.v --strategy atuo; bash said worst f.v --budget -3; bash said info -f.v; bash said info --f.v; bash said worst f.v g.v
  error: invalid value 'fast' for '--strategy <NAME>'
  error: invalid value 'atuo' for '--strategy <NAME>'
    tip: a similar value exists: 'auto'
  error: unexpected argument '-3' found
  error: unexpected argument '-f' found
    help: a file's name that begins with - is written ./-f.v
  error: unexpected argument '--f.v' found
    help: a file's name that begins with - is written ./--f.v
  error: unexpected argument 'g.v' found

A word that isn't UTF-8: which one it is, with hints. The words can't be read, but `--hints` among them is seen.

  $ tdelay worst $'a\xff.v'
  tdelay: bad command line
  [2]
  $ tdelay worst $'a\xff.v' --hints
  tdelay: bad command line
  word 2 after tdelay, a?.v, isn't UTF-8, as each word has to be
    help: give the file another name, or a link with one
  [2]
  $ TDELAY_HINTS=1 tdelay sim f.v 0 $'\xc3\n'
  tdelay: bad command line
  word 4 after tdelay, ??, isn't UTF-8, as each word has to be
    help: give the file another name, or a link with one
  [2]
