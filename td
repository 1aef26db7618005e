#!/usr/bin/env bash
# Runs the proved program with these words and this input, and builds it first if need be (tools/proved.bash).
set -u
. "$(dirname "$(readlink -f "$0")")/tools/proved.bash"

help_text() {
    cat <<'TEXT'
td: validate messages by a format in 3D, in memory that others keep changing

  td check  < FORMAT     is the format accepted? if not, why, and where
  td run    < INPUT      validate a job's message while others store to it
  td host   < INPUT      serve the messages of several guests, by threads
  td pack   < FORMAT     the format's compiled image, for the C library
  td code   < FORMAT     the same code as text
  td tidy   < FORMAT     the format in its canonical layout; comments go
  td bench N             validate N made messages, 1 to 10,000, and count
  td --version           the version of this repository

An INPUT is a format, a line %%, and a job. Try: td run < examples/two_numbers/input
The first call proves and builds the program, which takes an hour and more. For a first look without it:
  ./td-second run < examples/two_numbers/input
Status: 0 done (a rejected message, too), 1 refused, 2 wrong words, 3 read, 4 write, 5 memory; 70 td isn't built.
More: man -l man/td.1, README.md, docs/ERRORS.md
TEXT
}

# Words that ask for help or the version are answered here, at once: the program itself, whose usage line is proved, would be built for
# them first.
case "$*" in
    -h | --help | help)
        help_text
        exit 0
        ;;
    --version)
        echo "td $(cat "$top/VERSION")"
        exit 0
        ;;
esac
run_proved td "$@"
