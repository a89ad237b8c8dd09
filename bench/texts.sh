#!/bin/sh
# How many machine instructions `asm` executes for sources of 25,000 and 50,000 lines, `link` for
# objects of several shapes, and `dis` for images of 512 KB and 1 MB: bench/texts.sh [PROGRAM].
# Without a program it builds crates/tcd.
# Needs rt (without a program), valgrind and python3.
set -eu
. "$(dirname "$0")/program.sh"
PYTHONDONTWRITEBYTECODE=1 PYTHONPATH=$top/bench python3 "$top/bench/texts.py" "$program" "$work"
