#!/bin/sh
# How many machine instructions `decode` executes. Builds a program that decodes an image from
# standard input, runs it under callgrind on images of n and of 2n bytes, and prints the counts.
# Needs rt, valgrind and python3.
set -eu
top=$(cd "$(dirname "$0")/.." && pwd)
work=$(mktemp -d)
trap 'rm -rf "$work"' EXIT
mkdir -p "$work/crates/decode_bench/src"
for crate in tcd_base tc_isa tc_encode; do
    mkdir "$work/crates/$crate"
    for part in src specs proofs; do cp -r "$top/crates/$crate/$part" "$work/crates/$crate/"; done
    grep "^$crate:" "$top/crates.txt" >>"$work/crates.txt"
done
echo "decode_bench: tc_encode tc_isa tcd_base" >>"$work/crates.txt"
cp "$top/HANDLES" "$work/"
cat >"$work/crates/decode_bench/src/main.rt" <<'PROGRAM'
// Decodes an image from standard input, one instruction after another.
#![tactic(auto)]

use std::io;
use std::io::Read;
use tc_encode::decode;

fn count(bytes: &[u8]) -> (u64, u64) {
    let mut at: usize = 0;
    let mut found: u64 = 0;
    let mut others: u64 = 0;
    for _ in 0..bytes.len() {
        if at >= bytes.len() {
            break;
        }
        match decode(&bytes[at..]) {
            Ok((_, n)) => {
                at = at.saturating_add(n);
                found = found.saturating_add(1);
            }
            Err(_) => {
                at = at.saturating_add(2);
                others = others.saturating_add(1);
            }
        }
    }
    (found, others)
}

fn main(rt: HostRuntime) -> io::Result<()> {
    let mut input = rt.stdin();
    let mut bytes = Vec::new(rt.alloc());
    input.read_to_end(&mut bytes)?;
    let (found, others) = count(bytes.as_slice());
    println!(rt; "decoded {found} others {others}")
}
PROGRAM
image() { python3 -c '
import sys
code = bytes.fromhex("".join(line.split("#")[0] for line in open(sys.argv[1])))
sys.stdout.buffer.write(code * int(sys.argv[2]))' "$top/bench/instructions.hex" "$1"; }
image 200 >"$work/one"
image 400 >"$work/two"
cd "$work/crates/decode_bench"
rt run <"$work/one" >"$work/log" 2>&1 || { cat "$work/log"; exit 1; }
program=$(ls out/decode_bench)
for size in one two; do
    valgrind --tool=callgrind --callgrind-out-file="$work/$size.out" "$program" <"$work/$size" >"$work/$size.text" 2>/dev/null
done
python3 - "$work" <<'SUMS'
import re, sys
work = sys.argv[1]
counts, found = [], []
for size in ("one", "two"):
    counts.append(int(re.search(r"^(?:summary|totals): (\d+)", open(f"{work}/{size}.out").read(), re.M).group(1)))
    text = open(f"{work}/{size}.text").read()
    found.append(sum(int(n) for n in re.findall(r"\d+", text)))
    print(len(open(f"{work}/{size}", "rb").read()), "bytes:", text.strip(), "with", counts[-1], "instructions")
print("ratio %.3f" % (counts[1] / counts[0]))
print("instructions for each decoded one: %.1f" % ((counts[1] - counts[0]) / (found[1] - found[0])))
SUMS
