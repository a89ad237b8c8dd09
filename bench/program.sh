# For the other scripts, which read this one: the top of the repository, the program (the first
# word, or else a built crates/tcd), and a directory for their files.
set -eu
top=${top:-$(cd "$(dirname "$0")/.." && pwd)}
program=${1:-}
if [ -z "$program" ]; then
    (cd "$top/crates/tcd" && rt run -- check data/i1.elf data/p0.json data/c0.cert)
    program=$top/crates/tcd/out/tcd
fi
work=$(mktemp -d)
trap 'rm -rf "$work"' EXIT
