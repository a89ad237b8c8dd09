#!/bin/sh
# Assembles and links bench/machines/emulator/main.s with tcd, lets readelf read the executable,
# runs it in the reference machine and in QEMU's TriCore board, and compares all registers at its
# end: bench/machines/emulator.sh [PROGRAM]. Without a program it builds crates/tcd. Needs rt,
# readelf, python3 and qemu-system-tricore.
set -eu
top=$(cd "$(dirname "$0")/../.." && pwd)
. "$top/bench/program.sh"
mkdir -p "$work/crates/registers/src"
for crate in tcd_base elf_image tc_isa tc_encode csa_chain tc_mem tcd_plan tc_machine; do
    mkdir "$work/crates/$crate"
    for part in src specs proofs; do cp -r "$top/crates/$crate/$part" "$work/crates/$crate/"; done
    grep "^$crate:" "$top/crates.txt" >>"$work/crates.txt"
done
echo "registers: tc_machine tcd_plan elf_image tc_mem csa_chain tc_encode tc_isa tcd_base arrayvec serde_json" >>"$work/crates.txt"
cp "$top/HANDLES" "$work/"
cat >"$work/crates/registers/src/main.rt" <<'PROGRAM'
// Starts the executable on standard input under the plan before it, whose length is in the first
// two bytes, does 10,000 events, and prints the registers.
#![tactic(auto)]

use elf_image::Image;
use std::io;
use std::io::Read;
use tc_machine::{Event, Machine};
use tcd_plan::Plan;

fn steps(m: &mut Machine) {
    let event = Event {
        irq: 0,
        input: 0,
        status: 0,
        aln: false,
    };
    for _ in 0..10000 {
        m.step(&event);
    }
}

fn main(rt: HostRuntime) -> io::Result<()> {
    let mut input = rt.stdin();
    let mut bytes = Vec::new(rt.alloc());
    input.read_to_end(&mut bytes)?;
    if bytes.len() < 2 || bytes.len() > 1073741824 {
        return Ok(());
    }
    let len = usize::from(bytes[0]) + 256 * usize::from(bytes[1]);
    if bytes.len() < 2 + len {
        return Ok(());
    }
    let Ok(plan) = Plan::read(rt.alloc(), &bytes[2..2 + len]) else {
        return Ok(());
    };
    let Ok(image) = Image::read(rt.alloc(), &bytes[2 + len..]) else {
        return Ok(());
    };
    let Ok(m) = Machine::start(rt.alloc(), &image, &plan) else {
        return Ok(());
    };
    let mut m = m;
    steps(&mut m);
    println!(rt; "PC {}", m.pc)?;
    println!(rt; "PCXI {}", m.pcxi)?;
    println!(rt; "FCX {}", m.fcx)?;
    for i in 0..16 {
        println!(rt; "D{i} {}", m.d[i])?;
        println!(rt; "A{i} {}", m.a[i])?;
    }
    Ok(())
}
PROGRAM
(cd "$work/crates/registers" && rt run </dev/null >"$work/log" 2>&1) || { cat "$work/log"; exit 1; }
PYTHONDONTWRITEBYTECODE=1 python3 "$top/bench/machines/emulator/compare.py" "$program" "$work/crates/registers/out/registers" "$work"
