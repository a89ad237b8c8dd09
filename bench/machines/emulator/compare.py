"""Compares the registers at the end of a program in the reference machine and in QEMU: compare.py TCD REGISTERS DIRECTORY."""
import os
import re
import socket
import struct
import subprocess
import sys
import time

HERE = os.path.dirname(os.path.abspath(__file__))


def linked(tcd, work, layout):
    """The program as an executable that begins where the layout says."""
    objects = []
    for name in ("main", "boot"):
        subprocess.run([tcd, "asm", f"{HERE}/{name}.s", f"{work}/{name}.o"], check=True)
        objects.append(f"{work}/{name}.o")
    subprocess.run([tcd, "link", f"{HERE}/{layout}", f"{work}/{layout}.elf", *objects], check=True)
    read = subprocess.run(
        ["readelf", "-hlW", f"{work}/{layout}.elf"], capture_output=True, text=True, check=True
    )
    assert not read.stderr, read.stderr
    return f"{work}/{layout}.elf"


def in_machine(registers, elf):
    with open(f"{HERE}/plan.json", "rb") as file:
        plan = file.read()
    with open(elf, "rb") as file:
        given = struct.pack("<H", len(plan)) + plan + file.read()
    printed = subprocess.run(
        [registers], input=given, capture_output=True, check=True
    ).stdout.decode()
    return {line.split()[0]: int(line.split()[1]) for line in printed.splitlines()}


def asked(path, line):
    with socket.socket(socket.AF_UNIX) as monitor:
        monitor.connect(path)
        text = b""
        while b"(qemu)" not in text:
            text += monitor.recv(65536)
        monitor.sendall(line + b"\n")
        text = b""
        while text.count(b"(qemu)") < 1 or b"D12" not in text:
            text += monitor.recv(65536)
    return text.decode(errors="replace")


def in_qemu(elf, work):
    path = f"{work}/monitor"
    with subprocess.Popen(
        [
            "qemu-system-tricore",
            "-M",
            "tricore_testboard",
            "-display",
            "none",
            "-serial",
            "none",
            "-kernel",
            elf,
            "-monitor",
            f"unix:{path},server=on,wait=off",
        ]
    ) as qemu:
        time.sleep(3)
        text = asked(path, b"info registers")
        qemu.kill()
    found = {}
    for name, words in re.findall(r"(PC|PCXI|FCX|GPR A\d\d|GPR D\d\d):((?: ?[0-9a-f]{8})+)", text):
        values = [int(word, 16) for word in words.split()]
        if name.startswith("GPR"):
            found.update({f"{name[4]}{int(name[5:]) + i}": value for i, value in enumerate(values)})
        else:
            found[name] = values[0]
    return found


def main(tcd, registers, work):
    ours = in_machine(registers, linked(tcd, work, "layout"))
    theirs = in_qemu(linked(tcd, work, "layout.boot"), work)
    assert len(ours) == 35, ours
    for name, value in ours.items():
        mark = "" if theirs.get(name) == value else "  DIFFERS"
        print(f"{name:5} {value:08X} {theirs.get(name, -1):08X}{mark}")
    different = [name for name in ours if theirs.get(name) != ours[name]]
    print(f"{len(ours) - len(different)} of {len(ours)} registers are the same")
    sys.exit(1 if different else 0)


if __name__ == "__main__":
    main(*sys.argv[1:])
