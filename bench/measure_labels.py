#!/usr/bin/env python3
"""Measures the programs that read lines; bench/labels calls it.

    python3 measure_labels.py LABELS TALLY MODEL FOLDER

FOLDER has walk.csv and, in many/, the files of many histories.
"""

import fcntl
import os
import struct
import subprocess
import sys
import termios
import time
from pathlib import Path
from statistics import median

ROUNDS = 5
MANY_ROUNDS = 3
MEMORY_LINES = [1_000, 100_000, 1_000_000]
MODELS = {"labels": "model in plain Rust", "tally": "model's tally"}


def seconds(command, path):
    """The time of one run, from a file to nowhere."""
    with open(path, "rb") as lines:
        start = time.perf_counter()
        subprocess.run(command, stdin=lines, stdout=subprocess.DEVNULL, check=True)
        return time.perf_counter() - start


def speed(programs, path):
    count = path.read_bytes().count(b"\n")
    for command in programs.values():
        seconds(command, path)  # the file and the program are in memory from here on
    rates = {name: [] for name in programs}
    for _ in range(ROUNDS):
        for name, command in programs.items():
            rates[name].append(count / seconds(command, path))
    print(f"\nlines a second, {ROUNDS} rounds in turn, output to /dev/null")
    print(f"{'':24}{'best':>12}{'median':>12}{'median to the model':>24}")
    for name, values in rates.items():
        middle = median(values)
        ratio = f"{middle / median(rates[MODELS.get(name, name)]):.2f}"
        print(f"{name:24}{max(values):>12,.0f}{middle:>12,.0f}{ratio:>24}")
    compare(rates["labels"], rates["tally"])


def compare(labels, tally):
    """Says whether the tally program is as fast as the one that prints the labels."""
    ratio = median(tally) / median(labels)
    said = "no slower than" if ratio >= 1 else "slower than"
    best = max(tally) / max(labels)
    print(f"tally is {said} labels: {ratio:.2f} times the lines a second, {best:.2f} by the best")


def waiting_bytes(pipe):
    return struct.unpack("i", fcntl.ioctl(pipe, termios.FIONREAD, b"\0" * 4))[0]


def is_asleep(pid):
    stat = Path(f"/proc/{pid}/stat").read_text()
    return stat[stat.rindex(")") + 2] == "S"


def peak(command, lines):
    """The peak of the memory in use, in KiB, when a program has taken all lines and waits for more.

    It is read from the program's own account: that of its parent would count memory of before.
    """
    child = subprocess.Popen(command, stdin=subprocess.PIPE, stdout=subprocess.DEVNULL)
    child.stdin.write(lines)
    child.stdin.flush()
    while waiting_bytes(child.stdin) > 0 or not is_asleep(child.pid):
        if child.poll() is not None:
            sys.exit(f"{command[0]} has ended before its input")
        time.sleep(0.001)
    status = Path(f"/proc/{child.pid}/status").read_text()
    child.stdin.close()
    child.wait()
    return int(status.split("VmHWM:")[1].split()[0])


def memory(programs, path):
    lines = path.read_bytes().splitlines(keepends=True)
    print("\npeak resident memory in KiB")
    print(f"{'lines':24}" + "".join(f"{count:>12,}" for count in MEMORY_LINES))
    for name, command in programs.items():
        peaks = [peak(command, b"".join(lines[:count])) for count in MEMORY_LINES]
        print(f"{name:24}" + "".join(f"{kib:>12,}" for kib in peaks))


def many(programs, folder):
    files = sorted(folder.glob("*.csv"))
    count = files[0].read_bytes().count(b"\n")
    line = "ls *.csv | xargs -P {jobs} -I % sh -c 'PROGRAM < % > %.labels'"
    print(f"\n{len(files)} histories of {count:,} lines, best of {MANY_ROUNDS} rounds, in seconds:")
    print("  " + line.replace("{jobs}", "JOBS"))
    print(f"{'JOBS':24}{1:>12}{2:>12}")
    printed = set()
    for name, [program] in programs.items():
        best = []
        for jobs in [1, 2]:
            command = line.format(jobs=jobs).replace("PROGRAM", f'"{program}"')
            times = []
            for _ in range(MANY_ROUNDS):
                start = time.perf_counter()
                subprocess.run(command, shell=True, cwd=folder, check=True)
                times.append(time.perf_counter() - start)
            best.append(min(times))
            labels = [Path(f"{file}.labels").read_bytes() for file in files]
            printed.add(hash(tuple(labels)))
        print(f"{name:24}" + "".join(f"{value:>12.2f}" for value in best))
    same = "the same labels each time" if len(printed) == 1 else "DIFFERENT LABELS"
    print(same)
    return len(printed) == 1


def main():
    labels, tally, model, folder = sys.argv[1:]
    folder = Path(folder)
    labellers = {"labels": [labels], MODELS["labels"]: [model]}
    programs = {**labellers, "tally": [tally], MODELS["tally"]: [model, "--tally"]}
    print(f"{os.cpu_count()} processors, load {os.getloadavg()[0]:.1f}")
    speed(programs, folder / "walk.csv")
    memory(programs, folder / "walk.csv")
    return 0 if many(labellers, folder / "many") else 1


if __name__ == "__main__":
    sys.exit(main())
