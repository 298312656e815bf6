#!/bin/sh
# Prints the rounds per second of a storm of 20,000 calls, which has 24 rounds a call; where valgrind is found, the
# instructions of a round, by the difference of two lengths, so that they don't depend on how busy the machine is; and
# the resident memory of storms of 1,000 and of 20,000 calls, which should differ by the runs alone, in 72 bytes each.
# It is run by hand and is no part of the gate: a busy machine's times are worth little.
set -eu
cd "$(dirname "$0")/.."
runs=${1:-20}
seed=7
work=$(mktemp -d)
trap 'rm -rf "$work"' EXIT

# storm CALLS: the storm's summary must begin with its own line.
storm() {
    crates/ffrpc/out/ffrpc storm --seed=$seed "--calls=$1" > "$work/summary"
    [ "$(head -n 1 "$work/summary")" = "storm $seed $1" ] || { echo "a storm of $1 calls: no summary"; exit 1; }
}

# instructions CALLS: of the program on a storm of so many calls.
instructions() {
    valgrind --tool=callgrind --callgrind-out-file=/dev/null crates/ffrpc/out/ffrpc storm --seed=$seed "--calls=$1" 2>&1 > "$work/summary" |
        awk '$2 == "Collected" { print $4 }'
}

./ffrpc storm --seed=$seed --calls=1 > "$work/built"
storm 1000
storm 20000

if command -v valgrind > "$work/valgrind"; then
    few=$(instructions 1000)
    half=$(instructions 3000)
    many=$(instructions 5000)
    echo "$(((half - few) / (24 * 2000))) instructions a round, and $(((many - half) / (24 * 2000))) behind 72,000 rounds"
else
    echo "valgrind isn't found: instructions aren't counted"
fi

python3 - "$runs" $seed <<'PYTHON'
import os, subprocess, sys, time

runs, seed = int(sys.argv[1]), sys.argv[2]

def command(calls):
    return ["crates/ffrpc/out/ffrpc", "storm", f"--seed={seed}", f"--calls={calls}"]

def seconds(calls):
    program = subprocess.Popen(command(calls), stdout=subprocess.DEVNULL)
    _, status, usage = os.wait4(program.pid, 0)
    assert status == 0
    program.returncode = 0
    return usage.ru_utime + usage.ru_stime

# status of a process, as the system tells it
def told(pid):
    with open(f"/proc/{pid}/status") as lines:
        return dict(line.split(":", 1) for line in lines)

# The most memory that a storm held, in kilobytes: its output goes to a pipe that is full, so that it waits there at its
# end until it was asked.
def memory(calls):
    from_pipe, to_pipe = os.pipe()
    os.set_blocking(to_pipe, False)
    try:
        while True:
            os.write(to_pipe, bytes(4096))
    except BlockingIOError:
        os.set_blocking(to_pipe, True)
    program = subprocess.Popen(command(calls), stdout=to_pipe)
    waits = 0
    while waits < 5:
        time.sleep(0.01)
        waits = waits + 1 if told(program.pid)["State"].split()[0] == "S" else 0
    held = int(told(program.pid)["VmHWM"].split()[0])
    os.close(to_pipe)
    while os.read(from_pipe, 65536):
        pass
    os.close(from_pipe)
    assert program.wait() == 0
    return held

best = min(seconds(20000) for _ in range(runs))
print(f"20000 calls: {1000 * best:.1f} ms, {24 * 20000 / best:,.0f} rounds per second")
small, large = memory(1000), memory(20000)
print(f"resident memory {small} kilobytes with 1000 calls, {large} with 20000, ratio {large / small:.2f}")
PYTHON
