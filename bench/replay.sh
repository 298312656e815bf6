#!/bin/sh
# Prints the time that a script line takes, for scripts of about 2,000, 6,000 and 18,000 lines, and its ratio to that
# of the smallest: the cost of a script should grow linearly with its lines. In these scripts the 64 activities have
# calls open at once, again and again; half of the calls are of null, half of add. Each script is played many times,
# the processor's time is taken, and the best run counts; what the program takes to start is measured by the
# shortest script and left out. It is run by hand and is no part of the gate: a busy machine's times are worth
# little.
# Where valgrind is found, the instructions of a line are counted first: for scripts of null calls of 7 lines each, by
# the difference of two lengths, so that they don't depend on how busy the machine is. Then those of a script of losses
# and repeats, in its first and in its second half: a line costs as much behind many lines as behind few. Last those of
# a packet in a script of the longest calls, in its first and in its second half too.
set -eu
cd "$(dirname "$0")/.."
runs=${1:-200}
work=$(mktemp -d)
trap 'rm -rf "$work"' EXIT

# script CALLS: the activities in turn call null and add, as many at once as there are activities; the packets are
# delivered in their order, and worker after worker makes the four steps of the oldest call that is ready.
script() {
    awk -v calls="$1" '
        BEGIN {
            for (made = 0; made < calls; made += open) {
                open = calls - made < 64 ? calls - made : 64
                for (i = 0; i < open; i++) print "call", 2 + int(i / 8), 1 + i % 8, (i % 2 ? "add 1 2" : "null")
                for (i = 0; i < open; i++) print "deliver", 2 * made + 1 + i
                for (i = 0; i < open; i++) for (step = 0; step < 4; step++) print "work", 1 + i % 4
                for (i = 0; i < open; i++) print "deliver", 2 * made + open + 1 + i
            }
            print "journal"
            print "end"
        }'
}

echo end > "$work/0.script"
./ffrpc replay < "$work/0.script" > "$work/0.out"
for calls in 285 857 2571; do
    script "$calls" > "$work/$calls.script"
    [ "$(wc -c < "$work/$calls.script")" -le 1048576 ]
    ./ffrpc replay < "$work/$calls.script" > "$work/$calls.out"
    wanted="end runs $calls returned $calls signalled 0 failed 0 refused 0"
    [ "$(tail -n 1 "$work/$calls.out")" = "$wanted" ] || { echo "$calls calls: not all returned"; exit 1; }
done

# calls CALLS: one process calls null again and again; each call is delivered, worked on in four steps, and answered.
calls() {
    awk -v calls="$1" '
        BEGIN {
            for (made = 0; made < calls; made++) {
                print "call 2 1 null"
                print "deliver", 2 * made + 1
                for (step = 0; step < 4; step++) print "work 1"
                print "deliver", 2 * made + 2
            }
            print "end"
        }'
}

# losses CALLS: the same calls, whose packets are lost and come again. Of each call the packet comes twice, the second
# fetches the reply, which is lost; the call is sent again, fetches the reply once more, and returns; then the lost
# results come late. 18 lines and 5 packets a call.
losses() {
    awk -v calls="$1" '
        BEGIN {
            for (made = 0; made < calls; made++) {
                first = 5 * made + 1
                print "call 2 1 null"
                print "deliver", first
                print "deliver", first
                for (step = 0; step < 7; step++) print "work 1"
                print "tick 2 1 4"
                print "deliver", first + 3
                for (step = 0; step < 3; step++) print "work 1"
                print "deliver", first + 4
                print "deliver", first + 1
                print "deliver", first + 2
            }
            print "end"
        }'
}

# longest CALLS: calls of the longest arguments and of the longest results in turn, 64 pieces each. Each piece but the
# last is acknowledged, and the acknowledgement brings the next one. 322 lines and 128 packets a call.
longest() {
    awk -v calls="$1" '
        BEGIN {
            for (made = 0; made < calls; made++) {
                first = 128 * made + 1
                print "call 2 1", (made % 2 ? "maxresult" : "maxarg"), 92156
                for (packet = first; packet < first + 128; packet++) {
                    print "deliver", packet
                    if ((packet - first) % 2 == 1) continue
                    steps = 3
                    if (packet == first) steps = made % 2 ? 4 : 2
                    if (packet == first + 126 && made % 2 == 0) steps = 5
                    for (step = 0; step < steps; step++) print "work 1"
                }
            }
            print "end"
        }'
}

# instructions SCRIPT CALLS: of the program on that many calls of a script.
instructions() {
    "$1" "$2" > "$work/calls"
    valgrind --tool=callgrind --callgrind-out-file=/dev/null crates/ffrpc/out/ffrpc replay < "$work/calls" 2>&1 > "$work/calls.out" |
        awk '$2 == "Collected" { print $4 }'
    wanted="end runs $2 returned $2 signalled 0 failed 0 refused 0"
    [ "$(tail -n 1 "$work/calls.out")" = "$wanted" ] || { echo "$2 calls: not all returned" >&2; exit 1; }
}

if command -v valgrind > "$work/valgrind"; then
    few=$(instructions calls 1000)
    many=$(instructions calls 2800)
    echo "$(((many - few) / (7 * 1800))) instructions a line"
    few=$(instructions losses 250)
    half=$(instructions losses 650)
    many=$(instructions losses 1050)
    echo "with losses and repeats $(((half - few) / (18 * 400))) instructions a line, and $(((many - half) / (18 * 400))) behind 11,700 lines"
    few=$(instructions longest 12)
    half=$(instructions longest 36)
    many=$(instructions longest 60)
    echo "with the longest calls $(((half - few) / (128 * 24))) instructions a packet, and $(((many - half) / (128 * 24))) behind 4,600 packets"
else
    echo "valgrind isn't found: instructions aren't counted"
fi

python3 - "$runs" "$work" 0 285 857 2571 <<'PYTHON'
import os, subprocess, sys

runs, work, names = int(sys.argv[1]), sys.argv[2], sys.argv[3:]

def once(name):
    with open(f"{work}/{name}.script") as script:
        program = subprocess.Popen(["crates/ffrpc/out/ffrpc", "replay"], stdin=script, stdout=subprocess.DEVNULL)
        _, status, usage = os.wait4(program.pid, 0)
        assert status == 0
        program.returncode = 0
        return usage.ru_utime + usage.ru_stime

best = {name: min(once(name) for _ in range(runs)) for name in names}
least = None
for name in names[1:]:
    lines = sum(1 for _ in open(f"{work}/{name}.script"))
    spent = best[name] - best["0"]
    least = least or spent / lines
    print(f"{lines:6} lines: {1000 * spent:8.2f} ms, {1e6 * spent / lines:7.3f} microseconds a line, ratio {spent / lines / least:.2f}")
PYTHON
