#!/bin/sh
# Prints the bytes per second of the checksum in lanes, of its own plain loop, and of a C loop at -O3 where there
# is a C compiler, at the sizes of an empty call, of a full packet and of the largest arguments. It is run by hand
# and is no part of the gate: the times are the machine's, and a busy machine's are worth nothing.
set -eu
cd "$(dirname "$0")/.."
work=$(mktemp -d)
trap 'rm -rf "$work"' EXIT

# A copy, in which the plain loop can be called from outside.
mkdir -p "$work/crates/checksum_bench/src"
cp -r crates/lane_checksum "$work/crates/"
sed -i 's/^mod lanes;/pub mod lanes;/' "$work/crates/lane_checksum/src/lib.rt"
sed -i 's/^fn plain_sum/pub fn plain_sum/' "$work/crates/lane_checksum/src/lanes.rt"
printf 'lane_checksum:\nchecksum_bench: lane_checksum\n' > "$work/crates.txt"
cat > "$work/crates/checksum_bench/src/main.rt" <<'RATTLE'
//! Times both sums at each size that standard input names, a line each.
#![tactic(auto)]

use lane_checksum::lanes::plain_sum;
use lane_checksum::sum;
use std::io;
use std::time::Instant;

const BYTES_A_RUN: u64 = 400_000_000;

const RUNS: usize = 5;

fn lanes_once(bytes: &mut [u8], rounds: u64) -> u16 {
    let mut all = 0;
    for i in 0..rounds {
        if let Some(first) = bytes.first_mut() {
            *first = (i % 251) as u8;
        }
        all ^= sum(bytes);
    }
    all
}

fn plain_once(bytes: &mut [u8], rounds: u64) -> u16 {
    let mut all = 0;
    for i in 0..rounds {
        if let Some(first) = bytes.first_mut() {
            *first = (i % 251) as u8;
        }
        all ^= plain_sum(bytes);
    }
    all
}

fn main(rt: HostRuntime) -> io::Result<()> {
    for line in rt.lines(rt.alloc()) {
        let size: usize = line?.as_str().parse().unwrap_or(0);
        let mut bytes = vec![in rt.alloc(); 0u8; size]?;
        for (i, byte) in bytes.iter_mut().enumerate() {
            *byte = (i % 251) as u8;
        }
        let rounds = BYTES_A_RUN / (size as u64).max(1);
        for is_plain in [false, true] {
            let mut best = u128::MAX;
            let mut shown = 0;
            for _ in 0..RUNS {
                let start = Instant::now(&rt)?;
                shown = if is_plain {
                    plain_once(&mut bytes, rounds)
                } else {
                    lanes_once(&mut bytes, rounds)
                };
                best = best.min(start.elapsed(&rt)?.as_nanos());
            }
            let name = if is_plain { "plain" } else { "lanes" };
            println!(rt; "{name} {size} {rounds} {best} {shown}")?;
        }
    }
    Ok(())
}
RATTLE

sizes="74 1514 92160"
(cd "$work/crates/checksum_bench" && rt run > "$work/build.log" 2>&1 < /dev/null || { cat "$work/build.log"; exit 1; })
printf '%s\n' $sizes | "$work/crates/checksum_bench/out/checksum_bench" > "$work/times"

compiler=$(command -v "${CC:-cc}" || command -v clang || true)
if [ -n "$compiler" ]; then
    "$compiler" -O3 -o "$work/c_loop" bench/checksum.c
    printf '%s\n' $sizes | "$work/c_loop" >> "$work/times"
fi

awk '{ printf "%-6s %6d bytes: %8.0f million bytes per second\n", $1, $2, $2 * $3 * 1000 / $4 }
     $1 == "lanes" { lanes[$2] = $2 * $3 / $4 }
     $1 == "plain" { plain[$2] = $2 * $3 / $4 }
     END { for (size in lanes) printf "%d bytes: lanes are %.1f times as fast as the plain loop\n", size, lanes[size] / plain[size] }' "$work/times"
