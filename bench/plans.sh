#!/bin/sh
# Prints the bytes per second of `put` and `get`, for the largest array of bytes that a call carries and for an array
# of 7,000 records of a CARDINAL and a LONGCARD, beside a copy of the bytes and, where a C compiler and the C
# library's XDR (Debian: libtirpc-dev) are found, beside XDR on the same values. Then the time of `parse` for interface
# texts of about 10,000 and 1,000,000 bytes: the second should take about a hundred times the first. It is run by hand
# and is no part of the gate: the times are the machine's, so read the ratios.
set -eu
cd "$(dirname "$0")/.."
work=$(mktemp -d)
trap 'rm -rf "$work"' EXIT

mkdir -p "$work/crates/plans_bench/src"
for crate in item_list interface_tokens interface_text marshal_plans; do
    cp -r "crates/$crate" "$work/crates/"
done
grep -E '^(item_list|interface_tokens|interface_text|marshal_plans):' crates.txt > "$work/crates.txt"
echo 'plans_bench: item_list interface_text marshal_plans anyhow' >> "$work/crates.txt"
cat > "$work/crates/plans_bench/src/main.rt" <<'RATTLE'
//! Times `put`, `get` and a copy of the same bytes, a line each.
#![tactic(auto)]

use anyhow::{Context, Result, bail};
use interface_text::{Ident, Interface, Procedure, Shape, parse};
use item_list::Items;
use marshal_plans::{Plan, Plans, Value, Values, compile, get, is_shallow, put};
use std::alloc::Global;
use std::time::Instant;

const RUNS: usize = 5;

const BULK: u32 = 92_156;

const RECORDS: u32 = 7_000;

fn plan_of(alloc: Global, shape: Shape) -> Result<Plan> {
    let procedure = Procedure {
        name: Ident::read(b"P").context("a name")?,
        line: 1,
        raises: Items::new(Vec::new(alloc)),
        arguments: Items::new(vec![in alloc; shape]?),
        reply: Items::new(Vec::new(alloc)),
    };
    let interface = Interface {
        name: Ident::read(b"I").context("a name")?,
        exceptions: Items::new(Vec::new(alloc)),
        procedures: Items::new(vec![in alloc; procedure]?),
    };
    if interface.procedures.len() > 256 || !is_shallow(&interface) {
        bail!("beyond the limits");
    }
    let Plans { procedures } = compile(alloc, &interface)?;
    Ok(procedures.into_vec().pop().context("a plan")?.arguments)
}

fn puts(plan: &Plan, values: &[Value], room: &mut [u8], rounds: u32) -> usize {
    let mut last = 0;
    for _ in 0..rounds {
        last = put(plan, values, room).unwrap_or(0);
    }
    last
}

fn gets(alloc: Global, plan: &Plan, bytes: &[u8], rounds: u32) -> usize {
    let mut last = 0;
    for _ in 0..rounds {
        last = match get(alloc, plan, bytes) {
            Ok(values) => values.len(),
            Err(_) => 0,
        };
    }
    last
}

fn copies(from: &mut [u8], to: &mut [u8], rounds: u32) -> usize {
    for i in 0..rounds {
        if let Some(first) = from.first_mut() {
            *first = (i % 251) as u8;
        }
        if from.len() == to.len() {
            to.copy_from_slice(from);
        }
    }
    to.len()
}

fn compare(rt: &HostRuntime, name: &str, plan: &Plan, values: &[Value], rounds: u32) -> Result<()> {
    let mut room = vec![in rt.alloc(); 0u8; 92160]?;
    let len = puts(plan, values, &mut room, 1);
    room.truncate(len);
    let mut copy = vec![in rt.alloc(); 0u8; len]?;
    let mut best = [u128::MAX; 3];
    for _ in 0..RUNS {
        let start = Instant::now(rt)?;
        puts(plan, values, &mut room, rounds);
        let put_time = start.elapsed(rt)?.as_nanos();
        let start = Instant::now(rt)?;
        gets(rt.alloc(), plan, &room, rounds);
        let get_time = start.elapsed(rt)?.as_nanos();
        let start = Instant::now(rt)?;
        copies(&mut room, &mut copy, rounds);
        let copy_time = start.elapsed(rt)?.as_nanos();
        best = [best[0].min(put_time), best[1].min(get_time), best[2].min(copy_time)];
        puts(plan, values, &mut room, 1);
    }
    println!(rt; "put {name} {len} {rounds} {}", best[0])?;
    println!(rt; "get {name} {len} {rounds} {}", best[1])?;
    println!(rt; "copy {name} {len} {rounds} {}", best[2])?;
    Ok(())
}

fn bulk(rt: &HostRuntime) -> Result<()> {
    let alloc = rt.alloc();
    let plan = plan_of(alloc, Shape::Open(BULK, Box::new(alloc, Shape::Byte)?))?;
    let bytes = vec![in alloc; 7u8; 92156]?;
    let values = vec![in alloc; Value::Group(Values::of_bytes(bytes))]?;
    compare(rt, "bytes", &plan, &values, 4000)
}

fn records(rt: &HostRuntime) -> Result<()> {
    let alloc = rt.alloc();
    let record = Shape::Fields(vec![in alloc; Shape::Cardinal, Shape::LongCard]?);
    let plan = plan_of(alloc, Shape::Open(RECORDS, Box::new(alloc, record)?))?;
    let mut elements = Vec::new(alloc);
    for i in 0..RECORDS {
        let one = Value::Number(i128::from(i));
        let other = Value::Number(i128::from(i) << 32);
        elements.push(Value::Group(Values::new(vec![in alloc; one, other]?)))?;
    }
    let values = vec![in alloc; Value::Group(Values::new(elements))]?;
    compare(rt, "records", &plan, &values, 200)
}

/// The text of an interface with so many procedures, each of so many parameters.
fn text_of(alloc: Global, procedures: u32, names: u32) -> Result<String> {
    let mut text = String::new(alloc);
    text.push_str("INTERFACE Wide;\n")?;
    for procedure in 0..procedures {
        text.push_str(format!(in alloc; "PROCEDURE P{procedure}(VAR a")?.as_str())?;
        for name in 0..names {
            text.push_str(format!(in alloc; ", a{name}")?.as_str())?;
        }
        text.push_str(": CARDINAL);\n")?;
    }
    text.push_str("END Wide.\n")?;
    Ok(text)
}

fn parses(rt: &HostRuntime, procedures: u32, names: u32, rounds: u32) -> Result<()> {
    let text = text_of(rt.alloc(), procedures, names)?;
    if text.len() > 1_048_576 {
        bail!("beyond the limits");
    }
    let mut best = u128::MAX;
    for _ in 0..RUNS {
        let start = Instant::now(rt)?;
        for _ in 0..rounds {
            if parse(rt.alloc(), text.as_bytes()).is_err() {
                bail!("a text with a fault");
            }
        }
        best = best.min(start.elapsed(rt)?.as_nanos());
    }
    println!(rt; "parse text {} {rounds} {best}", text.len())?;
    Ok(())
}

fn main(rt: HostRuntime) -> Result<()> {
    bulk(&rt)?;
    records(&rt)?;
    parses(&rt, 25, 75, 200)?;
    parses(&rt, 250, 679, 2)
}
RATTLE
(cd "$work/crates/plans_bench" && rt run > "$work/build.log" 2>&1 < /dev/null || { cat "$work/build.log"; exit 1; })
"$work/crates/plans_bench/out/plans_bench" > "$work/times"

compiler=$(command -v "${CC:-cc}" || command -v clang || true)
if [ -n "$compiler" ] && "$compiler" -O3 -I/usr/include/tirpc -o "$work/xdr" bench/xdr.c -ltirpc > "$work/xdr.log" 2>&1; then
    "$work/xdr" >> "$work/times"
else
    echo "the C library's XDR isn't found"
fi

awk '$1 == "parse" {
           printf "parse of %7d bytes: %8.1f microseconds, %5.1f nanoseconds a byte\n", $3, $5 / $4 / 1000, $5 / $4 / $3
           next
       }
     { speed[$1, $2] = $3 * $4 * 1000 / $5
       printf "%-10s %-8s %6d bytes: %8.0f million bytes per second\n", $1, $2, $3, speed[$1, $2] }
     END { for (pair in speed) {
               split(pair, part, SUBSEP)
               if (part[1] != "copy")
                   printf "%s of %s: %.3f times the speed of a copy\n", part[1], part[2], speed[pair] / speed["copy", part[2]]
           } }' "$work/times"
