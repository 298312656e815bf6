#!/bin/sh
# Prints the nanoseconds of a take and give, and of a take, post, claim and give, by one thread and by two and four at
# once, and beside them those of a push and pop on the toolchain's bounded queue, moved by the same threads. A packet
# has to be taken before it can be posted, and given back once it was claimed: what post and claim cost alone is by one
# thread the difference of the first two. Only one seat may post: so of several threads one takes, posts, claims and
# gives, and the others try as often to claim before it does, and give. A time is the clock's, divided by the packets
# that all threads moved; of posted ones those count that were claimed. The best of five runs counts. The program is
# proved before it is built, on copies of the pool and of what it stands on, which takes some minutes. It is run by hand
# and is no part of the gate: the times are the machine's, and a busy machine's are worth nothing, so look at the ratio
# to the queue.
set -eu
cd "$(dirname "$0")/.."
work=$(mktemp -d)
trap 'rm -rf "$work"' EXIT

bench="$work/crates/pool_bench"
mkdir -p "$bench/src" "$bench/specs" "$bench/proofs"
cp HANDLES "$work/"
for crate in item_list lane_checksum ff_io rpc_header fragments udp_frames packet_board packet_pool; do
    mkdir "$work/crates/$crate"
    for part in src specs proofs; do
        if [ -d "crates/$crate/$part" ]; then cp -r "crates/$crate/$part" "$work/crates/$crate/"; fi
    done
    grep "^$crate:" crates.txt >> "$work/crates.txt"
done
# The moves of the tests, as modules of the program, with what their contracts and proofs name.
tests=crates/wire_tests
cp "$tests/src/moves.rt" "$bench/src/"
cp "$tests/specs/Moves.antt" "$tests/specs/Lib.antt" "$bench/specs/"
cp -r "$tests/proofs/moves" "$tests/proofs/Posters.antt" "$bench/proofs/"
echo 'pub mod Posters' > "$bench/proofs/Lib.antt"
find "$bench" -name '*.rt' -o -name '*.antt' | xargs sed -i 's/Rattle\.wire_tests\./Rattle.pool_bench./'
echo 'pool_bench: packet_board packet_pool crossbeam_queue' >> "$work/crates.txt"
cat > "$bench/src/main.rt" <<'RATTLE'
//! Times a pool and a queue by one, two and four threads, a line each: what, threads, packets, nanoseconds a packet.
#![tactic(auto)]

ghost use Rattle.std.specs.Thread.{IsSync};
ghost use Rattle.std.specs.Prelude.{◌≡◌, ◌≤◌, true};
ghost use Rattle.packet_board.specs.Hands.{HoldsNothing};
ghost use Rattle.packet_board.specs.Seats.{view, held, IsSeatOf};
ghost use Rattle.packet_pool.specs.Cells.{last_order};
ghost use Rattle.packet_pool.specs.Packets.{board_of};
ghost use Rattle.pool_bench.specs.Moves.{PostsBelow};

mod moves;

use crate::moves::{claim_rounds, claims, take_and_post, takes};
use crossbeam_queue::ArrayQueue;
use packet_board::{Layout, Seat};
use packet_pool::{PlainLaw, Pool};
use std::alloc::Global;
use std::io;
use std::sync::Wait;
use std::thread::{Threads, join_mut};
use std::time::{Clock, Instant};

const ROUNDS: u64 = 200_000;

const RUNS: usize = 5;

const PLACES: usize = 64;

const LAYOUT: Layout = Layout {
    small: 64,
    long: 0,
    rows: [8, 0, 0, 0, 0],
};

/// What is measured, by that many threads.
#[derive(Clone, Copy)]
enum What {
    Take,
    Post,
    Push,
}

/// Takes and gives so many times, and counts the packets.
fn take_rounds(pool: &Pool<PlainLaw>, seat: &mut Seat<PlainLaw>, rounds: u64) -> u64
    requires seat { IsSeatOf (board_of pool.now) seat.old }
    requires empty { HoldsNothing (held seat.old) }
    ensures seat { IsSeatOf (board_of pool.now) seat.new }
    ensures empty { HoldsNothing (held seat.new) }
    ensures counted { result ≤ rounds }
{
    let mut moved = 0;
    for round in 0..rounds {
        if takes(pool, seat) {
            moved += 1;
        }
    }
    moved
}

/// Posts and claims in turns, and counts the packets that were claimed.
fn post_and_claim_rounds(pool: &Pool<PlainLaw>, seat: &mut Seat<PlainLaw>, rounds: u64) -> u64
    requires seat { IsSeatOf (board_of pool.now) seat.old }
    requires empty { HoldsNothing (held seat.old) }
    requires order { PostsBelow 0 (view seat.old) × (rounds ≤ last_order) }
    ensures seat { IsSeatOf (board_of pool.now) seat.new }
    ensures empty { HoldsNothing (held seat.new) }
    ensures order { PostsBelow rounds (view seat.new) }
    ensures counted { result ≤ rounds }
{
    let mut moved = 0;
    for order in 0..rounds {
        let _posted = take_and_post(pool, seat, order);
        if claims(pool, seat) {
            moved += 1;
        }
    }
    moved
}

/// Pushes and pops so many times, and counts the items.
fn push_rounds<R: Wait>(rt: &R, queue: &ArrayQueue<u64>) -> u64 {
    let mut moved = 0u64;
    for round in 0..ROUNDS {
        let _ = queue.push(rt, round);
        if queue.pop(rt).is_some() {
            moved = moved.saturating_add(1);
        }
    }
    moved
}

fn push_by<R: Threads + Wait + Sync>(rt: &R, queue: &ArrayQueue<u64>, threads: u64) -> u64 {
    match threads {
        1 => push_rounds(rt, queue),
        2 => {
            let (a, b) = join_mut(
                rt,
                &mut || push_rounds(rt, queue),
                &mut || push_rounds(rt, queue),
            );
            a.saturating_add(b)
        }
        _ => {
            let (a, b) = join_mut(
                rt,
                &mut || push_by_two(rt, queue),
                &mut || push_by_two(rt, queue),
            );
            a.saturating_add(b)
        }
    }
}

fn push_by_two<R: Threads + Wait + Sync>(rt: &R, queue: &ArrayQueue<u64>) -> u64 {
    let (a, b) = join_mut(
        rt,
        &mut || push_rounds(rt, queue),
        &mut || push_rounds(rt, queue),
    );
    a.saturating_add(b)
}

fn take_by_two<R: Threads + Sync>(
    rt: &R,
    pool: &Pool<PlainLaw>,
    one: &mut Seat<PlainLaw>,
    two: &mut Seat<PlainLaw>,
) -> u64
    requires seats { IsSeatOf (board_of pool.now) one.old × IsSeatOf (board_of pool.now) two.old }
    requires empty { HoldsNothing (held one.old) × HoldsNothing (held two.old) }
{
    let (a, b) = join_mut(
        rt,
        &mut || take_rounds(pool, one, ROUNDS),
        &mut || take_rounds(pool, two, ROUNDS),
    );
    a.saturating_add(b)
}

fn claim_by_two<R: Threads + Sync>(
    rt: &R,
    pool: &Pool<PlainLaw>,
    one: &mut Seat<PlainLaw>,
    two: &mut Seat<PlainLaw>,
) -> u64
    requires seats { IsSeatOf (board_of pool.now) one.old × IsSeatOf (board_of pool.now) two.old }
    requires empty { HoldsNothing (held one.old) × HoldsNothing (held two.old) }
{
    let (a, b) = join_mut(
        rt,
        &mut || claim_rounds(pool, one, ROUNDS),
        &mut || claim_rounds(pool, two, ROUNDS),
    );
    a.saturating_add(b)
}

/// The first seat posts and claims, the other one claims.
fn post_by_two<R: Threads + Sync>(
    rt: &R,
    pool: &Pool<PlainLaw>,
    one: &mut Seat<PlainLaw>,
    two: &mut Seat<PlainLaw>,
) -> u64
    requires seats { IsSeatOf (board_of pool.now) one.old × IsSeatOf (board_of pool.now) two.old }
    requires empty { HoldsNothing (held one.old) × HoldsNothing (held two.old) }
    requires order { PostsBelow 0 (view one.old) }
{
    let (a, b) = join_mut(
        rt,
        &mut || post_and_claim_rounds(pool, one, ROUNDS),
        &mut || claim_rounds(pool, two, ROUNDS),
    );
    a.saturating_add(b)
}

fn take_by_four<R: Threads + Sync>(
    rt: &R,
    pool: &Pool<PlainLaw>,
    one: &mut Seat<PlainLaw>,
    two: &mut Seat<PlainLaw>,
    three: &mut Seat<PlainLaw>,
    four: &mut Seat<PlainLaw>,
) -> u64
    requires seats { IsSeatOf (board_of pool.now) one.old × IsSeatOf (board_of pool.now) two.old }
    requires others { IsSeatOf (board_of pool.now) three.old × IsSeatOf (board_of pool.now) four.old }
    requires empty { HoldsNothing (held one.old) × HoldsNothing (held two.old) }
    requires others_empty { HoldsNothing (held three.old) × HoldsNothing (held four.old) }
{
    let (a, b) = join_mut(
        rt,
        &mut ||
            requires shared { IsSync R.row }
            requires seats { IsSeatOf (board_of pool.now) one.now × IsSeatOf (board_of pool.now) two.now }
            requires empty { HoldsNothing (held one.now) × HoldsNothing (held two.now) }
        { take_by_two(rt, pool, one, two) },
        &mut ||
            requires shared { IsSync R.row }
            requires seats { IsSeatOf (board_of pool.now) three.now × IsSeatOf (board_of pool.now) four.now }
            requires empty { HoldsNothing (held three.now) × HoldsNothing (held four.now) }
        { take_by_two(rt, pool, three, four) },
    );
    a.saturating_add(b)
}

/// The first seat posts and claims, the other three claim.
fn post_by_four<R: Threads + Sync>(
    rt: &R,
    pool: &Pool<PlainLaw>,
    one: &mut Seat<PlainLaw>,
    two: &mut Seat<PlainLaw>,
    three: &mut Seat<PlainLaw>,
    four: &mut Seat<PlainLaw>,
) -> u64
    requires seats { IsSeatOf (board_of pool.now) one.old × IsSeatOf (board_of pool.now) two.old }
    requires others { IsSeatOf (board_of pool.now) three.old × IsSeatOf (board_of pool.now) four.old }
    requires empty { HoldsNothing (held one.old) × HoldsNothing (held two.old) }
    requires others_empty { HoldsNothing (held three.old) × HoldsNothing (held four.old) }
    requires order { PostsBelow 0 (view one.old) }
{
    let (a, b) = join_mut(
        rt,
        &mut ||
            requires shared { IsSync R.row }
            requires seats { IsSeatOf (board_of pool.now) one.now × IsSeatOf (board_of pool.now) two.now }
            requires empty { HoldsNothing (held one.now) × HoldsNothing (held two.now) }
            requires order { PostsBelow 0 (view one.now) }
        { post_by_two(rt, pool, one, two) },
        &mut ||
            requires shared { IsSync R.row }
            requires seats { IsSeatOf (board_of pool.now) three.now × IsSeatOf (board_of pool.now) four.now }
            requires empty { HoldsNothing (held three.now) × HoldsNothing (held four.now) }
        { claim_by_two(rt, pool, three, four) },
    );
    a.saturating_add(b)
}

/// One run: the packets that were moved, and the nanoseconds.
fn run<R: Threads + Wait + Sync + Clock>(
    rt: &R,
    alloc: Global,
    what: What,
    threads: u64,
) -> io::Result<(u64, u128)> {
    let (pool, mut one) = Pool::<PlainLaw>::make(alloc, LAYOUT)?;
    let mut two = pool.board().split(&mut one);
    let mut three = pool.board().split(&mut one);
    let mut four = pool.board().split(&mut one);
    let queue = ArrayQueue::new(alloc, PLACES)?;
    let start = Instant::now(rt)?;
    let moved = match (what, threads) {
        (What::Take, 1) => take_rounds(&pool, &mut one, ROUNDS),
        (What::Take, 2) => take_by_two(rt, &pool, &mut one, &mut two),
        (What::Take, _) => take_by_four(rt, &pool, &mut one, &mut two, &mut three, &mut four),
        (What::Post, 1) => post_and_claim_rounds(&pool, &mut one, ROUNDS),
        (What::Post, 2) => post_by_two(rt, &pool, &mut one, &mut two),
        (What::Post, _) => post_by_four(rt, &pool, &mut one, &mut two, &mut three, &mut four),
        (What::Push, _) => push_by(rt, &queue, threads),
    };
    Ok((moved, start.elapsed(rt)?.as_nanos()))
}

fn main(rt: HostRuntime) -> io::Result<()> {
    for threads in [1u64, 2, 4] {
        for (what, name) in [
            (What::Take, "take_and_give"),
            (What::Post, "post_and_claim"),
            (What::Push, "push_and_pop"),
        ] {
            let mut best = u128::MAX;
            let mut packets = 0;
            for _ in 0..RUNS {
                let (moved, spent) = run(&rt, rt.alloc(), what, threads)?;
                let each = spent / u128::from(moved.max(1));
                if each < best {
                    best = each;
                    packets = moved;
                }
            }
            println!(rt; "{name} {threads} {packets} {best}")?;
        }
    }
    Ok(())
}
RATTLE
mkdir "$bench/proofs/take_rounds"
cat > "$bench/proofs/take_rounds/Invariants.antt" <<'ANTT'
use Rattle.std.proofs.Common.{◌≤◌}
use Rattle.packet_board.specs.Hands.{HoldsNothing}
use Rattle.packet_board.specs.Seats.{held, IsSeatOf}
use Rattle.packet_pool.specs.Packets.{board_of}
use Rattle.pool_bench.proofs.take_rounds.Given as goal

abbrev pub invariant-loop-round : goal.invariant-loop-round
invariant-loop-round l = record {
  seat : IsSeatOf (board_of l.fn.pool) l.seat;
  nothing_held : HoldsNothing (held l.seat);
  counted : l.moved ≤ l.round;
}
ANTT
mkdir "$bench/proofs/post_and_claim_rounds"
cat > "$bench/proofs/post_and_claim_rounds/Invariants.antt" <<'ANTT'
use Rattle.std.proofs.Common.{◌≤◌}
use Rattle.packet_board.specs.Hands.{HoldsNothing}
use Rattle.packet_board.specs.Seats.{view, held, IsSeatOf}
use Rattle.packet_pool.specs.Packets.{board_of}
use Rattle.pool_bench.specs.Moves.{PostsBelow}
use Rattle.pool_bench.proofs.post_and_claim_rounds.Given as goal

abbrev pub invariant-loop-order : goal.invariant-loop-order
invariant-loop-order l = record {
  seat : IsSeatOf (board_of l.fn.pool) l.seat;
  nothing_held : HoldsNothing (held l.seat);
  below : PostsBelow l.order (view l.seat);
  counted : l.moved ≤ l.order;
}
ANTT
(cd "$bench" && rt run > "$work/times" 2> "$work/log" < /dev/null) || { cat "$work/times" "$work/log"; exit 1; }
awk '$1 == "take_and_give" || $1 == "post_and_claim" || $1 == "push_and_pop" { ns[$2, $1] = $4; seen[$2] = 1 }
     END {
         for (t = 1; t <= 4; t *= 2) {
             if (!(t in seen)) exit 1
             queue = ns[t, "push_and_pop"]
             take = ns[t, "take_and_give"]
             post = ns[t, "post_and_claim"]
             per = queue > 0 ? queue : 1
             printf "threads %d: push and pop of a queue %d ns; take and give %d ns, %.1f times that; take, post, claim and give %d ns, %.1f times that\n", t, queue, take, take / per, post, post / per
         }
     }' "$work/times"
