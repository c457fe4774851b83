#!/usr/bin/env bash
# A reply's own time: user time of all of `answer_core::reply`, lookup included, with and without a client subnet, among
# about 2,000 and 262,144 prefixes.
#
#   bench/reply.sh
#
# `replies`, a program that is proved and built here over the repository's crates, reads a topology and a map and then
# replies to a thousand datagrams in each round. The time of a reply is that of 2,000 rounds less that of none, by two
# million: the least of five.
source "$(dirname "$0")/set-up.sh"

mkdir -p "$work/repository/crates/replies/src"
tar -C "$top" -c --exclude='crates/*/out' crates | tar -C "$work/repository" -x
cat >"$work/repository/crates/replies/src/main.rt" <<'PROGRAM'
//! Replies to the same datagrams again and again: what a reply costs.
#![tactic(auto)]

ghost use Rattle.published_map.specs.Version.{IsVersion};
ghost use Rattle.std.specs.Prelude.{◌≡◌, IfSome};

use addr_text::Addr;
use answer_core::{Answer, Way, reply};
use arrayvec::ArrayVec;
use dns_wire::ReplyBuffer;
use map_model::Instance;
use map_text::read_map;
use published_map::MapVersion;
use std::alloc::Global;
use std::env;
use std::fs;
use std::io::Read;
use std::process::ExitCode;
use std::rt::Files;
use topology_text::{Topology, read_topology};
use world_versions::{is_good, version_of};

/// The octets of a datagram's row: its sender's address, its length, and its octets.
const ROW: usize = 128;

/// The length of the reply to one row.
fn reply_to(version: &MapVersion, row: &[u8], draw: u64, out: &mut ReplyBuffer) -> usize
    requires { IsVersion version.now }
{
    if row.len() != ROW {
        return 0;
    }
    let from = Addr::V4(u32::from_be_bytes([row[0], row[1], row[2], row[3]]));
    let size = row[4] as usize;
    if size > ROW - 5 {
        return 0;
    }
    match reply(version, from, &row[5..5 + size], draw, Way::Datagram, out) {
        Answer::Sent => out.len(),
        Answer::Silent => 0,
    }
}

/// How many octets the replies to all rows have.
fn round(version: &MapVersion, rows: &[u8], draw: u64, out: &mut ReplyBuffer) -> usize
    requires { IsVersion version.now }
{
    let mut sum = 0usize;
    for row in rows.chunks_exact(ROW) {
        sum = sum.wrapping_add(reply_to(version, row, draw, out));
    }
    sum
}

/// How many octets the replies of so many rounds have.
fn rounds(version: &MapVersion, rows: &[u8], count: u64) -> usize
    requires { IsVersion version.now }
{
    let mut out = ArrayVec::new();
    let mut sum = 0usize;
    for draw in 0..count {
        sum = sum.wrapping_add(round(version, rows, draw, &mut out));
    }
    sum
}

/// An equal instance.
fn copy_of(instance: &Instance) -> Option<Instance>
    ensures { IfSome result (λ i. i ≡ instance.now) }
{
    match instance.try_clone() {
        Ok(instance) => Some(instance),
        Err(_) => None,
    }
}

/// The version of a topology and a map of it that is good.
fn opened(alloc: Global, topology: Topology, map: &[u8]) -> Option<MapVersion>
    ensures { IfSome result IsVersion }
{
    let Ok(map) = read_map(alloc, &topology, map) else {
        return None;
    };
    let Some(instance) = copy_of(topology.instance()) else {
        return None;
    };
    if !is_good(alloc, &instance, &map) {
        return None;
    }
    version_of(alloc, 0, topology, &instance, &map)
}

/// The octets of a file.
fn load<R: Files + AllocGlobal>(rt: &R, name: &str) -> Option<Vec<u8>> {
    let Ok(mut file) = fs::open(rt, name) else {
        return None;
    };
    let mut octets = Vec::new(rt.alloc());
    match file.read_to_end(&mut octets) {
        Ok(_) => Some(octets),
        Err(_) => None,
    }
}

/// Replies so often as the number says, and how many octets the replies have in all.
fn run<R: Files + AllocGlobal>(rt: &R, topology: &str, map: &str, rows: &str, count: u64) -> Option<usize> {
    let text = load(rt, topology)?;
    let map = load(rt, map)?;
    let rows = load(rt, rows)?;
    let Ok(topology) = read_topology(rt.alloc(), text.as_slice()) else {
        return None;
    };
    let version = opened(rt.alloc(), topology, map.as_slice())?;
    Some(rounds(&version, rows.as_slice(), count))
}

fn main(rt: HostRuntime) -> ExitCode {
    let Ok(args) = env::args(&rt) else {
        return ExitCode::from(1);
    };
    let Ok(words) = args.collect::<Vec<String>>(rt.alloc()) else {
        return ExitCode::from(8);
    };
    if words.len() != 5 {
        return ExitCode::from(1);
    }
    let Ok(count) = words[4].parse::<u64>() else {
        return ExitCode::from(1);
    };
    match run(&rt, words[1].as_str(), words[2].as_str(), words[3].as_str(), count) {
        Some(sum) if count == 0 || sum > 0 => ExitCode::from(0),
        _ => ExitCode::from(3),
    }
}
PROGRAM
{ cat "$top/crates.txt"; echo 'replies: map_model addr_text topology_text map_text published_map world_versions dns_wire answer_core arrayvec'; } >"$work/repository/crates.txt"
cp "$top/HANDLES" "$work/repository/"
git -C "$work/repository" init -q
touch "$work/nothing"
(cd "$work/repository/crates/replies" && rt run -- "$work/nothing" "$work/nothing" "$work/nothing" 0) >>"$work/log" 2>&1 || true
replies=$work/repository/crates/replies/out/replies

# the rows of the questions of a feed
rows() {
    python3 - "$1" <<'ROWS'
import ipaddress, sys
with open(sys.argv[1]) as lines:
    for line in lines:
        words = line.split()
        if words[0] == "ask":
            octets = bytes.fromhex(words[2])
            row = ipaddress.IPv4Address(words[1]).packed + bytes([len(octets)]) + octets
            sys.stdout.buffer.write(row.ljust(128, b"\0"))
ROWS
}

# the least user time of five runs of so many rounds
user() {
    python3 - "$replies" "$work/topology" "$work/map" "$work/rows" "$1" <<'TIME'
import os, subprocess, sys
def once():
    before = os.times().children_user
    subprocess.run(sys.argv[1:], check=True)
    return os.times().children_user - before
print(min(once() for _ in range(5)))
TIME
}

for groups in 500 65536; do
    python3 "$here/generate.py" "$groups" 2048 1 1000 "$work/topology" >/dev/null
    "$glb" map "$work/topology" >"$work/map"
    for subnets in 0 1; do
        python3 "$here/asks.py" "$work/topology" 1000 "$subnets" >"$work/feed"
        rows "$work/feed" >"$work/rows"
        none=$(user 0)
        many=$(user 2000)
        printf '%d groups of four prefixes, client subnets %d: %s µs a reply\n' "$groups" "$subnets" "$(python3 -c "print(round(($many - $none) / 2, 3))")"
    done
done
