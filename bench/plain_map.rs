//! A plain program of the algorithm of `glb map`, to measure beside it: flat arrays and the heaps of std, no proofs.
//!
//!     plain_map TOPOLOGY [MAP]      mapping's seconds of processor on standard error, and the map into MAP
//!
//! TOPOLOGY is one that generate.py wrote: each key stands on a line of its own. Groups offer their free units in
//! turn, at the first place of their list that has not turned them away, and no more than the place's limit; a node that
//! holds too much gives up units of the worst offer under it. Build it by `rustc -O`.

use std::collections::{BinaryHeap, VecDeque};
use std::fmt::Write;
use std::{env, fs};

const PLACES: usize = 16;
const NO_LIMIT: u64 = u32::MAX as u64;

/// Score, group, pool and place: the greatest is the worst.
type Seat = (u32, u32, u32, u8);

#[derive(Default)]
struct World {
    node_names: Vec<String>,
    group_names: Vec<String>,
    capacities: Vec<u64>,
    /// Where the path of each node begins among all paths, from the node to its root.
    starts: Vec<u32>,
    paths: Vec<u32>,
    demands: Vec<u64>,
    lens: Vec<u8>,
    pools: Vec<u32>,
    scores: Vec<u32>,
    limits: Vec<u64>,
}

impl World {
    fn path(&self, node: u32) -> &[u32] {
        let node = node as usize;
        &self.paths[self.starts[node] as usize..self.starts[node + 1] as usize]
    }

    fn seat(&self, group: usize, place: u8) -> Seat {
        let at = group * PLACES + place as usize;
        (self.scores[at], group as u32, self.pools[at], place)
    }
}

fn items(value: &str) -> impl Iterator<Item = &str> {
    value.trim_matches(['[', ']']).split(", ").map(|item| item.trim_matches('"'))
}

fn read(text: &str) -> World {
    let mut world = World::default();
    let mut numbers = std::collections::HashMap::new();
    let mut is_node = false;
    world.starts.push(0);
    for line in text.lines() {
        match line {
            "[[node]]" | "[[group]]" => is_node = line == "[[node]]",
            _ => {}
        }
        let Some((key, value)) = line.split_once(" = ") else { continue };
        let word = value.trim_matches('"');
        match key {
            "name" if is_node => {
                numbers.insert(word.to_string(), world.node_names.len() as u32);
                world.paths.push(world.node_names.len() as u32);
                world.node_names.push(word.to_string());
                world.starts.push(world.paths.len() as u32);
            }
            "parent" => {
                let (from, to) = (world.starts[numbers[word] as usize] as usize, world.starts[numbers[word] as usize + 1] as usize);
                world.paths.extend_from_within(from..to);
                *world.starts.last_mut().unwrap() = world.paths.len() as u32;
            }
            "capacity" => world.capacities.push(value.parse().unwrap()),
            "name" => world.group_names.push(word.to_string()),
            "demand" => world.demands.push(value.parse().unwrap()),
            "pools" => {
                let at = world.pools.len();
                world.pools.extend(items(value).map(|name| numbers[name]));
                world.lens.push((world.pools.len() - at) as u8);
                world.pools.resize(at + PLACES, 0);
            }
            "scores" => {
                let at = world.scores.len();
                world.scores.extend(items(value).map(|score| score.parse::<u32>().unwrap()));
                world.scores.resize(at + PLACES, 0);
                world.limits.resize(at + PLACES, NO_LIMIT);
            }
            "limits" => {
                let at = world.limits.len() - PLACES;
                for (place, limit) in items(value).enumerate() {
                    world.limits[at + place] = limit.parse().unwrap();
                }
            }
            _ => {}
        }
    }
    world
}

/// What is held, by group and place, and at each node.
struct Held {
    amounts: Vec<u64>,
    loads: Vec<u64>,
    heaps: Vec<BinaryHeap<Seat>>,
    pointers: Vec<u8>,
    free: Vec<u64>,
    work: VecDeque<u32>,
}

impl Held {
    /// The worst offer at a node that holds something.
    fn worst(&mut self, node: usize) -> Option<Seat> {
        while let Some(&seat) = self.heaps[node].peek() {
            if self.amounts[seat.1 as usize * PLACES + seat.3 as usize] > 0 {
                return Some(seat);
            }
            self.heaps[node].pop();
        }
        None
    }

    /// Takes from the worst offers at a node what it holds too much.
    fn evict(&mut self, world: &World, node: usize) {
        while self.loads[node] > world.capacities[node] {
            let (_, group, pool, place) = self.worst(node).unwrap();
            let at = group as usize * PLACES + place as usize;
            let gone = self.amounts[at].min(self.loads[node] - world.capacities[node]);
            self.amounts[at] -= gone;
            for &above in world.path(pool) {
                self.loads[above as usize] -= gone;
            }
            let group = group as usize;
            if self.free[group] == 0 {
                self.work.push_back(group as u32);
            }
            self.free[group] += gone;
            self.pointers[group] = self.pointers[group].max(place + 1);
        }
    }

    /// Whether a node of an offer's path is full of better ones.
    fn is_refused(&mut self, world: &World, seat: Seat) -> bool {
        world.path(seat.2).iter().any(|&node| {
            let n = node as usize;
            self.loads[n] == world.capacities[n] && self.worst(n).is_none_or(|worst| worst <= seat)
        })
    }

    fn offer(&mut self, world: &World, group: usize) {
        let place = self.pointers[group];
        let at = group * PLACES + place as usize;
        let seat = world.seat(group, place);
        let units = self.free[group].min(world.limits[at] - self.amounts[at]);
        if units == 0 || self.is_refused(world, seat) {
            self.pointers[group] += 1;
            return;
        }
        self.free[group] -= units;
        if self.amounts[at] == 0 {
            for &node in world.path(seat.2) {
                self.heaps[node as usize].push(seat);
            }
        }
        self.amounts[at] += units;
        for &node in world.path(seat.2) {
            self.loads[node as usize] += units;
        }
        for &node in world.path(seat.2) {
            self.evict(world, node as usize);
        }
    }
}

#[inline(never)]
fn map(world: &World) -> Held {
    let groups = world.demands.len();
    let nodes = world.capacities.len();
    let mut held = Held {
        amounts: vec![0; groups * PLACES],
        loads: vec![0; nodes],
        heaps: vec![BinaryHeap::new(); nodes],
        pointers: vec![0; groups],
        free: world.demands.clone(),
        work: (0..groups as u32).collect(),
    };
    while let Some(group) = held.work.pop_front() {
        let group = group as usize;
        while held.free[group] > 0 && held.pointers[group] < world.lens[group] {
            held.offer(world, group);
        }
    }
    held
}

/// The names: each wanted place with the first node of its path that is full of offers ranked at least as high, or with
/// none where its limit is full.
#[inline(never)]
fn names(world: &World, held: &mut Held) -> Vec<(u32, u8, Option<u32>)> {
    let worst: Vec<_> = (0..world.capacities.len()).map(|node| held.worst(node)).collect();
    let mut names = Vec::new();
    for group in 0..world.demands.len() {
        let mut through = 0;
        for place in 0..world.lens[group] {
            through += held.amounts[group * PLACES + place as usize];
            if through >= world.demands[group] {
                break;
            }
            let seat = world.seat(group, place);
            let refuses = |node: u32| {
                let n = node as usize;
                held.loads[n] == world.capacities[n] && worst[n].is_none_or(|worst| worst <= seat)
            };
            let at = group * PLACES + place as usize;
            if held.amounts[at] == world.limits[at] {
                names.push((group as u32, place, None));
                continue;
            }
            let node = world.path(seat.2).iter().copied().find(|&node| refuses(node));
            names.push((group as u32, place, Some(node.expect("some node refuses"))));
        }
    }
    names
}

fn write(world: &World, held: &Held, names: &[(u32, u8, Option<u32>)]) -> String {
    let mut text = String::from("glb map 2\n");
    let pool = |group: usize, place: usize| &world.node_names[world.pools[group * PLACES + place] as usize];
    for (group, name) in world.group_names.iter().enumerate() {
        for place in 0..world.lens[group] as usize {
            let units = held.amounts[group * PLACES + place];
            if units > 0 {
                writeln!(text, "place {name} {} {units}", pool(group, place)).unwrap();
            }
        }
    }
    for &(group, place, node) in names {
        let (name, pool) = (&world.group_names[group as usize], pool(group as usize, place as usize));
        match node {
            Some(node) => writeln!(text, "full {name} {pool} {}", world.node_names[node as usize]).unwrap(),
            None => writeln!(text, "limit {name} {pool}").unwrap(),
        }
    }
    text + "end\n"
}

/// The seconds of processor that this thread has had (Linux).
fn seconds() -> f64 {
    let times = fs::read_to_string("/proc/self/schedstat").unwrap();
    times.split(' ').next().unwrap().parse::<f64>().unwrap() / 1e9
}

fn main() {
    let args: Vec<String> = env::args().collect();
    let world = read(&fs::read_to_string(&args[1]).unwrap());
    let start = seconds();
    let mut held = map(&world);
    let names = names(&world, &mut held);
    eprintln!("{:.3}", seconds() - start);
    if let Some(path) = args.get(2) {
        fs::write(path, write(&world, &held, &names)).unwrap();
    }
}
