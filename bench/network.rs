//! The temporal network in stock Rust, by the same algorithm as the proved one, except that it
//! never looks whether a time has grown too late: the baseline of bench/network.py.
//!
//! usage: network KIND POINTS CALL COUNT
//!
//! Prints the nanoseconds of so many calls, or `wrong` where one is not answered as it is to be.

use std::time::Instant;

const GRID: u128 = 1_662;

/// A constraint, as small as the proved one.
#[derive(Clone, Copy)]
struct Edge {
    from: u32,
    to: u32,
    bound: i64,
    strict: bool,
    next: u32,
}

impl Edge {
    fn lag(&self) -> u128 {
        let size = if self.bound < 0 { -self.bound as u128 } else { 0 };
        GRID * size + self.strict as u128
    }

    fn lead(&self) -> u128 {
        GRID * self.bound.max(0) as u128
    }
}

struct Network {
    times: Vec<u128>,
    heads: Vec<u32>,
    work: Vec<u128>,
    marks: Vec<bool>,
    edges: Vec<Edge>,
}

enum Step {
    Cycle,
    Met,
    Raised,
}

impl Network {
    fn new(points: usize) -> Network {
        Network {
            times: vec![0; points],
            heads: vec![0; points],
            work: vec![0; points],
            marks: vec![false; points],
            edges: Vec::new(),
        }
    }

    fn raise(&mut self, point: usize, other: usize, lag: u128, lead: u128, end: usize) -> Step {
        let asked = self.work[point] + lag;
        if asked <= self.work[other] + lead {
            return Step::Met;
        }
        if other == end {
            return Step::Cycle;
        }
        self.work[other] = asked - lead;
        self.marks[other] = true;
        Step::Raised
    }

    fn settle(&mut self, point: usize, end: usize) -> Step {
        let mut step = Step::Met;
        let mut link = self.heads[point];
        while link != 0 {
            let edge = self.edges[link as usize - 1];
            match self.raise(point, edge.from as usize, edge.lag(), edge.lead(), end) {
                Step::Cycle => return Step::Cycle,
                Step::Met => {}
                Step::Raised => step = Step::Raised,
            }
            link = edge.next;
        }
        if point == 0 {
            for other in 0..self.times.len() {
                match self.raise(0, other, 0, 0, end) {
                    Step::Cycle => return Step::Cycle,
                    Step::Met => {}
                    Step::Raised => step = Step::Raised,
                }
            }
        }
        self.marks[point] = false;
        step
    }

    fn run(&mut self, from: usize, to: usize, time: u128) -> bool {
        self.work.copy_from_slice(&self.times);
        self.marks.fill(false);
        if from == to {
            return false;
        }
        self.work[from] = time;
        self.marks[from] = true;
        loop {
            let mut moved = false;
            for point in 0..self.times.len() {
                if self.marks[point] {
                    match self.settle(point, to) {
                        Step::Cycle => return false,
                        Step::Met => {}
                        Step::Raised => moved = true,
                    }
                }
            }
            if !moved {
                return true;
            }
        }
    }

    fn add(&mut self, from: usize, to: usize, bound: i128, strict: bool) -> bool {
        let edge = Edge {
            from: from as u32,
            to: to as u32,
            bound: bound as i64,
            strict,
            next: self.heads[to],
        };
        if self.times[to] + edge.lag() > self.times[from] + edge.lead() {
            if !self.run(from, to, self.times[to] + edge.lag() - edge.lead()) {
                return false;
            }
            std::mem::swap(&mut self.times, &mut self.work);
        }
        self.edges.push(edge);
        self.heads[to] = self.edges.len() as u32;
        true
    }

    fn back_to(&mut self, edges: usize) {
        while self.edges.len() > edges {
            let edge = self.edges.pop().unwrap();
            self.heads[edge.to as usize] = edge.next;
        }
    }
}

/// The point at a place. Places are numbered from 0, and a stride above 1 spreads them over the
/// points.
fn point_at(place: usize, stride: usize, points: usize) -> usize {
    1 + place * stride % (points - 1)
}

/// The point at each place comes after the one a place before it.
fn put_chain(network: &mut Network, points: usize, stride: usize) {
    for place in 1..points - 1 {
        let later = point_at(place, stride, points);
        network.add(later, point_at(place - 1, stride, points), -1, false);
    }
}

/// In rows of so many points, each point comes after the one before it in its row, and after the
/// one above it.
fn put_grid(network: &mut Network, points: usize, row: usize) {
    for point in 2..points {
        if point % row != 1 {
            network.add(point, point - 1, -1, false);
        }
        if point > row {
            network.add(point, point - row, -1, false);
        }
    }
}

/// The point at each place comes after those at three places before it, at random.
fn put_random(network: &mut Network, points: usize, stride: usize) {
    let mut seed = 1u64;
    for place in 1..points - 1 {
        for _ in 0..3 {
            seed = (seed * 48_271) % 2_147_483_647;
            let before = (seed % place as u64) as usize;
            let later = point_at(place, stride, points);
            network.add(later, point_at(before, stride, points), -1, false);
        }
    }
}

fn main() {
    let words: Vec<String> = std::env::args().collect();
    if words.len() < 5 {
        return;
    }
    let (kind, call) = (words[1].as_str(), words[3].as_str());
    let points: usize = words[2].parse().unwrap();
    let count: usize = words[4].parse().unwrap();
    let mut network = Network::new(points);
    let stride = match kind {
        "against" => points - 2,
        "random" => 613,
        _ => 1,
    };
    match kind {
        "grid" => put_grid(&mut network, points, 40),
        "random" => put_random(&mut network, points, stride),
        _ => put_chain(&mut network, points, stride),
    }
    let last = point_at(points - 2, stride, points);
    let far = points as i32;
    let (from, to, first, tighter, taken) = match call {
        "one" => (last, 0, -far, 1, true),
        "all" => (1, 0, -2 * far, 1, true),
        "refused" => (1, last, 0, 0, false),
        _ => (last, 1, 0, 0, true),
    };
    network.edges.reserve(count);
    let base = network.edges.len();
    let mut most: i32 = first;
    let mut all = true;
    let mut start = Instant::now();
    for _ in 0..count {
        all = network.add(from, to, i128::from(most), false) == taken && all;
        if call == "turn" {
            network.back_to(base);
        }
        most = most.wrapping_sub(tighter);
    }
    if call == "back" {
        start = Instant::now();
        network.back_to(base);
    }
    let time = start.elapsed().as_nanos();
    if all {
        println!("{time}");
    } else {
        println!("wrong");
    }
}
