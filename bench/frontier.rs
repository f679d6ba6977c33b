// The program of crates/frontier_pairs in plain Rust, with the same two passes.
use std::io::{BufRead, stdin};

#[derive(Clone, Copy)]
struct Pair {
    first: u32,
    second: u32,
}

impl Pair {
    fn covers(&self, other: &Pair) -> bool {
        self.first <= other.first && self.second <= other.second
    }
}

struct Full;

struct Frontier<'a> {
    places: &'a mut [Pair],
    count: usize,
}

impl Frontier<'_> {
    fn kept(&self) -> &[Pair] {
        &self.places[..self.count]
    }

    fn is_covered(&self, x: &Pair) -> bool {
        for i in 0..self.count {
            if self.places[i].covers(x) {
                return true;
            }
        }
        false
    }

    fn compact(&mut self, x: &Pair) -> usize {
        let mut left = 0;
        for i in 0..self.count {
            let kept = self.places[i];
            self.places[left] = kept;
            if !x.covers(&kept) {
                left += 1;
            }
        }
        left
    }

    fn offer(&mut self, x: Pair) -> Result<(), Full> {
        if self.is_covered(&x) {
            return Ok(());
        }
        let left = self.compact(&x);
        if left == self.places.len() {
            return Err(Full);
        }
        self.places[left] = x;
        self.count = left + 1;
        Ok(())
    }
}

fn offer_all(frontier: &mut Frontier, pairs: &[Pair]) -> Result<(), Full> {
    for pair in pairs {
        frontier.offer(*pair)?;
    }
    Ok(())
}

fn print(kept: &[Pair]) {
    println!("{} kept", kept.len());
    for pair in kept {
        println!("{} {}", pair.first, pair.second);
    }
}

fn run(pairs: &[Pair], places: &mut [Pair], times: u32) {
    let mut refused = false;
    let mut count = 0;
    for _ in 0..times.max(1) {
        let mut frontier = Frontier { places: &mut *places, count: 0 };
        refused = offer_all(&mut frontier, pairs).is_err();
        count = frontier.kept().len();
    }
    if refused {
        println!("refused: 11");
    }
    print(&places[..count]);
}

fn run_in_place(pairs: &mut [Pair]) {
    let mut frontier = Frontier { places: pairs, count: 0 };
    for i in 0..frontier.places.len() {
        let pair = frontier.places[i];
        let _ = frontier.offer(pair);
    }
    print(frontier.kept());
}

fn main() {
    let times = std::env::args().nth(1).map_or(1, |word| word.parse().unwrap());
    let mut pairs = Vec::new();
    for line in stdin().lock().lines() {
        let line = line.unwrap();
        let (first, second) = line.split_once(' ').unwrap();
        pairs.push(Pair { first: first.parse().unwrap(), second: second.parse().unwrap() });
    }
    let none = Pair { first: 0, second: 0 };
    run(&pairs, &mut vec![none; pairs.len()], times);
    run(&pairs, &mut [none; 4], 1);
    run_in_place(&mut pairs);
}
