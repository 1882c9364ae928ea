//! The operations of crates/time_groups, written by hand without contracts: the same arguments in the same order, and the
//! same number made of all results. tools/time_groups.sh compiles, runs and compares both.
//!
//! The union-find is the usual one: an array of parents and sizes, the smaller class hung by the larger, ways up
//! shortened by every call, and no test of what the table holds.
use std::io::BufRead;

const MEMBERS: usize = 256;
const SEED: u64 = 47;

fn next(x: u64) -> u64 {
    x.wrapping_mul(6364136223846793005).wrapping_add(1442695040888963407)
}

fn byte(x: u64, at: u32) -> usize {
    (x >> at) as u8 as usize
}

trait Group: Copy + PartialEq {
    const IDENTITY: Self;
    fn is_lawful(self) -> bool;
    fn compose(self, other: Self) -> Self;
    fn inverse(self) -> Self;
    fn draw(x: u64) -> Self;
    fn number(self) -> u64;
}

#[derive(Clone, Copy, PartialEq)]
struct Tick(u32);

impl Group for Tick {
    const IDENTITY: Tick = Tick(0);

    fn is_lawful(self) -> bool {
        true
    }

    fn compose(self, other: Tick) -> Tick {
        Tick(self.0.wrapping_add(other.0))
    }

    fn inverse(self) -> Tick {
        Tick(self.0.wrapping_neg())
    }

    fn draw(x: u64) -> Tick {
        Tick((x >> 16) as u32)
    }

    fn number(self) -> u64 {
        self.0 as u64
    }
}

#[derive(Clone, Copy, PartialEq)]
struct Renaming(u64);

impl Renaming {
    fn image(self, name: u64) -> u64 {
        (self.0 >> (4 * name)) & 15
    }

    fn exchange(a: u64, b: u64) -> Renaming {
        let turn = a ^ b;
        Renaming(Renaming::IDENTITY.0 ^ (turn << (4 * a)) ^ (turn << (4 * b)))
    }
}

impl Group for Renaming {
    const IDENTITY: Renaming = Renaming(0x98_7654_3210);

    fn is_lawful(self) -> bool {
        if self.0 >> 40 != 0 {
            return false;
        }
        let mut seen = 0;
        for i in 0..10 {
            seen |= 1 << self.image(i);
        }
        seen == 0x3ff
    }

    fn compose(self, other: Renaming) -> Renaming {
        let mut bits = 0;
        for i in 0..10 {
            bits |= self.image(other.image(i)) << (4 * i);
        }
        Renaming(bits)
    }

    fn inverse(self) -> Renaming {
        let mut bits = 0;
        for i in 0..10 {
            bits |= i << (4 * self.image(i));
        }
        Renaming(bits)
    }

    fn draw(x: u64) -> Renaming {
        let mut x = x;
        let mut drawn = Renaming::IDENTITY;
        for name in 0..10 {
            x = next(x);
            drawn = drawn.compose(Renaming::exchange(name, (byte(x, 40) * 10 >> 8) as u64));
        }
        drawn
    }

    fn number(self) -> u64 {
        self.0
    }
}

enum Refusal {
    Stranger,
    Unlawful,
}

enum Related<G> {
    New,
    Known,
    Clash(G),
}

struct UnionFind<G> {
    parent: [u8; MEMBERS],
    size: [u16; MEMBERS],
    step: [G; MEMBERS],
}

impl<G: Group> UnionFind<G> {
    fn new() -> Self {
        let mut parent = [0; MEMBERS];
        for (i, p) in parent.iter_mut().enumerate() {
            *p = i as u8;
        }
        UnionFind { parent, size: [1; MEMBERS], step: [G::IDENTITY; MEMBERS] }
    }

    // The way up; every member on it is hung by the root.
    fn find(&mut self, i: usize) -> (usize, G) {
        let p = self.parent[i] as usize;
        if p == i {
            return (i, G::IDENTITY);
        }
        if self.parent[p] as usize == p {
            return (p, self.step[i]);
        }
        let (root, above) = self.find(p);
        self.parent[i] = root as u8;
        self.step[i] = self.step[i].compose(above);
        (root, self.step[i])
    }

    fn relation(&mut self, i: usize, j: usize) -> Result<Option<G>, Refusal> {
        if i >= MEMBERS || j >= MEMBERS {
            return Err(Refusal::Stranger);
        }
        let (a, x) = self.find(i);
        let (b, y) = self.find(j);
        Ok(if a == b { Some(x.compose(y.inverse())) } else { None })
    }

    fn relate(&mut self, i: usize, j: usize, g: G) -> Result<Related<G>, Refusal> {
        if i >= MEMBERS || j >= MEMBERS {
            return Err(Refusal::Stranger);
        }
        if !g.is_lawful() {
            return Err(Refusal::Unlawful);
        }
        let (a, x) = self.find(i);
        let (b, y) = self.find(j);
        if a == b {
            let told = x.compose(y.inverse());
            return Ok(if told == g { Related::Known } else { Related::Clash(told) });
        }
        let step = x.inverse().compose(g.compose(y));
        if self.size[a] <= self.size[b] {
            self.parent[a] = b as u8;
            self.step[a] = step;
            self.size[b] += self.size[a];
        } else {
            self.parent[b] = a as u8;
            self.step[b] = step.inverse();
            self.size[a] += self.size[b];
        }
        Ok(Related::New)
    }
}

struct Fact<G> {
    i: u8,
    j: u8,
    step: G,
}

fn mixed(k: u64) -> u8 {
    (k * 97 + 13) as u8
}

fn random_facts<G: Group>(count: u64) -> Vec<Fact<G>> {
    let mut x = 1;
    (0..count)
        .map(|k| {
            x = next(x);
            let child = (k * 101 + 7) % 255 + 1;
            Fact { i: mixed(child), j: mixed((x >> 33) % child), step: G::draw(x) }
        })
        .collect()
}

fn falling_facts<G: Group>() -> Vec<Fact<G>> {
    let mut x = 1;
    (0..255)
        .map(|k| {
            x = next(x);
            Fact { i: 255 - k, j: 254 - k, step: G::draw(x) }
        })
        .collect()
}

fn operations(count: u64, run: impl Fn(Renaming, Renaming) -> u64) -> u64 {
    let mut x = SEED;
    let mut moves = [Renaming::IDENTITY; 256];
    for m in &mut moves {
        x = next(x);
        *m = Renaming::draw(x);
    }
    for _ in 0..count {
        x = next(x ^ run(moves[byte(x, 56)], moves[byte(x, 48)]));
    }
    x
}

fn told<G: Group>(table: &mut UnionFind<G>, i: usize, j: usize) -> u64 {
    match table.relation(i, j) {
        Ok(Some(g)) => g.number(),
        Ok(None) => 1,
        Err(_) => 2,
    }
}

fn learn<G: Group>(table: &mut UnionFind<G>, facts: &[Fact<G>]) -> u64 {
    let mut sum: u64 = 0;
    for fact in facts {
        let outcome = match table.relate(fact.i as usize, fact.j as usize, fact.step) {
            Ok(Related::New) => 1,
            Ok(Related::Known) => 2,
            Ok(Related::Clash(g)) => g.number(),
            Err(_) => 3,
        };
        sum = sum.wrapping_mul(5).wrapping_add(outcome);
    }
    sum
}

fn questions<G: Group>(count: u64) -> u64 {
    let mut table = UnionFind::new();
    let mut x = learn(&mut table, &random_facts::<G>(240));
    for _ in 0..count {
        x = next(x ^ told(&mut table, byte(x, 56), byte(x, 48)));
    }
    x
}

fn rounds<G: Group>(facts: &[Fact<G>], count: u64) -> u64 {
    let mut x = SEED;
    for _ in 0..count / 255 {
        let mut table = UnionFind::new();
        x = next(x ^ learn(&mut table, facts));
        x = next(x ^ told(&mut table, byte(x, 56), byte(x, 48)));
    }
    x
}

fn results(operation: &str, count: u64) -> Option<u64> {
    Some(match operation {
        "nothing" => operations(count, |a, b| a.0 ^ b.0),
        "compose" => operations(count, |a, b| a.compose(b).0),
        "inverse" => operations(count, |a, b| a.inverse().0 ^ b.0),
        "image" => operations(count, |a, b| (0..8).fold(b.0 & 15, |name, _| a.image(name))),
        "lawful" => operations(count, |a, b| if Renaming(a.0 ^ (b.0 & 1)).is_lawful() { 1 } else { 2 }),
        "relation-tick" => questions::<Tick>(count),
        "relation-renaming" => questions::<Renaming>(count),
        "relate-tick" => rounds::<Tick>(&random_facts(255), count),
        "relate-renaming" => rounds::<Renaming>(&random_facts(255), count),
        "falling-tick" => rounds::<Tick>(&falling_facts(), count),
        "falling-renaming" => rounds::<Renaming>(&falling_facts(), count),
        _ => return None,
    })
}

fn main() {
    for line in std::io::stdin().lock().lines() {
        let line = line.expect("a line of standard input");
        let parts = line.split_once(' ').and_then(|(name, count)| Some((name, count.parse().ok()?)));
        match parts.and_then(|(name, count)| results(name, count)) {
            Some(number) => println!("{line} {number:016X}"),
            None => println!("{line} is no operation"),
        }
    }
}
