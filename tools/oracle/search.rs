// Hill climbing for rare cases, with R unbounded; keeps the best input of each goal as a count file. All ours.

use crate::countfile::{file_text, on_border, one_sided, read, status_of};
use crate::generate::{Rng, EDGE};
use crate::isosurface::{build, Answer, Input, SampleLattice};
use std::collections::{HashMap, HashSet};
use std::time::{Duration, Instant};

/// What is looked for. A goal with a target wants a small box whose score is the target; one without wants the highest score.
struct Goal {
    name: String,
    score: fn(&Input, &Answer) -> i64,
    target: Option<i64>,
    /// All border samples on one side.
    one_sided: bool,
    /// Samples that are not finite too.
    wild: bool,
}

/// The most rollback rounds that are looked for.
const MOST_ROUNDS: i64 = 7;

fn goals() -> Vec<Goal> {
    let mut all = Vec::new();
    let mut add = |name: &str, target: Option<i64>, one_sided: bool, wild: bool, score: fn(&Input, &Answer) -> i64| {
        all.push(Goal { name: name.to_string(), score, target, one_sided, wild });
    };
    for k in 1..=MOST_ROUNDS {
        add(&format!("rounds-{k}"), Some(k), false, false, |_, a| a.owners.len() as i64);
        add(&format!("rounds-{k}-one-sided"), Some(k), true, false, |_, a| a.owners.len() as i64);
    }
    add("split-1", Some(1), false, false, |_, a| a.split.len() as i64);
    add("split-1-one-sided", Some(1), true, false, |_, a| a.split.len() as i64);
    add("split-many", None, false, false, |_, a| a.split.len() as i64);
    add("split-with-two-rounds", Some(3), false, false, |_, a| a.owners.len().min(2) as i64 + a.split.len().min(1) as i64);
    add("multihole-1", Some(1), false, false, |_, a| a.cases[1] as i64);
    add("multihole-many", None, false, false, |_, a| a.cases[1] as i64);
    add("flathole-1", Some(1), false, false, |_, a| a.cases[2] as i64);
    add("flathole-many", None, false, false, |_, a| a.cases[2] as i64);
    add("multisurface-1", Some(1), false, false, |_, a| a.cases[3] as i64);
    add("multisurface-many", None, false, false, |_, a| a.cases[3] as i64);
    add("all-five-cases", Some(5), false, false, |_, a| a.cases.iter().filter(|&&n| n > 0).count() as i64);
    add("vertices-over-crossed", None, false, false, |_, a| if a.crossed == 0 { 0 } else { (1000 * a.book.len() / a.crossed) as i64 });
    add("rollback-owner-with-two-clusters", Some(1), false, false, |_, a| owners_with_two(a));
    add("rollback-owner-not-at-the-pair", Some(1), false, false, |i, a| owners_off_the_pair(i, a).0);
    add("rollback-cluster-not-in-a-bad-triangle", Some(1), false, false, |i, a| owners_off_the_pair(i, a).1);
    add("cluster-part-without-points", Some(1), false, true, |i, a| clusters_cut(i, a).0);
    add("cluster-without-points", Some(1), false, true, |i, a| clusters_cut(i, a).1);
    add("not-finite-with-round", Some(3), false, true, |i, a| i64::from(clusters_cut(i, a).0 > 0) + i64::from(!a.split.is_empty()) + a.owners.len().min(1) as i64);
    all
}

/// Rounds in which an owner had more than one live cluster vertex.
fn owners_with_two(answer: &Answer) -> i64 {
    let mut retired: HashMap<usize, usize> = HashMap::new();
    for row in answer.book.iter().filter(|row| row.now == 0) {
        *retired.entry(row.site).or_default() += 1;
    }
    retired.values().filter(|&&n| n > 1).count() as i64
}

/// In the first round: owners with no cluster vertex at an end of a bad pair; retired vertices that are in no bad triangle.
fn owners_off_the_pair(input: &Input, answer: &Answer) -> (i64, i64) {
    if answer.owners.is_empty() {
        return (0, 0);
    }
    let before = build(input, 0, false);
    let pairs = |t: &[usize]| [(t[0], t[1]), (t[1], t[2]), (t[2], t[0])].map(|(a, b)| (a.min(b), a.max(b)));
    let mut count: HashMap<(usize, usize), usize> = HashMap::new();
    for t in before.triangles.chunks(3) {
        for pair in pairs(t) {
            *count.entry(pair).or_default() += 1;
        }
    }
    let mut ends = HashSet::new();
    let mut corners = HashSet::new();
    for t in before.triangles.chunks(3) {
        for pair in pairs(t).into_iter().filter(|p| count[p] > 2) {
            ends.extend([pair.0, pair.1]);
            corners.extend(t.iter().copied());
        }
    }
    let (mut off, mut unused) = (0, 0);
    for &owner in &answer.owners[0] {
        let held: Vec<usize> = (0..before.book.len()).filter(|&v| before.book[v].site == owner && before.book[v].now > 1).collect();
        off += i64::from(held.iter().all(|v| !ends.contains(v)));
        unused += held.iter().filter(|v| !corners.contains(v)).count() as i64;
    }
    (off, unused)
}

/// Clusters of several edges with a point on some but not on all, at least two left; and clusters with none.
fn clusters_cut(input: &Input, answer: &Answer) -> (i64, i64) {
    let lattice = SampleLattice { origin: input.origin, step: input.step, sides: input.sides };
    let keys = lattice.keys();
    let (mut part, mut none) = (0, 0);
    for (site, (_, clusters)) in answer.topology.iter().enumerate() {
        for cluster in clusters {
            let edges: Vec<usize> = (0..14).filter(|e| cluster >> e & 1 == 1).collect();
            let with = edges.iter().filter(|&&e| {
                let d = crate::constants::EDGE_DELTAS[e];
                let end = lattice.site([0, 1, 2].map(|i| keys[site][i] + i64::from(d[i]))).unwrap();
                input.samples[site].is_finite() && input.samples[end].is_finite()
            });
            let with = with.count();
            part += i64::from(with >= 2 && with < edges.len());
            none += i64::from(with == 0 && edges.len() > 1);
        }
    }
    (part, none)
}

impl Goal {
    fn score_of(&self, input: &Input) -> i64 {
        if self.one_sided && !one_sided(input) {
            return -1;
        }
        (self.score)(input, &build(input, usize::MAX, self.wild))
    }

    /// Higher is better; None if the goal is not met.
    fn rank(&self, input: &Input) -> Option<(i64, i64, i64)> {
        let score = self.score_of(input);
        let sites = input.samples.len() as i64;
        let odd = odd_samples(input);
        match self.target {
            Some(target) => (score == target).then_some((0, -sites, -odd)),
            None => (score > 0).then_some((score, -sites, -odd)),
        }
    }
}

/// Samples that are not 3.0, or not -3.0, whichever is fewer.
fn odd_samples(input: &Input) -> i64 {
    let not = |plain: f64| input.samples.iter().filter(|&&x| x != plain).count() as i64;
    not(3.0).min(not(-3.0))
}

fn draw(rng: &mut Rng, wild: bool) -> f64 {
    if wild && rng.one_in(5) {
        return rng.pick(&[f64::NAN, f64::INFINITY, f64::NEG_INFINITY]);
    }
    rng.pick(&[0.5, 1.0, 3.0, -0.5, -1.0, -3.0])
}

fn plain(sides: [usize; 3], samples: Vec<f64>) -> Input {
    Input { sides, method: 1, rounds: 4, inside: None, origin: [0.0; 3], step: [1.0; 3], samples }
}

/// A box to climb from: noise, or a kept box with noise around it.
fn start(rng: &mut Rng, goal: &Goal, kept: Option<&Input>) -> Input {
    let old = kept.filter(|_| rng.one_in(2));
    let least = if goal.one_sided { 3 } else { 2 };
    let sides = loop {
        let sides = match old {
            Some(old) if goal.one_sided && !one_sided(old) => old.sides.map(|n| n + 2),
            Some(old) => old.sides.map(|n| n + rng.below(3)),
            None if rng.one_in(2) => [5; 3],
            None => [0; 3].map(|_| least + rng.below(7 - least)),
        };
        if sides.iter().product::<usize>() <= 216 {
            break sides;
        }
    };
    let outer = old.filter(|old| one_sided(old)).map_or(rng.pick(&[1.0, -1.0]), |old| old.samples[0].signum());
    let shift = old.map_or([0; 3], |old| match goal.one_sided && !one_sided(old) {
        true => [1; 3],
        false => [0, 1, 2].map(|i| rng.below(sides[i] - old.sides[i] + 1)),
    });
    let samples = (0..sides.iter().product())
        .map(|site: usize| {
            let at = [site % sides[0], site / sides[0] % sides[1], site / (sides[0] * sides[1])];
            if let Some(old) = old {
                if (0..3).all(|i| at[i] >= shift[i] && at[i] - shift[i] < old.sides[i]) {
                    let [u, v, w] = [0, 1, 2].map(|i| at[i] - shift[i]);
                    return old.samples[u + old.sides[0] * (v + old.sides[1] * w)];
                }
            }
            match goal.one_sided && on_border(sides, site) {
                true => outer * rng.pick(&[0.5, 1.0, 3.0]),
                false => draw(rng, goal.wild),
            }
        })
        .collect();
    plain(sides, samples)
}

/// Changes a few samples at a time and keeps what is not worse. Each rise is shown to `risen`, with its score.
fn climb(rng: &mut Rng, goal: &Goal, kept: Option<&Input>, deadline: Instant, mut risen: impl FnMut(&Input, i64)) -> Input {
    let mut best = start(rng, goal, kept);
    let mut score = goal.score_of(&best);
    risen(&best, score);
    let mut idle = 0;
    while idle < 4000 && Instant::now() < deadline && !goal.target.is_some_and(|t| score >= t) {
        let mut next = best.clone();
        for _ in 0..1 + rng.below(2) {
            let site = rng.below(next.samples.len());
            let new = draw(rng, goal.wild);
            let old = next.samples[site];
            next.samples[site] = if goal.one_sided && on_border(next.sides, site) { new.abs() * old.signum() } else { new };
        }
        let got = goal.score_of(&next);
        idle += 1;
        if got >= score {
            best = next;
        }
        if got > score {
            score = got;
            idle = 0;
            risen(&best, score);
        }
    }
    best
}

/// The box without its first or last layer on an axis.
fn cropped(input: &Input, axis: usize, low: bool) -> Option<Input> {
    let mut sides = input.sides;
    sides[axis] = sides[axis].checked_sub(1).filter(|&n| n > 0)?;
    let [nu, nv, _] = input.sides;
    let mut samples = Vec::new();
    for (site, &x) in input.samples.iter().enumerate() {
        let at = [site % nu, site / nu % nv, site / (nu * nv)];
        let gone = if low { 0 } else { sides[axis] };
        if at[axis] != gone {
            samples.push(x);
        }
    }
    Some(plain(sides, samples))
}

/// A smaller and plainer box that is at least as good.
fn shrink(goal: &Goal, mut best: Input) -> Input {
    let Some(mut rank) = goal.rank(&best) else {
        return best;
    };
    loop {
        let before = rank;
        let mut offer = |best: &mut Input, next: Input| {
            if let Some(got) = goal.rank(&next).filter(|got| *got > rank) {
                *best = next;
                rank = got;
            }
        };
        for i in 0..6 {
            if let Some(next) = cropped(&best, i / 2, i % 2 == 0) {
                offer(&mut best, next);
            }
        }
        for place in 0..2 * best.samples.len() {
            let mut next = best.clone();
            next.samples[place / 2] = [3.0, -3.0][place % 2];
            offer(&mut best, next);
        }
        if rank == before {
            return best;
        }
    }
}

fn keep(folder: &str, name: &str, input: &Input) {
    assert!(status_of(input) == 0);
    std::fs::write(format!("{folder}/{name}.count"), file_text(input)).unwrap();
}

/// Boxes that need no search.
fn known(folder: &str) {
    let boxed = |sides: [usize; 3], rest: f64, at: &[(usize, f64)]| {
        let mut samples = vec![rest; sides.iter().product()];
        for &(site, x) in at {
            samples[site] = x;
        }
        plain(sides, samples)
    };
    let mut twelve = boxed([2, 2, 2], 1.0, &[(0, -1.0), (7, -1.0)]);
    twelve.method = 0;
    keep(folder, "twelve-triangles-in-a-cell", &twelve);
    keep(folder, "vanishing-body", &boxed([3, 4, 3], 3.0, &[(16, -1.0), (19, -1.0)]));
    let hair = f64::from_bits(EDGE.to_bits() + 1);
    keep(folder, "spike", &boxed([3, 3, 3], EDGE, &[(13, hair)]));
    let (inf, nan) = (f64::INFINITY, f64::NAN);
    keep(folder, "fraction-not-a-number", &boxed([3, 3, 2], 1.0, &[(4, -inf), (5, inf), (8, -1.0), (13, nan), (17, -inf)]));
    keep(folder, "closed-1", &boxed([3, 3, 3], 3.0, &[(13, -1.0)]));
    let apart = [31, 33, 41, 43, 81, 83, 91, 93].map(|site| (site, -1.0));
    keep(folder, "closed-8", &boxed([5, 5, 5], 3.0, &apart));
}

fn load(folder: &str, name: &str) -> Option<Input> {
    std::fs::read(format!("{folder}/{name}.count")).ok().and_then(|bytes| read(&bytes))
}

/// Keeps the box if it is better than the kept one.
fn propose(folder: &str, goal: &Goal, input: &Input) {
    let old = load(folder, &goal.name).and_then(|old| goal.rank(&old));
    if let Some(rank) = goal.rank(input).filter(|rank| old.map_or(true, |old| *rank > old)) {
        println!("{} sides {:?} rank {:?}", goal.name, input.sides, rank);
        keep(folder, &goal.name, input);
    }
}

/// Looks for the goals whose names have this part, and writes what is better than the kept files of the folder.
pub fn search(seed: u64, seconds: u64, folder: &str, named: &str) {
    std::fs::create_dir_all(folder).unwrap();
    known(folder);
    let goals: Vec<Goal> = goals().into_iter().filter(|g| g.name.contains(named)).collect();
    let end = Instant::now() + Duration::from_secs(seconds);
    let mut rng = Rng(seed);
    // A climb for many rounds passes the fewer on its way, so one climb serves all goals of its score and border.
    let top = |g: &&Goal| !g.name.starts_with("rounds-") || g.target == Some(MOST_ROUNDS);
    let slice = Duration::from_millis((1000 * seconds / goals.iter().filter(top).count().max(1) as u64 / 3).max(200));
    while Instant::now() < end {
        for goal in goals.iter().filter(top) {
            let below: Vec<&Goal> = goals.iter().filter(|g| g.name.starts_with("rounds-") && g.one_sided == goal.one_sided).collect();
            let deadline = (Instant::now() + slice).min(end);
            while Instant::now() < deadline {
                let mut kept: Vec<Input> = Vec::new();
                if goal.target == Some(MOST_ROUNDS) {
                    kept.extend(below.iter().filter_map(|g| load(folder, &g.name)).last());
                    if goal.one_sided {
                        // A box without that border may do, with a border around it.
                        let free = (1..=MOST_ROUNDS).filter_map(|k| load(folder, &format!("rounds-{k}")));
                        kept.extend(free.filter(|b| b.sides.iter().map(|n| n + 2).product::<usize>() <= 216).last());
                    }
                }
                if goal.name == "all-five-cases" {
                    // Noise never has a closed surface.
                    kept.extend(load(folder, "closed-1"));
                }
                let chosen = (!kept.is_empty()).then(|| &kept[rng.below(kept.len())]);
                let last = climb(&mut rng, goal, chosen, deadline, |box_now, score| match goal.target {
                    Some(MOST_ROUNDS) => {
                        for g in below.iter().filter(|g| g.target == Some(score)) {
                            propose(folder, g, &shrink(g, box_now.clone()));
                        }
                    }
                    Some(target) if target == score => propose(folder, goal, &shrink(goal, box_now.clone())),
                    _ => (),
                });
                if goal.target.is_none() {
                    propose(folder, goal, &shrink(goal, last));
                }
            }
        }
    }
    // The same boxes with an R that is too small.
    for k in 1..=4u32 {
        let name = format!("rounds-{k}-one-sided");
        if let Some(mut input) = load(folder, &name) {
            input.rounds = k - 1;
            keep(folder, &format!("{name}-but-{}", k - 1), &input);
        }
    }
}
