//! Takes the strips of a job to its last edit, and prints what they found and the seconds.
use axis_cells::Sweep;
use cutter_slabs::Cutter;
use edit_plan::{Edit, Edits};
use job_counts::{Counts, Totals};
use ray_grid::{Grid, Ray};
use ray_shapes::{Bodies, Body, Plane, RayShape, Solid, solid_spans};
use rstd::{Global, Vec as List};
use std::time::Instant;
use strip_journal::Strip;
use strip_plan::{Plan, PlanMove};
use vf_io::NoMemory;
use vf_spans::Spans;

/// A job as its lines give it. The bodies are moved by the tolerance and the clearance once both are known.
struct Job {
    grid: Grid,
    tolerance: i64,
    clearance: i64,
    slabs: u32,
    depth: u32,
    stock: List<Body>,
    part: List<Body>,
    fixture: List<Body>,
    moves: List<PlanMove>,
}

/// The root of n, rounded up.
fn root_up(n: i128) -> i64 {
    let mut root = (n as f64).sqrt() as i128;
    while root * root < n {
        root += 1;
    }
    while root > 0 && (root - 1) * (root - 1) >= n {
        root -= 1;
    }
    root as i64
}

/// A plane moved outwards along its normal by at least so much; inwards, by at most so much.
fn shifted(plane: &[i64], by: i64) -> Plane {
    let square: i128 = plane[..3].iter().map(|n| i128::from(*n).pow(2)).sum();
    let way = square * i128::from(by).pow(2);
    let exact = root_up(way);
    let step = match by < 0 {
        true if i128::from(exact).pow(2) == way => -exact,
        true => 1 - exact,
        false => exact,
    };
    Plane {
        a: plane[0] as i32,
        b: plane[1] as i32,
        c: plane[2] as i32,
        d: plane[3] + step,
    }
}

fn read(text: &str) -> Job {
    let mut job = Job {
        grid: Grid {
            origin: [0; 3],
            pitch: 1,
            step: 1,
            counts: [1; 3],
        },
        tolerance: 0,
        clearance: 0,
        slabs: 1,
        depth: 0,
        stock: List::new(Global),
        part: List::new(Global),
        fixture: List::new(Global),
        moves: List::new(Global),
    };
    for line in text.lines() {
        let words: Vec<&str> = line.split(' ').collect();
        let numbers = |from: usize| -> Vec<i64> { words[from..].iter().map(|word| word.parse().unwrap()).collect() };
        match words[0] {
            "grid" => {
                let n = numbers(1);
                job.grid = Grid {
                    origin: [n[0] as i32, n[1] as i32, n[2] as i32],
                    pitch: n[3] as i32,
                    step: n[4] as i32,
                    counts: [n[5] as u32, n[6] as u32, n[7] as u32],
                };
            }
            "check" => {
                let n = numbers(1);
                (job.tolerance, job.clearance) = (n[0], n[1]);
                (job.slabs, job.depth) = (n[2] as u32, n[3] as u32);
            }
            "body" => {
                let (bodies, by) = match words[1] {
                    "stock" => (&mut job.stock, 0),
                    "part" => (&mut job.part, -job.tolerance),
                    _ => (&mut job.fixture, job.clearance),
                };
                let mut planes = List::new(Global);
                for plane in numbers(2).chunks(4) {
                    planes.push(shifted(plane, by)).unwrap();
                }
                bodies.push(Body::new(planes)).unwrap();
            }
            _ => {
                let n: Vec<i32> = numbers(1).into_iter().map(|n| n as i32).collect();
                let sweep = Sweep {
                    from: [n[1], n[2], n[3]],
                    to: [n[4], n[5], n[6]],
                    axis_from: [n[7], n[8], n[9]],
                    axis_to: [n[10], n[11], n[12]],
                };
                let cutter = Cutter {
                    d: n[13],
                    r: n[14],
                    h: n[15],
                    flank: 0,
                    base: 0,
                };
                job.moves.push(PlanMove::new(sweep, cutter, n[0] == 1, 0)).unwrap();
            }
        }
    }
    job
}

/// Takes a strip to a version, as a turn does.
fn raise(strip: &mut Strip, plan: &Plan, version: u32) {
    while strip.done() < version {
        let left = version - strip.done();
        if strip.skip_untouched(plan, left) < left {
            strip.advance(plan).unwrap();
        }
    }
}

/// A number that differs where counts differ.
fn sum_of(counts: &[Counts]) -> u64 {
    let mut sum = 0xcbf2_9ce4_8422_2325_u64;
    for c in counts {
        for n in [
            c.removed,
            c.possible,
            c.part_sure,
            c.part_possible,
            c.fix_sure,
            c.fix_possible,
            c.rapid_sure,
            c.rapid_possible,
        ] {
            sum = (sum ^ n).wrapping_mul(0x100_0000_01b3);
            sum ^= sum >> 29;
        }
    }
    sum
}

/// What gives a solid's points on the rays of the grid.
fn shape<'a>(grid: &'a Grid, solid: &'a Solid) -> RayShape<impl Fn(&Ray) -> Result<Spans, NoMemory> + 'a> {
    RayShape::new(*grid, solid, move |ray: &Ray| solid_spans(Global, solid, grid, ray))
}

fn main() {
    let words: Vec<String> = std::env::args().collect();
    let to_the_end = words.get(2).is_some_and(|word| word == "s");
    let job = read(&std::fs::read_to_string(&words[1]).unwrap());
    let (grid, many) = (job.grid, job.moves.len() as u32);
    let begun = Instant::now();
    let mut edits = Edits::new(Global);
    for number in 0..many {
        edits.push(Edit::Apply(number)).unwrap();
    }
    let plan = Plan::new(Global, grid, job.slabs, job.depth, job.moves, edits).unwrap();
    let planned = Instant::now();
    let solid = |bodies: List<Body>| Solid::Bodies(Bodies::new(bodies));
    let (stock, part, fixture) = (solid(job.stock), solid(job.part), solid(job.fixture));
    let (stock, part, fixture) = (shape(&grid, &stock), shape(&grid, &part), shape(&grid, &fixture));
    let fresh = |number| Strip::fresh(Global, &plan, number, &stock, &part, &fixture).unwrap();
    let mut strips: Vec<Strip> = (0..grid.strips()).map(fresh).collect();
    let filled = Instant::now();
    let mut version = 0;
    while version < many {
        version = if to_the_end { many } else { many.min(version + 8) };
        strips.iter_mut().for_each(|strip| raise(strip, &plan, version));
    }
    let turned = Instant::now();
    let mut totals = Totals::none();
    let mut counts = vec![Counts::none(); many as usize];
    for strip in &strips {
        totals = totals.plus(&strip.counts_at(many));
        strip.add_found(&mut counts);
    }
    println!(
        "removed {} possible {} of {} sum {:016x}",
        totals.removed,
        totals.possible,
        totals.of,
        sum_of(&counts)
    );
    println!(
        "plan {:?} strips {:?} turns {:?}",
        planned - begun,
        filled - planned,
        turned - filled
    );
}
