//! Whole jobs, ours beside moyo's own functions: the jobs of the folders that run.sh and dear_jobs.py made.
//!
//! Ours goes from the bytes to every list, with all refusals decided. moyo's is what `oracle-plain time` measures: its
//! own functions on a job that is already read, without refusals 1 to 10. Before a job is timed both answer it, and
//! every list is compared bit by bit.
mod clock;
mod matches;
mod ours;

// the oracle's reader of jobs, and its way into moyo's functions
#[allow(dead_code)]
#[path = "../../tool/src/doc.rs"]
mod doc;
#[allow(dead_code)]
#[path = "../../tool/src/moyo_run.rs"]
mod moyo_run;
#[allow(dead_code)]
#[path = "../../tool/src/report.rs"]
mod report;

use ours::Lists;
use std::hint::black_box;
use std::path::Path;

/// Generated designs that are timed.
const GENERATED: usize = 200;

struct Job {
    name: String,
    bytes: Vec<u8>,
}

struct Time {
    name: String,
    ours: f64,
    moyo: f64,
}

impl Time {
    /// How many times as fast ours is.
    fn ratio(&self) -> f64 {
        self.moyo / self.ours
    }
    fn print(&self, name: &str) {
        println!("{name:52} {:12.0} {:12.0} {:8.2}", self.ours, self.moyo, self.ratio());
    }
}

/// The jobs of a folder, by name; numbers in their order.
fn jobs(folder: &Path) -> Vec<Job> {
    let mut list: Vec<Job> = std::fs::read_dir(folder)
        .expect("a folder of jobs")
        .map(|entry| entry.expect("an entry").path())
        .filter(|path| path.extension().is_some_and(|e| e == "job"))
        .map(|path| Job {
            name: path.file_stem().unwrap().to_string_lossy().into_owned(),
            bytes: std::fs::read(&path).expect("a readable job"),
        })
        .collect();
    list.sort_by_key(|job| (job.name.len(), job.name.clone()));
    list
}

fn bits(list: &[[f64; 3]]) -> Vec<[u64; 3]> {
    list.iter().map(|p| p.map(f64::to_bits)).collect()
}

fn same<A: Copy + Into<usize>>(ours: &[A], moyo: &[usize]) -> bool {
    ours.iter().zip(moyo).all(|(&a, &b)| a.into() == b)
}

/// Ours and moyo's answer, compared: the number of the refusal, or 0.
fn answered(job: &Job, lists: &mut Lists) -> usize {
    let number = lists.standardize(&job.bytes);
    match moyo_run::run(&job.bytes, false) {
        Err(refused) => {
            assert_eq!(number, refused.number as usize, "{}", job.name);
        }
        Ok(a) => {
            let n = a.positions.len();
            let primitive = &lists.primitive[..a.primitive_positions.len()];
            assert_eq!((number, lists.sites, lists.orbits), (0, n, a.orbits), "{}", job.name);
            assert_eq!(bits(&lists.positions[..n]), bits(&a.positions), "{}", job.name);
            assert_eq!(bits(primitive), bits(&a.primitive_positions), "{}", job.name);
            assert_eq!(bits(&lists.primitive_basis), bits(&a.primitive_basis), "{}", job.name);
            assert_eq!(bits(&lists.listed_basis), bits(&a.listed_basis), "{}", job.name);
            assert!(lists.points[..n].iter().zip(a.points.iter().cycle()).all(|(x, y)| x == y), "{}", job.name);
            assert!(same(&lists.mapping, &a.primitive_sites), "{}", job.name);
            assert!(same(&lists.labels, &a.labels), "{}", job.name);
            assert!(same(&lists.multiplicities, &a.multiplicities), "{}", job.name);
            assert_eq!(lists.letters[..n], a.letters, "{}", job.name);
            assert_eq!(lists.factors, [0, 1, 2].map(|i| a.d[i][i] as i16), "{}", job.name);
        }
    }
    number
}

fn timed(job: &Job, lists: &mut Lists) -> Time {
    let design = moyo_run::design(&doc::read(&job.bytes).expect("a job"));
    let (ours, moyo) = clock::both(
        || {
            black_box(lists.standardize(black_box(&job.bytes)));
        },
        || {
            black_box(moyo::harness::only(black_box(&design)));
        },
    );
    Time { name: job.name.clone(), ours, moyo }
}

/// A line for each job of a folder.
fn each(folder: &Path, what: &str, lists: &mut Lists) {
    for job in jobs(folder) {
        let answer = match answered(&job, lists) {
            0 => String::new(),
            number => format!(", refused {number}"),
        };
        timed(&job, lists).print(&format!("{what} {}{answer}", job.name));
    }
}

fn generated(folder: &Path, lists: &mut Lists) {
    let list: Vec<Job> = jobs(folder).into_iter().filter(|job| answered(job, lists) == 0).take(GENERATED).collect();
    let mut times: Vec<Time> = list.iter().map(|job| timed(job, lists)).collect();
    times.sort_by(|a, b| a.ratio().total_cmp(&b.ratio()));
    let n = times.len();
    for (name, at) in [("worst", 0), ("tenth part", n / 10), ("middle", n / 2), ("best", n - 1)] {
        times[at].print(&format!("{n} generated, ratio {name} ({})", times[at].name));
    }
    let mut middle = |of: fn(&Time) -> f64| {
        times.sort_by(|a, b| of(a).total_cmp(&of(b)));
        of(&times[n / 2])
    };
    let (ours, moyo) = (middle(|t| t.ours), middle(|t| t.moyo));
    Time { name: String::new(), ours, moyo }.print(&format!("{n} generated, middle of each"));
}

fn main() {
    let work = std::env::args().nth(1).expect("the folder that run.sh makes");
    let work = Path::new(&work);
    let mut lists = Lists::new();
    println!("{:52} {:>12} {:>12} {:>8}", "nanoseconds a job", "ours", "moyo", "ratio");
    each(&work.join("hosts"), "host", &mut lists);
    generated(&work.join("generated"), &mut lists);
    each(&work.join("small"), "small:", &mut lists);
    each(&work.join("dear"), "dear:", &mut lists);
    each(&work.join("growth"), "growth:", &mut lists);
    matches::print();
}
