//! Runs the same seasons by the proved library and by plain Rust, compares all that they give, and times both.

mod input;
mod plain;

use input::Season;
use plain::plain_run;
use std::time::{Duration, Instant};

/// Room for the output of a season: more than 62 days of 8 places take.
pub const OUTPUT: usize = 4 << 20;

const TURNS: usize = 40;

/// Short lists that are compared, for each number of places.
const LISTS: u64 = 2_000;

unsafe extern "C" {
    fn benchsite_run(
        places: u8,
        days: u16,
        capacity: u32,
        lines: usize,
        calls: *const u8,
        calls_len: usize,
        schedules: *const u8,
        schedules_len: usize,
        out: *mut u8,
        out_len: usize,
    ) -> usize;
}

fn library_run(season: &Season, out: &mut [u8; OUTPUT]) -> usize {
    let terms = season.terms;
    // SAFETY: the library's function has no precondition, and each pointer goes with its own slice's length.
    unsafe {
        benchsite_run(
            terms.places,
            terms.days,
            terms.capacity,
            season.lines,
            season.calls.as_ptr(),
            season.calls.len(),
            season.schedules.as_ptr(),
            season.schedules.len(),
            out.as_mut_ptr(),
            out.len(),
        )
    }
}

struct Site {
    name: &'static str,
    places: u8,
    methods: &'static [u8],
}

const SITES: [Site; 4] = [
    Site { name: "8 places, methods 4 and 6", places: 8, methods: &[4, 6] },
    Site { name: "2 places, methods 1 to 3", places: 2, methods: &[1, 2, 3] },
    Site { name: "3 places, method 5", places: 3, methods: &[5] },
    Site { name: "4 places, method 7", places: 4, methods: &[7] },
];

fn buffer() -> Box<[u8; OUTPUT]> {
    vec![0u8; OUTPUT].into_boxed_slice().try_into().expect("the size is the buffer's")
}

fn timed(run: impl FnOnce() -> usize) -> (usize, Duration) {
    let start = Instant::now();
    let written = run();
    (written, start.elapsed())
}

/// How many calls were accepted, how many refused by each number, and how many lines were sent.
#[derive(Default)]
struct Summary {
    accepted: usize,
    refused: [usize; 22],
    lines: usize,
}

impl Summary {
    /// Adds what an output says.
    fn add(&mut self, season: &Season, out: &[u8]) {
        let mut at = 0;
        for _ in season.calls.chunks_exact(12) {
            if out[at] == 3 {
                self.refused[usize::from(out[at + 1])] += 1;
            } else {
                self.accepted += 1;
            }
            at += [1, 17, 9, 10][usize::from(out[at])];
        }
        self.lines += (out.len() - at) / 11;
    }

    fn print(&self, name: &str) {
        let refused: usize = self.refused.iter().sum();
        println!("{name}: outputs equal; {} calls accepted, {refused} refused, {} lines", self.accepted, self.lines);
    }
}

/// Runs a season by both, and answers the bytes written and both times where the outputs are equal.
fn both(season: &Season, ours: &mut [u8; OUTPUT], plain: &mut [u8; OUTPUT]) -> Option<(usize, Duration, Duration)> {
    let (a, library_time) = timed(|| library_run(season, ours));
    let (b, plain_time) = timed(|| plain_run(season, plain));
    let equal = a != 0 && a <= OUTPUT && a == b && ours[..a] == plain[..b];
    equal.then_some((a, library_time, plain_time))
}

/// Compares short lists of calls, many of them refused, on sites of every number of places.
fn compare_short() -> bool {
    let (mut ours, mut plain) = (buffer(), buffer());
    let mut summary = Summary::default();
    for places in 2..=8 {
        for start in 0..LISTS {
            let season = Season::short(places, start);
            let Some((written, _, _)) = both(&season, &mut ours, &mut plain) else {
                println!("{places} places, short list {start}: the outputs differ");
                return false;
            };
            summary.add(&season, &plain[..written]);
        }
    }
    summary.print(&format!("{} short lists", 7 * LISTS));
    print!("    refused by number:");
    for (number, times) in summary.refused.iter().enumerate().filter(|(_, times)| **times > 0) {
        print!(" {number} ({times})");
    }
    println!();
    true
}

fn compare(site: &Site) -> bool {
    let season = Season::new(site.places, site.methods);
    let (mut ours, mut plain) = (buffer(), buffer());
    let (mut library_times, mut plain_times) = (Vec::new(), Vec::new());
    let mut bytes = 0;
    for _ in 0..TURNS {
        let Some((written, library_time, plain_time)) = both(&season, &mut ours, &mut plain) else {
            println!("{}: the outputs differ", site.name);
            return false;
        };
        bytes = written;
        library_times.push(library_time);
        plain_times.push(plain_time);
    }
    let mut summary = Summary::default();
    summary.add(&season, &plain[..bytes]);
    summary.print(site.name);
    report("best", library_times.iter().min(), plain_times.iter().min());
    library_times.sort();
    plain_times.sort();
    report("median", library_times.get(TURNS / 2), plain_times.get(TURNS / 2));
    true
}

fn report(which: &str, library: Option<&Duration>, plain: Option<&Duration>) {
    if let (Some(library), Some(plain)) = (library, plain) {
        let (a, b) = (library.as_secs_f64() * 1e3, plain.as_secs_f64() * 1e3);
        println!("    {which}: library {a:.2} ms, plain Rust {b:.2} ms, ratio {:.2}", a / b);
    }
}

fn main() {
    let wanted: Vec<String> = std::env::args().skip(1).collect();
    // `library N` or `plain N`: one run of one site, for a profiler
    if let [side, site] = wanted.as_slice() {
        let site = &SITES[site.parse::<usize>().expect("the number of a site")];
        let season = Season::new(site.places, site.methods);
        let mut out = buffer();
        let written = if side == "library" { library_run(&season, &mut out) } else { plain_run(&season, &mut out) };
        println!("{}: {written} bytes", site.name);
        return;
    }
    let mut equal = compare_short();
    for site in &SITES {
        equal &= compare(site);
    }
    if !equal {
        std::process::exit(1);
    }
}
