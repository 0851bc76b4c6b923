// Versions of one thing timed in turn, printed as a table, and a small generator of numbers.
use std::time::Instant;

pub const ROUNDS: usize = 401;

pub type Version<F> = (&'static str, F);

pub struct Random(pub u64);

impl Random {
    pub fn next(&mut self, below: u64) -> u64 {
        self.0 ^= self.0 << 13;
        self.0 ^= self.0 >> 7;
        self.0 ^= self.0 << 17;
        (self.0 >> 11) % below
    }
}

// Nanoseconds a call of what does so many calls.
pub fn timed(calls: usize, run: impl FnOnce()) -> f64 {
    let start = Instant::now();
    run();
    start.elapsed().as_nanos() as f64 / calls as f64
}

pub fn median(mut times: Vec<f64>) -> f64 {
    times.sort_by(f64::total_cmp);
    times[times.len() / 2]
}

// What each version takes in so many rounds in which each has its turn; `measure` gives the nanoseconds of one turn.
pub fn turns<F: Copy>(rounds: usize, versions: &[Version<F>], mut measure: impl FnMut(F) -> f64) -> Vec<Vec<f64>> {
    let mut times = vec![Vec::new(); versions.len()];
    for round in 0..rounds {
        for turn in 0..versions.len() {
            let v = (round + turn) % versions.len();
            times[v].push(measure(versions[v].1));
        }
    }
    times
}

// The median of each version over many such rounds.
pub fn medians<F: Copy>(versions: &[Version<F>], measure: impl FnMut(F) -> f64) -> Vec<f64> {
    turns(ROUNDS, versions, measure).into_iter().map(median).collect()
}

// The head of a table: the sizes, the versions, and the first version's time over that of each of the others.
pub fn head<F>(what: &str, sizes: &[&str], versions: &[Version<F>]) {
    print!("{what:<40}");
    sizes.iter().for_each(|s| print!("{s:>7}"));
    versions.iter().for_each(|(name, _)| print!("{name:>12}"));
    versions[1..].iter().for_each(|(name, _)| print!("{:>13}", format!("/{name}")));
    println!();
}

// A number to so many digits, or a dash for one that the rounds do not tell.
fn figure(x: f64, digits: usize) -> String {
    if x.is_nan() {
        "-".to_string()
    } else {
        format!("{x:.digits$}")
    }
}

pub fn row(what: &str, sizes: &[usize], medians: &[f64]) {
    print!("  {what:<38}");
    sizes.iter().for_each(|s| print!("{s:>7}"));
    medians.iter().for_each(|m| print!("{:>12}", figure(*m, 0)));
    medians[1..].iter().for_each(|m| print!("{:>13}", figure(medians[0] / m, 2)));
    println!();
}
