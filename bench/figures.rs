//! Times of a proved and a plain side, and the table that shows them.

/// The times of one kind of work, in the table's unit, one on each side for each round.
#[derive(Default)]
pub struct Times {
    pub proved: Vec<f64>,
    pub plain: Vec<f64>,
}

fn best_and_median(times: &[f64]) -> [f64; 2] {
    let mut sorted = times.to_vec();
    sorted.sort_unstable_by(f64::total_cmp);
    [sorted[0], sorted[sorted.len() / 2]]
}

pub fn print_heading(unit: &str) {
    println!("{unit:<32}{:>12}{:>12}{:>10}", "best", "median", "aim");
}

/// Prints one kind of work: both sides, and the ratio beside what is aimed at.
pub fn print_times(work: &str, sides: [&str; 2], times: &Times, aim: f64) {
    let proved = best_and_median(&times.proved);
    let plain = best_and_median(&times.plain);
    println!("{work}");
    for (side, [best, median]) in sides.into_iter().zip([proved, plain]) {
        println!("  {side:<30}{best:>12.1}{median:>12.1}");
    }
    let [best, median] = [proved[0] / plain[0], proved[1] / plain[1]];
    println!(
        "  {:<30}{best:>12.2}{median:>12.2}{:>10}",
        "ratio",
        format!("<= {aim}")
    );
}
