//! The time that is spent in programs, which other jobs on the machine don't add to. Counted in hundredths of a second.

fn spent(first: usize) -> f64 {
    let stat = std::fs::read_to_string("/proc/self/stat").expect("the process's own times");
    let after_name = stat.rsplit(')').next().expect("fields after the name");
    let ticks: Vec<f64> = after_name.split_whitespace().skip(first).take(2).filter_map(|t| t.parse().ok()).collect();
    ticks.iter().sum::<f64>() / 100.0
}

/// In this program, and in the system for it.
pub fn own() -> f64 {
    spent(11)
}

/// In the programs that this one has started and that have ended.
pub fn of_children() -> f64 {
    spent(13)
}
