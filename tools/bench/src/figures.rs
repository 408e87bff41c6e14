//! The figures of a line, and how a table shows them.

/// One problem's figures, or the mean of several: microseconds of ours, of ours with clearing, and of theirs, and how much work it was.
#[derive(Clone, Copy, Default)]
pub struct Figures {
    pub ours: f64,
    pub cleared: f64,
    pub theirs: f64,
    pub nodes: f64,
    pub picks: f64,
}

impl Figures {
    /// The mean of the figures, if all are there.
    pub fn mean(all: impl Iterator<Item = Option<Figures>>) -> Option<Figures> {
        let all: Vec<Figures> = all.collect::<Option<_>>()?;
        let mean = |part: fn(&Figures) -> f64| all.iter().map(part).sum::<f64>() / all.len() as f64;
        Some(Figures {
            ours: mean(|f| f.ours),
            cleared: mean(|f| f.cleared),
            theirs: mean(|f| f.theirs),
            nodes: mean(|f| f.nodes),
            picks: mean(|f| f.picks),
        })
    }

    pub fn ratio(&self) -> f64 {
        self.ours / self.theirs
    }

    /// The three columns of times.
    pub fn times(&self) -> String {
        format!("{:.1} | {:.1} | {:.2}", self.ours, self.theirs, self.ratio())
    }
}

/// Prints a table's head: columns of their own, then groups that end in the three columns of times.
pub fn heading(own: &str, groups: &[&str]) {
    let groups: String = groups.iter().map(|group| format!(" {group} ours | Rust | ratio |")).collect();
    let columns = own.matches('|').count() + groups.matches('|').count() - 1;
    println!("{own}{groups}\n|{}", "---|".repeat(columns));
}
