//! A job as a Rust host holds it, and the reading of its text.

use jambtulip::{Cut, Terms};

/// The longest text of a job.
pub const MOST_BYTES: usize = 65_535;

pub struct Job {
    pub terms: Terms,
    pub weights: Vec<u64>,
    pub profits: Vec<u64>,
}

/// The job of a text, `None` outside the grammar (docs/GUIDE.md, 'Running a job'). What else is refused, the calls say.
pub fn read(text: &[u8]) -> Option<Job> {
    if text.len() > MOST_BYTES {
        return None;
    }
    let mut rest = Rest(text);
    let mut job = Job { terms: rest.head()?, weights: vec![], profits: vec![] };
    while !rest.0.is_empty() {
        job.weights.push(rest.number_after("item\t")?);
        job.profits.push(rest.number_after("\t")?);
        rest.skip("\n")?;
    }
    Some(job)
}

/// The bytes that are still to be read.
struct Rest<'a>(&'a [u8]);

impl Rest<'_> {
    fn head(&mut self) -> Option<Terms> {
        let page = self.number_after("cap\t")?;
        let width = self.number_after("\nwidth\t")?;
        self.skip("\ncut\t")?;
        let cut = match self.skip("lel\n") {
            Some(()) => Cut::LastExactLayer,
            None => self.skip("frontier\n").map(|()| Cut::Frontier)?,
        };
        Some(Terms { page, width, cut })
    }

    /// Goes past the word if it comes next.
    fn skip(&mut self, word: &str) -> Option<()> {
        self.0 = self.0.strip_prefix(word.as_bytes())?;
        Some(())
    }

    fn number_after(&mut self, word: &str) -> Option<u64> {
        self.skip(word)?;
        self.number()
    }

    /// A number of one to nine digits without a leading zero.
    fn number(&mut self) -> Option<u64> {
        let count = self.0.iter().take(9).take_while(|byte| byte.is_ascii_digit()).count();
        let (digits, rest) = self.0.split_at(count);
        self.0 = rest;
        match digits {
            [] | [b'0', _, ..] => None,
            _ => Some(digits.iter().fold(0, |number, digit| number * 10 + u64::from(digit - b'0'))),
        }
    }
}
