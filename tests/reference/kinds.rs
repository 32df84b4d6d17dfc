//! Kinds of files or calls that are to be met, and how often they are.

/// Prints what was not met. Answers how much it is.
pub fn print_gaps(gaps: &[String]) -> usize {
    for gap in gaps {
        eprintln!("{gap}");
    }
    gaps.len()
}

/// The kinds that hold.
pub fn chosen<'a, const N: usize>(kinds: &'a [&'a str; N], holds: [bool; N]) -> impl Iterator<Item = &'a str> {
    kinds.iter().zip(holds).filter(|(_, holds)| *holds).map(|(kind, _)| *kind)
}

/// How often each of the kinds that are to be met is.
pub struct Kinds {
    times: Vec<(String, usize)>,
}

impl Kinds {
    pub fn new(to_meet: Vec<String>) -> Kinds {
        Kinds { times: to_meet.into_iter().map(|kind| (kind, 0)).collect() }
    }

    pub fn count(&mut self, met: &[String]) {
        for kind in met {
            self.times.iter_mut().find(|(name, _)| name == kind).unwrap_or_else(|| panic!("{kind} is not to be met")).1 += 1;
        }
    }

    /// Each kind with its count.
    pub fn lines(&self) -> impl Iterator<Item = String> + '_ {
        self.times.iter().map(|(kind, times)| format!("{kind}: {times}"))
    }

    /// Those that are met less often, with what they are the kinds of.
    pub fn gaps<'a>(&'a self, whose: &'a str, fewest: usize) -> impl Iterator<Item = String> + 'a {
        self.times.iter().filter(move |kind| kind.1 < fewest).map(move |(kind, times)| format!("{whose} is {kind} only {times} times"))
    }
}
