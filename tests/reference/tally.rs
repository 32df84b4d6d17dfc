//! What the made files met: which refusals at which places, which n and k, which order of the lists, and what else their text is to meet.

use crate::kinds::{print_gaps, Kinds};
use crate::lesson::{Cut, Lesson, Record, MOST_BYTES};
use crate::text::Text;
use std::collections::{BTreeMap, BTreeSet};

/// A kind of text that is met less often says too little.
const FEWEST_OF_A_KIND: usize = 5;

/// A refusal's number, the record concerned and where the file is cut.
type Place = (u64, Record, Cut);

/// Every refusal of a lesson file at every place where it can occur. All of them occur in the first sample and in later ones, but 21 is
/// about the whole file. A file may end where a PM would begin, so no mark is missing there.
const PLACES: [Place; 27] = [
    (1, Record::Parameters, Cut::Nowhere),
    (2, Record::Parameters, Cut::Nowhere),
    (3, Record::Parameters, Cut::Nowhere),
    (6, Record::FirstList, Cut::Nowhere),
    (6, Record::SecondList, Cut::Nowhere),
    (7, Record::FirstList, Cut::Nowhere),
    (7, Record::SecondList, Cut::Nowhere),
    (8, Record::RandomWords, Cut::Nowhere),
    (9, Record::RandomWords, Cut::Nowhere),
    (18, Record::Parameters, Cut::Nowhere),
    (18, Record::FirstList, Cut::Nowhere),
    (18, Record::SecondList, Cut::Nowhere),
    (18, Record::RandomWords, Cut::Nowhere),
    (19, Record::Parameters, Cut::InMark),
    (19, Record::Parameters, Cut::InFields),
    (19, Record::FirstList, Cut::BeforeMark),
    (19, Record::FirstList, Cut::InMark),
    (19, Record::FirstList, Cut::InFields),
    (19, Record::SecondList, Cut::BeforeMark),
    (19, Record::SecondList, Cut::InMark),
    (19, Record::SecondList, Cut::InFields),
    (19, Record::RandomWords, Cut::BeforeMark),
    (19, Record::RandomWords, Cut::InMark),
    (19, Record::RandomWords, Cut::InCount),
    (19, Record::RandomWords, Cut::InFields),
    (20, Record::RandomWords, Cut::Nowhere),
    (21, Record::File, Cut::Nowhere),
];

fn record_name(record: Record) -> &'static str {
    match record {
        Record::File => "file",
        Record::Parameters => "PM",
        Record::FirstList => "first list",
        Record::SecondList => "second list",
        Record::RandomWords => "RW",
    }
}

fn place_name((_, record, cut): Place) -> String {
    let record = record_name(record);
    match cut {
        Cut::Nowhere => record.to_string(),
        Cut::BeforeMark => format!("{record} mark missing"),
        Cut::InMark => format!("{record} mark cut"),
        Cut::InCount => format!("{record} count cut"),
        Cut::InFields => format!("{record} fields cut"),
    }
}

/// The places of the table, each with whether samples stand before it.
fn all_places() -> BTreeSet<(Place, bool)> {
    let both = PLACES.iter().flat_map(|place| [(*place, false), (*place, true)]);
    both.filter(|(place, later)| place.1 != Record::File || !later).collect()
}

/// Counts over the made files.
pub struct Tally {
    text: Text,
    files: usize,
    complete: usize,
    samples: usize,
    x_first: usize,
    y_first: usize,
    lengths: BTreeSet<usize>,
    pairs: BTreeSet<(u64, u64)>,
    refusals: BTreeMap<(Place, bool), usize>,
    kinds: Kinds,
}

impl Tally {
    pub fn new(text: Text) -> Tally {
        Tally {
            text,
            files: 0,
            complete: 0,
            samples: 0,
            x_first: 0,
            y_first: 0,
            lengths: BTreeSet::new(),
            pairs: BTreeSet::new(),
            refusals: BTreeMap::new(),
            kinds: Kinds::new(text.to_meet()),
        }
    }

    /// One file more, of so many bytes.
    pub fn count(&mut self, lesson: &Lesson, bytes: usize) {
        self.files += 1;
        self.lengths.insert(bytes);
        self.kinds.count(&self.text.met(lesson));
        self.samples += lesson.accepted.len();
        for sample in &lesson.accepted {
            self.pairs.insert((sample.n, sample.k));
            *if sample.x_first { &mut self.x_first } else { &mut self.y_first } += 1;
        }
        match lesson.refusal {
            None => self.complete += 1,
            Some(r) => *self.refusals.entry(((r.number, r.record, r.cut), !lesson.accepted.is_empty())).or_default() += 1,
        }
    }

    /// A place with its counts in the first sample and in later ones.
    fn counts(&self, place: Place) -> String {
        let times = |later| self.refusals.get(&(place, later)).unwrap_or(&0);
        match place.1 {
            Record::File => format!("{} {}", place_name(place), times(false)),
            _ => format!("{} {} + {}", place_name(place), times(false), times(true)),
        }
    }

    /// Prints the counts in a few lines, and what is missing. Answers how much that is.
    pub fn print(&self) -> usize {
        println!("{}: {} files made, {} complete, {} complete samples", self.text.name(), self.files, self.complete, self.samples);
        println!("  pairs of n and k {}, XB first {}, YB first {}", self.pairs.len(), self.x_first, self.y_first);
        println!("  refusals, in the first sample + in later ones:");
        let numbers: BTreeSet<u64> = PLACES.iter().map(|place| place.0).collect();
        for number in numbers {
            let places = PLACES.iter().filter(|place| place.0 == number);
            println!("  {number}: {}", places.map(|place| self.counts(*place)).collect::<Vec<_>>().join(", "));
        }
        let kinds: Vec<String> = self.kinds.lines().collect();
        if !kinds.is_empty() {
            println!("  {}", kinds.join("; "));
        }
        print_gaps(&self.gaps())
    }

    /// What the files should have met and did not, and what they should not have met.
    fn gaps(&self) -> Vec<String> {
        let (table, met) = (all_places(), self.refusals.keys().copied().collect());
        let name =
            |(place, later): &(Place, bool)| format!("{} at {}, {}", place.0, place_name(*place), if *later { "later" } else { "first sample" });
        let mut gaps: Vec<String> = table.difference(&met).map(|p| format!("no file is refused with {}", name(p))).collect();
        gaps.extend(met.difference(&table).map(|p| format!("a place outside the table: {}", name(p))));
        let pairs = (2..=8).flat_map(|n| (1..=16).map(move |k| (n, k)));
        gaps.extend(pairs.filter(|pair| !self.pairs.contains(pair)).map(|(n, k)| format!("no sample is accepted with n {n} and k {k}")));
        if self.x_first == 0 || self.y_first == 0 {
            gaps.push("only one order of XB and YB is accepted".to_string());
        }
        let lengths = [MOST_BYTES, MOST_BYTES + 1].into_iter().filter(|length| !self.lengths.contains(length));
        gaps.extend(lengths.map(|length| format!("no file has {length} bytes")));
        gaps.extend(self.kinds.gaps("a file", FEWEST_OF_A_KIND));
        gaps
    }
}
