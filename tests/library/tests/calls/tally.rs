//! Counts of the calls made by a test, by refusal number. Follows document 01,
//! section "Refusal numbers".

use library::settings;
use std::collections::BTreeMap;
use std::fmt::Debug;

/// Exactly the expected numbers must have come up, so that a test whose inputs
/// miss one of them fails; in a share of the inputs, some of them and no other.
pub fn assert_found<N: PartialEq + Debug>(title: &str, found: &[N], expected: &[N]) {
    if settings::is_whole() {
        assert_eq!(found, expected, "{title}");
    } else {
        let is_expected = found.iter().all(|number| expected.contains(number));
        assert!(is_expected, "{title}: {found:?}, of {expected:?}");
    }
}

/// Each kind of input must have come up at least so many times; in a share of the
/// inputs, all kinds together as often as the share asks for.
pub fn assert_counts(title: &str, counts: &[usize], least: usize) {
    let is_enough = if settings::is_whole() {
        counts.iter().all(|&count| count >= least)
    } else {
        counts.iter().sum::<usize>() >= settings::fewest(least * counts.len())
    };
    assert!(is_enough, "{title}: {counts:?}, too few for {least}");
}

/// How many calls came to each refusal number, 0 for those accepted.
pub struct Tally {
    title: &'static str,
    counts: BTreeMap<u8, usize>,
}

impl Tally {
    /// No calls yet, under a title.
    pub fn new(title: &'static str) -> Tally {
        Tally {
            title,
            counts: BTreeMap::new(),
        }
    }

    /// One call more, with this refusal number.
    pub fn add(&mut self, refusal: u8) {
        *self.counts.entry(refusal).or_insert(0) += 1;
    }

    /// Prints the counts; the given refusal numbers must have come up.
    pub fn finish(self, expected: &[u8]) {
        let calls: usize = self.counts.values().sum();
        let counts: Vec<String> = self
            .counts
            .iter()
            .map(|(refusal, count)| match refusal {
                0 => format!("accepted {count}"),
                _ => format!("refused with {refusal}: {count}"),
            })
            .collect();
        println!("{}: {calls} calls, {}", self.title, counts.join(", "));
        let found: Vec<u8> = self.counts.into_keys().collect();
        assert!(calls > 0, "no call of: {}", self.title);
        assert_found(self.title, &found, expected);
    }
}
