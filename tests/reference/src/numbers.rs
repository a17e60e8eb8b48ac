//! The numbers that each public call returns, the refusal first.
//! Follows document 01, section "Refusal numbers", and document 02, No. 3: a refused
//! call returns its number with all others 0, which is each type's default with a
//! refusal set; a call that reads bytes also returns the place.

use crate::table::MOST_VARIABLES;

/// At most as many numbers as variables, held by value; unused entries are 0.
#[derive(Clone, Copy, Debug, Default, PartialEq, Eq)]
pub struct ShortList {
    pub length: usize,
    pub entries: [u16; MOST_VARIABLES],
}

/// Numbers of the call that reads a stored table.
#[derive(Clone, Copy, Debug, Default, PartialEq, Eq)]
pub struct TableNumbers {
    pub refusal: u8,
    pub place: usize,
    pub variables: usize,
    pub on_count: usize,
    pub free_count: usize,
}

/// Numbers of the linear space call.
#[derive(Clone, Copy, Debug, Default, PartialEq, Eq)]
pub struct SpaceNumbers {
    pub refusal: u8,
    pub degree: usize,
    pub basis: ShortList,
}

/// Numbers of the completion call; k0 and k1 are the degrees with all free
/// points off and with all of them on.
#[derive(Clone, Copy, Debug, Default, PartialEq, Eq)]
pub struct CompletionNumbers {
    pub refusal: u8,
    pub point_count: usize,
    pub degree: usize,
    pub k0: usize,
    pub k1: usize,
}

/// Numbers of the analysis call: canonical variables by index, equations as
/// masks.
#[derive(Clone, Copy, Debug, Default, PartialEq, Eq)]
pub struct AnalysisNumbers {
    pub refusal: u8,
    pub degree: usize,
    pub basis: ShortList,
    pub canonical: ShortList,
    pub equations: ShortList,
    pub restriction_count: usize,
}

/// Numbers of the smallest affine space call.
#[derive(Clone, Copy, Debug, Default, PartialEq, Eq)]
pub struct AffineNumbers {
    pub refusal: u8,
    pub least: u16,
    pub dimension: usize,
    pub basis: ShortList,
    pub projection_count: usize,
}

/// Numbers of a listing call.
#[derive(Clone, Copy, Debug, Default, PartialEq, Eq)]
pub struct ListingNumbers {
    pub refusal: u8,
    pub next_place: usize,
    pub passed: usize,
    pub records: usize,
}

/// Numbers of the call that compares two stored tables.
#[derive(Clone, Copy, Debug, Default, PartialEq, Eq)]
pub struct ComparisonNumbers {
    pub refusal: u8,
    pub place: usize,
    pub records: usize,
    pub next_point: usize,
    pub total: usize,
}

/// Numbers of the call that writes a form for a table.
#[derive(Clone, Copy, Debug, Default, PartialEq, Eq)]
pub struct FormNumbers {
    pub refusal: u8,
    pub length: usize,
    pub products: usize,
}

/// Numbers of the call that reads a form into its points.
#[derive(Clone, Copy, Debug, Default, PartialEq, Eq)]
pub struct FormPointsNumbers {
    pub refusal: u8,
    pub place: usize,
    pub variables: usize,
    pub point_count: usize,
}

/// Numbers of the call that writes a form as it was read.
#[derive(Clone, Copy, Debug, Default, PartialEq, Eq)]
pub struct RewriteNumbers {
    pub refusal: u8,
    pub place: usize,
    pub length: usize,
}

/// Numbers of the calls that build and change an index: those of the form that the
/// list then belongs to.
#[derive(Clone, Copy, Debug, Default, PartialEq, Eq)]
pub struct IndexNumbers {
    pub refusal: u8,
    pub place: usize,
    pub variables: usize,
    pub length: usize,
    pub products: usize,
}

/// Numbers of the call that writes the printed report.
#[derive(Clone, Copy, Debug, Default, PartialEq, Eq)]
pub struct ReportNumbers {
    pub refusal: u8,
    pub length: usize,
}

/// A short list of the given numbers, at most as many as variables.
pub fn short_list(numbers: &[u16]) -> ShortList {
    let mut list = ShortList {
        length: numbers.len(),
        entries: [0; MOST_VARIABLES],
    };
    list.entries[..numbers.len()].copy_from_slice(numbers);
    list
}
