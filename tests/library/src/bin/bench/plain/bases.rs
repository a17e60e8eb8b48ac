//! The reduced bases of six variables in one table, degree falling, then vector by
//! vector. Follows document 01, section "Primes".

use std::sync::OnceLock;

/// Most variables of a listing.
pub const MOST_VARIABLES: usize = 6;

/// A reduced basis with unused entries 0, and its lead bits.
#[derive(Clone, Copy)]
pub struct Entry {
    pub vectors: [u8; MOST_VARIABLES],
    pub leads: u8,
}

/// The bases of each degree, in order.
pub type Bases = [Vec<Entry>; MOST_VARIABLES + 1];

/// Adds every reduced basis that begins with an entry of so many vectors.
fn add(bases: &mut Bases, entry: Entry, length: usize) {
    bases[length].push(entry);
    let last = if length == 0 {
        0
    } else {
        entry.vectors[length - 1]
    };
    for vector in last + 1..1 << MOST_VARIABLES {
        let lead = 0x80 >> vector.leading_zeros();
        let clear = entry.vectors[..length].iter().all(|&v| v & lead == 0);
        if clear && vector & entry.leads == 0 {
            let mut longer = entry;
            longer.vectors[length] = vector;
            longer.leads |= lead;
            add(bases, longer, length + 1);
        }
    }
}

/// The table of bases, made once.
pub fn bases() -> &'static Bases {
    static BASES: OnceLock<Bases> = OnceLock::new();
    BASES.get_or_init(|| {
        let mut bases = Bases::default();
        let empty = Entry {
            vectors: [0; MOST_VARIABLES],
            leads: 0,
        };
        add(&mut bases, empty, 0);
        bases
    })
}
