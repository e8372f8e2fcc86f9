//! Hoistgarlic's calls for a Rust program: the static library's C names, a safe function over each.
//!
//! This file can be taken over as it is; beside it a program links `libhoistgarlic.a`, which
//! `rt lib` in crates/hoistgarlic builds (run.sh shows how). What each call promises of its answer, and
//! of every refusal, stands in crates/hoistgarlic/src/lib.rt.
use std::fmt;

/// A position, three fractions.
pub type Cells = [f64; 3];

/// The integer point of a listed site.
pub type Point = [i64; 3];

/// Three rows of three; the basis vectors are the columns.
pub type Basis = [[f64; 3]; 3];

/// A candidate's coordinates, padded with spaces.
pub type Text = [u8; 64];

/// The limits of an answer: with as much room no call is refused with 10.
const MOST_LISTED: usize = 1024;
const MOST_SITES: usize = 256;

/// The place of a match that misses.
const MISSES: usize = 125;

// A slice is a pointer and its length.
unsafe extern "C" {
    fn hoistgarlic_standardize(
        bytes: *const u8,
        bytes_len: usize,
        positions: *mut Cells,
        positions_len: usize,
        points: *mut Point,
        points_len: usize,
        mapping: *mut u16,
        mapping_len: usize,
        elements: *mut i32,
        elements_len: usize,
        labels: *mut u16,
        labels_len: usize,
        multiplicities: *mut u16,
        multiplicities_len: usize,
        letters: *mut u8,
        letters_len: usize,
        primitive: *mut Cells,
        primitive_len: usize,
        primitive_basis: *mut Basis,
        listed_basis: *mut Basis,
        factors: *mut [i16; 3],
        sites: *mut usize,
        orbits: *mut usize,
    ) -> usize;

    fn hoistgarlic_label(
        sites: usize,
        count: usize,
        images: *const u8,
        images_len: usize,
        mapping: *const u16,
        mapping_len: usize,
        labels: *mut u16,
        labels_len: usize,
        multiplicities: *mut u16,
        multiplicities_len: usize,
    ) -> usize;

    fn hoistgarlic_letter(
        sites: usize,
        count: usize,
        images: *const u8,
        images_len: usize,
        mapping: *const u16,
        mapping_len: usize,
        positions: *const Cells,
        positions_len: usize,
        basis: *const Basis,
        candidates: *const u16,
        candidates_len: usize,
        candidate_letters: *const u8,
        candidate_letters_len: usize,
        texts: *const Text,
        texts_len: usize,
        symprec: f64,
        labels: *mut u16,
        labels_len: usize,
        multiplicities: *mut u16,
        multiplicities_len: usize,
        letters: *mut u8,
        letters_len: usize,
    ) -> usize;

    fn hoistgarlic_match(
        basis: *const Basis,
        position: *const Cells,
        text: *const Text,
        symprec: f64,
        place: *mut usize,
        distance: *mut f64,
    ) -> usize;
}

// SAFETY, of every call below: each pointer is a reference's or a slice's that lives through the
// call, with the slice's own length, and what is lent to be written overlaps nothing else. The
// calls ask no more: no contract has a `requires`.

/// The number of a refusal, 1 to 13 (crates/definitions/specs/Refusal.antt).
#[derive(Clone, Copy, Debug, PartialEq, Eq)]
pub struct Refusal(pub usize);

impl fmt::Display for Refusal {
    fn fmt(&self, f: &mut fmt::Formatter) -> fmt::Result {
        write!(f, "refused {}", self.0)
    }
}

impl std::error::Error for Refusal {}

/// 0 is an accepted answer.
fn accepted(number: usize) -> Result<(), Refusal> {
    if number == 0 {
        Ok(())
    } else {
        Err(Refusal(number))
    }
}

/// A standard cell: one entry a listed site in the first seven lists, one a primitive site in
/// `primitive`.
#[derive(Clone, Debug, PartialEq)]
pub struct StandardCell {
    pub positions: Vec<Cells>,
    pub points: Vec<Point>,
    /// the primitive site of each listed site
    pub mapping: Vec<u16>,
    pub elements: Vec<i32>,
    /// the first listed site of each one's orbit
    pub labels: Vec<u16>,
    pub multiplicities: Vec<u16>,
    /// the Wyckoff letters, each its byte as the job gives it
    pub letters: Vec<u8>,
    /// the symmetrised positions of the primitive sites
    pub primitive: Vec<Cells>,
    pub primitive_basis: Basis,
    pub listed_basis: Basis,
    /// the three diagonal numbers of C
    pub factors: [i16; 3],
    pub orbits: usize,
}

/// The whole call: a job's bytes, of any length and content.
pub fn standardize(job: &[u8]) -> Result<StandardCell, Refusal> {
    let mut cell = StandardCell {
        positions: vec![[0.0; 3]; MOST_LISTED],
        points: vec![[0; 3]; MOST_LISTED],
        mapping: vec![0; MOST_LISTED],
        elements: vec![0; MOST_LISTED],
        labels: vec![0; MOST_LISTED],
        multiplicities: vec![0; MOST_LISTED],
        letters: vec![0; MOST_LISTED],
        primitive: vec![[0.0; 3]; MOST_SITES],
        primitive_basis: [[0.0; 3]; 3],
        listed_basis: [[0.0; 3]; 3],
        factors: [0; 3],
        orbits: 0,
    };
    let mut sites = 0;
    accepted(unsafe {
        hoistgarlic_standardize(
            job.as_ptr(),
            job.len(),
            cell.positions.as_mut_ptr(),
            MOST_LISTED,
            cell.points.as_mut_ptr(),
            MOST_LISTED,
            cell.mapping.as_mut_ptr(),
            MOST_LISTED,
            cell.elements.as_mut_ptr(),
            MOST_LISTED,
            cell.labels.as_mut_ptr(),
            MOST_LISTED,
            cell.multiplicities.as_mut_ptr(),
            MOST_LISTED,
            cell.letters.as_mut_ptr(),
            MOST_LISTED,
            cell.primitive.as_mut_ptr(),
            MOST_SITES,
            &mut cell.primitive_basis,
            &mut cell.listed_basis,
            &mut cell.factors,
            &mut sites,
            &mut cell.orbits,
        )
    })?;
    cell.positions.truncate(sites);
    cell.points.truncate(sites);
    cell.mapping.truncate(sites);
    cell.elements.truncate(sites);
    cell.labels.truncate(sites);
    cell.multiplicities.truncate(sites);
    cell.letters.truncate(sites);
    // the product of the diagonal numbers is |det C|, the copies of a primitive site
    let copies: usize = cell.factors.iter().map(|&d| d as usize).product();
    cell.primitive.truncate(sites / copies);
    Ok(cell)
}

/// Labels and multiplicities, one entry a listed site.
#[derive(Clone, Debug, PartialEq, Eq)]
pub struct Labels {
    pub labels: Vec<u16>,
    pub multiplicities: Vec<u16>,
}

/// The labels of listed sites: `count` permutations of `sites` primitive sites, image by image,
/// join them; `mapping` has the primitive site of each listed site.
pub fn label(
    sites: usize,
    count: usize,
    images: &[u8],
    mapping: &[u16],
) -> Result<Labels, Refusal> {
    let n = mapping.len();
    let mut found = Labels {
        labels: vec![0; n],
        multiplicities: vec![0; n],
    };
    accepted(unsafe {
        hoistgarlic_label(
            sites,
            count,
            images.as_ptr(),
            images.len(),
            mapping.as_ptr(),
            n,
            found.labels.as_mut_ptr(),
            n,
            found.multiplicities.as_mut_ptr(),
            n,
        )
    })?;
    Ok(found)
}

/// One candidate: a Wyckoff position of the group.
#[derive(Clone, Debug, PartialEq, Eq)]
pub struct Candidate {
    pub multiplicity: u16,
    pub letter: u8,
    pub coordinates: Text,
}

/// Coordinates padded with spaces; none where they are longer than 64 bytes.
pub fn padded(coordinates: &str) -> Option<Text> {
    let mut text = [b' '; 64];
    text.get_mut(..coordinates.len())?
        .copy_from_slice(coordinates.as_bytes());
    Some(text)
}

/// Labels, multiplicities and Wyckoff letters, one entry a listed site.
#[derive(Clone, Debug, PartialEq, Eq)]
pub struct Letters {
    pub labels: Vec<u16>,
    pub multiplicities: Vec<u16>,
    pub letters: Vec<u8>,
}

/// The letters of listed sites: as `label`, with the listed positions, their basis and the
/// candidates in their order.
#[allow(clippy::too_many_arguments)]
pub fn letter(
    sites: usize,
    count: usize,
    images: &[u8],
    mapping: &[u16],
    positions: &[Cells],
    basis: &Basis,
    candidates: &[Candidate],
    symprec: f64,
) -> Result<Letters, Refusal> {
    let n = mapping.len();
    let multiplicities: Vec<u16> = candidates.iter().map(|w| w.multiplicity).collect();
    let letters: Vec<u8> = candidates.iter().map(|w| w.letter).collect();
    let texts: Vec<Text> = candidates.iter().map(|w| w.coordinates).collect();
    let mut found = Letters {
        labels: vec![0; n],
        multiplicities: vec![0; n],
        letters: vec![0; n],
    };
    accepted(unsafe {
        hoistgarlic_letter(
            sites,
            count,
            images.as_ptr(),
            images.len(),
            mapping.as_ptr(),
            n,
            positions.as_ptr(),
            positions.len(),
            basis,
            multiplicities.as_ptr(),
            multiplicities.len(),
            letters.as_ptr(),
            letters.len(),
            texts.as_ptr(),
            texts.len(),
            symprec,
            found.labels.as_mut_ptr(),
            n,
            found.multiplicities.as_mut_ptr(),
            n,
            found.letters.as_mut_ptr(),
            n,
        )
    })?;
    Ok(found)
}

/// A position fits a candidate, with the place of the offset and the distance, or misses it.
#[derive(Clone, Copy, Debug, PartialEq)]
pub enum Match {
    Fits { place: usize, distance: f64 },
    Misses,
}

/// The match of one position with one candidate's coordinates, whatever its multiplicity.
pub fn match_coordinates(
    basis: &Basis,
    position: &Cells,
    coordinates: &Text,
    symprec: f64,
) -> Result<Match, Refusal> {
    let mut place = 0;
    let mut distance = 0.0;
    accepted(unsafe {
        hoistgarlic_match(
            basis,
            position,
            coordinates,
            symprec,
            &mut place,
            &mut distance,
        )
    })?;
    if place == MISSES {
        Ok(Match::Misses)
    } else {
        Ok(Match::Fits { place, distance })
    }
}
