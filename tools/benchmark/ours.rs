//! The proved calls, over the static library.

type Triple = [f64; 3];
type Basis = [Triple; 3];

#[allow(improper_ctypes)]
extern "C" {
    fn hoistgarlic_standardize(
        bytes: *const u8,
        bytes_len: usize,
        positions: *mut Triple,
        positions_len: usize,
        points: *mut [i64; 3],
        points_len: usize,
        mapping: *mut u16,
        mapping_len: usize,
        elements: *mut i32,
        elements_len: usize,
        labels: *mut u16,
        labels_len: usize,
        multiplicities: *mut u16,
        multiplicities_len: usize,
        letters: *mut u8,
        letters_len: usize,
        primitive: *mut Triple,
        primitive_len: usize,
        primitive_basis: *mut Basis,
        listed_basis: *mut Basis,
        factors: *mut [i16; 3],
        sites: *mut usize,
        orbits: *mut usize,
    ) -> usize;
}

/// Lent lists of the greatest legal lengths, and what the call tells.
pub struct Lists {
    pub positions: Vec<Triple>,
    pub points: Vec<[i64; 3]>,
    pub mapping: Vec<u16>,
    pub elements: Vec<i32>,
    pub labels: Vec<u16>,
    pub multiplicities: Vec<u16>,
    pub letters: Vec<u8>,
    pub primitive: Vec<Triple>,
    pub primitive_basis: Basis,
    pub listed_basis: Basis,
    pub factors: [i16; 3],
    pub sites: usize,
    pub orbits: usize,
}

impl Lists {
    pub fn new() -> Lists {
        Lists {
            positions: vec![[0.0; 3]; 1024],
            points: vec![[0; 3]; 1024],
            mapping: vec![0; 1024],
            elements: vec![0; 1024],
            labels: vec![0; 1024],
            multiplicities: vec![0; 1024],
            letters: vec![0; 1024],
            primitive: vec![[0.0; 3]; 256],
            primitive_basis: [[0.0; 3]; 3],
            listed_basis: [[0.0; 3]; 3],
            factors: [0; 3],
            sites: 0,
            orbits: 0,
        }
    }

    /// The number of the refusal, or 0.
    pub fn standardize(&mut self, bytes: &[u8]) -> usize {
        // SAFETY: each pointer is to as many entries as the length behind it says.
        unsafe {
            hoistgarlic_standardize(
                bytes.as_ptr(),
                bytes.len(),
                self.positions.as_mut_ptr(),
                self.positions.len(),
                self.points.as_mut_ptr(),
                self.points.len(),
                self.mapping.as_mut_ptr(),
                self.mapping.len(),
                self.elements.as_mut_ptr(),
                self.elements.len(),
                self.labels.as_mut_ptr(),
                self.labels.len(),
                self.multiplicities.as_mut_ptr(),
                self.multiplicities.len(),
                self.letters.as_mut_ptr(),
                self.letters.len(),
                self.primitive.as_mut_ptr(),
                self.primitive.len(),
                &mut self.primitive_basis,
                &mut self.listed_basis,
                &mut self.factors,
                &mut self.sites,
                &mut self.orbits,
            )
        }
    }
}
