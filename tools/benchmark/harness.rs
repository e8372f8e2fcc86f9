// Appended to the harness of the oracle, in the module of moyo's standardize.rs.
/// One call of the original, for the benchmark.
pub fn match_one(position: &[f64; 3], coordinates: &str, basis: &[[f64; 3]; 3], symprec: f64) -> bool {
    let b = basis;
    let lattice = Lattice {
        basis: Matrix3::new(
            b[0][0], b[0][1], b[0][2], b[1][0], b[1][1], b[1][2], b[2][0], b[2][1], b[2][2],
        ),
    };
    match_wyckoff_coordinates(&vector(position), coordinates, &lattice, symprec)
}
