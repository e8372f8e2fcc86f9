//! The safe functions on small values of document 01: a line for each, `ok` or `FAILED`.
use hoistgarlic::{
    label, letter, match_coordinates, padded, standardize, Candidate, Match, Refusal,
};

const IDENTITY: [[f64; 3]; 3] = [[1.0, 0.0, 0.0], [0.0, 1.0, 0.0], [0.0, 0.0, 1.0]];

fn check(name: &str, right: bool) {
    println!("{} {name}", if right { "ok" } else { "FAILED" });
}

fn check_whole(worked: &[u8]) {
    let cell = standardize(worked).expect("the worked design is accepted");
    check(
        "C-centring: the second site at (0.5, 0.5, 0)",
        cell.positions == [[0.0; 3], [0.5, 0.5, 0.0]],
    );
    check("its points", cell.points == [[0, 0, 0], [0, 1, 0]]);
    check(
        "its sites",
        cell.mapping == [0, 0] && cell.elements == [63, 63] && cell.primitive == [[0.0; 3]],
    );
    check(
        "its orbit",
        cell.labels == [0, 0]
            && cell.multiplicities == [2, 2]
            && cell.letters == *b"aa"
            && cell.orbits == 1,
    );
    check("its diagonal numbers", cell.factors == [1, 1, 2]);
    // the square root of 2, and half of it
    let root = f64::from_bits(0x3ff6a09e667f3bcd);
    let half = f64::from_bits(0x3fe6a09e667f3bcd);
    check(
        "its listed basis",
        cell.listed_basis == [[root, 0.0, 0.0], [0.0, root, 0.0], [0.0, 0.0, 1.0]],
    );
    check(
        "its primitive basis",
        cell.primitive_basis == [[half, half, 0.0], [-half, half, 0.0], [0.0, 0.0, 1.0]],
    );
    check("no bytes: 1", standardize(&[]) == Err(Refusal(1)));
    check(
        "a cut job: 1",
        standardize(&worked[..worked.len() - 1]) == Err(Refusal(1)),
    );
    check(
        "a byte after the end: 1",
        standardize(&[worked, &[0]].concat()) == Err(Refusal(1)),
    );
    check(
        "65,537 bytes: 1",
        standardize(&[b'Z'; 65537]) == Err(Refusal(1)),
    );
    // the low byte of the only candidate's multiplicity
    let mut other = worked.to_vec();
    let at = worked.len() - 77;
    check(
        "the candidate's place",
        other[at - 1] == b'W' && other[at] == 2,
    );
    other[at] = 3;
    check(
        "no candidate of the orbit's multiplicity: 13",
        standardize(&other) == Err(Refusal(13)),
    );
}

fn check_labels() {
    let mapping = [0, 0, 1, 1, 2, 2, 3, 3, 4, 4];
    let found = label(5, 1, &[1, 0, 2, 4, 3], &mapping).expect("a permutation");
    check(
        "permutation 1,0,2,4,3, two copies a site: labels",
        found.labels == [0, 0, 0, 0, 4, 4, 6, 6, 6, 6],
    );
    check(
        "and multiplicities",
        found.multiplicities == [4, 4, 4, 4, 2, 2, 4, 4, 4, 4],
    );
    check(
        "permutation 0,0: 5",
        label(2, 1, &[0, 0], &[0, 1]) == Err(Refusal(5)),
    );
    check(
        "1,024 listed sites",
        label(1, 1, &[0], &[0; 1024]).is_ok_and(|l| l.multiplicities == [1024; 1024]),
    );
    check("1,025: 9", label(1, 1, &[0], &[0; 1025]) == Err(Refusal(9)));
}

fn check_matches() {
    let origin = padded("0,0,0").unwrap();
    let quarter = [0.25, 0.0, 0.0];
    let at = |symprec| match_coordinates(&IDENTITY, &quarter, &origin, symprec);
    check(
        "a distance equal to symprec misses",
        at(0.25) == Ok(Match::Misses),
    );
    check(
        "a greater symprec fits",
        at(0.26)
            == Ok(Match::Fits {
                place: 13,
                distance: 0.25,
            }),
    );
    check("symprec 0: 4", at(0.0) == Err(Refusal(4)));
    let read = |text| match_coordinates(&IDENTITY, &quarter, &padded(text).unwrap(), 0.001);
    check("-x,2x,1/2 is read", read("-x,2x,1/2").is_ok());
    check("x,y: 6", read("x,y") == Err(Refusal(6)));
    check("+x,y,z: 6", read("+x,y,z") == Err(Refusal(6)));
    check("65 bytes are no text", padded(&" ".repeat(65)).is_none());
}

fn check_letters() {
    let positions = [[0.0; 3], [0.5, 0.5, 0.0]];
    let candidate = |multiplicity| Candidate {
        multiplicity,
        letter: b'a',
        coordinates: padded("x,y,z").unwrap(),
    };
    let of = |m| {
        letter(
            1,
            1,
            &[0],
            &[0, 0],
            &positions,
            &IDENTITY,
            &[candidate(m)],
            0.001,
        )
    };
    check(
        "the worked design's letters",
        of(2)
            .is_ok_and(|l| l.letters == *b"aa" && l.labels == [0, 0] && l.multiplicities == [2, 2]),
    );
    check(
        "no candidate of the orbit's multiplicity: 13 again",
        of(3) == Err(Refusal(13)),
    );
}

fn main() {
    let path = std::env::args().nth(1).expect("the worked design's job");
    check_whole(&std::fs::read(path).expect("a file"));
    check_labels();
    check_matches();
    check_letters();
}
