//! Reads a job on standard input and prints its report, as the report program does.
use std::io::{self, Read, Write};

fn report(job: &[u8]) -> Vec<u8> {
    let cell = match hoistgarlic::standardize(job) {
        Ok(cell) => cell,
        Err(refusal) => return format!("{refusal}\n").into_bytes(),
    };
    let mut text = format!("sites {} orbits {}\n", cell.mapping.len(), cell.orbits).into_bytes();
    for j in 0..cell.mapping.len() {
        text.extend(
            format!(
                "{j} {} {} {} ",
                cell.mapping[j], cell.labels[j], cell.multiplicities[j]
            )
            .bytes(),
        );
        // any byte
        text.extend([cell.letters[j], b'\n']);
    }
    text
}

fn main() -> io::Result<()> {
    let mut job = Vec::new();
    io::stdin().read_to_end(&mut job)?;
    io::stdout().write_all(&report(&job))
}
