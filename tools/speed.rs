// Measures the proved rounding and square root beside the machine's, in nanoseconds a call, on the same random inputs:
//     (cd ../crates/speed_float && rt lib speed_float)
//     rustc -O speed.rs -L ../crates/speed_float/out -l static=speed_float && ./speed
// Each figure is the least of nine runs; every answer is also compared.
use std::hint::black_box;
use std::time::Instant;

extern "C" {
    fn speed_float_round(x: f64) -> f64;
    fn speed_float_sqrt(x: f64) -> f64;
}

fn our_round(x: f64) -> f64 {
    unsafe { speed_float_round(x) }
}

fn our_sqrt(x: f64) -> f64 {
    unsafe { speed_float_sqrt(x) }
}

/// splitmix64
fn random(state: &mut u64) -> u64 {
    *state = state.wrapping_add(0x9E3779B97F4A7C15);
    let mut z = *state;
    z = (z ^ (z >> 30)).wrapping_mul(0xBF58476D1CE4E5B9);
    z = (z ^ (z >> 27)).wrapping_mul(0x94D049BB133111EB);
    z ^ (z >> 31)
}

/// nanoseconds a call, each input in turn
fn nanoseconds(f: fn(f64) -> f64, inputs: &[f64]) -> f64 {
    let f = black_box(f);
    let run = || {
        let start = Instant::now();
        for &x in inputs {
            black_box(f(black_box(x)));
        }
        start.elapsed().as_nanos() as f64 / inputs.len() as f64
    };
    (0..9).map(|_| run()).fold(f64::INFINITY, f64::min)
}

fn compare(name: &str, inputs: &[f64], ours: fn(f64) -> f64, machine: fn(f64) -> f64) {
    for &x in inputs {
        assert_eq!(ours(x).to_bits(), machine(x).to_bits(), "{name} of {x:e}");
    }
    println!("{name:24} ours {:6.1} ns   machine {:5.1} ns", nanoseconds(ours, inputs), nanoseconds(machine, inputs));
}

fn main() {
    let mut state = 20;
    let n = 200_000;
    // as coordinates and displacements are: -4 to 4
    let near: Vec<f64> = (0..n).map(|_| (random(&mut state) >> 11) as f64 / (1u64 << 50) as f64 - 4.0).collect();
    let size: Vec<f64> = near.iter().map(|x| x.abs()).collect();
    // any finite number
    let any: Vec<f64> = (0..n).map(|_| f64::from_bits(random(&mut state))).filter(|x| x.is_finite()).collect();
    let positive: Vec<f64> = any.iter().map(|x| x.abs()).collect();
    compare("round, -4 to 4", &near, our_round, f64::round);
    compare("round, any", &any, our_round, f64::round);
    compare("sqrt, 0 to 4", &size, our_sqrt, f64::sqrt);
    compare("sqrt, any", &positive, our_sqrt, f64::sqrt);
}
