//! How near a plateau pulse comes to the exact product, beside demand 3's bound: the worst of
//! |sample - amplitude*start*rotation^k| / ((k+1)*2^-49*m) over many pulses. The exact product is worked out with pairs of doubles, which
//! keep some 104 bits, so that its own error is far below the bound.
use crate::host;
use crate::rng::Rng;
use std::f64::consts::TAU;
use std::process::ExitCode;

/// A number as the sum of two doubles, the second at most half a unit of the first.
#[derive(Clone, Copy)]
struct Wide(f64, f64);

impl Wide {
    fn sum(a: f64, b: f64) -> Wide {
        let s = a + b;
        let t = s - a;
        Wide(s, (a - (s - t)) + (b - t))
    }

    fn product(a: f64, b: f64) -> Wide {
        let p = a * b;
        Wide(p, a.mul_add(b, -p))
    }

    fn add(self, other: Wide) -> Wide {
        let Wide(s, e) = Wide::sum(self.0, other.0);
        let Wide(t, f) = Wide::sum(self.1, other.1);
        let Wide(s, e) = Wide::sum(s, e + t);
        Wide::sum(s, e + f)
    }

    fn neg(self) -> Wide {
        Wide(-self.0, -self.1)
    }

    fn mul(self, other: Wide) -> Wide {
        let Wide(p, e) = Wide::product(self.0, other.0);
        Wide::sum(p, e + (self.0 * other.1 + self.1 * other.0))
    }
}

type Pair = [Wide; 2];

fn wide(z: [f64; 2]) -> Pair {
    z.map(|x| Wide(x, 0.0))
}

fn times(a: Pair, b: Pair) -> Pair {
    let ([a, b], [c, d]) = (a, b);
    [a.mul(c).add(b.mul(d).neg()), a.mul(d).add(b.mul(c))]
}

/// The worst ratio of one pulse, and the sample it is at.
fn worst(amp: [f64; 2], start: [f64; 2], rotation: [f64; 2], count: usize) -> (f64, usize) {
    let ([a, b], [c, d]) = (start, amp);
    let carrier = [a * c - b * d, a * d + b * c];
    let (mut i, mut q) = (vec![0.0; count], vec![0.0; count]);
    host::add_plateau(&mut i, &mut q, 0, count, carrier, rotation);
    let m = amp[0].abs() + amp[1].abs();
    let mut exact = times(wide(amp), wide(start));
    let mut most = (0.0, 0);
    for k in 0..count {
        let bound = (k + 1) as f64 * 2f64.powi(-49) * m;
        for (sample, part) in [(i[k], exact[0]), (q[k], exact[1])] {
            let apart = Wide(sample, 0.0).add(part.neg());
            let ratio = (apart.0 + apart.1).abs() / bound;
            if ratio > most.0 {
                most = (ratio, k);
            }
        }
        exact = times(exact, wide(rotation));
    }
    most
}

/// The pair that a phase stands for, by our cosine and sine.
fn pair(phase: f64) -> [f64; 2] {
    let x = phase * TAU;
    [host::cos(x), host::sin(x)]
}

pub fn run() -> ExitCode {
    let mut rng = Rng::new(9);
    let mut most = (0.0, 0);
    let (mut samples, mut all) = (0, 0);
    let lengths = [(16, 6000), (256, 3000), (4096, 1000), (65536, 60)];
    for (length, pulses) in lengths {
        let mut here = (0.0, 0);
        let mut taken = 0;
        for _ in 0..pulses {
            let scale = 2f64.powi(rng.within(-195, 195) as i32);
            let amp = [rng.sample() * scale, rng.sample() * scale];
            let m = amp[0].abs() + amp[1].abs();
            if !(2f64.powi(-200)..=2f64.powi(200)).contains(&m) {
                continue;
            }
            let start = pair(rng.sample() * 8.0);
            let rotation = pair(rng.sample());
            let count = 1 + rng.below(length) as usize;
            let count = if length == 65536 { 65536 } else { count };
            samples += count;
            taken += 1;
            let one = worst(amp, start, rotation, count);
            if one.0 > here.0 {
                here = one;
            }
        }
        println!(
            "{taken:5} pulses of up to {length:5} samples: worst {:.6} of the bound, at sample {}",
            here.0, here.1
        );
        all += taken;
        if here.0 > most.0 {
            most = here;
        }
    }
    println!(
        "{all} pulses, {samples} samples of each row, worst {:.6} of the bound",
        most.0
    );
    if most.0 <= 1.0 {
        ExitCode::SUCCESS
    } else {
        ExitCode::FAILURE
    }
}
