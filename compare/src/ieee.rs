//! `mul_add` and `ceil` beside Rust's, in classes of inputs where roundings go wrong.
use crate::host;
use crate::report::Report;
use crate::rng::{beside, float, Rng, FRACTION};

type Fused = fn(f64, f64, f64) -> f64;

pub fn compare(report: &mut Report, scale: u64) {
    report.subject("mul_add beside f64::mul_add");
    fused(report, scale, host::mul_add, f64::mul_add);
    // Where the target is not said to have the instruction, Rust compiles `f64::mul_add` to a call of `fma`. With rustc 1.95 the linker
    // takes that from compiler_builtins, not from glibc's libm; it asks the processor once and then runs the instruction, or works the
    // answer out where there is none. So that nothing rests on this, the instruction itself is asked on the same inputs.
    if let Some(instruction) = instruction() {
        report.subject("f64::mul_add beside the instruction");
        fused(report, scale, f64::mul_add, instruction);
    } else if cfg!(target_arch = "aarch64") {
        println!("f64::mul_add is compiled to this machine's own instruction");
    } else {
        println!("no fused instruction on this machine: f64::mul_add is not checked against it");
    }
    report.subject("ceil beside f64::ceil");
    ceilings(report, scale);
}

/// The hardware's fused multiply-add, where there is one.
#[cfg(target_arch = "x86_64")]
fn instruction() -> Option<Fused> {
    use std::arch::x86_64::{_mm_cvtsd_f64, _mm_fmadd_sd, _mm_set_sd};

    #[target_feature(enable = "fma")]
    unsafe fn vfmadd(a: f64, b: f64, c: f64) -> f64 {
        _mm_cvtsd_f64(_mm_fmadd_sd(_mm_set_sd(a), _mm_set_sd(b), _mm_set_sd(c)))
    }

    // Called only where the next test found the instruction.
    fn called(a: f64, b: f64, c: f64) -> f64 {
        unsafe { vfmadd(a, b, c) }
    }

    std::arch::is_x86_feature_detected!("fma").then_some(called as Fused)
}

#[cfg(not(target_arch = "x86_64"))]
fn instruction() -> Option<Fused> {
    None
}

fn fused(report: &mut Report, scale: u64, ours: Fused, theirs: Fused) {
    let million = 1_000_000 * scale;
    let mut rng = Rng::new(1);
    let mut class = |name, count, next: fn(&mut Rng) -> [f64; 3]| {
        let mut class = report.class(name);
        for _ in 0..count {
            let [a, b, c] = next(&mut rng);
            class.judge(&[a, b, c], ours(a, b, c), theirs(a, b, c));
        }
        report.add(class);
    };
    class("random bits", 2 * million, random_bits);
    class("near exponents", 2 * million, near_exponents);
    class("cancellation", 2 * million, cancellation);
    class(
        "cancellation among subnormals",
        million,
        subnormal_cancellation,
    );
    class("subnormal products", 2 * million, subnormal_products);
    class("subnormal operands", million, subnormal_operands);
    class("overflow edge", 2 * million, overflow_edge);
    class("ties", 2 * million, ties);
    class("ties of the product", million, product_ties);
    class("factors around 2^-485", 2 * million, room_edge);
    class("few digits", 2 * million, few_digits);
    special_grid(report, ours, theirs);
    exponent_grid(report, ours, theirs);
}

fn random_bits(rng: &mut Rng) -> [f64; 3] {
    [0; 3].map(|_| f64::from_bits(rng.bits()))
}

/// The addend's exponent is within 130 of the product's.
fn near_exponents(rng: &mut Rng) -> [f64; 3] {
    let (ea, eb) = (rng.within(400, 1600), rng.within(823, 1223));
    let ec = ea + eb - 1023 + rng.within(-130, 130);
    [ea, eb, ec].map(|field| rng.in_field(field))
}

/// The addend is minus the rounded product, or up to three units in the last place beside it.
fn cancelled(rng: &mut Rng, ea: i64, eb: i64) -> [f64; 3] {
    let (a, b) = (rng.in_field(ea), rng.in_field(eb));
    [a, b, beside(-(a * b), rng.within(-3, 3))]
}

fn cancellation(rng: &mut Rng) -> [f64; 3] {
    let (ea, eb) = (rng.within(200, 1800), rng.within(873, 1173));
    cancelled(rng, ea, eb)
}

/// The same with a product whose last digits lie below the smallest subnormal.
fn subnormal_cancellation(rng: &mut Rng) -> [f64; 3] {
    let ea = rng.within(1, 1080);
    let eb = 1023 - ea + rng.within(-55, 60);
    cancelled(rng, ea, eb)
}

fn subnormal_products(rng: &mut Rng) -> [f64; 3] {
    let ea = rng.within(1, 1080);
    let eb = 1023 - ea + rng.within(-120, 5);
    let c = match rng.below(3) {
        0 => float(rng.bits(), 0, 0),
        1 => rng.subnormal(),
        _ => {
            let field = rng.within(1, 60);
            rng.in_field(field)
        }
    };
    [rng.in_field(ea), rng.in_field(eb), c]
}

fn subnormal_operands(rng: &mut Rng) -> [f64; 3] {
    let (eb, ec) = (rng.within(0, 2046), rng.within(0, 1100));
    let (a, b, c) = (rng.subnormal(), rng.in_field(eb), rng.in_field(ec));
    match rng.below(3) {
        0 => [a, b, c],
        1 => [b, a, c],
        _ => [a, b, rng.subnormal()],
    }
}

/// The product or the sum is about as large as the largest finite number.
fn overflow_edge(rng: &mut Rng) -> [f64; 3] {
    let ea = rng.within(1023, 2046);
    let eb = 2046 + 1023 - ea + rng.within(-2, 2);
    let ec = rng.within(1930, 2046);
    [ea, eb, ec].map(|field| rng.in_field(field))
}

/// The product is half a unit in the last place of the addend: exactly, or but for a bit 52 or 104 places further down.
fn ties(rng: &mut Rng) -> [f64; 3] {
    let field = rng.within(200, 1900);
    let c = rng.in_field(field);
    let half = field as u64 - 53;
    let sign = rng.bits();
    let (a, b) = match rng.below(5) {
        0 => (1.0, float(sign, half, 0)),
        1 => (1.0, float(sign, half, 1)),
        2 => (1.0, float(sign, half - 1, FRACTION)),
        3 => (float(0, 1023, 1), float(sign, half, 1)),
        _ => (float(0, 1023, 1), float(sign, half - 1, FRACTION - 1)),
    };
    [a, b, c]
}

/// The product lies half way between two doubles, and the addend is far below it, or nothing.
fn product_ties(rng: &mut Rng) -> [f64; 3] {
    let (ea, eb) = (rng.within(723, 1323), rng.within(723, 1323));
    let [a, b] =
        [ea, eb].map(|field| float(rng.bits(), field as u64, rng.bits() >> 27 << 27 | 1 << 26));
    let c = match rng.below(3) {
        0 => float(rng.bits(), 0, rng.bits() & 1),
        1 => rng.subnormal(),
        _ => rng.in_field(ea + eb - 1023 - 110),
    };
    [a, b, c]
}

/// Where a product begins to have digits below the smallest subnormal.
fn room_edge(rng: &mut Rng) -> [f64; 3] {
    let (ea, eb, ec) = (
        rng.within(530, 546),
        rng.within(530, 546),
        rng.within(1, 160),
    );
    match rng.below(3) {
        0 => cancelled(rng, ea, eb),
        1 => [rng.in_field(ea), rng.in_field(eb), rng.subnormal()],
        _ => [ea, eb, ec].map(|field| rng.in_field(field)),
    }
}

/// Products and sums that are doubles, ties, and what is left when they cancel.
fn few_digits(rng: &mut Rng) -> [f64; 3] {
    let fields = [
        rng.within(1013, 1033),
        rng.within(1013, 1033),
        rng.within(973, 1043),
    ];
    let [a, b, c] = fields.map(|field| {
        let cut = rng.below(53);
        float(rng.bits(), field as u64, rng.fraction() >> cut << cut)
    });
    match rng.below(3) {
        0 => [a, b, -(a * b)],
        _ => [a, b, c],
    }
}

/// Numbers of every kind, each with both signs, and a NaN.
fn special() -> Vec<f64> {
    let plain = [
        0.0,
        1.0,
        1.0 + f64::EPSILON,
        1.0 - f64::EPSILON / 2.0,
        1.5,
        0.5,
        f64::INFINITY,
        f64::MAX,
        f64::MIN_POSITIVE,
        float(0, 0, 1),
        float(0, 0, FRACTION),
        float(0, 1, 1),
        // 2^1023, 2^970 (half a unit in the last place of the largest number) and its neighbours
        float(0, 2046, 0),
        float(0, 1993, 0),
        float(0, 1993, 1),
        float(0, 1992, FRACTION),
        // 2^-537 and the number below it, whose squares are the smallest subnormal and almost that; 2^-538
        float(0, 486, 0),
        float(0, 485, FRACTION),
        float(0, 485, 0),
    ];
    let mut all = vec![f64::NAN];
    all.extend(plain);
    all.extend(plain.map(|x| -x));
    all
}

fn special_grid(report: &mut Report, ours: Fused, theirs: Fused) {
    let mut class = report.class("special grid");
    let special = special();
    for &a in &special {
        for &b in &special {
            for &c in &special {
                class.judge(&[a, b, c], ours(a, b, c), theirs(a, b, c));
            }
        }
    }
    report.add(class);
}

/// Steps through the exponents of all three operands.
fn exponent_grid(report: &mut Report, ours: Fused, theirs: Fused) {
    let mut class = report.class("exponent grid");
    let mut rng = Rng::new(2);
    for ea in (0..2047).step_by(23) {
        for eb in (0..2047).step_by(29) {
            for ec in (0..2047).step_by(31) {
                let [a, b, c] = [ea, eb, ec].map(|field| rng.in_field(field));
                class.judge(&[a, b, c], ours(a, b, c), theirs(a, b, c));
            }
        }
    }
    report.add(class);
}

fn ceilings(report: &mut Report, scale: u64) {
    let million = 1_000_000 * scale;
    let mut rng = Rng::new(3);
    let mut class = |name, count, next: fn(&mut Rng) -> f64| {
        let mut class = report.class(name);
        for _ in 0..count {
            let x = next(&mut rng);
            class.judge(&[x], host::ceil(x), x.ceil());
        }
        report.add(class);
    };
    class("random bits", 3 * million, |rng| f64::from_bits(rng.bits()));
    class("exponents from 2^-8 to 2^57", 4 * million, |rng| {
        let field = rng.within(1015, 1080);
        rng.in_field(field)
    });
    class("near whole numbers", 4 * million, near_whole_number);
    special_ceilings(report);
}

/// A whole number up to 2^53 or a half, or up to two units in the last place beside it.
fn near_whole_number(rng: &mut Rng) -> f64 {
    let whole = (rng.bits() >> 11 >> rng.below(53)) as f64;
    let x = match rng.below(4) {
        0 => whole + 0.5,
        _ => whole,
    };
    let signed = match rng.below(2) {
        0 => x,
        _ => -x,
    };
    beside(signed, rng.within(-2, 2))
}

/// The special numbers, and powers of two up to 2^53 with the whole numbers and halves beside them; all with their neighbours.
fn special_ceilings(report: &mut Report) {
    let mut class = report.class("special");
    let powers = (0..=53).flat_map(|e| {
        let p = (1u64 << e) as f64;
        [p, p + 1.0, p - 1.0, p + 0.5, p - 0.5]
    });
    for x in special().into_iter().chain(powers) {
        for x in [-2, -1, 0, 1, 2].map(|units| beside(x, units)) {
            class.judge(&[x], host::ceil(x), x.ceil());
            class.judge(&[-x], host::ceil(-x), (-x).ceil());
        }
    }
    report.add(class);
}
