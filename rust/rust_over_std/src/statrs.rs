//! Stand-ins for the registry crate statrs, which isn't at hand; nothing here is its code. The cdf takes the source
//! folder's own erfc, that of the same rule set. The inverse is Wichura's algorithm AS 241 (PPND16, 1988): one ln, one sqrt
//! and a quotient of two polynomials of degree 7, the kind of work that a library's inverse does. It is for speed, and no
//! bits are compared.

// The digits stand as the algorithm was printed.
#![allow(clippy::excessive_precision)]

pub mod consts {
    pub const SQRT_2PI: f64 = 2.5066282746310002;
}

pub mod distribution {
    use std::f64::consts::FRAC_1_SQRT_2;

    pub struct Normal<Erfc>(Erfc);

    impl<Erfc: Fn(f64) -> f64> Normal<Erfc> {
        pub fn over(erfc: Erfc) -> Self {
            Normal(erfc)
        }
    }

    pub trait ContinuousCDF {
        fn cdf(&self, y: f64) -> f64;
        fn inverse_cdf(&self, p: f64) -> f64;
    }

    impl<Erfc: Fn(f64) -> f64> ContinuousCDF for Normal<Erfc> {
        fn cdf(&self, y: f64) -> f64 {
            0.5 * (self.0)(-y * FRAC_1_SQRT_2)
        }

        fn inverse_cdf(&self, p: f64) -> f64 {
            let q = p - 0.5;
            if q.abs() <= 0.425 {
                return q * quotient(&A, &B, 0.180625 - q * q);
            }
            let least = if q < 0.0 { p } else { 1.0 - p };
            if least <= 0.0 {
                return if q < 0.0 { f64::NEG_INFINITY } else { f64::INFINITY };
            }
            let r = (-least.ln()).sqrt();
            let y = if r <= 5.0 { quotient(&C, &D, r - 1.6) } else { quotient(&E, &F, r - 5.0) };
            if q < 0.0 {
                -y
            } else {
                y
            }
        }
    }

    pub trait Continuous {
        fn pdf(&self, y: f64) -> f64;
    }

    impl<Erfc> Continuous for Normal<Erfc> {
        fn pdf(&self, _: f64) -> f64 {
            unimplemented!("nothing that is measured calls it")
        }
    }

    fn quotient(above: &[f64; 8], below: &[f64; 8], r: f64) -> f64 {
        let horner = |of: &[f64; 8]| of.iter().rev().fold(0.0, |sum, c| sum * r + c);
        horner(above) / horner(below)
    }

    const A: [f64; 8] = [
        3.387132872796366608,
        133.14166789178437745,
        1971.5909503065514427,
        13731.693765509461125,
        45921.953931549871457,
        67265.770927008700853,
        33430.575583588128105,
        2509.0809287301226727,
    ];
    const B: [f64; 8] = [
        1.0,
        42.313330701600911252,
        687.1870074920579083,
        5394.1960214247511077,
        21213.794301586595867,
        39307.89580009271061,
        28729.085735721942674,
        5226.495278852854561,
    ];
    const C: [f64; 8] = [
        1.42343711074968357734,
        4.6303378461565452959,
        5.7694972214606914055,
        3.64784832476320460504,
        1.27045825245236838258,
        0.24178072517745061177,
        0.0227238449892691845833,
        7.7454501427834140764e-4,
    ];
    const D: [f64; 8] = [
        1.0,
        2.05319162663775882187,
        1.6763848301838038494,
        0.68976733498510000455,
        0.14810397642748007459,
        0.0151986665636164571966,
        5.475938084995344946e-4,
        1.05075007164441684324e-9,
    ];
    const E: [f64; 8] = [
        6.6579046435011037772,
        5.4637849111641143699,
        1.7848265399172913358,
        0.29656057182850489123,
        0.026532189526576123093,
        0.0012426609473880784386,
        2.71155556874348757815e-5,
        2.01033439929228813265e-7,
    ];
    const F: [f64; 8] = [
        1.0,
        0.59983220655588793769,
        0.13692988092273580531,
        0.0148753612908506148525,
        7.868691311456132591e-4,
        1.8463183175100546818e-5,
        1.4215117583164458887e-7,
        2.04426310338993978564e-15,
    ];
}
