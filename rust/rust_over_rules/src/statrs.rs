//! What the source folder takes from the registry crate statrs, with document 01's constant, cdf and inverse. The cdf is
//! over the erfc that `rust_source` names, that of the same rule set.

pub mod consts {
    pub const SQRT_2PI: f64 = 2.5066282746310002;
}

pub mod distribution {
    use std::f64::consts::FRAC_1_SQRT_2;

    pub struct Normal<Erfc>(Erfc);

    impl<Erfc: Fn(f64) -> f64> Normal<Erfc> {
        pub fn over(erfc: Erfc) -> Self {
            Normal(erfc)
        }
    }

    pub trait ContinuousCDF {
        fn cdf(&self, y: f64) -> f64;
        fn inverse_cdf(&self, p: f64) -> f64;
    }

    impl<Erfc: Fn(f64) -> f64> ContinuousCDF for Normal<Erfc> {
        fn cdf(&self, y: f64) -> f64 {
            0.5 * (self.0)(-y * FRAC_1_SQRT_2)
        }

        fn inverse_cdf(&self, p: f64) -> f64 {
            if p.is_nan() {
                return f64::NAN;
            }
            if p <= 0.0 {
                return f64::NEG_INFINITY;
            }
            if p >= 1.0 {
                return f64::INFINITY;
            }
            let (mut lo, mut hi) = (-39.0, 39.0);
            for _ in 0..64 {
                let mid = 0.5 * (lo + hi);
                if self.cdf(mid) < p {
                    lo = mid;
                } else {
                    hi = mid;
                }
            }
            hi
        }
    }

    pub trait Continuous {
        fn pdf(&self, y: f64) -> f64;
    }

    impl<Erfc> Continuous for Normal<Erfc> {
        fn pdf(&self, _: f64) -> f64 {
            unimplemented!("document 01 leaves standard_normal_pdf out")
        }
    }
}
