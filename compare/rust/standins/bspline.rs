//! Stands in for the crate `bspline`, which only the shape `Interp` takes and whose text is not here: request P1's recurrence, written plainly. So what
//! the crate itself does at the domain's ends and on repeated knots is not compared.

#[derive(Debug, Clone)]
pub struct BSpline<T, F> {
    degree: usize,
    controls: Vec<T>,
    knots: Vec<F>,
}

impl BSpline<f64, f64> {
    pub fn new(degree: usize, controls: Vec<f64>, knots: Vec<f64>) -> Self {
        Self {
            degree,
            controls,
            knots,
        }
    }

    pub fn knot_domain(&self) -> (f64, f64) {
        (self.knots[self.degree], self.knots[self.controls.len()])
    }

    /// Within the domain.
    pub fn point(&self, x: f64) -> f64 {
        let (p, n, t) = (self.degree, self.controls.len(), &self.knots);
        let mut k = n - 1;
        while k > p && t[k] > x {
            k -= 1;
        }
        let mut d = [0.0; 6];
        d[..=p].copy_from_slice(&self.controls[k - p..=k]);
        for r in 1..=p {
            for j in (r..=p).rev() {
                let (lo, hi) = (t[j + k - p], t[j + 1 + k - r]);
                let (from, wide) = (x - lo, hi - lo);
                let alpha = if from == 0.0 && wide == 0.0 {
                    0.0
                } else {
                    from / wide
                };
                d[j] = (1.0 - alpha) * d[j - 1] + alpha * d[j];
            }
        }
        d[p]
    }
}
