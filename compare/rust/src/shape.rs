use std::{hash::Hash, sync::Arc};

use anyhow::{Result, bail};
use bspline::BSpline;
use cached::macros::cached;
use ordered_float::NotNan;

/// A shape that can be used to modulate the amplitude of a signal.
///
/// The shape is defined in the range \[-0.5, 0.5\].
///
/// Internally, shape instances are cached such that we can compare and hash
/// by instance address.
#[derive(Debug, Clone)]
pub struct Shape(Arc<ShapeVariant>);

impl Shape {
    #[must_use]
    pub fn new_hann() -> Self {
        Self(get_shape_instance(ShapeKey::Hann))
    }

    pub fn new_interp(knots: Vec<f64>, controls: Vec<f64>, degree: usize) -> Result<Self> {
        let knots = knots
            .into_iter()
            .map(NotNan::new)
            .collect::<Result<_, _>>()?;
        let controls = controls
            .into_iter()
            .map(NotNan::new)
            .collect::<Result<_, _>>()?;
        let key = ShapeKey::Interp(knots, controls, degree);
        Ok(Self(get_shape_instance(key)))
    }

    pub(crate) fn sample_array(&self, x0: f64, dx: f64, array: &mut [f64]) {
        self.0.sample_array(x0, dx, array);
    }
}

impl Hash for Shape {
    fn hash<H: std::hash::Hasher>(&self, state: &mut H) {
        Arc::as_ptr(&self.0).hash(state);
    }
}

impl PartialEq for Shape {
    fn eq(&self, other: &Self) -> bool {
        Arc::ptr_eq(&self.0, &other.0)
    }
}

impl Eq for Shape {}

type HashableArray = Vec<NotNan<f64>>;

#[derive(Debug, Clone, Hash, Eq, PartialEq)]
enum ShapeKey {
    Hann,
    Interp(HashableArray, HashableArray, usize),
}

#[cached(max_size = 128)]
fn get_shape_instance(a: ShapeKey) -> Arc<ShapeVariant> {
    let variant = match a {
        ShapeKey::Hann => Hann.into(),
        ShapeKey::Interp(t, c, k) => {
            let t = t.into_iter().map(Into::into).collect();
            let c = c.into_iter().map(Into::into).collect();
            Interp::new(t, c, k).into()
        }
    };
    Arc::new(variant)
}

trait ShapeTrait {
    /// Sample the shape at a given position x in the range \[-0.5, 0.5\].
    fn sample(&self, x: f64) -> f64;
    fn sample_array(&self, x0: f64, dx: f64, array: &mut [f64]) {
        for (i, y) in array.iter_mut().enumerate() {
            #[expect(clippy::cast_precision_loss, reason = "Array length is small")]
            let i = i as f64;
            *y = self.sample(i.mul_add(dx, x0));
        }
    }
}

#[derive(Debug, Clone)]
struct Hann;

impl ShapeTrait for Hann {
    fn sample(&self, x: f64) -> f64 {
        // test copy: our cosine, was (2.0 * std::f64::consts::PI * x).cos()
        f64::midpoint(1.0, trig::cos(2.0 * std::f64::consts::PI * x))
    }
}

#[derive(Debug, Clone)]
struct Interp(BSpline<f64, f64>);

impl Interp {
    fn new(knots: Vec<f64>, controls: Vec<f64>, degree: usize) -> Self {
        Self(BSpline::new(degree, controls, knots))
    }
}

impl ShapeTrait for Interp {
    fn sample(&self, x: f64) -> f64 {
        let (min, max) = self.0.knot_domain();
        if x < min || x > max {
            return 0.0;
        }
        self.0.point(x)
    }
}

macro_rules! impl_variant {
    ($($variant:ident),*$(,)?) => {
#[derive(Debug, Clone)]
enum ShapeVariant {
    $($variant($variant),)*
}

$(
impl From<$variant> for ShapeVariant {
    fn from(v: $variant) -> Self {
        Self::$variant(v)
    }
}

impl TryFrom<ShapeVariant> for $variant {
    type Error = anyhow::Error;

    fn try_from(value: ShapeVariant) -> Result<Self, Self::Error> {
        match value {
            ShapeVariant::$variant(v) => Ok(v),
            _ => bail!("Expected {} variant", stringify!($variant)),
        }
    }
}

impl<'a> TryFrom<&'a ShapeVariant> for &'a $variant {
    type Error = anyhow::Error;

    fn try_from(value: &'a ShapeVariant) -> Result<Self, Self::Error> {
        match value {
            ShapeVariant::$variant(v) => Ok(v),
            _ => bail!("Expected {} variant", stringify!($variant)),
        }
    }
}
)*

impl ShapeTrait for ShapeVariant {
    fn sample(&self, x: f64) -> f64{
        match self {
            $(ShapeVariant::$variant(v) => v.sample(x),)*
        }
    }

    fn sample_array(&self, x0: f64, dx: f64, array: &mut [f64]) {
        match self {
            $(ShapeVariant::$variant(v) => v.sample_array(x0, dx, array),)*
        }
    }
}
    };
}

impl_variant!(Hann, Interp);

