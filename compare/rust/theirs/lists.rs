//! Summed lists and their sampling (src/pulse.rs). An envelope's room is made before its length is judged: keep (width + plateau) * rate
//! below some 2^26, as a process that asks for too much room is ended, which cannot be caught.
use crate::refusal::{caught, Refusal};
use crate::rows::rows_of;
use crate::tables::channel;
use crate::{frequency, time};
use bosing::pulse::{get_envelope, List, ListBin, PulseAmplitude, Sampler};
use bosing::quant::{AlignedIndex, ChannelId, Time};
use bosing::shape::Shape;
use hashbrown::HashMap;
use ndarray::ArrayView2;

pub struct Lists {
    lists: HashMap<ChannelId, List>,
    time_tolerance: f64,
}

#[derive(Debug, Clone, PartialEq)]
pub struct Bin {
    /// Shaped by Hann; else there is only a plateau.
    pub hann: bool,
    pub width: f64,
    pub plateau: f64,
    pub global: f64,
    pub local: f64,
    pub pulses: Vec<Pulse>,
}

#[derive(Debug, Clone, Copy, PartialEq)]
pub struct Pulse {
    pub time: f64,
    pub amp: [f64; 2],
    pub drag: [f64; 2],
}

/// The channel that is sampled.
#[derive(Debug, Clone, Copy)]
pub struct Channel<'a> {
    pub name: &'a str,
    pub rate: f64,
    pub delay: f64,
    pub level: i32,
}

/// Names, and their factors row by row.
#[derive(Debug, Clone, Copy)]
pub struct Crosstalk<'a> {
    pub names: &'a [&'a str],
    pub factors: &'a [f64],
}

impl Lists {
    pub(crate) fn new(lists: HashMap<ChannelId, List>, time_tolerance: f64) -> Self {
        Self {
            lists,
            time_tolerance,
        }
    }

    /// A channel's bins in order of first push, each with its summed pulses by time.
    pub fn bins(&self, name: &str) -> Option<Vec<Bin>> {
        let list = self.lists.get(&channel(name))?;
        Some(list.iter().map(bin_of).collect())
    }

    /// Samples one channel onto rows that stand one after the other. Pulses before one that is refused remain.
    pub fn sample(
        &self,
        of: &Channel,
        crosstalk: Option<&Crosstalk>,
        samples: &mut [f64],
        rows: usize,
    ) -> Result<(), Refusal> {
        let sampled = caught(|| {
            let mut sampler = Sampler::new(self.lists.clone());
            let rows = rows_of(samples, rows);
            let (rate, delay) = (frequency(of.rate), time(of.delay));
            sampler.add_channel(channel(of.name), rows, rate, delay, of.level);
            if let Some(Crosstalk { names, factors }) = crosstalk {
                let shape = (names.len(), names.len());
                let matrix = ArrayView2::from_shape(shape, factors).expect("N*N factors");
                let names = names.iter().map(|name| channel(name)).collect();
                sampler.set_crosstalk(matrix, names);
            }
            Ok(sampler.sample(time(self.time_tolerance))?)
        });
        sampled.map_err(|refusal| missing_list(refusal, of, crosstalk))
    }
}

impl Lists {
    /// Nanoseconds for so many samplings onto the same two rows, which were just read; what each takes is made ready before it.
    pub fn time(
        &self,
        of: &Channel,
        crosstalk: Option<&Crosstalk>,
        samples: &mut [f64],
        times: usize,
    ) -> f64 {
        let mut spent = 0;
        for _ in 0..times {
            std::hint::black_box(samples.iter().sum::<f64>());
            let mut sampler = Sampler::new(self.lists.clone());
            let (rate, delay) = (frequency(of.rate), time(of.delay));
            sampler.add_channel(channel(of.name), rows_of(samples, 2), rate, delay, of.level);
            if let Some(Crosstalk { names, factors }) = crosstalk {
                let shape = (names.len(), names.len());
                let matrix = ArrayView2::from_shape(shape, factors).expect("N*N factors");
                let names = names.iter().map(|name| channel(name)).collect();
                sampler.set_crosstalk(matrix, names);
            }
            let start = std::time::Instant::now();
            assert!(sampler.sample(time(self.time_tolerance)).is_ok(), "sampled");
            spent += start.elapsed().as_nanos();
        }
        spent as f64
    }

    /// Also how many pulses were mixed, refused or not.
    pub fn sample_counted(
        &self,
        of: &Channel,
        crosstalk: Option<&Crosstalk>,
        samples: &mut [f64],
        rows: usize,
    ) -> (usize, Result<(), Refusal>) {
        let before = trig::sines();
        let sampled = self.sample(of, crosstalk, samples, rows);
        ((trig::sines() - before) / 2, sampled)
    }
}

/// A channel that has no list panics in the map: 18 where it was looked up for its crosstalk, 7 else.
fn missing_list(refusal: Refusal, of: &Channel, crosstalk: Option<&Crosstalk>) -> Refusal {
    if !refusal.text.starts_with("no entry found") {
        return refusal;
    }
    let named = crosstalk.is_some_and(|crosstalk| crosstalk.names.contains(&of.name));
    Refusal {
        number: Some(if named { 18 } else { 7 }),
        ..refusal
    }
}

fn bin_of((bin, pulses): (&ListBin, &[(Time, PulseAmplitude)])) -> Bin {
    Bin {
        hann: bin.envelope().shape().is_some(),
        width: bin.envelope().width().value(),
        plateau: bin.envelope().plateau().value(),
        global: bin.global_freq().value(),
        local: bin.local_freq().value(),
        pulses: pulses.iter().map(pulse_of).collect(),
    }
}

fn pulse_of((time, amplitude): &(Time, PulseAmplitude)) -> Pulse {
    Pulse {
        time: time.value(),
        amp: [amplitude.amp_re(), amplitude.amp_im()],
        drag: [amplitude.drag_re(), amplitude.drag_im()],
    }
}

/// The points of a Hann pulse; the offset is from 0 up to 1.
pub fn hann(width: f64, plateau: f64, offset: f64, rate: f64) -> Result<Vec<f64>, Refusal> {
    caught(|| {
        // At this level every offset from 2^-960 on is its own aligned index.
        let offset = AlignedIndex::new(time(offset), frequency(1.0), -1020).expect("an offset");
        let points = get_envelope(
            Shape::new_hann(),
            time(width),
            time(plateau),
            offset,
            frequency(rate),
        );
        Ok(points.to_vec())
    })
}

/// A spline's value at each point, as `Interp` takes it, over P1's recurrence written plainly.
pub fn spline(degree: usize, controls: &[f64], knots: &[f64]) -> impl Fn(&mut [f64]) {
    let spline = bspline::BSpline::new(degree, controls.to_vec(), knots.to_vec());
    move |points| {
        for x in points {
            let (min, max) = spline.knot_domain();
            *x = if *x < min || *x > max {
                0.0
            } else {
                spline.point(*x)
            };
        }
    }
}
