//! `Executor` (src/executor.rs): channels, shapes, and commands that have their inner start and span.
use crate::lists::Lists;
use crate::osc::Osc;
use crate::refusal::{caught, Refusal};
use crate::{amplitude, frequency, phase, time};
use bosing::executor::Executor;
use bosing::quant::{ChannelId, ShapeId};
use bosing::schedule::{
    self, Arranged, Barrier, Element, ElementCommonBuilder, ElementRef, ElementVariant, SetFreq,
    SetPhase, ShiftFreq, ShiftPhase, SwapPhase, TimeRange,
};
use bosing::shape::Shape;

#[derive(Clone)]
pub struct Tables {
    executor: Executor,
    time_tolerance: f64,
}

/// Channels by name, and the number that the command carries.
#[derive(Debug, Clone, Copy)]
pub enum Command<'a> {
    Play(Play<'a>),
    ShiftPhase(&'a str, f64),
    SetPhase(&'a str, f64),
    ShiftFreq(&'a str, f64),
    SetFreq(&'a str, f64),
    SwapPhase(&'a str, &'a str),
    Barrier,
}

#[derive(Debug, Clone, Copy)]
pub struct Play<'a> {
    pub channel: &'a str,
    pub shape: Option<&'a str>,
    pub amplitude: f64,
    pub width: f64,
    /// Not read by a flexible play.
    pub plateau: f64,
    pub drag: f64,
    pub frequency: f64,
    pub phase: f64,
    pub flexible: bool,
}

/// A command of the Rust with its inner start and span.
pub struct Item {
    element: ElementRef,
    time_range: TimeRange,
}

impl Item {
    /// Refused where the Rust's constructors refuse: 2, or no number for a plateau below 0, on which document 01 goes on to 4 and 6.
    pub fn new(command: &Command, start: f64, span: f64) -> Result<Self, Refusal> {
        caught(|| {
            let common = ElementCommonBuilder::new().build()?;
            let time_range = TimeRange {
                start: time(start),
                span: time(span),
            };
            Ok(Self {
                element: ElementRef::new(Element::new(common, variant(command)?)),
                time_range,
            })
        })
    }

    fn arranged(&self) -> Arranged<&ElementRef> {
        Arranged {
            item: &self.element,
            time_range: self.time_range,
        }
    }
}

fn variant(command: &Command) -> Result<ElementVariant, Refusal> {
    Ok(match *command {
        Command::Play(play) => played(play)?.into(),
        Command::ShiftPhase(name, by) => ShiftPhase::new(channel(name), phase(by))?.into(),
        Command::SetPhase(name, to) => SetPhase::new(channel(name), phase(to))?.into(),
        Command::ShiftFreq(name, by) => ShiftFreq::new(channel(name), frequency(by))?.into(),
        Command::SetFreq(name, to) => SetFreq::new(channel(name), frequency(to))?.into(),
        Command::SwapPhase(a, b) => SwapPhase::new(channel(a), channel(b)).into(),
        Command::Barrier => Barrier::new(Vec::new()).into(),
    })
}

fn played(play: Play) -> Result<schedule::Play, Refusal> {
    let shape = play.shape.map(ShapeId::new);
    let made = schedule::Play::new(
        channel(play.channel),
        shape,
        amplitude(play.amplitude),
        time(play.width),
    )?
    .with_drag_coef(play.drag)?
    .with_frequency(frequency(play.frequency))?
    .with_phase(phase(play.phase))?
    .with_flexible(play.flexible);
    if play.flexible {
        return Ok(made);
    }
    made.with_plateau(time(play.plateau)).map_err(|error| {
        let refusal = Refusal::from(error);
        let number = refusal.number.filter(|_| !play.plateau.is_finite());
        Refusal { number, ..refusal }
    })
}

pub(crate) fn channel(name: &str) -> ChannelId {
    ChannelId::new(name)
}

impl Tables {
    pub fn new(
        amp_tolerance: f64,
        time_tolerance: f64,
        allow_oversize: bool,
    ) -> Result<Self, Refusal> {
        caught(|| {
            let executor = Executor::new(
                amplitude(amp_tolerance),
                time(time_tolerance),
                allow_oversize,
            );
            Ok(Self {
                executor,
                time_tolerance,
            })
        })
    }

    pub fn add_channel(&mut self, name: &str, osc: Osc) -> Result<(), Refusal> {
        caught(|| {
            self.executor.add_channel(channel(name), osc.state());
            Ok(())
        })
    }

    pub fn add_hann(&mut self, name: &str) {
        self.executor
            .add_shape(ShapeId::new(name), Shape::new_hann());
    }

    /// Numbers that are finite. `Interp` takes P1's recurrence from what stands in for the crate `bspline`.
    pub fn add_spline(&mut self, name: &str, degree: usize, controls: &[f64], knots: &[f64]) {
        let shape = Shape::new_interp(knots.to_vec(), controls.to_vec(), degree);
        self.executor
            .add_shape(ShapeId::new(name), shape.expect("no NaN"));
    }

    /// How many of the commands were run, and why no more.
    pub fn execute(&mut self, items: &[Item]) -> (usize, Option<Refusal>) {
        for (place, item) in items.iter().enumerate() {
            let step = || Ok(self.executor.execute_arranged([item.arranged()])?);
            if let Err(refusal) = caught(step) {
                return (place, Some(refusal));
            }
        }
        (items.len(), None)
    }

    /// All of them in one call, as the Rust is used: whether all were run. Where one panics, so does this.
    pub fn run(&mut self, items: &[Item]) -> bool {
        let arranged = items.iter().map(Item::arranged);
        self.executor.execute_arranged(arranged).is_ok()
    }

    /// Every channel's pulses, summed, in place of the tables.
    pub fn into_lists(self) -> Lists {
        Lists::new(self.executor.into_result(), self.time_tolerance)
    }

    /// The oscillators in order of adding.
    pub fn states(&self) -> Vec<(String, Osc)> {
        let states = self.executor.states().into_iter();
        states
            .map(|(name, state)| (name.to_string(), state.into()))
            .collect()
    }

    /// Every channel's pulses, summed. The tables stay as they are.
    pub fn lists(&self) -> Result<Lists, Refusal> {
        caught(|| {
            let lists = self.executor.clone().into_result();
            Ok(Lists::new(lists, self.time_tolerance))
        })
    }
}
