use hashbrown::HashMap;
use thiserror::Error;

use crate::{
    pulse::{Envelope, List, ListBuilder, PushArgs},
    quant::{Amplitude, ChannelId, Frequency, Phase, ShapeId, Time},
    // test copy: cut with the missing arrangements: schedule::Arrange, util::IterVariant
    schedule::{
        Arranged, ElementRef, ElementVariant, Measure, Play, SetFreq, SetPhase,
        ShiftFreq, ShiftPhase, SwapPhase, TimeRange,
    },
    shape::Shape,
    util::pre_order_iter,
};

#[derive(Debug, Clone)]
pub struct Executor {
    channels: HashMap<ChannelId, Channel>,
    shapes: HashMap<ShapeId, Shape>,
    amp_tolerance: Amplitude,
    time_tolerance: Time,
    allow_oversize: bool,
}

#[derive(Error, Debug)]
pub enum Error {
    #[error("Channel not found: {0:?}")]
    ChannelNotFound(Vec<ChannelId>),
    #[error("Shape not found: {0:?}")]
    ShapeNotFound(ShapeId),
    #[error("Invalid plateau: {0:?}")]
    NegativePlateau(Time),
    #[error("Not enough duration: required {required:?}, available {available:?}")]
    NotEnoughDuration { required: Time, available: Time },
}

#[derive(Debug, Clone, Copy)]
pub struct OscState {
    pub base_freq: Frequency,
    pub delta_freq: Frequency,
    pub phase: Phase,
}

type Result<T> = std::result::Result<T, Error>;

#[derive(Debug, Clone)]
struct Channel {
    osc: OscState,
    pulses: ListBuilder,
}

struct AddPulseArgs {
    shape: Option<Shape>,
    time: Time,
    width: Time,
    plateau: Time,
    amplitude: Amplitude,
    drag_coef: f64,
    freq: Frequency,
    phase: Phase,
}

impl Executor {
    #[must_use]
    pub fn new(amp_tolerance: Amplitude, time_tolerance: Time, allow_oversize: bool) -> Self {
        Self {
            channels: HashMap::new(),
            shapes: HashMap::new(),
            amp_tolerance,
            time_tolerance,
            allow_oversize,
        }
    }

    pub fn add_channel(&mut self, name: ChannelId, osc: OscState) {
        self.channels.insert(
            name,
            Channel {
                osc,
                pulses: ListBuilder::new(self.amp_tolerance, self.time_tolerance),
            },
        );
    }

    pub fn add_shape(&mut self, name: ShapeId, shape: Shape) {
        self.shapes.insert(name, shape);
    }

    #[must_use]
    pub fn states(&self) -> HashMap<ChannelId, OscState> {
        self.channels
            .iter()
            .map(|(n, b)| (n.clone(), b.osc))
            .collect()
    }

    #[must_use]
    pub fn into_result(self) -> HashMap<ChannelId, List> {
        self.channels
            .into_iter()
            .map(|(n, b)| (n, b.pulses.build()))
            .collect()
    }

    pub fn execute(&mut self, root: &ElementRef) -> Result<()> {
        let time_range = TimeRange {
            start: Time::ZERO,
            span: root.measure(),
        };
        // test copy: the loop is a function of its own, to which commands can be given with their inner start and span
        self.execute_arranged(arrange_tree(root, time_range).map(
            |Arranged { item, time_range }| {
                let time_range = item.inner_time_range(time_range);
                Arranged { item, time_range }
            },
        ))
    }

    // test copy: new, the loop of `execute`
    pub fn execute_arranged<'a>(
        &mut self,
        items: impl IntoIterator<Item = Arranged<&'a ElementRef>>,
    ) -> Result<()> {
        for Arranged { item, time_range } in items {
            if !self.allow_oversize {
                let required = item.variant.measure();
                check_duration(required, time_range.span, self.time_tolerance)?;
            }
            match &item.variant {
                ElementVariant::Play(variant) => self.execute_play(variant, time_range),
                ElementVariant::ShiftPhase(variant) => self.execute_shift_phase(variant),
                ElementVariant::SetPhase(variant) => {
                    self.execute_set_phase(variant, time_range.start)
                }
                ElementVariant::ShiftFreq(variant) => {
                    self.execute_shift_freq(variant, time_range.start)
                }
                ElementVariant::SetFreq(variant) => {
                    self.execute_set_freq(variant, time_range.start)
                }
                ElementVariant::SwapPhase(variant) => {
                    self.execute_swap_phase(variant, time_range.start)
                }
                _ => Ok(()),
            }?;
        }
        Ok(())
    }

    fn execute_play(&mut self, variant: &Play, time_range: TimeRange) -> Result<()> {
        let shape = match variant.shape_id() {
            Some(id) => Some(
                self.shapes
                    .get(id)
                    .ok_or_else(|| Error::ShapeNotFound(id.clone()))?
                    .clone(),
            ),
            None => None,
        };
        let width = variant.width();
        let plateau = if variant.flexible() {
            time_range.span - width
        } else {
            variant.plateau()
        };
        if plateau < Time::ZERO {
            return Err(Error::NegativePlateau(plateau));
        }
        let amplitude = variant.amplitude();
        let drag_coef = variant.drag_coef();
        let freq = variant.frequency();
        let phase = variant.phase();
        let channel = self.get_mut_channel(variant.channel_id())?;
        channel.add_pulse(AddPulseArgs {
            shape,
            time: time_range.start,
            width,
            plateau,
            amplitude,
            drag_coef,
            freq,
            phase,
        });
        Ok(())
    }

    fn execute_shift_phase(&mut self, variant: &ShiftPhase) -> Result<()> {
        let delta_phase = variant.phase();
        let channel = self.get_mut_channel(variant.channel_id())?;
        channel.osc.shift_phase(delta_phase);
        Ok(())
    }

    fn execute_set_phase(&mut self, variant: &SetPhase, time: Time) -> Result<()> {
        let phase = variant.phase();
        let channel = self.get_mut_channel(variant.channel_id())?;
        channel.osc.set_phase(phase, time);
        Ok(())
    }

    fn execute_shift_freq(&mut self, variant: &ShiftFreq, time: Time) -> Result<()> {
        let delta_freq = variant.frequency();
        let channel = self.get_mut_channel(variant.channel_id())?;
        channel.osc.shift_freq(delta_freq, time);
        Ok(())
    }

    fn execute_set_freq(&mut self, variant: &SetFreq, time: Time) -> Result<()> {
        let freq = variant.frequency();
        let channel = self.get_mut_channel(variant.channel_id())?;
        channel.osc.set_freq(freq, time);
        Ok(())
    }

    fn execute_swap_phase(&mut self, variant: &SwapPhase, time: Time) -> Result<()> {
        let ch1 = variant.channel_id1();
        let ch2 = variant.channel_id2();
        if ch1 == ch2 {
            return Ok(());
        }
        let [Some(channel), Some(other)] = self.channels.get_disjoint_mut([ch1, ch2]) else {
            return Err(Error::ChannelNotFound(vec![ch1.clone(), ch2.clone()]));
        };
        channel.osc.swap_phase(&mut other.osc, time);
        Ok(())
    }

    fn get_mut_channel(&mut self, id: &ChannelId) -> Result<&mut Channel> {
        self.channels
            .get_mut(id)
            .ok_or_else(|| Error::ChannelNotFound(vec![id.clone()]))
    }
}

impl OscState {
    #[must_use]
    pub const fn new(base_freq: Frequency) -> Self {
        Self {
            base_freq,
            delta_freq: Frequency::ZERO,
            phase: Phase::ZERO,
        }
    }

    #[must_use]
    pub fn total_freq(&self) -> Frequency {
        self.base_freq + self.delta_freq
    }

    #[must_use]
    pub fn phase_at(&self, time: Time) -> Phase {
        self.phase + self.total_freq() * time
    }

    #[must_use]
    pub fn with_time_shift(&self, time: Time) -> Self {
        Self {
            base_freq: self.base_freq,
            delta_freq: self.delta_freq,
            phase: self.phase_at(time),
        }
    }

    fn shift_freq(&mut self, delta_freq: Frequency, time: Time) {
        let delta_phase = -delta_freq * time;
        self.delta_freq += delta_freq;
        self.phase += delta_phase;
    }

    fn set_freq(&mut self, freq: Frequency, time: Time) {
        let delta_freq = freq - self.delta_freq;
        let delta_phase = -delta_freq * time;
        self.delta_freq = freq;
        self.phase += delta_phase;
    }

    fn shift_phase(&mut self, delta_phase: Phase) {
        self.phase += delta_phase;
    }

    fn set_phase(&mut self, phase: Phase, time: Time) {
        self.phase = phase - self.delta_freq * time;
    }

    fn swap_phase(&mut self, other: &mut Self, time: Time) {
        let delta_freq = self.total_freq() - other.total_freq();
        let phase1 = self.phase;
        let phase2 = other.phase;
        self.phase = phase2 - delta_freq * time;
        other.phase = phase1 + delta_freq * time;
    }
}

impl Channel {
    fn add_pulse(
        &mut self,
        AddPulseArgs {
            shape,
            time,
            width,
            plateau,
            amplitude,
            drag_coef,
            freq,
            phase,
        }: AddPulseArgs,
    ) {
        let envelope = Envelope::new(shape, width, plateau);
        let global_freq = self.osc.total_freq();
        let local_freq = freq;
        self.pulses.push(PushArgs {
            envelope,
            global_freq,
            local_freq,
            time,
            amplitude,
            drag_coef,
            phase,
        });
    }
}

fn check_duration(required: Time, available: Time, time_tolerance: Time) -> Result<()> {
    if required > available + time_tolerance {
        return Err(Error::NotEnoughDuration {
            required,
            available,
        });
    }
    Ok(())
}

fn arrange_tree(
    root: &ElementRef,
    time_range: TimeRange,
) -> impl Iterator<Item = Arranged<&ElementRef>> {
    pre_order_iter(
        Arranged {
            item: root,
            time_range,
        },
        arrange_children,
    )
    .filter(|Arranged { item, .. }| !item.common.phantom())
}

fn arrange_children(
    Arranged { item, time_range }: Arranged<&ElementRef>,
) -> Option<impl Iterator<Item = Arranged<&ElementRef>>> {
    if item.common.phantom() {
        return None;
    }
    // test copy: cut with the missing arrangements, so that no command has children: Repeat, Stack, Absolute, Grid
    let _ = time_range;
    None::<std::iter::Empty<_>>
}
