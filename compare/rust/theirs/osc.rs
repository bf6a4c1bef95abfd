//! `OscState` (src/executor.rs). Commands are run by an executor of their own. An answer is none where the Rust panics, as a NaN would
//! come out; infinities it keeps.
use crate::refusal::caught;
use crate::tables::{Command, Item, Tables};
use crate::{frequency, phase, time};
use bosing::executor::OscState;

#[derive(Debug, Clone, Copy, PartialEq)]
pub struct Osc {
    pub base: f64,
    pub delta: f64,
    pub phase: f64,
}

impl Osc {
    pub(crate) fn state(self) -> OscState {
        OscState {
            base_freq: frequency(self.base),
            delta_freq: frequency(self.delta),
            phase: phase(self.phase),
        }
    }
}

impl From<OscState> for Osc {
    fn from(state: OscState) -> Self {
        Self {
            base: state.base_freq.value(),
            delta: state.delta_freq.value(),
            phase: state.phase.value(),
        }
    }
}

pub fn shift_phase(osc: Osc, phase: f64, at: f64) -> Option<Osc> {
    one(osc, Command::ShiftPhase("a", phase), at)
}

pub fn set_phase(osc: Osc, phase: f64, at: f64) -> Option<Osc> {
    one(osc, Command::SetPhase("a", phase), at)
}

pub fn shift_freq(osc: Osc, freq: f64, at: f64) -> Option<Osc> {
    one(osc, Command::ShiftFreq("a", freq), at)
}

pub fn set_freq(osc: Osc, freq: f64, at: f64) -> Option<Osc> {
    one(osc, Command::SetFreq("a", freq), at)
}

/// The first oscillator is the command's first channel.
pub fn swap_phase(both: [Osc; 2], at: f64) -> Option<[Osc; 2]> {
    let [a, b] = both;
    let states = run(&[("a", a), ("b", b)], Command::SwapPhase("a", "b"), at)?;
    Some([states[0], states[1]])
}

pub fn total_freq(osc: Osc) -> Option<f64> {
    caught(|| Ok(osc.state().total_freq().value())).ok()
}

pub fn phase_at(osc: Osc, at: f64) -> Option<f64> {
    caught(|| Ok(osc.state().phase_at(time(at)).value())).ok()
}

pub fn with_time_shift(osc: Osc, at: f64) -> Option<Osc> {
    caught(|| Ok(osc.state().with_time_shift(time(at)).into())).ok()
}

fn one(osc: Osc, command: Command, at: f64) -> Option<Osc> {
    run(&[("a", osc)], command, at).map(|states| states[0])
}

fn run(oscs: &[(&str, Osc)], command: Command, at: f64) -> Option<Vec<Osc>> {
    let mut tables = Tables::new(0.0, 0.0, false).ok()?;
    for &(name, osc) in oscs {
        tables.add_channel(name, osc).ok()?;
    }
    let item = Item::new(&command, at, 0.0).ok()?;
    match tables.execute(&[item]) {
        (_, None) => Some(tables.states().into_iter().map(|(_, osc)| osc).collect()),
        (_, Some(_)) => None,
    }
}
