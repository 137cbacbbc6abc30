//! Decode: what it turns down, and the run over the iterations.

use super::graph::{Graph, check_graph, odd_checks};
use super::limits::Limits;
use super::quantiser::{Level, Scaling, largest_magnitude, quantise};
use super::rules::{Lifting, Offsets};
use super::state::State;
use super::{Refusal, refuse};
use crate::interface::{LARGEST_LIFT, LentLengths, NEVER, Settings, Verdict};

/// What an accepted decode reports and leaves in the lent memory.
#[derive(Clone, Debug, PartialEq, Eq)]
pub struct Outcome {
    pub verdict: Verdict,
    pub iterations: usize,
    pub unsatisfied: usize,
    pub levels: Vec<Level>,
    pub variable_messages: Vec<Level>,
    pub check_messages: Vec<Level>,
    pub sums: Vec<i32>,
    pub bits: Vec<u8>,
}

impl Outcome {
    pub fn new(verdict: Verdict, unsatisfied: usize, state: State) -> Outcome {
        Outcome {
            verdict,
            iterations: state.iteration,
            unsatisfied,
            levels: state.levels,
            variable_messages: state.variable_messages,
            check_messages: state.check_messages,
            sums: state.sums,
            bits: state.bits,
        }
    }
}

/// Settings that nothing is wrong with.
#[derive(Clone, Copy, Debug)]
pub struct Checked {
    pub factor: f32,
    pub rules: Rules,
}

/// Those of them that the iterations go by: all but the scaling.
#[derive(Clone, Copy, Debug)]
pub struct Rules {
    pub nch: u8,
    pub nq: u8,
    pub offsets: Offsets,
    pub limit: usize,
    pub lifting: Lifting,
}

pub fn decode(
    limits: Limits,
    graph: &Graph,
    values: &[f32],
    settings: &Settings,
    degrees: &mut [u32],
    lent: &LentLengths,
) -> Result<Outcome, Refusal> {
    let (levels, rules) = accept(limits, graph, values, settings, degrees, lent)?;
    Ok(run(graph, levels, &rules))
}

/// What decode turns down; the levels and the rules of the run where that is nothing.
pub fn accept(
    limits: Limits,
    graph: &Graph,
    values: &[f32],
    settings: &Settings,
    degrees: &mut [u32],
    lent: &LentLengths,
) -> Result<(Vec<Level>, Rules), Refusal> {
    check_graph(limits, graph, degrees)?;
    if values.len() != graph.n {
        return refuse(13, values.len());
    }
    let checked = check_settings(settings)?;
    if let Some(index) = values.iter().position(|value| !value.is_finite()) {
        return refuse(12, index);
    }
    let levels = channel_levels(values, &checked);
    if is_blank(&levels) {
        return refuse(20, 0);
    }
    if !lent.covers(&LentLengths::needed(graph.n, graph.entries())) {
        return refuse(6, 0);
    }
    Ok((levels, checked.rules))
}

/// The level of each channel value.
fn channel_levels(values: &[f32], settings: &Checked) -> Vec<Level> {
    values.iter().map(|&y| quantise(settings.factor, settings.rules.nch, y)).collect()
}

/// "A frame whose channel magnitudes are all 0 is now blank and isn't decoded", whatever the
/// signs. "It refuses a blank frame with 20, after 12 and before 6."
fn is_blank(levels: &[Level]) -> bool {
    levels.iter().all(|level| level.magnitude == 0)
}

/// 8, 9, 16, 10 and 11, in that order.
pub fn check_settings(settings: &Settings) -> Result<Checked, Refusal> {
    let rules = check_rules(settings)?;
    let factor = scaling(settings)?.factor();
    if factor.is_infinite() || factor == 0.0 {
        return refuse(11, 0);
    }
    Ok(Checked { factor, rules })
}

/// 8, 9 and 16, in that order. The scaling is not looked at.
pub fn check_rules(settings: &Settings) -> Result<Rules, Refusal> {
    let (channel, message) = (settings.channel, settings.message);
    let channel_admitted = channel == 3 || channel == 4;
    if !(channel_admitted && (message == channel || message == channel - 1)) {
        return refuse(8, 0);
    }
    let offsets = [settings.phi_s, settings.phi_a, settings.phi_0];
    if offsets.iter().any(|&offset| offset > 1) || settings.limit > 255 {
        return refuse(9, 0);
    }
    let nq = largest_magnitude(message);
    Ok(Rules {
        nch: largest_magnitude(channel),
        nq,
        offsets: Offsets {
            phi_s: settings.phi_s as u8,
            phi_a: settings.phi_a as u8,
            phi_0: settings.phi_0 as u8,
        },
        limit: settings.limit as usize,
        lifting: lifting(settings, nq)?,
    })
}

/// "L is 1 to 256, where 256 means never, and W is Nq + 1 to 15. [...] It refuses a W or L
/// outside these bounds with 16, directly after 9."
fn lifting(settings: &Settings, nq: u8) -> Result<Lifting, Refusal> {
    let (from, to) = (settings.lift_from, settings.lift_to);
    if !(1..=NEVER).contains(&from) || !(u32::from(nq) + 1..=LARGEST_LIFT).contains(&to) {
        return refuse(16, 0);
    }
    Ok(Lifting { from: (from != NEVER).then_some(from as usize), to: to as u8 })
}

/// "Kind 0 is a plain gain (variance unread), 1 a gain with variance; another kind gets
/// 10", as does a "gain or variance not finite and above zero".
fn scaling(settings: &Settings) -> Result<Scaling, Refusal> {
    let good = |number: f32| number.is_finite() && number > 0.0;
    let (gain, variance) = (settings.gain, settings.variance);
    match settings.kind {
        0 if good(gain) => Ok(Scaling::Plain(gain)),
        1 if good(gain) && good(variance) => Ok(Scaling::Noise(gain, variance)),
        _ => refuse(10, 0),
    }
}

/// "The run stops after the bits of the first iteration, 0 included, that are a codeword,
/// [...] otherwise at the limit."
pub fn run(graph: &Graph, levels: Vec<Level>, rules: &Rules) -> Outcome {
    let entries_of_variables = graph.entries_of_variables();
    let mut state = State::first(graph, levels, rules.nq);
    loop {
        let unsatisfied = odd_checks(graph, &state.bits);
        let codeword = unsatisfied == 0;
        if codeword || state.iteration == rules.limit {
            let verdict = match codeword {
                true => Verdict::Codeword,
                false => Verdict::Stopped,
            };
            return Outcome::new(verdict, unsatisfied, state);
        }
        // The last step of this iteration; iteration 0 has sent its messages already.
        if state.iteration > 0 {
            state.send_from_variables(&entries_of_variables, rules);
        }
        state.iterate(graph, &entries_of_variables, rules);
    }
}
