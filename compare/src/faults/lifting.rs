//! What faults do to lifting: how a message counts, and which settings are turned down.

use super::{Fault, Faulty};
use crate::interface::{LARGEST_LIFT, NEVER, Settings};
use crate::paper::quantiser::largest_magnitude;
use crate::paper::rules::{self, Lifting};
use crate::paper::run::{Rules, check_settings};
use crate::paper::{Level, Outcome};

/// The two sums of a variable in which messages count.
#[derive(Clone, Copy, PartialEq, Eq)]
pub enum Sum {
    Posterior,
    Outgoing,
}

impl Faulty {
    /// The check messages at these entries as they count in a sum of the outcome's iteration.
    pub fn counted(
        &self,
        entries: &[usize],
        sum: Sum,
        rules: &Rules,
        outcome: &Outcome,
    ) -> Vec<Level> {
        let messages = entries.iter().map(|&entry| outcome.check_messages[entry]);
        let as_it_is = match sum {
            Sum::Posterior => self.has(Fault::LiftedInOutgoingOnly),
            Sum::Outgoing => self.has(Fault::LiftedInPosteriorOnly),
        };
        match as_it_is {
            true => messages.collect(),
            false => messages.map(|m| self.lifted(m, rules, outcome.iterations)).collect(),
        }
    }

    fn lifted(&self, message: Level, rules: &Rules, iteration: usize) -> Level {
        let lifting = match rules.lifting.from {
            Some(from) if self.has(Fault::LiftedFromTheNextOn) => {
                Lifting { from: Some(from + 1), ..rules.lifting }
            }
            None if self.has(Fault::NeverWrappedToZero) => {
                Lifting { from: Some(0), ..rules.lifting }
            }
            _ => rules.lifting,
        };
        if self.has(Fault::PlusAloneLifted) && message.minus {
            return message;
        }
        let lifted_from = match self.has(Fault::EveryMagnitudeLifted) {
            true => message.magnitude,
            false => rules.nq,
        };
        rules::counted(message, iteration, lifted_from, lifting)
    }

    /// A channel level as it counts, which is as it is.
    pub fn counted_level(&self, level: Level, rules: &Rules, iteration: usize) -> Level {
        match self.has(Fault::LevelsLifted) {
            true => rules::counted(level, iteration, rules.nq, rules.lifting),
            false => level,
        }
    }

    pub fn first_message(&self, level: Level, rules: &Rules) -> Level {
        let message = rules::first_message(level, rules.nq);
        match self.has(Fault::FirstMessagesLifted) {
            true => rules::counted(message, 1, rules.nq, rules.lifting),
            false => message,
        }
    }

    /// Where the fault is that the message list has what counts in place of what was sent.
    pub fn store_as_counted(&self, rules: &Rules, outcome: &mut Outcome) {
        if self.has(Fault::LiftedAsStored) {
            for message in &mut outcome.check_messages {
                *message = self.lifted(*message, rules, outcome.iterations);
            }
        }
    }

    /// Gives settings that a fault admits another L or W with which the run is the same.
    pub fn admit_lifting(&self, settings: &mut Settings) {
        let never = (NEVER, LARGEST_LIFT);
        let is_nq = |w: u32| {
            (2..=4).contains(&settings.message)
                && w == u32::from(largest_magnitude(settings.message))
        };
        let (from, to) = (settings.lift_from, settings.lift_to);
        (settings.lift_from, settings.lift_to) = match self.0 {
            Fault::WOfNqAdmitted if is_nq(to) => never,
            Fault::W16Admitted if to == LARGEST_LIFT + 1 => (from, LARGEST_LIFT),
            Fault::WUnreadWhereNever if from == NEVER => never,
            Fault::L0Admitted if from == 0 => (1, to),
            Fault::L257Admitted if from == NEVER + 1 => (NEVER, to),
            _ => (from, to),
        };
    }

    /// The number given in place of a 9 or 16.
    pub fn near_16(&self, settings: &Settings, number: u8) -> u8 {
        let number_of = |settings: Settings| check_settings(&settings).err().map(|r| r.number);
        let without_9 = Settings { phi_s: 0, phi_a: 0, phi_0: 0, limit: 0, ..*settings };
        let without_16 = Settings { lift_from: NEVER, lift_to: LARGEST_LIFT, ..*settings };
        match self.0 {
            Fault::SixteenBeforeNine if number_of(without_9) == Some(16) => 16,
            Fault::SixteenAfterTen if number == 16 && number_of(without_16) == Some(10) => 10,
            _ => number,
        }
    }
}
