//! Lists of deliveries that calls return: those that have ended, are to be sent again, or were forgotten.
use crate::calls;
use crate::held::{bytes, HasHeld, Held};
use crate::numbers::{ResumingDelivery, Stage};
use crate::refused::Refused;
use crate::state::{read_outcome, Outcome};
use crate::sys;

// What each list has, by its call for the length.
macro_rules! list {
    ($name:ident, $entry:ty, $len:path) => {
        impl HasHeld for $name {
            fn held(&self) -> &Held {
                &self.0
            }
        }

        impl $name {
            /// How many there are.
            pub fn len(&self) -> usize {
                $len(&self.0)
            }

            /// Whether there are none.
            pub fn is_empty(&self) -> bool {
                self.len() == 0
            }

            /// The deliveries, in their order.
            pub fn iter(&self) -> impl Iterator<Item = Result<$entry, Refused>> + '_ {
                (0..self.len()).map(|number| self.at(number))
            }
        }
    };
}

/// Deliveries that have ended, each by its tag, with its outcome.
#[derive(Debug)]
#[must_use = "each delivery has one outcome, which is returned once; `Sender::fate` has that of a registration as well"]
#[doc(alias = "amqp_outcomes_count")]
pub struct Outcomes(pub(crate) Held);

list!(Outcomes, (Vec<u8>, Outcome), calls::amqp_outcomes_count);

impl Outcomes {
    /// The delivery with this number, from 0: its tag and its outcome. `NoSuchEntry` past the last.
    #[doc(alias = "amqp_outcomes_at")]
    #[doc(alias = "amqp_outcomes_error")]
    pub fn at(&self, number: usize) -> Result<(Vec<u8>, Outcome), Refused> {
        let mut outcome = sys::Outcome::default();
        let tag = bytes(32, |tag, size| {
            calls::amqp_outcomes_at(&self.0, number, &mut outcome, tag, size)
        })?;
        Ok((
            tag,
            read_outcome(&outcome, calls::amqp_outcomes_error, &self.0, number)?,
        ))
    }
}

/// Deliveries to send again after an attach. They are here alone: resume or put back each before this is dropped, and before the
/// next attach.
#[derive(Debug)]
#[must_use = "the deliveries are here alone: resume or put back each of them"]
#[doc(alias = "amqp_resuming_count")]
pub struct Resuming(pub(crate) Held);

list!(Resuming, (Vec<u8>, ResumingDelivery), calls::amqp_resuming_count);

impl Resuming {
    /// The delivery with this number, from 0: its tag, and what it asks for. `NoSuchEntry` past the last.
    #[doc(alias = "amqp_resuming_at")]
    pub fn at(&self, number: usize) -> Result<(Vec<u8>, ResumingDelivery), Refused> {
        let mut kind = 0;
        let tag = bytes(32, |tag, size| {
            calls::amqp_resuming_at(&self.0, number, &mut kind, tag, size)
        })?;
        Ok((tag, ResumingDelivery::of(kind)?))
    }
}

/// Deliveries that the sender does not know any more: of those nothing is kept.
#[derive(Debug)]
#[must_use = "no outcome of a forgotten delivery can be sent any more"]
#[doc(alias = "amqp_forgotten_count")]
pub struct Forgotten(pub(crate) Held);

list!(Forgotten, (Vec<u8>, Stage), calls::amqp_forgotten_count);

impl Forgotten {
    /// The delivery with this number, from 0: its tag, and how far it had come. `NoSuchEntry` past the last.
    #[doc(alias = "amqp_forgotten_at")]
    pub fn at(&self, number: usize) -> Result<(Vec<u8>, Stage), Refused> {
        let mut stage = 0;
        let tag = bytes(32, |tag, size| {
            calls::amqp_forgotten_at(&self.0, number, &mut stage, tag, size)
        })?;
        Ok((tag, Stage::of(stage)?))
    }
}
