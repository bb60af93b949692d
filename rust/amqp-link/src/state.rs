//! The states of deliveries, their errors and their outcomes.
use crate::held::{both, text, Held};
use crate::refused::Refused;
use crate::sys::{self, DeliveryStateFields, Sizes};

/// What an endpoint states of an error. Its info does not cross.
#[derive(Clone, Debug, PartialEq, Eq)]
pub struct Error {
    /// The condition, such as `amqp:invalid-field`.
    pub condition: String,
    /// A text for people.
    pub description: Option<String>,
}

// A call that copies out the texts of an error of an entry.
type ReadError = fn(&Held, usize, &mut [u8], &mut [u8], &mut Sizes) -> u32;

impl Error {
    /// An error of this condition, without a description.
    pub fn new(condition: &str) -> Error {
        Error {
            condition: condition.to_owned(),
            description: None,
        }
    }

    /// Both texts as calls take them: of no error two that are empty.
    pub(crate) fn texts(error: Option<&Error>) -> (&[u8], &[u8]) {
        let error = match error {
            Some(error) => error,
            None => return (&[], &[]),
        };
        let description = error.description.as_deref().unwrap_or("");
        (error.condition.as_bytes(), description.as_bytes())
    }

    pub(crate) fn has_description(error: Option<&Error>) -> bool {
        error.and_then(|error| error.description.as_ref()).is_some()
    }

    pub(crate) fn read(call: ReadError, held: &Held, number: usize, has_description: bool) -> Result<Error, Refused> {
        let read = |first: &mut [u8], second: &mut [u8], sizes: &mut Sizes| call(held, number, first, second, sizes);
        let (condition, description) = both(64, read)?;
        let description = if has_description {
            Some(text(description)?)
        } else {
            None
        };
        Ok(Error {
            condition: text(condition)?,
            description,
        })
    }
}

/// The state of a delivery. The annotations of a modified one do not cross.
#[derive(Clone, Debug, PartialEq, Eq)]
pub enum DeliveryState {
    /// The receiver accepted it.
    Accepted,
    /// The receiver found it invalid.
    Rejected {
        /// Why.
        error: Option<Error>,
    },
    /// The receiver returned it unchanged.
    Released,
    /// The receiver returned it changed.
    Modified {
        /// Whether it counts as failed.
        delivery_failed: Option<bool>,
        /// Whether it is not to be sent on this link again.
        undeliverable_here: Option<bool>,
    },
    /// A prefix of it arrived.
    Received {
        /// The section in which the prefix ends, counted from 0.
        section_number: u32,
        /// The bytes since the section's start.
        section_offset: u64,
    },
}

/// How a delivery has ended: with the peer's state, if it has stated one, or why without.
pub type Outcome = Result<Option<DeliveryState>, Refused>;

impl DeliveryState {
    /// A state as calls take it; the texts of its error go beside it.
    pub(crate) fn fields(state: Option<&DeliveryState>) -> DeliveryStateFields {
        let mut fields = DeliveryStateFields::default();
        let state = match state {
            Some(state) => state,
            None => {
                fields.kind = sys::NO_STATE;
                return fields;
            }
        };
        match *state {
            DeliveryState::Accepted => fields.kind = sys::ACCEPTED,
            DeliveryState::Released => fields.kind = sys::RELEASED,
            DeliveryState::Rejected { ref error } => {
                fields.kind = sys::REJECTED;
                fields.has_error = error.is_some();
                fields.has_description = Error::has_description(error.as_ref());
            }
            DeliveryState::Modified {
                delivery_failed,
                undeliverable_here,
            } => {
                fields.kind = sys::MODIFIED;
                fields.has_delivery_failed = delivery_failed.is_some();
                fields.delivery_failed = delivery_failed.unwrap_or(false);
                fields.has_undeliverable_here = undeliverable_here.is_some();
                fields.undeliverable_here = undeliverable_here.unwrap_or(false);
            }
            DeliveryState::Received {
                section_number,
                section_offset,
            } => {
                fields.kind = sys::RECEIVED;
                fields.section_number = section_number;
                fields.section_offset = section_offset;
            }
        }
        fields
    }

    /// The texts of the error of a rejection.
    pub(crate) fn texts(state: Option<&DeliveryState>) -> (&[u8], &[u8]) {
        match state {
            Some(DeliveryState::Rejected { error }) => Error::texts(error.as_ref()),
            _ => Error::texts(None),
        }
    }

    /// The state with these fields, whose error this call reads by the number of the entry.
    pub(crate) fn read(
        fields: &DeliveryStateFields,
        call: ReadError,
        held: &Held,
        number: usize,
    ) -> Result<Option<DeliveryState>, Refused> {
        if fields.kind != sys::REJECTED || !fields.has_error {
            return DeliveryState::without_error(fields);
        }
        let error = Some(Error::read(call, held, number, fields.has_description)?);
        Ok(Some(DeliveryState::Rejected { error }))
    }

    /// The state with these fields, without the error of a rejection.
    pub(crate) fn without_error(fields: &DeliveryStateFields) -> Result<Option<DeliveryState>, Refused> {
        Ok(Some(match fields.kind {
            sys::NO_STATE => return Ok(None),
            sys::ACCEPTED => DeliveryState::Accepted,
            sys::REJECTED => DeliveryState::Rejected { error: None },
            sys::RELEASED => DeliveryState::Released,
            sys::MODIFIED => DeliveryState::Modified {
                delivery_failed: fields.has_delivery_failed.then_some(fields.delivery_failed),
                undeliverable_here: fields.has_undeliverable_here.then_some(fields.undeliverable_here),
            },
            sys::RECEIVED => DeliveryState::Received {
                section_number: fields.section_number,
                section_offset: fields.section_offset,
            },
            _ => return Err(Refused::NoSuchNumber),
        }))
    }
}

/// An outcome with these fields, whose error this call reads by the number of the entry.
pub(crate) fn read_outcome(
    outcome: &sys::Outcome,
    call: ReadError,
    held: &Held,
    number: usize,
) -> Result<Outcome, Refused> {
    if outcome.failed != sys::OK {
        return Ok(Err(Refused::of(outcome.failed)));
    }
    Ok(Ok(DeliveryState::read(&outcome.state, call, held, number)?))
}
