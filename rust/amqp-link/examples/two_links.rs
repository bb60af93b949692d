//! Sends a message of three frames over a link whose connection is lost after the first, and then the rest: what
//! `crates/twolinks` does, with the same output.
use amqp_link::{Arrival, DeliveryState, Fate, Frames, Link, LinkFrame, LinkParts};
use amqp_link::{Receiver, Refused, Resuming, Sender, Settled, Terminus};

// A message as it is encoded: one section of data, with 85 bytes of text.
const MESSAGE: &[u8] =
    b"\x00\x53\x75\xa0\x55Dear Sir, this letter takes three frames. The connection may be lost after each. Ann.";

// A session between the two links, as far as they need one: it gives ids, and keeps the tag of the last.
#[derive(Default)]
struct Session {
    next_id: u32,
    tag: Vec<u8>,
}

// Both endpoints send their attach, and each takes the other's. Returns what is to be sent again.
fn attach(sender: &mut Sender, receiver: &mut Receiver) -> Result<Resuming, Refused> {
    sender.set_output_handle(0)?;
    receiver.set_output_handle(0)?;
    let (from_sender, _outcomes) = sender.send_attach(false)?;
    let from_receiver = receiver.send_attach(false)?;
    let (_follows, _forgotten) = receiver.on_incoming_attach(&from_sender)?;
    let (exchange, _outcomes) = sender.on_incoming_attach(&from_receiver)?;
    Ok(exchange.into_resuming())
}

// Frames arrive, up to so many. The first transfer of a delivery gets its id here.
fn arrive(session: &mut Session, receiver: &mut Receiver, frames: &Frames, count: usize) -> Result<(), Refused> {
    for frame in frames.iter().take(count) {
        let sent = match frame? {
            LinkFrame::FirstTransfer(mut first) => {
                first.performative.delivery_id = Some(session.next_id);
                session.next_id += 1;
                session.tag = first.performative.delivery_tag.clone().unwrap_or_default();
                first
            }
            LinkFrame::TransferContinuation(further) => further,
            _ => continue,
        };
        let word = match receiver
            .on_incoming_transfer(&sent.performative, &sent.payload)?
            .arrival
        {
            Arrival::Begun => "begun",
            Arrival::Continued => "continued",
            Arrival::Complete => "complete",
            _ => "other",
        };
        println!("  a frame arrives: {word}");
    }
    Ok(())
}

// The receiver takes the message, and accepts it.
fn take_and_accept(session: &Session, sender: &mut Sender, receiver: &mut Receiver) -> Result<(), Refused> {
    let delivery = receiver.take(&session.tag)?;
    println!("taken: {}", String::from_utf8_lossy(&delivery.message()?[5..]));
    let frames = receiver.dispose(&session.tag, Settled::Yes, &DeliveryState::Accepted, false)?;
    for frame in frames.iter() {
        if let LinkFrame::Disposition(sent) = frame? {
            let _answer = sender.on_incoming_disposition(&session.tag, sent.settled, sent.state.as_ref())?;
        }
    }
    Ok(())
}

fn main() -> Result<(), Refused> {
    let parts = LinkParts::new("letters", Some(Terminus::default()), Some(Terminus::default()), 64);
    let (mut sender, mut receiver) = (Sender::new(&parts)?, Receiver::new(&parts)?);
    drop(attach(&mut sender, &mut receiver)?);
    sender.on_incoming_flow(&receiver.send_flow(Some(1), None, false)?)?;
    let frames = sender.send_payload(MESSAGE, 0, Settled::ByMode, false)?;
    println!("sent in {} frames", frames.len());
    arrive(&mut Session::default(), &mut receiver, &frames, 1)?;
    sender.on_session_lost()?;
    receiver.on_session_lost()?;
    println!("the connection is lost");

    let mut session = Session::default();
    let mut resuming = attach(&mut sender, &mut receiver)?;
    while let Some(frames) = sender.resume_next(&mut resuming)? {
        println!("resumed in {} frames", frames.len());
        arrive(&mut session, &mut receiver, &frames, frames.len())?;
        take_and_accept(&session, &mut sender, &mut receiver)?;
    }
    for number in 0..2 {
        let word = match sender.fate(number)? {
            Some(Fate::HandedOut) => "returned to be sent again",
            Some(Fate::Resolved(Ok(Some(DeliveryState::Accepted)))) => "accepted",
            _ => "other",
        };
        println!("registration {number}: {word}");
    }
    Ok(())
}
