//! One end of a link, whose peer is not this library. What a session reads off the wire stands here as the fields that it has
//! read, and what the end gives to send is printed, as a session would write it. First the end is a receiver: it takes a
//! delivery whose session is lost on the way, and rejects it. Then it is a sender: the peer rejects what it sends.
use amqp_link::{Arrived, Attach, AttachFields, DeliveryState, Detach, Disposition, Error, Fate, Flow, Frames, Link};
use amqp_link::{LinkFrame, LinkParts, LinkState, Outcomes, Receiver, ReceiverAttachExchange, Refused, Role, Sender};
use amqp_link::{SenderAttachExchange, Settled, Terminus, Transfer};

// A message as it is encoded: one section of data, with 78 bytes of text.
const MESSAGE: &[u8] =
    b"\x00\x53\x75\xa0\x4eThis is the first half of the letter, and it arrives. This is the second half.";
// How much of it arrives before the session is lost.
const HALF: usize = 40;
const TAG: &[u8] = b"letter 1";

fn words(bytes: &[u8]) -> String {
    String::from_utf8_lossy(bytes).into_owned()
}

fn state_words(state: Option<&DeliveryState>) -> String {
    match state {
        None => "no state".to_owned(),
        Some(DeliveryState::Rejected { error: Some(error) }) => {
            let description = error.description.as_deref().unwrap_or("");
            format!("rejected, {}: {description}", error.condition)
        }
        Some(DeliveryState::Received {
            section_number,
            section_offset,
        }) => {
            format!("received up to section {section_number}, byte {section_offset}")
        }
        Some(state) => format!("{state:?}").to_lowercase(),
    }
}

// The state with which a letter is rejected.
fn not_allowed() -> DeliveryState {
    let condition = "amqp:not-allowed".to_owned();
    let description = Some("no letters today".to_owned());
    let error = Some(Error { condition, description });
    DeliveryState::Rejected { error }
}

// An attach that is sent: a session writes these fields.
fn write_attach(attach: &Attach) -> Result<(), Refused> {
    let (name, fields) = (attach.name()?, attach.fields()?);
    let address = |terminus: Option<Terminus>| terminus.and_then(|it| it.address).unwrap_or_default();
    let (from, to) = (address(attach.source()?), address(attach.target()?));
    println!(
        "  sent: attach of {name} as {:?} at handle {}, from {from} to {to}",
        fields.role, fields.handle
    );
    for entry in attach.unsettled() {
        let (tag, state) = entry?;
        println!("    unsettled: {}, {}", words(&tag), state_words(state.as_ref()));
    }
    Ok(())
}

// An attach that has arrived: a session has read these fields.
fn read_attach(role: Role, handle: u32, unsettled: &[(&[u8], Option<DeliveryState>)]) -> Result<Attach, Refused> {
    let mut fields = AttachFields::new(role, handle);
    fields.initial_delivery_count = (role == Role::Sender).then_some(0);
    let mut attach = Attach::new("letters", &fields)?;
    attach.set_source(Some(&Terminus::at("outbox")))?;
    attach.set_target(Some(&Terminus::at("inbox")))?;
    for (tag, state) in unsettled {
        attach.add_unsettled(tag, state.as_ref())?;
    }
    Ok(attach)
}

// Frames that are sent. A session gives the first transfer of a delivery this id.
fn write_frames(frames: &Frames, id: u32) -> Result<(), Refused> {
    for frame in frames.iter() {
        match frame? {
            LinkFrame::FirstTransfer(first) => {
                let (sent, size) = (first.performative, first.payload.len());
                let tag = words(&sent.delivery_tag.unwrap_or_default());
                let again = if sent.resume { ", resumed" } else { "" };
                println!(
                    "  sent: transfer {id} of {tag}, {size} bytes, more: {}{again}",
                    sent.more
                );
            }
            LinkFrame::TransferContinuation(next) => {
                println!(
                    "  sent: transfer, {} bytes, more: {}",
                    next.payload.len(),
                    next.performative.more
                );
            }
            LinkFrame::Disposition(sent) => {
                let (first, settled) = (sent.first, sent.settled);
                println!(
                    "  sent: disposition of {first}, settled: {settled}, {}",
                    state_words(sent.state.as_ref())
                );
            }
            LinkFrame::Detach(sent) => println!("  sent: detach at handle {}, closed: {}", sent.handle, sent.closed),
            _ => println!("  sent: another frame"),
        }
    }
    Ok(())
}

fn write_outcomes(outcomes: &Outcomes) -> Result<(), Refused> {
    for entry in outcomes.iter() {
        match entry? {
            (tag, Ok(state)) => println!("  ended: {}, {}", words(&tag), state_words(state.as_ref())),
            (tag, Err(why)) => println!("  ended: {}, {why}", words(&tag)),
        }
    }
    Ok(())
}

// The peer detaches the link: reply, and then record it.
fn take_detach(link: &mut dyn Link, detach: &Detach, reply: &Frames) -> Result<(), Refused> {
    println!("  came: detach, closed: {}", detach.closed);
    write_frames(reply, 0)?;
    match link.apply_remote_detach_outcome(detach) {
        Ok(()) => println!("  no error came with it"),
        Err(Refused::RemoteClosedWithError) => {
            let condition = detach.error.as_ref().map_or("", |error| &error.condition);
            println!("  it closes the link with {condition}");
        }
        Err(other) => return Err(other),
    }
    println!("the link is {:?}", link.view()?.local_state);
    Ok(())
}

// The receiver and the peer, a sender, attach. The peer states these deliveries.
fn attach_receiver(
    receiver: &mut Receiver,
    handle: u32,
    theirs: &[(&[u8], Option<DeliveryState>)],
) -> Result<ReceiverAttachExchange, Refused> {
    receiver.set_output_handle(handle)?;
    write_attach(&receiver.send_attach(false)?)?;
    let (exchange, forgotten) = receiver.on_incoming_attach(&read_attach(Role::Sender, 8, theirs)?)?;
    println!(
        "  came: attach of the sender: {exchange:?}, {} forgotten",
        forgotten.len()
    );
    Ok(exchange)
}

// A transfer of the letter arrives.
fn arrive(receiver: &mut Receiver, id: u32, resume: bool, payload: &[u8]) -> Result<Arrived, Refused> {
    let transfer = Transfer {
        handle: 8,
        delivery_id: Some(id),
        delivery_tag: Some(TAG.to_vec()),
        message_format: Some(0),
        more: !resume,
        resume,
        ..Transfer::default()
    };
    let arrived = receiver.on_incoming_transfer(&transfer, payload)?;
    println!("  came: transfer {id}, {} bytes: {:?}", payload.len(), arrived.arrival);
    Ok(arrived)
}

fn be_receiver() -> Result<(), Refused> {
    println!("a receiver");
    let parts = LinkParts::new(
        "letters",
        Some(Terminus::at("outbox")),
        Some(Terminus::at("inbox")),
        512,
    );
    let mut receiver = Receiver::new(&parts)?;
    attach_receiver(&mut receiver, 1, &[])?;
    let flow = receiver.send_flow(Some(5), None, false)?;
    println!("  sent: flow at handle {}, credit {:?}", flow.handle, flow.link_credit);
    let begun = arrive(&mut receiver, 0, false, &MESSAGE[..HALF])?;
    println!("  more is to come: {}", begun.tag.is_none());
    receiver.on_session_lost()?;
    println!("the session is lost");

    let exchange = attach_receiver(&mut receiver, 2, &[(TAG, None)])?;
    println!("the sender resumes: {}", exchange == ReceiverAttachExchange::Resume);
    let tag = arrive(&mut receiver, 0, true, &MESSAGE[HALF..])?
        .tag
        .unwrap_or_default();
    let message = receiver.take(&tag)?.message()?;
    println!("taken: {}", words(message.get(5..).unwrap_or(&[])));
    write_frames(&receiver.dispose(&tag, Settled::Yes, &not_allowed(), false)?, 0)?;
    println!("kept of it: {:?}", receiver.get(&tag)?);

    let error = Some(Error::new("amqp:resource-deleted"));
    let detach = Detach {
        handle: 8,
        closed: true,
        error,
    };
    let reply = receiver.on_incoming_detach(&detach, true)?;
    take_detach(&mut receiver, &detach, &reply)
}

// The sender and the peer, a receiver, attach. The peer states these deliveries.
fn attach_sender(
    sender: &mut Sender,
    handle: u32,
    theirs: &[(&[u8], Option<DeliveryState>)],
) -> Result<SenderAttachExchange, Refused> {
    sender.set_output_handle(handle)?;
    let (attach, outcomes) = sender.send_attach(false)?;
    write_attach(&attach)?;
    write_outcomes(&outcomes)?;
    let (exchange, outcomes) = sender.on_incoming_attach(&read_attach(Role::Receiver, 9, theirs)?)?;
    println!("  came: attach of the receiver");
    write_outcomes(&outcomes)?;
    Ok(exchange)
}

// The peer grants credit, and asks for the sender's own flow.
fn grant(sender: &mut Sender, delivery_count: u32) -> Result<(), Refused> {
    let flow = Flow {
        handle: 9,
        delivery_count: Some(delivery_count),
        link_credit: Some(5),
        echo: true,
        ..Flow::default()
    };
    println!("  came: flow, credit {:?}", flow.link_credit);
    if let Some(reply) = sender.on_incoming_flow(&flow)? {
        println!(
            "  sent: flow, count {:?}, credit {:?}",
            reply.delivery_count, reply.link_credit
        );
    }
    Ok(())
}

// A disposition arrives, of the delivery whose id the session has given: it finds its tag.
fn take_disposition(sender: &mut Sender, came: &Disposition) -> Result<(), Refused> {
    println!(
        "  came: disposition of {}, {}",
        came.first,
        state_words(came.state.as_ref())
    );
    let answer = sender.on_incoming_disposition(TAG, came.settled, came.state.as_ref())?;
    write_outcomes(&answer.outcomes)?;
    if answer.echo {
        println!("  a disposition is to be sent");
    }
    Ok(())
}

// A letter is sent, and its first frame arrives. Returns how much of it that had.
fn send_and_lose(sender: &mut Sender) -> Result<u64, Refused> {
    let frames = sender.send_payload_with_tag(TAG, MESSAGE, 0, Settled::No, false)?;
    write_frames(&frames, 0)?;
    let arrived = match frames.at(0)? {
        LinkFrame::FirstTransfer(first) => first.payload.len() as u64,
        _ => 0,
    };
    sender.on_session_lost()?;
    println!("the session is lost");
    Ok(arrived)
}

// The peer states how much has arrived; the rest is sent, and then the count.
fn send_rest(sender: &mut Sender, arrived: u64) -> Result<(), Refused> {
    let state = DeliveryState::Received {
        section_number: 0,
        section_offset: arrived,
    };
    let mut list = attach_sender(sender, 2, &[(TAG, Some(state))])?.into_resuming();
    for entry in list.iter() {
        let (tag, asks) = entry?;
        println!("to be sent again: {}, {asks:?}", words(&tag));
    }
    while let Some(frames) = sender.resume_next(&mut list)? {
        write_frames(&frames, 0)?;
    }
    println!(
        "  sent: flow, count {:?}",
        sender.send_flow(None, false)?.delivery_count
    );
    Ok(())
}

fn be_sender() -> Result<(), Refused> {
    println!("a sender");
    let parts = LinkParts::new("letters", Some(Terminus::at("outbox")), Some(Terminus::at("inbox")), 96);
    let mut sender = Sender::new(&parts)?;
    drop(attach_sender(&mut sender, 1, &[])?);
    grant(&mut sender, 0)?;
    let arrived = send_and_lose(&mut sender)?;
    send_rest(&mut sender, arrived)?;
    let state = Some(not_allowed());
    let came = Disposition {
        role: Role::Receiver,
        first: 0,
        last: None,
        settled: true,
        state,
        batchable: false,
    };
    take_disposition(&mut sender, &came)?;
    show_fates(&mut sender)?;

    let detach = Detach {
        handle: 9,
        closed: false,
        error: None,
    };
    let (reply, outcomes) = sender.on_incoming_detach(&detach, true)?;
    write_outcomes(&outcomes)?;
    take_detach(&mut sender, &detach, &reply)?;
    println!(
        "it may be attached again: {}",
        sender.view()?.local_state == LinkState::Detached
    );
    Ok(())
}

// What became of each registration; then they are released.
fn show_fates(sender: &mut Sender) -> Result<(), Refused> {
    let mut number = 0;
    while let Some(fate) = sender.fate(number)? {
        match fate {
            Fate::Resolved(Ok(state)) => println!("registration {number}: {}", state_words(state.as_ref())),
            fate => println!("registration {number}: {fate:?}"),
        }
        number += 1;
    }
    sender.release(number)?;
    println!("released: {:?}", sender.fate(0)?);
    Ok(())
}

fn main() -> Result<(), Refused> {
    be_receiver()?;
    be_sender()
}
