//! What the wrapper returns for what the library refuses, and what state that leaves.
use amqp_link::{
    Action, Attach, AttachFields, DeliveryState, Detach, Error, Fate, Flow, Kind, Link, LinkFrame, LinkParts,
};
use amqp_link::{LinkState, Object, Receiver, Refused, Role, Sender, Settled, Terminus, Transfer};

fn parts(max_frame_size: u32) -> LinkParts<'static> {
    LinkParts::new(
        "letters",
        Some(Terminus::default()),
        Some(Terminus::default()),
        max_frame_size,
    )
}

// The attach of a peer with this role, with both termini.
fn attach(role: Role) -> Attach {
    let mut fields = AttachFields::new(role, 9);
    fields.initial_delivery_count = Some(0);
    let mut attach = Attach::new("letters", &fields).unwrap();
    attach.set_source(Some(&Terminus::default())).unwrap();
    attach.set_target(Some(&Terminus::default())).unwrap();
    attach
}

fn attached_sender(credit: u32) -> Sender {
    let mut sender = Sender::new(&parts(512)).unwrap();
    sender.set_output_handle(1).unwrap();
    let _sent = sender.send_attach(false).unwrap();
    let _exchanged = sender.on_incoming_attach(&attach(Role::Receiver)).unwrap();
    let flow = Flow {
        handle: 9,
        delivery_count: Some(0),
        link_credit: Some(credit),
        ..Flow::default()
    };
    assert_eq!(sender.on_incoming_flow(&flow), Ok(None));
    sender
}

fn attached_receiver() -> Receiver {
    let mut receiver = Receiver::new(&parts(512)).unwrap();
    receiver.set_output_handle(1).unwrap();
    let _sent = receiver.send_attach(false).unwrap();
    let _exchanged = receiver.on_incoming_attach(&attach(Role::Sender)).unwrap();
    receiver
}

fn state(link: &dyn Link) -> LinkState {
    link.view().unwrap().local_state
}

#[test]
fn a_send_before_the_attach_is_refused() {
    let mut sender = Sender::new(&parts(64)).unwrap();
    assert_eq!(
        sender.send_payload(b"x", 0, Settled::ByMode, false).err(),
        Some(Refused::IllegalState)
    );
    assert_eq!(sender.fate(0), Ok(None));
    assert_eq!(
        (sender.kind(), state(&sender)),
        (Ok(Kind::Sender), LinkState::Unattached)
    );
}

#[test]
fn an_unknown_delivery_is_refused() {
    let mut receiver = Receiver::new(&parts(64)).unwrap();
    assert_eq!(receiver.take(b"x").err(), Some(Refused::UnknownTag));
    assert_eq!(receiver.get(b"x"), Ok(None));
    assert_eq!(
        receiver.keep_outcome(b"x", &DeliveryState::Accepted),
        Err(Refused::UnknownTag)
    );
    assert_eq!(receiver.kind(), Ok(Kind::Receiver));
}

#[test]
fn sends_are_refused_in_their_order() {
    let mut sender = attached_sender(1);
    let _frames = sender.send_payload_with_tag(b"a", b"x", 0, Settled::No, false).unwrap();
    assert_eq!(
        sender.send_payload(b"x", 0, Settled::No, false).err(),
        Some(Refused::CreditMissing)
    );
    assert_eq!(sender.release(1), Err(Refused::StillPending(0)));
    assert_eq!(sender.withdraw(b"b"), Ok(false));
    assert_eq!(sender.withdraw(b"a"), Ok(true));
    assert_eq!(sender.fate(0), Ok(Some(Fate::Withdrawn)));
    assert_eq!(sender.release(1), Ok(()));
    assert_eq!((sender.fate(0), sender.fate(1)), (Ok(Some(Fate::Released)), Ok(None)));
}

#[test]
fn a_refused_attach_moves_the_state_and_is_answered() {
    let mut sender = Sender::new(&parts(512)).unwrap();
    sender.set_output_handle(1).unwrap();
    let _sent = sender.send_attach(false).unwrap();
    let mut theirs = attach(Role::Receiver);
    theirs.set_target(None).unwrap();
    let refused = sender.on_incoming_attach(&theirs).err();
    assert_eq!(
        (refused, state(&sender)),
        (Some(Refused::IncomingTargetIsNone), LinkState::Attached)
    );
    let frames = match sender.handle_attach_error(Refused::IncomingTargetIsNone) {
        Ok(Action::Detach(frames)) => frames,
        _ => panic!("a detach is to be sent"),
    };
    assert_eq!(
        frames.at(0),
        Ok(LinkFrame::Detach(Detach {
            handle: 1,
            closed: true,
            error: None
        }))
    );
    assert_eq!(frames.at(1), Err(Refused::NoSuchEntry));
    assert_eq!(state(&sender), LinkState::CloseSent);
    let ends = sender.handle_attach_error(Refused::DuplicatedLinkName);
    assert!(matches!(ends, Ok(Action::EndSession)));
    assert!(matches!(
        sender.handle_attach_error(Refused::Other(999)),
        Ok(Action::Nothing)
    ));
}

#[test]
fn the_error_of_a_detach_comes_after_the_state_has_moved() {
    let mut receiver = attached_receiver();
    let error = Some(Error::new("amqp:internal-error"));
    let frames = receiver.send_detach(true, error.clone()).unwrap();
    assert_eq!(
        frames.at(0),
        Ok(LinkFrame::Detach(Detach {
            handle: 1,
            closed: true,
            error: error.clone()
        }))
    );
    let reply = Detach {
        handle: 9,
        closed: true,
        error,
    };
    assert_eq!(receiver.on_detach_reply(&reply), Err(Refused::RemoteClosedWithError));
    assert_eq!(state(&receiver), LinkState::Closed);
    assert_eq!(receiver.on_detach_reply(&reply), Err(Refused::IllegalState));
    assert_eq!(receiver.detach_frame().err(), Some(Refused::UnattachedHandle));
    assert_eq!(receiver.send_detach(true, None).err(), Some(Refused::IllegalState));
}

#[test]
fn a_list_has_no_entry_past_its_last() {
    let mut sender = attached_sender(0);
    let detach = Detach {
        handle: 9,
        closed: true,
        error: None,
    };
    let (frames, outcomes) = sender.on_incoming_detach(&detach, true).unwrap();
    assert_eq!((frames.len(), outcomes.len()), (1, 0));
    assert_eq!(outcomes.at(0).err(), Some(Refused::NoSuchEntry));
    assert_eq!(frames.at(usize::MAX).err(), Some(Refused::NoSuchEntry));
    assert_eq!(sender.apply_remote_detach_outcome(&detach), Ok(()));
    assert_eq!(
        sender.on_incoming_detach(&detach, true).err(),
        Some(Refused::UnattachedHandle)
    );
    assert!(sender.fail_pending_unsettled(&detach).unwrap().is_empty());
}

#[test]
fn a_transfer_without_its_fields_is_refused() {
    let mut receiver = attached_receiver();
    let mut transfer = Transfer {
        handle: 9,
        ..Transfer::default()
    };
    assert_eq!(
        receiver.on_incoming_transfer(&transfer, b"x"),
        Err(Refused::DeliveryIdIsNone)
    );
    transfer.delivery_id = Some(0);
    assert_eq!(
        receiver.on_incoming_transfer(&transfer, b"x"),
        Err(Refused::DeliveryTagIsNone)
    );
    transfer.delivery_tag = Some(Vec::new());
    let arrived = receiver.on_incoming_transfer(&transfer, b"x").unwrap();
    assert_eq!((arrived.tag, arrived.without_credit), (Some(Vec::new()), true));
    assert_eq!(receiver.take_settled().map(|taken| taken.is_none()), Ok(true));
    let delivery = receiver.take(b"").unwrap();
    assert_eq!(receiver.take(b"").err(), Some(Refused::AlreadyTaken));
    assert_eq!(delivery.message(), Ok(b"x".to_vec()));
}
