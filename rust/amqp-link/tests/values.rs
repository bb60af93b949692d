//! Values cross as they are: what is given is read again, in buffers that are as long as it is.
use amqp_link::{
    Arrival, Attach, AttachFields, DeliveryState, DispositionAnswer, Error, Fate, Flow, Kept, Link, LinkFrame,
};
use amqp_link::{Disposition, ResumingDelivery, Stage, Terminus, TerminusDurability, TerminusExpiryPolicy, Transfer};
use amqp_link::{
    LinkParts, Receiver, ReceiverSettleMode, Role, Sender, SenderAttachExchange, SenderSettleMode, Settled,
};

// Longer than each buffer is at first.
fn long(letter: &str) -> String {
    letter.repeat(300)
}

fn rejected() -> DeliveryState {
    let error = Error {
        condition: long("c"),
        description: Some(long("d")),
    };
    DeliveryState::Rejected { error: Some(error) }
}

fn each_state() -> Vec<Option<DeliveryState>> {
    let modified = |delivery_failed, undeliverable_here| DeliveryState::Modified {
        delivery_failed,
        undeliverable_here,
    };
    let bare = Error {
        condition: String::new(),
        description: None,
    };
    vec![
        None,
        Some(DeliveryState::Accepted),
        Some(DeliveryState::Released),
        Some(DeliveryState::Rejected { error: None }),
        Some(DeliveryState::Rejected { error: Some(bare) }),
        Some(rejected()),
        Some(modified(None, Some(true))),
        Some(modified(Some(false), None)),
        Some(DeliveryState::Received {
            section_number: 3,
            section_offset: u64::MAX,
        }),
    ]
}

fn terminus(address: Option<String>) -> Terminus {
    Terminus {
        address,
        durable: TerminusDurability::UnsettledState,
        expiry_policy: TerminusExpiryPolicy::Never,
        timeout: 7,
        dynamic: true,
    }
}

fn attach(role: Role) -> Attach {
    let mut fields = AttachFields::new(role, 9);
    fields.initial_delivery_count = Some(0);
    let mut attach = Attach::new("letters", &fields).unwrap();
    attach.set_source(Some(&Terminus::default())).unwrap();
    attach.set_target(Some(&Terminus::default())).unwrap();
    attach
}

fn parts() -> LinkParts<'static> {
    LinkParts::new("letters", Some(Terminus::default()), Some(Terminus::default()), 4096)
}

fn attach_sender(sender: &mut Sender, theirs: &Attach, delivery_count: u32) -> SenderAttachExchange {
    sender.set_output_handle(1).unwrap();
    let _sent = sender.send_attach(false).unwrap();
    let (exchange, _outcomes) = sender.on_incoming_attach(theirs).unwrap();
    let flow = Flow {
        handle: 9,
        delivery_count: Some(delivery_count),
        link_credit: Some(5),
        ..Flow::default()
    };
    assert_eq!(sender.on_incoming_flow(&flow), Ok(None));
    exchange
}

fn attached_receiver(parts: &LinkParts<'_>) -> Receiver {
    let mut receiver = Receiver::new(parts).unwrap();
    receiver.set_output_handle(1).unwrap();
    let _sent = receiver.send_attach(false).unwrap();
    let _exchanged = receiver.on_incoming_attach(&attach(Role::Sender)).unwrap();
    assert_eq!(
        receiver.send_flow(Some(5), Some(true), true).unwrap().link_credit,
        Some(5)
    );
    receiver
}

#[test]
fn an_attach_is_read_as_it_was_made() {
    let fields = AttachFields {
        handle: u32::MAX,
        role: Role::Sender,
        snd_settle_mode: SenderSettleMode::Unsettled,
        rcv_settle_mode: ReceiverSettleMode::Second,
        incomplete_unsettled: true,
        initial_delivery_count: Some(4),
        max_message_size: Some(0),
    };
    let mut made = Attach::new(&long("n"), &fields).unwrap();
    assert_eq!((made.source(), made.target()), (Ok(None), Ok(None)));
    made.set_source(Some(&terminus(Some(long("a"))))).unwrap();
    made.set_target(Some(&terminus(None))).unwrap();
    let states = each_state();
    for (number, state) in states.iter().enumerate() {
        made.add_unsettled(&vec![number as u8; 40 * number], state.as_ref())
            .unwrap();
    }
    assert_eq!((made.name(), made.fields()), (Ok(long("n")), Ok(fields)));
    assert_eq!(made.source(), Ok(Some(terminus(Some(long("a"))))));
    assert_eq!(made.target(), Ok(Some(terminus(None))));
    assert_eq!(made.unsettled_len(), states.len());
    for (number, entry) in made.unsettled().enumerate() {
        assert_eq!(entry, Ok((vec![number as u8; 40 * number], states[number].clone())));
    }
}

#[test]
fn a_link_shows_what_it_was_made_with() {
    let mut made = LinkParts::new("ä", Some(terminus(None)), None, 512);
    made.snd_settle_mode = SenderSettleMode::Settled;
    made.rcv_settle_mode = ReceiverSettleMode::Second;
    made.initial_delivery_count = 77;
    made.max_message_size = Some(1000);
    let mut sender = Sender::new(&made).unwrap();
    sender.set_output_handle(3).unwrap();
    sender.set_max_frame_size(600).unwrap();
    let view = sender.view().unwrap();
    assert_eq!(
        (view.output_handle, view.input_handle, view.delivery_count),
        (Some(3), None, 77)
    );
    assert_eq!(
        (view.max_message_size, view.unsettled, view.drain),
        (Some(1000), 0, false)
    );
    assert_eq!(
        (view.snd_settle_mode, sender.name()),
        (SenderSettleMode::Settled, Ok("ä".to_owned()))
    );
    let (attach, outcomes) = sender.send_attach(false).unwrap();
    assert_eq!((attach.source(), attach.target()), (Ok(Some(terminus(None))), Ok(None)));
    assert_eq!(attach.fields().unwrap().initial_delivery_count, Some(77));
    assert!(outcomes.is_empty());
}

#[test]
fn a_rejection_has_its_error_in_each_place() {
    let mut sender = Sender::new(&parts()).unwrap();
    assert!(matches!(
        attach_sender(&mut sender, &attach(Role::Receiver), 0),
        SenderAttachExchange::Complete
    ));
    let payload = long("p").into_bytes();
    let frames = sender
        .send_payload_with_tag(&[7; 50], &payload, 5, Settled::No, true)
        .unwrap();
    let first = match frames.at(0) {
        Ok(LinkFrame::FirstTransfer(first)) => first,
        other => panic!("{other:?}"),
    };
    assert_eq!(
        (first.performative.delivery_tag, first.payload),
        (Some(vec![7; 50]), payload)
    );
    assert_eq!(
        (first.performative.message_format, first.performative.batchable),
        (Some(5), true)
    );
    let answer = sender
        .on_incoming_disposition(&[7; 50], true, Some(&rejected()))
        .unwrap();
    let DispositionAnswer { echo, outcomes } = answer;
    assert_eq!((echo, outcomes.at(0)), (false, Ok((vec![7; 50], Ok(Some(rejected()))))));
    assert_eq!(sender.fate(0), Ok(Some(Fate::Resolved(Ok(Some(rejected()))))));
}

// A delivery of two transfers arrives.
fn arrive(receiver: &mut Receiver) {
    let tag = Some(vec![7; 50]);
    let (delivery_id, message_format) = (Some(4), Some(5));
    let first = Transfer {
        delivery_id,
        delivery_tag: tag,
        message_format,
        more: true,
        ..Transfer::default()
    };
    let arrived = receiver.on_incoming_transfer(&first, b"one ").unwrap();
    assert_eq!((arrived.arrival, arrived.tag), (Arrival::Begun, None));
    let kept = Kept {
        stage: Stage::Begun,
        id: Some(4),
        settled: false,
    };
    assert_eq!(receiver.get(&[7; 50]), Ok(Some(kept)));
    let arrived = receiver.on_incoming_transfer(&Transfer::default(), b"two").unwrap();
    assert_eq!((arrived.arrival, arrived.tag), (Arrival::Complete, Some(vec![7; 50])));
}

#[test]
fn a_receiver_rejects_what_it_has_taken() {
    let mut receiver = attached_receiver(&parts());
    arrive(&mut receiver);
    let delivery = receiver.take(&[7; 50]).unwrap();
    let info = delivery.info().unwrap();
    assert_eq!(
        (info.delivery_id, info.delivery_tag, info.message_format),
        (4, vec![7; 50], Some(5))
    );
    assert_eq!((info.message_size, delivery.message()), (7, Ok(b"one two".to_vec())));
    let frames = receiver.dispose(&[7; 50], Settled::Yes, &rejected(), true).unwrap();
    let state = Some(rejected());
    let made = Disposition {
        role: Role::Receiver,
        first: 4,
        last: None,
        settled: true,
        state,
        batchable: true,
    };
    assert_eq!(frames.at(0), Ok(LinkFrame::Disposition(made)));
    assert_eq!(receiver.get(&[7; 50]), Ok(None));
}

#[test]
fn settled_deliveries_wait_in_their_order() {
    let mut receiver = attached_receiver(&parts());
    for id in 0..2 {
        let tag = Some(vec![id as u8]);
        let settled = Some(true);
        let transfer = Transfer {
            delivery_id: Some(id),
            delivery_tag: tag,
            settled,
            ..Transfer::default()
        };
        let arrived = receiver.on_incoming_transfer(&transfer, &[id as u8]).unwrap();
        assert_eq!(arrived.arrival, Arrival::CompleteSettled);
    }
    assert_eq!(receiver.settled_len(), Ok(2));
    assert_eq!(receiver.take_settled().unwrap().unwrap().message(), Ok(vec![0]));
    assert_eq!(receiver.settled_len(), Ok(1));
}

#[test]
fn what_the_peer_lacks_is_resumed_or_put_back() {
    let mut sender = Sender::new(&parts()).unwrap();
    drop(attach_sender(&mut sender, &attach(Role::Receiver), 0));
    for tag in [b"a", b"b"] {
        let _frames = sender
            .send_payload_with_tag(tag, b"payload", 0, Settled::No, false)
            .unwrap();
    }
    sender.on_session_lost().unwrap();
    let mut list = attach_sender(&mut sender, &attach(Role::Receiver), 2).into_resuming();
    let asked: Vec<_> = list.iter().map(|entry| entry.unwrap().1).collect();
    assert_eq!(asked, [ResumingDelivery::Resend, ResumingDelivery::Resend]);
    assert_eq!(
        sender.resume_next(&mut list).map(|frames| frames.map(|it| it.len())),
        Ok(Some(1))
    );
    assert_eq!(
        (sender.put_back_next(&mut list), sender.put_back_next(&mut list)),
        (Ok(true), Ok(false))
    );
    assert!(matches!(sender.resume_next(&mut list), Ok(None)));
    assert_eq!(sender.view().unwrap().unsettled, 2);
    assert_eq!(
        (sender.fate(1), sender.fate(3)),
        (Ok(Some(Fate::HandedOut)), Ok(Some(Fate::Pending)))
    );
}

#[test]
fn a_receiver_names_what_the_sender_has_forgotten() {
    let mut receiver = attached_receiver(&parts());
    let tag = Some(vec![7; 50]);
    let transfer = Transfer {
        delivery_id: Some(0),
        delivery_tag: tag,
        more: true,
        ..Transfer::default()
    };
    assert_eq!(
        receiver.on_incoming_transfer(&transfer, b"x").unwrap().arrival,
        Arrival::Begun
    );
    receiver.on_session_lost().unwrap();
    receiver.set_output_handle(2).unwrap();
    assert_eq!(receiver.send_attach(false).unwrap().unsettled_len(), 1);
    let (_exchange, forgotten) = receiver.on_incoming_attach(&attach(Role::Sender)).unwrap();
    assert_eq!(forgotten.iter().collect::<Vec<_>>(), [Ok((vec![7; 50], Stage::Begun))]);
}

#[test]
fn a_sender_keeps_the_credit_of_a_drain_until_it_gives_it_back() {
    let mut sender = Sender::new(&parts()).unwrap();
    drop(attach_sender(&mut sender, &attach(Role::Receiver), 0));
    let flow = Flow {
        handle: 9,
        delivery_count: Some(0),
        link_credit: Some(5),
        drain: true,
        ..Flow::default()
    };
    assert_eq!(sender.on_incoming_flow_keeping_credit(&flow), Ok(None));
    assert_eq!(sender.view().map(|view| (view.link_credit, view.drain)), Ok((5, true)));
    let given = sender.give_back_credit().unwrap().unwrap();
    assert_eq!(
        (given.delivery_count, given.link_credit, given.drain),
        (Some(5), Some(0), true)
    );
    assert_eq!(
        sender.send_flow(Some(8), true).map(|flow| (flow.available, flow.echo)),
        Ok((Some(8), true))
    );
}

#[test]
fn a_sender_answers_in_mode_second() {
    let mut made = parts();
    made.rcv_settle_mode = ReceiverSettleMode::Second;
    let mut fields = AttachFields::new(Role::Receiver, 9);
    fields.rcv_settle_mode = ReceiverSettleMode::Second;
    let mut theirs = Attach::new("letters", &fields).unwrap();
    theirs.set_target(Some(&Terminus::default())).unwrap();
    let mut sender = Sender::new(&made).unwrap();
    drop(attach_sender(&mut sender, &theirs, 0));
    let _frames = sender.send_payload_with_tag(b"a", b"x", 0, Settled::No, false).unwrap();
    let answer = sender
        .on_incoming_disposition(b"a", false, Some(&DeliveryState::Accepted))
        .unwrap();
    assert!(answer.echo);
    let (frames, _outcomes) = sender.dispose(6, b"a", true, &DeliveryState::Accepted).unwrap();
    let sent = match frames.at(0) {
        Ok(LinkFrame::Disposition(sent)) => sent,
        other => panic!("{other:?}"),
    };
    assert_eq!((sent.role, sent.first, sent.settled), (Role::Sender, 6, true));
    assert_eq!(
        sender.fate(0),
        Ok(Some(Fate::Resolved(Ok(Some(DeliveryState::Accepted)))))
    );
}
