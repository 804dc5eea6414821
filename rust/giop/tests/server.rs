//! A server's end: octets worked by hand from CORBA 3.3 Part 2, 9.4.
use giop::{Awaits, CallKind, EndError, EndFault, Form, HeadFault, Interface, Limits, RequestFault, Server, ValueForm};

const ADD: &[u8] = br#"{"operations":{"add":{"ins":[["a","long"],["b","long"]],"outs":[["sum","long"]]}},
    "exceptions":{"IDL:E:1.0":[["why","long"]]}}"#;
// A Request of 1.2, big endian, id 1, to the key "k", of add: its ins 2 and 5 begin at 48.
const ASK: &[u8] = b"GIOP\x01\x02\0\0\0\0\0\x2c\0\0\0\x01\x03\0\0\0\0\0\0\0\0\0\0\x01k\0\0\0\
    \0\0\0\x04add\0\0\0\0\0\0\0\0\0\0\0\0\x02\0\0\0\x05";

fn opened() -> Server {
    let mut interface = Interface::from_json(ADD).expect("an interface");
    Server::new(&mut interface, Limits::default()).expect("memory")
}

#[test]
fn a_request_is_answered_in_little_endian() -> Result<(), EndError> {
    let mut server = opened();
    for octet in ASK.chunks(1) {
        server.feed(octet)?;
    }
    let entry = server.entry(1);
    assert_eq!((entry.kind, entry.awaits, entry.flags), (CallKind::Asked, Awaits::Reply, 3));
    assert_eq!(server.key(1).as_deref(), Some(&b"k"[..]));
    assert_eq!(server.ins(1, ValueForm::LittleEndian)?.as_deref(), Some(&[2, 0, 0, 0, 5, 0, 0, 0][..]));
    server.answer(1, ValueForm::BigEndian, &[0, 0, 0, 7], Form { little_endian: true, ..Form::default() })?;
    assert_eq!(server.outgoing(), b"GIOP\x01\x02\x01\x01\x10\0\0\0\x01\0\0\0\0\0\0\0\0\0\0\0\x07\0\0\0");
    assert!(!server.wrote(29) && server.wrote(28));
    assert!(server.outgoing().is_empty() && server.entry(1).is_over);
    server.take(1)?;
    assert_eq!((server.entry(1).kind, server.ids()?), (CallKind::Nothing, vec![]));
    Ok(())
}

#[test]
fn refusals_have_their_numbers() -> Result<(), EndError> {
    let mut server = opened();
    server.feed(ASK)?;
    // 9 is StillOpen, 11 values of which 1 is Short, 2 a call's fault of which 7 is Unfit
    let fault = |number, part, id| Err(EndError::Fault(EndFault { at: 0, number, part, id }));
    assert_eq!(server.take(1), fault(9, 0, 0));
    assert_eq!(server.answer(1, ValueForm::BigEndian, &[0, 0, 0], Form::default()), fault(11, 1, 0));
    assert_eq!(server.answer_user(1, b"IDL:F:1.0", ValueForm::BigEndian, &[], Form::default()), fault(2, 7, 1));
    server.answer_system(1, b"IDL:X:1.0", 0, None, Form::default())?;
    assert_eq!(server.entry(1).status, 2);
    server.close()?;
    assert_eq!(server.feed(ASK), fault(7, 0, 0));
    assert_eq!(server.error_message(), None);
    Ok(())
}

#[test]
fn a_forward_answers() -> Result<(), EndError> {
    let mut server = opened();
    server.feed(ASK)?;
    let fault = |at, number, part| Err(EndError::Fault(EndFault { at, number, part, id: 0 }));
    // 13 is a text that is no octets, of which 1 is its beginning; 14 is octets that are no reference, of which 4
    // is BadCount: the type id can't have three octets
    assert_eq!(server.answer_forward(1, "corbaloc::h/k", false, Form::default()), fault(0, 13, 1));
    assert_eq!(server.answer_forward(1, "IOR:0000000000000003", false, Form::default()), fault(4, 14, 4));
    // the reference without a type id and profiles: status 4
    server.answer_forward(1, "IOR:00000000000000010000000000000000", true, Form::default())?;
    assert_eq!(
        server.outgoing(),
        b"GIOP\x01\x02\0\x01\0\0\0\x18\0\0\0\x01\0\0\0\x04\0\0\0\0\0\0\0\x01\0\0\0\0\0\0\0\0"
    );
    Ok(())
}

#[test]
fn what_cant_be_decoded_and_what_is_located_is_told() -> Result<(), EndError> {
    let mut server = opened();
    let mut cut = ASK[..52].to_vec();
    cut[11] = 40; // without its second in, which would stand at 52: 1 is Short
    server.feed(&cut)?;
    assert_eq!(server.entry(1).fault, Some(RequestFault::Body(HeadFault { at: 52, number: 1 })));
    // a LocateRequest of id 3 to the key "k" (9.4.5)
    server.feed(b"GIOP\x01\x02\0\x03\0\0\0\x0d\0\0\0\x03\0\0\0\0\0\0\0\x01k")?;
    assert_eq!((server.entry(3).kind, server.key(3).as_deref()), (CallKind::LocateAsked, Some(&b"k"[..])));
    // a Request of id 4 with the contexts 1 of three octets and 9 of none (7.7)
    server.feed(b"GIOP\x01\x02\0\0\0\0\0\x3c\0\0\0\x04\x03\0\0\0\0\0\0\0\0\0\0\x01k\0\0\0\0\0\0\x04add\0\
        \0\0\0\x02\0\0\0\x01\0\0\0\x03\x07\x08\x09\0\0\0\0\x09\0\0\0\0\0\0\0\x02\0\0\0\x05")?;
    assert_eq!((server.entry(4).contexts, server.context(4, 0)), (2, Some((1, vec![7, 8, 9]))));
    assert_eq!((server.context(4, 1), server.context(4, 2)), (Some((9, vec![])), None));
    Ok(())
}
