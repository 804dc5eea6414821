//! A client's end: octets worked by hand from CORBA 3.3 Part 2, 9.4.
use giop::{Call, Client, ClientKind, EndError, EndFault, Form, HeadFault, Interface, Limits, Target, ValueForm};

const ADD: &[u8] = br#"{"operations":{"add":{"ins":[["a","long"],["b","long"]],"outs":[["sum","long"]]}},
    "exceptions":{"IDL:E:1.0":[["why","long"]]}}"#;
// A Request of 1.2, big endian, id 1, to the key "k", of add: its ins 2 and 5 begin at 48.
const ASK: &[u8] = b"GIOP\x01\x02\0\0\0\0\0\x2c\0\0\0\x01\x03\0\0\0\0\0\0\0\0\0\0\x01k\0\0\0\
    \0\0\0\x04add\0\0\0\0\0\0\0\0\0\0\0\0\x02\0\0\0\x05";

fn opened() -> Client {
    let mut interface = Interface::from_json(ADD).expect("an interface");
    Client::new(&mut interface, Limits::default()).expect("memory")
}

fn add(client: &mut Client) -> Result<(), EndError> {
    client.call(1, Call::of_key(b"k"), b"add", ValueForm::LittleEndian, &[2, 0, 0, 0, 5, 0, 0, 0], Form::default())
}

#[test]
fn a_call_is_answered_in_little_endian() -> Result<(), EndError> {
    let mut client = opened();
    add(&mut client)?;
    assert_eq!(client.outgoing(), ASK);
    assert!(!client.wrote(57) && client.wrote(56));
    assert_eq!((client.entry(1).kind, client.entry(1).is_over), (ClientKind::Waiting, false));
    for octet in b"GIOP\x01\x02\x01\x01\x10\0\0\0\x01\0\0\0\0\0\0\0\0\0\0\0\x07\0\0\0".chunks(1) {
        client.feed(octet)?;
    }
    let entry = client.entry(1);
    assert_eq!((entry.kind, entry.is_over, entry.status), (ClientKind::Done, true, 0));
    assert_eq!(client.outs(1, ValueForm::BigEndian)?.as_deref(), Some(&[0, 0, 0, 7][..]));
    assert_eq!((client.exception(1), client.members(1, ValueForm::BigEndian)?, client.forward(1)?), (None, None, None));
    client.take(1)?;
    assert_eq!((client.entry(1).kind, client.ids()?), (ClientKind::Nothing, vec![]));
    assert_eq!((client.rest(), client.blocks()), (0, 0));
    Ok(())
}

#[test]
fn each_kind_of_reply_is_told() -> Result<(), EndError> {
    let mut client = opened();
    // of the interface, IDL:E:1.0 with 258
    add(&mut client)?;
    client.feed(b"GIOP\x01\x02\0\x01\0\0\0\x20\0\0\0\x01\0\0\0\x01\0\0\0\0\0\0\0\x0aIDL:E:1.0\0\0\0\0\0\x01\x02")?;
    assert_eq!(client.exception(1).as_deref(), Some(&b"IDL:E:1.0"[..]));
    assert_eq!(client.members(1, ValueForm::LittleEndian)?.as_deref(), Some(&[2, 1, 0, 0][..]));
    // the out 7 behind the context 6 of two octets
    add(&mut client)?;
    client.feed(b"GIOP\x01\x02\0\x01\0\0\0\x20\0\0\0\x01\0\0\0\0\0\0\0\x01\0\0\0\x06\0\0\0\x02\x04\x05\0\0\0\0\0\0\0\0\0\x07")?;
    assert_eq!((client.entry(1).contexts, client.context(1, 0), client.context(1, 1)), (1, Some((6, vec![4, 5])), None));
    assert_eq!(client.outs(1, ValueForm::BigEndian)?.as_deref(), Some(&[0, 0, 0, 7][..]));
    // of the broker: minor 3, not completed
    add(&mut client)?;
    client.feed(b"GIOP\x01\x02\0\x01\0\0\0\x24\0\0\0\x01\0\0\0\x02\0\0\0\0\0\0\0\x0aIDL:X:1.0\0\0\0\0\0\0\x03\0\0\0\x01")?;
    let entry = client.entry(1);
    assert_eq!((entry.status, entry.minor, entry.completed), (2, 3, Some(false)));
    assert_eq!(client.exception(1).as_deref(), Some(&b"IDL:X:1.0"[..]));
    // a forward to a reference that has no profiles
    add(&mut client)?;
    client.feed(b"GIOP\x01\x02\0\x01\0\0\0\x18\0\0\0\x01\0\0\0\x03\0\0\0\0\0\0\0\x01\0\0\0\0\0\0\0\0")?;
    assert_eq!(client.forward(1)?.as_deref(), Some("IOR:00000000000000010000000000000000"));
    // another disposition is asked for
    add(&mut client)?;
    client.feed(b"GIOP\x01\x02\0\x01\0\0\0\x0e\0\0\0\x01\0\0\0\x05\0\0\0\0\0\x02")?;
    assert_eq!((client.entry(1).status, client.entry(1).addressing), (5, 2));
    // no status: 5 is BadLabel, at the offset of the status
    add(&mut client)?;
    client.feed(b"GIOP\x01\x02\0\x01\0\0\0\x0c\0\0\0\x01\0\0\0\x09\0\0\0\0")?;
    let entry = client.entry(1);
    assert_eq!((entry.kind, entry.fault), (ClientKind::Undecoded, Some(HeadFault { at: 16, number: 5 })));
    Ok(())
}

#[test]
fn refusals_have_their_numbers() -> Result<(), EndError> {
    let mut client = opened();
    let fault = |number, part, id| Err(EndError::Fault(EndFault { at: 0, number, part, id }));
    // 2 is a call's fault, of which 6 is NotOpen, 8 UnknownOperation, 7 Unfit and 1 IdInUse; 9 StillOpen
    assert_eq!(client.cancel(1, false), fault(2, 6, 1));
    assert_eq!(client.call(1, Call::of_key(b"k"), b"mul", ValueForm::BigEndian, &[], Form::default()), fault(2, 8, 1));
    let before = Call { minor: 1, flags: 3, target: Target::Profile(b"") };
    assert_eq!(client.locate(1, before, Form::default()), fault(2, 7, 1));
    add(&mut client)?;
    assert_eq!(add(&mut client), fault(2, 1, 1));
    assert_eq!(client.take(1), fault(9, 0, 0));
    client.cancel(1, false)?;
    assert_eq!(client.entry(1).kind, ClientKind::Cancelled);
    client.close()?;
    assert_eq!(client.feed(b""), fault(7, 0, 0));
    assert_eq!(client.error_message(), None);
    Ok(())
}
