//! Octets worked by hand from CORBA 3.3 Part 2, 9.4.1.
use giop::{Error, Fault, FaultKind, Framer, Kind, Message};
use std::error::Error as _;

/// A Request of 1.2, big endian, id 1, to the key "k", of the operation "ping" (9.4.2).
const PING: &[u8] = b"GIOP\x01\x02\0\0\0\0\0\x24\0\0\0\x01\x03\0\0\0\0\0\0\0\
    \0\0\0\x01k\0\0\0\0\0\0\x05ping\0\0\0\0\0\0\0\0";

#[test]
fn a_request_in_two_pieces() -> Result<(), Error> {
    for cut in 0..PING.len() {
        let mut framer = Framer::new(36)?;
        framer.feed(&PING[..cut])?;
        assert!(framer.next()?.is_none());
        assert_eq!(framer.rest(), cut);
        framer.feed(&PING[cut..])?;
        let message = framer.next()?.expect("a whole message");
        assert_eq!(message.kind(), Kind::Request);
        assert_eq!((message.minor(), message.is_little_endian(), message.has_more()), (2, false, false));
        assert_eq!((message.request_id(), message.payload()), (Some(1), &PING[12..]));
        assert_eq!(framer.rest(), 0);
    }
    Ok(())
}

#[test]
fn a_message_is_split_off_where_all_of_it_is_there() -> Result<(), Fault> {
    let two = [PING, PING].concat();
    for size in 0..two.len() {
        let Some((message, behind)) = Message::split_from(&two[..size], 36)? else {
            assert!(size < PING.len());
            continue;
        };
        assert_eq!((message.kind(), message.request_id()), (Kind::Request, Some(1)));
        assert_eq!((message.payload(), behind), (&PING[12..], &two[PING.len()..size]));
    }
    let fault = Fault { at: 8, kind: FaultKind::TooLarge };
    assert_eq!(Message::split_from(&PING[..12], 35).unwrap_err(), fault);
    Ok(())
}

#[test]
fn a_fault_has_its_place_and_stays() -> Result<(), Error> {
    let mut framer = Framer::new(35)?;
    framer.feed(PING)?;
    let fault = Fault { at: 8, kind: FaultKind::TooLarge };
    for _ in 0..2 {
        let error = framer.next().expect_err("36 is above 35");
        assert_eq!(error, Error::Fault(fault));
        assert_eq!(error.to_string(), "TooLarge at 8");
        assert!(error.source().is_some());
    }
    Ok(())
}

#[test]
fn a_cancel_request_of_1_0() -> Result<(), Error> {
    let mut framer = Framer::new(4)?;
    framer.feed(b"GIOP\x01\0\x01\x02\x04\0\0\0\x07\0\0\0")?;
    let message = framer.next()?.expect("a whole message");
    assert_eq!((message.kind(), message.minor()), (Kind::CancelRequest, 0));
    assert!(message.is_little_endian());
    assert_eq!(message.payload(), [7, 0, 0, 0]);
    Ok(())
}

#[test]
fn the_head_of_a_request() -> Result<(), Error> {
    let mut framer = Framer::new(36)?;
    framer.feed(PING)?;
    let message = framer.next()?.expect("a whole message");
    let head = message.request_head().expect("a Request").expect("a lawful head");
    assert_eq!((head.id, head.flags, head.body), (1, 3, 48));
    assert_eq!((head.operation.as_slice(), head.key.as_deref()), (&b"ping"[..], Some(&b"k"[..])));
    // a Request of 1.2 that ends behind its id, so within the response flags at 16
    framer.feed(b"GIOP\x01\x02\0\0\0\0\0\x04\0\0\0\x01")?;
    let message = framer.next()?.expect("a whole message");
    let fault = message.request_head().expect("a Request").expect_err("it is short");
    assert_eq!((fault.at, fault.number), (16, 1));
    Ok(())
}

#[test]
fn a_message_tells_its_request_id_where_it_has_one() -> Result<(), Error> {
    let mut framer = Framer::new(36)?;
    // A CloseConnection; then Replies of 1.1, whose id 5 is behind the context 6 of two octets, and behind a count
    // of contexts that the octets can't hold.
    framer.feed(b"GIOP\x01\x02\0\x05\0\0\0\0")?;
    framer.feed(b"GIOP\x01\x01\0\x01\0\0\0\x14\0\0\0\x01\0\0\0\x06\0\0\0\x02\x04\x05\0\0\0\0\0\x05")?;
    framer.feed(b"GIOP\x01\x01\0\x01\0\0\0\x08\0\0\0\x01\0\0\0\x05")?;
    for id in [None, Some(5), None] {
        assert_eq!(framer.next()?.expect("a whole message").request_id(), id);
    }
    Ok(())
}
