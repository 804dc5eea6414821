//! Each handle may go to another thread. None may be shared by two at once.
use giop::{Client, Framer, Interface, Limits, Server};
use std::thread;

const fn crosses<T: Send>() {}

const _: () = crosses::<Framer>();
const _: () = crosses::<Interface>();
const _: () = crosses::<Server>();
const _: () = crosses::<Client>();

#[test]
fn a_framer_is_fed_by_another_thread() {
    let mut framer = Framer::new(4).expect("memory");
    let fed = thread::spawn(move || {
        // A CancelRequest of 1.0, little endian, of id 7 (9.4.4)
        let done = framer.feed(b"GIOP\x01\0\x01\x02\x04\0\0\0\x07\0\0\0");
        (framer, done)
    });
    let (mut framer, done) = fed.join().expect("no panic");
    let message = framer.next().expect("no fault").expect("a whole message");
    assert_eq!((done, message.payload()), (Ok(()), &[7, 0, 0, 0][..]));
}

#[test]
fn two_ends_of_one_interface_go_to_two_threads() {
    let mut interface = Interface::from_json(b"{\"operations\":{\"ping\":{}}}").expect("an interface");
    let mut server = Server::new(&mut interface, Limits::default()).expect("memory");
    let mut client = Client::new(&mut interface, Limits::default()).expect("memory");
    // A CloseConnection of 1.2, big endian (9.4.7), which a server's end doesn't take and a client's does
    let closed = b"GIOP\x01\x02\0\x05\0\0\0\0";
    let served = thread::spawn(move || server.feed(closed).is_err());
    let called = thread::spawn(move || client.feed(closed).is_err());
    drop(interface);
    assert!(served.join().expect("no panic") && called.join().expect("no panic"));
}
