//! Values as JSON (docs/FORMATS.md), beside octets worked by hand from CORBA 3.3 Part 2, 9.3 and 9.4.
use giop::{Call, Client, EndError, EndFault, Form, Interface, Limits, Server, ValueForm, Values};

const ADD: &[u8] = br#"{"operations":{"add":{"ins":[["a","long"],["b","long"]],"outs":[["sum","long"]]}},
    "exceptions":{"IDL:E:1.0":[["why","string"],["ok","boolean"]]}}"#;
// The ins 2 and 5 are as long in CDR.
const TWO_AND_FIVE: &[u8] = &[0, 0, 0, 2, 0, 0, 0, 5];

fn interface() -> Interface {
    Interface::from_json(ADD).expect("an interface")
}

fn json_fault(part: u32) -> EndError {
    EndError::Fault(EndFault { at: 0, number: 15, part, id: 0 })
}

#[test]
fn a_call_crosses_two_ends_as_json() -> Result<(), EndError> {
    let mut client = Client::new(&mut interface(), Limits::default()).expect("memory");
    let mut server = Server::new(&mut interface(), Limits::default()).expect("memory");
    client.call(1, Call::of_key(b"k"), b"add", ValueForm::Json, b"[2,5]", Form::default())?;
    server.feed(client.outgoing())?;
    assert_eq!(server.ins(1, ValueForm::Json)?.as_deref(), Some(&b"[2,5]"[..]));
    assert_eq!(server.ins(1, ValueForm::BigEndian)?.as_deref(), Some(TWO_AND_FIVE));
    server.answer(1, ValueForm::Json, b"[7]", Form::default())?;
    client.feed(server.outgoing())?;
    assert_eq!(client.outs(1, ValueForm::Json)?.as_deref(), Some(&b"[7]"[..]));
    Ok(())
}

#[test]
fn an_exception_crosses_two_ends_as_json() -> Result<(), EndError> {
    let mut client = Client::new(&mut interface(), Limits::default()).expect("memory");
    let mut server = Server::new(&mut interface(), Limits::default()).expect("memory");
    client.call(1, Call::of_key(b"k"), b"add", ValueForm::Json, b"[2,5]", Form::default())?;
    server.feed(client.outgoing())?;
    let members = r#"["\u00e9",true]"#.as_bytes();
    server.answer_user(1, b"IDL:E:1.0", ValueForm::Json, members, Form::default())?;
    client.feed(server.outgoing())?;
    // U+00E9 stands for the octet 233, and is two octets of UTF-8
    assert_eq!(client.members(1, ValueForm::Json)?.as_deref(), Some("[\"\u{e9}\",true]".as_bytes()));
    let octets = [0, 0, 0, 2, 233, 0, 1];
    assert_eq!(client.members(1, ValueForm::BigEndian)?.as_deref(), Some(&octets[..]));
    Ok(())
}

#[test]
fn a_text_that_is_no_values_is_told_why() {
    let mut client = Client::new(&mut interface(), Limits::default()).expect("memory");
    let rows: [(&str, u32); 5] = [("[2", 1), ("{}", 2), ("[true,5]", 2), ("[2]", 4), ("[2147483648,5]", 4)];
    for (text, part) in rows {
        let call = Call::of_key(b"k");
        let told = client.call(1, call, b"add", ValueForm::Json, text.as_bytes(), Form::default());
        assert_eq!(told, Err(json_fault(part)), "{text}");
    }
}

#[test]
fn values_cross_to_another_form() -> Result<(), EndError> {
    let mut interface = interface();
    let ins = Values::Ins(b"add");
    let octets = interface.convert(ins, ValueForm::Json, b"[2,5]", ValueForm::BigEndian)?;
    assert_eq!(octets.as_deref(), Some(TWO_AND_FIVE));
    let text = interface.convert(ins, ValueForm::BigEndian, TWO_AND_FIVE, ValueForm::Json)?;
    assert_eq!(text.as_deref(), Some(&b"[2,5]"[..]));
    let text = interface.convert(Values::Outs(b"add"), ValueForm::LittleEndian, &[7, 0, 0, 0], ValueForm::Json)?;
    assert_eq!(text.as_deref(), Some(&b"[7]"[..]));
    assert_eq!(interface.convert(Values::Members(b"add"), ValueForm::Json, b"[]", ValueForm::BigEndian)?, None);
    let cut = interface.convert(ins, ValueForm::BigEndian, &TWO_AND_FIVE[..5], ValueForm::Json);
    assert_eq!(cut, Err(EndError::Fault(EndFault { at: 4, number: 11, part: 1, id: 0 })));
    Ok(())
}
