//! Interfaces by their JSON (docs/FORMATS.md).
use giop::{Interface, InterfaceError};

#[test]
fn an_interface_is_made_or_refused_with_its_number() {
    assert!(Interface::from_json(br#"{"operations":{"ping":{}}}"#).is_ok());
    let rows: [(&[u8], u32, u32); 3] = [
        (b"{", 1, 0),
        (b"[]", 2, 0),
        (br#"{"operations":{"f":{"ins":[["a",{"enum":[]}]]}}}"#, 3, 1),
    ];
    for (text, number, description) in rows {
        let refused = Interface::from_json(text).err();
        assert_eq!(refused, Some(InterfaceError::Refused { number, description }));
    }
}
