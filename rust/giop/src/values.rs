//! In which form values cross, and which values of an interface they are.

/// How the values of parameters are said in octets.
#[derive(Clone, Copy, Debug, PartialEq, Eq)]
pub enum ValueForm {
    /// CDR in big endian (9.3): the values one after another, each aligned as if the first octet had the
    /// offset 0.
    BigEndian,
    /// The same in little endian.
    LittleEndian,
    /// A text of JSON, a list of the values (docs/FORMATS.md).
    Json,
}

impl ValueForm {
    pub(crate) fn number(self) -> u32 {
        match self {
            ValueForm::BigEndian => 0,
            ValueForm::LittleEndian => 1,
            ValueForm::Json => 2,
        }
    }
}

/// Which values of an interface.
#[derive(Clone, Copy, Debug, PartialEq, Eq)]
pub enum Values<'a> {
    /// The in and inout parameters of the operation of a name.
    Ins(&'a [u8]),
    /// Its result, and then its inout and out parameters.
    Outs(&'a [u8]),
    /// The members of the exception of a repository id.
    Members(&'a [u8]),
}

impl<'a> Values<'a> {
    pub(crate) fn written(self) -> (u32, &'a [u8]) {
        match self {
            Values::Ins(name) => (0, name),
            Values::Outs(name) => (1, name),
            Values::Members(id) => (2, id),
        }
    }
}
