//! Why a call or a line is refused.

#[derive(Clone, Copy, PartialEq, Eq, Debug)]
pub enum Refusal {
    FileTooLong,
    /// Tells the first line that does not fit, from 1.
    BadLine(usize),
    RowTooShort,
    DiagramOpen,
    WrongScan,
    UnknownName,
    NameInUse,
    UnknownHandle,
    UnknownKind,
    /// Tells the first bad parameter, 0 to 2.
    BadParameter(usize),
    NoSuchPort,
    PortWired,
    PortUnwired,
    TakesNoFeed,
    NoFreeSlot,
    MakesRing,
    BufferTooShort,
}

impl Refusal {
    pub fn number(self) -> usize {
        match self {
            Refusal::FileTooLong => 1,
            Refusal::BadLine(_) => 2,
            Refusal::RowTooShort => 3,
            Refusal::DiagramOpen => 4,
            Refusal::WrongScan => 5,
            Refusal::UnknownName => 6,
            Refusal::NameInUse => 7,
            Refusal::UnknownHandle => 8,
            Refusal::UnknownKind => 9,
            Refusal::BadParameter(_) => 10,
            Refusal::NoSuchPort => 11,
            Refusal::PortWired => 12,
            Refusal::PortUnwired => 13,
            Refusal::TakesNoFeed => 14,
            Refusal::NoFreeSlot => 15,
            Refusal::MakesRing => 16,
            Refusal::BufferTooShort => 17,
        }
    }
}
