//! The statuses that a reply carries on the wire.

#[derive(Clone, Copy, Debug, PartialEq, Eq, PartialOrd, Ord)]
#[repr(u8)]
pub enum Status {
    Accepted = 0,
    MessageLength = 1,
    CommandLength = 2,
    CommandId = 3,
    BindStatus = 4,
    AlreadyBound = 5,
    Priority = 6,
    RegisteredFlag = 7,
    System = 8,
    Parameter = 9,
    Source = 10,
    Destination = 11,
    MessageId = 12,
    Password = 13,
    CannotCancel = 17,
    CannotReplace = 19,
    QueueFull = 20,
}

impl Status {
    pub fn code(self) -> u32 {
        self as u32
    }
}
