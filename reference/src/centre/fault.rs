//! Faults that can be planted: one for each error that a hurried builder makes, as the outline
//! lists them, and one for each that receipts or spaces in front of addresses make easy.

#[derive(Clone, Copy, Debug, PartialEq, Eq)]
pub enum Fault {
    /// One id counter for all accounts.
    OneCounter,
    /// Number 9 raised by a neighbour's bad record.
    NeighbourRaisesNine,
    /// An empty source treated as matching any source.
    EmptySourceMatchesAny,
    /// A reply to a response.
    ReplyToResponse,
    /// Reuse of a waiting place.
    ReuseOfWaiting,
    /// Status 20 while a finished record could be overwritten.
    FullTooEarly,
    /// Old text octets left behind a shorter text.
    OldTextBehind,
    /// A receipt written to a transmitter.
    ReceiptToTransmitter,
    /// A mark cleared by an answer with any status.
    AnyStatusClears,
    /// A mark cleared by an answer with another sequence number.
    AnySequenceClears,
    /// A marked record written over.
    MarkedOverwritten,
    /// A mark in the record of a message that isn't registered.
    UnregisteredMarked,
    /// A close after which the receipt is still outstanding.
    CloseKeepsReceipt,
    /// A receipt from the message's source to its destination.
    ReceiptNotExchanged,
    /// The same id outstanding on two sessions of an account.
    IdGivenTwice,
    /// Leading spaces that still count.
    SpacesCount,
    /// Leading spaces taken off what is sent, and not off what is kept.
    KeptSpacesCount,
    /// Spaces behind a name taken off too, and tabs.
    Trimmed,
    /// Addresses compared without their ton.
    TonIgnored,
    /// A system_id of spaces only that matches another, or an empty one.
    SpacesMatch,
    /// An empty system_id taken for one of spaces only.
    EmptyMatchesNothing,
    /// A password compared without its leading spaces.
    PasswordUnspaced,
    /// A source stored without its leading spaces.
    StoredUnspaced,
}

impl Fault {
    pub const ALL: [Fault; 23] = [
        Fault::OneCounter,
        Fault::NeighbourRaisesNine,
        Fault::EmptySourceMatchesAny,
        Fault::ReplyToResponse,
        Fault::ReuseOfWaiting,
        Fault::FullTooEarly,
        Fault::OldTextBehind,
        Fault::ReceiptToTransmitter,
        Fault::AnyStatusClears,
        Fault::AnySequenceClears,
        Fault::MarkedOverwritten,
        Fault::UnregisteredMarked,
        Fault::CloseKeepsReceipt,
        Fault::ReceiptNotExchanged,
        Fault::IdGivenTwice,
        Fault::SpacesCount,
        Fault::KeptSpacesCount,
        Fault::Trimmed,
        Fault::TonIgnored,
        Fault::SpacesMatch,
        Fault::EmptyMatchesNothing,
        Fault::PasswordUnspaced,
        Fault::StoredUnspaced,
    ];

    /// The name by which the fault is chosen on a command line.
    pub fn name(self) -> &'static str {
        match self {
            Fault::OneCounter => "one-counter",
            Fault::NeighbourRaisesNine => "neighbour-raises-nine",
            Fault::EmptySourceMatchesAny => "empty-source-matches-any",
            Fault::ReplyToResponse => "reply-to-response",
            Fault::ReuseOfWaiting => "reuse-of-waiting",
            Fault::FullTooEarly => "full-too-early",
            Fault::OldTextBehind => "old-text-behind",
            Fault::ReceiptToTransmitter => "receipt-to-transmitter",
            Fault::AnyStatusClears => "any-status-clears",
            Fault::AnySequenceClears => "any-sequence-clears",
            Fault::MarkedOverwritten => "marked-overwritten",
            Fault::UnregisteredMarked => "unregistered-marked",
            Fault::CloseKeepsReceipt => "close-keeps-receipt",
            Fault::ReceiptNotExchanged => "receipt-not-exchanged",
            Fault::IdGivenTwice => "id-given-twice",
            Fault::SpacesCount => "spaces-count",
            Fault::KeptSpacesCount => "kept-spaces-count",
            Fault::Trimmed => "trimmed",
            Fault::TonIgnored => "ton-ignored",
            Fault::SpacesMatch => "spaces-match",
            Fault::EmptyMatchesNothing => "empty-matches-nothing",
            Fault::PasswordUnspaced => "password-unspaced",
            Fault::StoredUnspaced => "stored-unspaced",
        }
    }

    pub fn named(name: &str) -> Option<Fault> {
        Fault::ALL.into_iter().find(|fault| fault.name() == name)
    }
}
