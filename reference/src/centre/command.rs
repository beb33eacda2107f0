//! Command ids.

pub const BIND_RECEIVER: u32 = 1;
pub const BIND_TRANSMITTER: u32 = 2;
pub const QUERY_SM: u32 = 3;
pub const SUBMIT_SM: u32 = 4;
/// The one request that the centre sends.
pub const DELIVER_SM: u32 = 5;
pub const UNBIND: u32 = 6;
pub const REPLACE_SM: u32 = 7;
pub const CANCEL_SM: u32 = 8;
pub const ENQUIRE_LINK: u32 = 0x15;

/// The top bit: set in every response, clear in every request.
pub const RESPONSE: u32 = 0x8000_0000;
/// A response to something that isn't a request we know.
pub const GENERIC_NAK: u32 = RESPONSE;
/// The one response that the centre waits for.
pub const DELIVER_SM_RESP: u32 = RESPONSE | DELIVER_SM;
