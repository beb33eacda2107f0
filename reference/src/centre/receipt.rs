//! Receipts: the deliver_sm that is written to a receiver for a message that is finished.

use super::account::lowest_marked;
use super::command::DELIVER_SM;
use super::fault::Fault;
use super::message::{Message, Place};
use super::out::{hex, write_pdu, Header, Out};
use super::party::Party;
use super::refusal::Refusal;
use super::state::{Entry, Receipt, State};
use super::status::Status;
use super::{part, Reference, View};

/// A receipt between two addresses that are as long as they get.
pub const LONGEST_RECEIPT: usize = 91;

/// The esm_class of a receipt. SMPP v3.3 says that there is one and names no value.
const RECEIPT: u8 = 4;

/// "id:", eight digits, " stat:" and one digit.
const TEXT: u8 = 18;

impl Reference {
    /// Writes a receipt that is owed to the front of the space, and tells its length. The caller
    /// gives the sequence number, and from now on waits for an answer with that number.
    pub fn deliver(
        &self,
        view: View<'_>,
        state: &mut State,
        session: usize,
        sequence: u32,
        space: &mut [u8],
    ) -> Result<usize, Refusal> {
        let entry = *state.entries.get(session).ok_or(Refusal::NoSuchSession)?;
        let (book, places) = view.records()?;
        if space.len() < LONGEST_RECEIPT {
            return Err(Refusal::SpaceTooSmall);
        }
        if !entry.is_live() {
            return Err(Refusal::WrongEntry);
        }
        self.check_bound_account(book, places, state, entry)?;
        let account = self.account_to_tell(state, session)?;
        let own = part(places, usize::from(account));
        let message = self.owed(own, state, account)?;
        let id = message.id();
        state.receipts[session] = Some(Receipt { id, sequence });
        Ok(self.write_receipt(message, sequence, space))
    }

    /// The account of a receiver that has answered everything that it was sent.
    fn account_to_tell(&self, state: &State, session: usize) -> Result<u8, Refusal> {
        let account = match state.entries[session] {
            Entry::Receiver(account) => Some(account),
            Entry::Transmitter(account) if self.errs(Fault::ReceiptToTransmitter) => Some(account),
            _ => None,
        };
        account
            .filter(|_| state.receipts[session].is_none())
            .ok_or(Refusal::NoReceiver)
    }

    /// The message that a receipt is written for: of those that nobody is being told about, the
    /// one with the lowest id.
    fn owed<'a>(
        &self,
        places: &'a [Place],
        state: &State,
        account: u8,
    ) -> Result<Message<'a>, Refusal> {
        let twice = self.errs(Fault::IdGivenTwice);
        let at = lowest_marked(places, |id| twice || !state.is_outstanding(account, id));
        let at = at.ok_or(Refusal::NothingOwed)?;
        Ok(Message(&places[at]))
    }

    fn write_receipt(&self, message: Message<'_>, sequence: u32, space: &mut [u8]) -> usize {
        let header = Header {
            command: DELIVER_SM,
            status: Status::Accepted.code(),
            sequence,
        };
        // It comes from where the message went to.
        let (source, destination) = if self.errs(Fault::ReceiptNotExchanged) {
            (message.source(), message.destination())
        } else {
            (message.destination(), message.source())
        };
        write_pdu(space, header, |out| {
            write_body(out, message, source, destination);
        })
    }
}

/// The fields of submit_sm, which deliver_sm shares.
fn write_body(out: &mut Out<'_>, message: Message<'_>, source: Party<'_>, destination: Party<'_>) {
    const NO_SERVICE_TYPE: &[u8] = b"";
    const NO_TIME: &[u8] = b"";
    let (protocol_id, priority) = (0, 0);
    let (registered, replace_if_present, data_coding, default_id) = (0, 0, 0, 0);
    out.text(NO_SERVICE_TYPE);
    out.party(source);
    out.party(destination);
    out.octets(&[RECEIPT, protocol_id, priority]);
    out.text(NO_TIME);
    out.text(NO_TIME);
    out.octets(&[registered, replace_if_present, data_coding, default_id]);
    out.octets(&[TEXT]);
    out.octets(b"id:");
    out.octets(&hex(message.id()));
    out.octets(b" stat:");
    out.octets(&[b'0' + message.state()]);
}
