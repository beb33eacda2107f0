//! Vectors: steps with the answers that the documents ask for, as readable text. They are
//! played on any engine, and what an engine does otherwise is told.
//!
//! ```text
//! # what stands behind a sharp sign isn't read
//! account 0 paging secret VMA callback 1/1/447700900000
//! open 0                                 => 0
//! bind 0 transmitter paging secret VMA   => status 0
//!
//! # Effects, submit: an empty source means the callback's ton, npi and address
//! case no source
//! submit 0 from "" to 1/1/5 "hi"         => id 00000001
//! record 0 0 waiting 00000001 from 1/1/447700900000 to 1/1/5 "hi"
//! pick 0                                 => 0 place 0
//! ```
//!
//! A file is one subject. Each `case` begins with a fresh state, an all-zero table and book,
//! and then the lines above the first case.
//!
//! **Calls.** What a script has (see `script`), and besides: `pick ACCOUNT`; `pdu SESSION
//! COMMAND` and the body in pieces, with a header made for it; `octets SESSION` and all of
//! the octets in pieces. A piece is hex digits or a text in quotation marks, and `times N`
//! behind it repeats it. Requests are numbered from 1 in each case, unless `sequence` says
//! otherwise.
//!
//! **What is expected**, behind `=>`: a number alone, where nothing is consumed or written;
//! number, consumed count and reply in hex (or `-`), as the printing program has them; and in
//! short, of one whole request: `status N`, a reply with the body that it has when refused
//! (or always); `id ID`, an accepted submission; `found ID state N error N date TIME`, an
//! answered query, without date where there is none. Of a pick: `0 place PLACE`. Of a deliver:
//! number and deliver_sm in hex, and in short `receipt ID state N from SOURCE to DESTINATION`,
//! the two as they stand in the receipt.
//!
//! **What is looked at**, on lines of its own: `entry SESSION` and closed, open, ended, or
//! transmitter or receiver with an account; `outstanding SESSION` and none, or an id and a
//! sequence number, as they stand in the state; `last ACCOUNT ID`; `states ACCOUNT`, `marks
//! ACCOUNT` and `ids ACCOUNT` with sixteen numbers; `record ACCOUNT PLACE empty`, or with state,
//! id, `final TIME`, `error N`, `marked` and then all that a submission has; `holds ACCOUNT PLACE
//! at OCTET` and pieces; `changed ACCOUNT place PLACE at 0 233-248 ..`, the octets of the table
//! that the last call changed, or `changed nothing`.
//!
//! **What is set**: `stamp`, `sequence`, `space OCTETS` (else what the call needs) and `lend BOOK
//! TABLE` for the lines behind; `account` in the book, where nothing has to be well formed; `put
//! book ACCOUNT at OCTET` and `put record ACCOUNT PLACE at OCTET`, with pieces; `put last ACCOUNT
//! ID`; `put entry SESSION` and an entry; `put outstanding SESSION` and a receipt, on whatever
//! session.
//!
//! Ids are in hex everywhere, other numbers in decimal. Besides what a line expects, every
//! call is held to this: where its number isn't 0 it changes nothing, where its reply's status
//! isn't 0 or it writes a receipt it changes no message and no last id, and it leaves the space
//! behind what it writes.

mod expected;
mod files;
mod look;
mod pieces;
mod play;
mod read;

pub use expected::Expected;
pub use files::{files, File};
pub use look::Look;
pub use play::{play, Failure};
pub use read::{read, Case, Does, Line};
