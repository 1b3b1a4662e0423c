//! Frames (document 01, "Records, books, frames"): 4 byte length of the rest, version 1, kind, node, 8 byte ask number, body.

use crate::plan::Plan;
use crate::record::{Record, Timestamp};
use crate::refusal::{require, Refusal};

/// An ask number counts a client's rounds; a type of its own, so that it is never taken for a logical time.
#[derive(Clone, Copy, Debug, PartialEq, Eq)]
pub struct Ask(pub u64);

#[derive(Clone, Debug, PartialEq, Eq)]
pub enum Body {
    TimeRequest,
    TimeReply(u64),
    WriteRequest(Record),
    WriteReply(Timestamp),
    ReadLatest,
    ReadPrevious(Timestamp),
    /// None for the first triple.
    ReadReply(Option<Record>),
}

#[derive(Clone, Debug, PartialEq, Eq)]
pub struct Frame {
    pub node: usize,
    pub ask: Ask,
    pub body: Body,
}

/// "Kind for this party": a node hears requests, a client replies.
#[derive(Clone, Copy, Debug, PartialEq, Eq)]
pub enum Party {
    Node,
    Client,
}

pub const HEADER: usize = 15;

impl Frame {
    /// The frame that fills the lent slice. Refusal 4 for every fault of length, version or kind; the node is left to the party.
    pub fn read(plan: &Plan, party: Party, lent: &[u8]) -> Result<Frame, Refusal> {
        require(lent.len() >= HEADER, Refusal::Frame)?;
        let length = u32::from_be_bytes(lent[..4].try_into().expect("4 bytes"));
        require(u64::from(length) == lent.len() as u64 - 4, Refusal::Frame)?;
        require(lent[4] == 1, Refusal::Frame)?;
        let body = Body::read(plan, party, lent[5], &lent[HEADER..]).ok_or(Refusal::Frame)?;
        let ask = Ask(u64::from_be_bytes(lent[7..HEADER].try_into().expect("8 bytes")));
        Ok(Frame { node: usize::from(lent[6]), ask, body })
    }

    pub fn bytes(&self) -> Vec<u8> {
        let body = self.body.bytes();
        let mut bytes = ((HEADER - 4 + body.len()) as u32).to_be_bytes().to_vec();
        bytes.extend([1, self.body.kind(), self.node as u8]);
        bytes.extend(self.ask.0.to_be_bytes());
        bytes.extend(body);
        bytes
    }

    /// Over the start of a lent buffer; bytes past the frame stay.
    pub fn write(&self, lent: &mut [u8]) {
        let bytes = self.bytes();
        lent[..bytes.len()].copy_from_slice(&bytes);
    }
}

impl Body {
    /// None where the kind is not for this party, or the length not for the kind.
    fn read(plan: &Plan, party: Party, kind: u8, bytes: &[u8]) -> Option<Body> {
        let record = plan.record_length();
        match (party, kind, bytes.len()) {
            (Party::Node, 1, 0) => Some(Body::TimeRequest),
            (Party::Client, 2, 8) => Some(Body::TimeReply(u64::from_be_bytes(bytes.try_into().expect("8 bytes")))),
            (Party::Node, 3, length) if length == record => Some(Body::WriteRequest(Record::from_bytes(plan, bytes))),
            (Party::Client, 4, 40) => Some(Body::WriteReply(Timestamp::from_bytes(bytes))),
            (Party::Node, 5, 0) => Some(Body::ReadLatest),
            (Party::Node, 6, 40) => Some(Body::ReadPrevious(Timestamp::from_bytes(bytes))),
            (Party::Client, 7, 0) => Some(Body::ReadReply(None)),
            (Party::Client, 7, length) if length == record => {
                Some(Body::ReadReply(Some(Record::from_bytes(plan, bytes))))
            }
            _ => None,
        }
    }

    pub fn kind(&self) -> u8 {
        match self {
            Body::TimeRequest => 1,
            Body::TimeReply(_) => 2,
            Body::WriteRequest(_) => 3,
            Body::WriteReply(_) => 4,
            Body::ReadLatest => 5,
            Body::ReadPrevious(_) => 6,
            Body::ReadReply(_) => 7,
        }
    }

    fn bytes(&self) -> Vec<u8> {
        match self {
            Body::TimeRequest | Body::ReadLatest | Body::ReadReply(None) => Vec::new(),
            Body::TimeReply(time) => time.to_be_bytes().to_vec(),
            Body::WriteReply(stamp) | Body::ReadPrevious(stamp) => stamp.bytes().to_vec(),
            Body::WriteRequest(record) | Body::ReadReply(Some(record)) => record.bytes(),
        }
    }
}
