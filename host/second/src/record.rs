//! Timestamps and records (document 01, "Fragments" and "Records, books, frames").

use crate::code::cross_checksum;
use crate::plan::Plan;
use crate::sha256::sha256;

/// The derived order is that of the document: by time, then by the verifier as a big-endian number.
#[derive(Clone, Copy, Debug, PartialEq, Eq, PartialOrd, Ord)]
pub struct Timestamp {
    pub time: u64,
    pub verifier: [u8; 32],
}

impl Timestamp {
    pub const ZERO: Timestamp = Timestamp { time: 0, verifier: [0; 32] };

    /// From exactly 40 bytes.
    pub fn from_bytes(bytes: &[u8]) -> Timestamp {
        let (time, verifier) = bytes.split_at(8);
        Timestamp {
            time: u64::from_be_bytes(time.try_into().expect("8 bytes")),
            verifier: verifier.try_into().expect("32 bytes"),
        }
    }

    pub fn bytes(&self) -> [u8; 40] {
        let mut bytes = [0; 40];
        bytes[..8].copy_from_slice(&self.time.to_be_bytes());
        bytes[8..].copy_from_slice(&self.verifier);
        bytes
    }
}

#[derive(Clone, Debug, PartialEq, Eq)]
pub struct Record {
    pub stamp: Timestamp,
    pub checksum: Vec<u8>,
    pub fragment: Vec<u8>,
}

impl Record {
    /// From exactly R bytes.
    pub fn from_bytes(plan: &Plan, bytes: &[u8]) -> Record {
        assert_eq!(bytes.len(), plan.record_length());
        let (stamp, rest) = bytes.split_at(40);
        let (checksum, fragment) = rest.split_at(plan.checksum_length());
        Record { stamp: Timestamp::from_bytes(stamp), checksum: checksum.to_vec(), fragment: fragment.to_vec() }
    }

    pub fn bytes(&self) -> Vec<u8> {
        [&self.stamp.bytes()[..], &self.checksum, &self.fragment].concat()
    }

    /// The two hash checks, of the node and of the reader alike: the cross checksum against the verifier, the fragment against the
    /// entry of its node.
    pub fn hashes_right(&self, node: usize) -> bool {
        sha256(&self.checksum) == self.stamp.verifier
            && sha256(&self.fragment) == self.checksum[32 * node..32 * node + 32]
    }
}

/// The timestamp of a time and a cross checksum.
pub fn stamp(time: u64, checksum: &[u8]) -> Timestamp {
    Timestamp { time, verifier: sha256(checksum) }
}

/// The N records of these fragments under a new timestamp.
pub fn records(time: u64, fragments: Vec<Vec<u8>>) -> Vec<Record> {
    let checksum = cross_checksum(&fragments);
    under(stamp(time, &checksum), &checksum, fragments)
}

/// The N records of these fragments under a given timestamp and cross checksum.
pub fn under(stamp: Timestamp, checksum: &[u8], fragments: Vec<Vec<u8>>) -> Vec<Record> {
    fragments.into_iter().map(|fragment| Record { stamp, checksum: checksum.to_vec(), fragment }).collect()
}
