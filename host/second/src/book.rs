//! The book of one node (document 01, "Records, books, frames"). Here a book is read whole into a list of records and written back.

use crate::plan::Plan;
use crate::record::{Record, Timestamp};

#[derive(Clone, Debug, PartialEq, Eq)]
pub struct Book {
    pub node: usize,
    pub records: Vec<Record>,
}

pub const HEADER: usize = 11;
pub const LENT: std::ops::RangeInclusive<usize> = HEADER..=65_536;

impl Book {
    /// The book in these lent bytes; none where they are not of the shape, or not of this plan (another N or F). Hashes of held
    /// records are not looked at.
    pub fn read(plan: &Plan, lent: &[u8]) -> Option<Book> {
        let length = u32::from_be_bytes(lent[..4].try_into().expect("4 bytes")) as usize;
        let (version, n, node) = (lent[4], usize::from(lent[5]), usize::from(lent[6]));
        let f = usize::from(u16::from_be_bytes([lent[7], lent[8]]));
        let count = usize::from(u16::from_be_bytes([lent[9], lent[10]]));
        let size = plan.record_length();
        let shape = version == 1 && n == plan.n && node < n && f == plan.f;
        if !shape || length != 7 + count * size || 4 + length > lent.len() {
            return None;
        }
        let records: Vec<Record> =
            lent[HEADER..4 + length].chunks_exact(size).map(|bytes| Record::from_bytes(plan, bytes)).collect();
        let rising = records.windows(2).all(|two| two[0].stamp < two[1].stamp);
        let timed = records.iter().all(|record| record.stamp.time >= 1);
        (rising && timed).then_some(Book { node, records })
    }

    /// How many bytes are in use.
    pub fn length(&self, plan: &Plan) -> usize {
        HEADER + self.records.len() * plan.record_length()
    }

    /// The bytes in use.
    pub fn bytes(&self, plan: &Plan) -> Vec<u8> {
        let mut bytes = (self.length(plan) as u32 - 4).to_be_bytes().to_vec();
        bytes.extend([1, plan.n as u8, self.node as u8]);
        bytes.extend((plan.f as u16).to_be_bytes());
        bytes.extend((self.records.len() as u16).to_be_bytes());
        bytes.extend(self.records.iter().flat_map(Record::bytes));
        bytes
    }

    /// Over the lent bytes; those past the end in use stay.
    pub fn write(&self, plan: &Plan, lent: &mut [u8]) {
        let bytes = self.bytes(plan);
        lent[..bytes.len()].copy_from_slice(&bytes);
    }

    /// The record of the greatest timestamp; none is the first triple.
    pub fn last(&self) -> Option<&Record> {
        self.records.last()
    }

    /// The last record strictly below the bound; none is the first triple.
    pub fn last_below(&self, bound: Timestamp) -> Option<&Record> {
        self.records.iter().rev().find(|record| record.stamp < bound)
    }

    pub fn held(&self, stamp: Timestamp) -> Option<&Record> {
        self.records.iter().find(|record| record.stamp == stamp)
    }

    pub fn insert(&mut self, record: Record) {
        let place = self.records.iter().filter(|held| held.stamp < record.stamp).count();
        self.records.insert(place, record);
    }
}
