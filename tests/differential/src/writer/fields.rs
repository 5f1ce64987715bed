//! The fields of one segment, as they are handed to the library's writers.

use crate::generate::{END, ODS, PCS, PDS, WDS};
use crate::lent::{Input, Lent};
use crate::library::*;

#[derive(Clone, Debug, PartialEq)]
pub struct Fields {
    pub times: Times,
    pub body: Body,
}

#[derive(Clone, Debug, PartialEq)]
pub enum Body {
    Pcs(PcsRecord, Vec<PlacementRecord>),
    Wds(Vec<WindowRecord>),
    Pds(PdsRecord, Vec<EntryRecord>),
    Ods(OdsCells, Vec<u8>),
    End,
    /// The kind's byte, and the body.
    Other(u8, Vec<u8>),
}

/// What stands for the writer of unknown kinds, where the others have their kind's byte.
const OTHER: u8 = 0;

impl Fields {
    /// The function that writes them.
    pub fn writer(&self) -> &'static str {
        match self.body {
            Body::Pcs(..) => "pgs_encode_pcs",
            Body::Wds(..) => "pgs_encode_wds",
            Body::Pds(..) => "pgs_encode_pds",
            Body::Ods(..) => "pgs_encode_ods",
            Body::End => "pgs_encode_end",
            Body::Other(..) => "pgs_encode_other",
        }
    }

    /// Writes them by the library.
    pub fn write(&mut self, out: Out) -> u8 {
        let times = self.times;
        match &mut self.body {
            Body::Pcs(pcs, placements) => encode_pcs(times, pcs, placements, out),
            Body::Wds(windows) => encode_wds(times, windows, out),
            Body::Pds(pds, entries) => encode_pds(times, pds, entries, out),
            Body::Ods(ods, data) => encode_ods(times, ods, data, out),
            Body::End => encode_end(times, out),
            Body::Other(kind, data) => encode_other(times, *kind, data, out),
        }
    }

    /// Reads an accepted segment by the library. The lists are exactly long enough.
    pub fn read(segment: &[u8]) -> Result<Fields, String> {
        let mut list: Lent<SegmentRecord> = Lent::new(1, 1);
        let input = Input::new(segment);
        accepted(parse_segments(&input, &mut Lent::new(1, 2), &mut list, &mut Lent::new(1, 3)))?;
        let [_, pts, dts, kind, _] = list.records()[0];
        let body = Body::read(kind as u8, &segment[13..])?;
        Ok(Fields { times: (pts as u32, dts as u32), body })
    }

    /// As an input of the comparison: the writer, PTS, DTS, the kind's byte of an unknown kind, the cells of the
    /// record, then the list or the data.
    pub fn to_input(&self) -> Vec<u8> {
        let (pts, dts) = self.times;
        let front = |writer: u8| [&[writer], &pts.to_be_bytes()[..], &dts.to_be_bytes()].concat();
        match &self.body {
            Body::Pcs(pcs, list) => [front(PCS), wide(pcs), wide(list.as_flattened())].concat(),
            Body::Wds(list) => [front(WDS), wide(list.as_flattened())].concat(),
            Body::Pds(pds, list) => [&front(PDS), &pds[..], list.as_flattened()].concat(),
            Body::Ods(ods, data) => {
                let cells: Vec<u8> = ods.iter().flat_map(|cell| cell.to_be_bytes()).collect();
                [front(ODS), cells, data.clone()].concat()
            }
            Body::End => front(END),
            Body::Other(kind, data) => [&front(OTHER), &[*kind][..], data].concat(),
        }
    }

    /// The reverse; none where the record is cut. A list ends at its last whole record.
    pub fn from_input(input: &[u8]) -> Option<Fields> {
        let (front, rest) = input.split_first_chunk::<9>()?;
        let [pts, dts] = [1, 5].map(|at| u32::from_be_bytes([0, 1, 2, 3].map(|i| front[at + i])));
        let body = match front[0] {
            PCS => {
                let (pcs, list) = rest.split_at_checked(14)?;
                Body::Pcs(narrow(pcs), list.chunks_exact(20).map(narrow).collect())
            }
            WDS => Body::Wds(rest.chunks_exact(10).map(narrow).collect()),
            PDS => {
                let (pds, list) = rest.split_first_chunk()?;
                let entries = list.chunks_exact(5).map(|entry| entry.try_into().expect("five bytes"));
                Body::Pds(*pds, entries.collect())
            }
            ODS => {
                let (cells, data) = rest.split_first_chunk::<28>()?;
                let cell = |i| u32::from_be_bytes([0, 1, 2, 3].map(|j| cells[4 * i + j]));
                Body::Ods(std::array::from_fn(cell), data.to_vec())
            }
            END => Body::End,
            OTHER => {
                let (kind, data) = rest.split_first()?;
                Body::Other(*kind, data.to_vec())
            }
            _ => return None,
        };
        Some(Fields { times: (pts, dts), body })
    }
}

impl Body {
    fn read(kind: u8, body: &[u8]) -> Result<Body, String> {
        let input = Input::new(body);
        let (mut nothing, mut count) = (Lent::new(1, 4), Lent::new(1, 5));
        Ok(match kind {
            PCS => {
                let (mut pcs, mut list) = (Lent::new(1, 6), Lent::new(body[10] as usize, 7));
                accepted(parse_pcs(&input, &mut pcs, &mut list, &mut count))?;
                Body::Pcs(pcs.records()[0], list.records().to_vec())
            }
            WDS => {
                let mut list = Lent::new(body[0] as usize, 7);
                accepted(parse_wds(&input, &mut nothing, &mut list, &mut count))?;
                Body::Wds(list.records().to_vec())
            }
            PDS => {
                let (mut pds, mut list) = (Lent::new(1, 6), Lent::new((body.len() - 2) / 5, 7));
                accepted(parse_pds(&input, &mut pds, &mut list, &mut count))?;
                Body::Pds(pds.records()[0], list.records().to_vec())
            }
            ODS => {
                let mut ods = Lent::new(1, 6);
                accepted(parse_ods(&input, &mut ods))?;
                let [id, version, flag, declared, present, width, height, place, length] = ods.records()[0];
                let cells = [id, version, flag, declared, present, width, height].map(|cell| cell as u32);
                Body::Ods(cells, body[place as usize..][..length as usize].to_vec())
            }
            END => Body::End,
            _ => Body::Other(kind, body.to_vec()),
        })
    }
}

fn accepted(answer: u8) -> Result<(), String> {
    match answer {
        0 => Ok(()),
        number => Err(format!("the library refuses with {number} what the published Rust reads")),
    }
}

/// Cells of 16 bits as bytes.
fn wide(cells: &[u16]) -> Vec<u8> {
    cells.iter().flat_map(|cell| cell.to_be_bytes()).collect()
}

/// The reverse.
fn narrow<const N: usize>(bytes: &[u8]) -> [u16; N] {
    std::array::from_fn(|i| u16::from_be_bytes([bytes[2 * i], bytes[2 * i + 1]]))
}
