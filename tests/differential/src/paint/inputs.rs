//! The inputs of the layer: crops and positions exhaustively, every refusal, random sets and damaged copies.

use super::{check, examples};
use crate::bitmap::codes::{good_data, runs};
use crate::captions::{captions, HOUR};
use crate::generate::{damaged, segment, starts, CROPPED, END, ODS, PCS, PDS, WDS};
use crate::prng::Prng;
use crate::run::{Group, Run, Sink};
use crate::sets::inputs as sets;

pub fn groups() -> Vec<Group> {
    let group = |name, inputs| Group { name, inputs };
    vec![
        group("every place around a plane of 4 by 3, and at 65,535", |run| streams(run, every_place)),
        group("every crop around an object of 3 by 2, and at 65,535", |run| streams(run, every_crop)),
        group("letters over letters, transparent ones too", |run| streams(run, overlapping)),
        group("palettes before and after the objects, of several ids", |run| streams(run, palettes)),
        group("bad bitmaps and absent objects, placed and not", |run| streams(run, refused)),
        group("empty planes, empty objects", |run| streams(run, empty)),
        group("63 to 66 objects, and one fragment more", |run| streams(run, sets::many_objects)),
        group("planes of 1920 by 1080", |run| streams(run, screens)),
        group("random sets", |run| streams(run, random)),
        group("damaged sets", |run| streams(run, damaged_sets)),
        group("good sets of the layer of sets", |run| streams(run, sets::good)),
        group("random segments of sets", |run| streams(run, sets::random)),
        group("the worked examples", |run| streams(run, examples::streams)),
    ]
}

fn streams(run: &mut Run, make: fn(&mut Sink)) {
    run.compare_streams(run.streams / 4, make, "paint", check);
}

/// Where an object goes, with a crop or without.
#[derive(Clone, Copy)]
pub struct Placement {
    pub id: u16,
    pub at: (u16, u16),
    pub flag: u8,
    pub crop: Option<[u16; 4]>,
}

/// A placement whose flag says whether there is a crop.
pub fn placed(id: u16, at: (u16, u16), crop: Option<[u16; 4]>) -> Placement {
    Placement { id, at, flag: if crop.is_some() { CROPPED } else { 0 }, crop }
}

pub fn whole(id: u16, x: u16, y: u16) -> Placement {
    placed(id, (x, y), None)
}

/// The body of a composition that names palette 5.
pub fn composition((width, height): (u16, u16), placements: &[Placement]) -> Vec<u8> {
    let [width, height] = [width, height].map(u16::to_be_bytes);
    let mut body = [width, height].concat();
    body.extend([0x10, 0, 1, 0x80, 0, 5, placements.len() as u8]);
    for Placement { id, at: (x, y), flag, crop } in placements {
        let [id, x, y] = [*id, *x, *y].map(u16::to_be_bytes);
        body.extend([id, [0, *flag], x, y].concat());
        body.extend(crop.iter().flatten().flat_map(|cell| cell.to_be_bytes()));
    }
    body
}

fn pcs(plane: (u16, u16), placements: &[Placement]) -> Vec<u8> {
    segment(PCS, 0x0001_5F90, 7, &composition(plane, placements))
}

/// A palette: entries of id, Y, Cr, Cb, alpha.
pub fn pds(id: u8, entries: &[[u8; 5]]) -> Vec<u8> {
    segment(PDS, 1, 0, &[&[id, 0], entries.as_flattened()].concat())
}

/// The palette that most sets have: some colours, one of them transparent, and no entry from 6 on.
fn colors() -> Vec<u8> {
    let entries = [
        [1, 0x51, 0xF0, 0x5A, 0xFF],
        [2, 0x91, 0x22, 0x36, 0x80],
        [3, 0x29, 0x6E, 0xF0, 0x00],
        [4, 0xEB, 0x80, 0x80, 0xFF],
        [5, 0x10, 0x80, 0x80, 0x01],
    ];
    pds(5, &entries)
}

/// An object of one fragment.
pub fn ods(id: u16, (width, height): (u16, u16), data: &[u8]) -> Vec<u8> {
    let declared = (data.len() as u32 + 4).to_be_bytes();
    let [id, width, height] = [id, width, height].map(u16::to_be_bytes);
    let head = [&id[..], &[0, 0xC0], &declared[1..], &width, &height].concat();
    segment(ODS, 1, 0, &[&head[..], data].concat())
}

/// The same object in two fragments.
pub fn split(id: u16, (width, height): (u16, u16), data: &[u8]) -> [Vec<u8>; 2] {
    let declared = (data.len() as u32 + 4).to_be_bytes();
    let (front, rest) = data.split_at(data.len() / 2);
    let [id, width, height] = [id, width, height].map(u16::to_be_bytes);
    let first = [&id[..], &[0, 0x80], &declared[1..], &width, &height, front].concat();
    let last = [&id[..], &[0, 0x40, 0, 0, 0], rest].concat();
    [segment(ODS, 1, 0, &first), segment(ODS, 1, 0, &last)]
}

pub fn end() -> Vec<u8> {
    segment(END, 1, 0, &[])
}

/// An object of 3 by 2 whose pixels all differ.
fn six() -> Vec<u8> {
    ods(7, (3, 2), &[1, 2, 3, 0, 0, 4, 5, 6, 0, 0])
}

fn every_place(to: &mut Sink) {
    let places = |most: u16| (0..=most).chain([254, 255, 256, 32_767, 32_768, 65_533, 65_534, 65_535]);
    for x in places(5) {
        for y in places(4) {
            for crop in [None, Some([0, 0, 3, 2]), Some([1, 1, 2, 1]), Some([1, 0, 65_535, 65_535])] {
                let placement = placed(7, (x, y), crop);
                to.stream(&[pcs((4, 3), &[placement]), colors(), six(), end()].concat());
            }
        }
    }
}

fn every_crop(to: &mut Sink) {
    let cells = |most: u16| (0..=most).chain([65_534, 65_535]);
    for x in cells(4) {
        for y in cells(3) {
            for width in cells(4) {
                for height in cells(3) {
                    let crop = Some([x, y, width, height]);
                    let two = [placed(7, (1, 1), crop), placed(7, (3, 0), crop)];
                    to.stream(&[pcs((4, 3), &two), colors(), six(), end()].concat());
                }
            }
        }
    }
}

/// Two objects in every order and place over each other; index 6 has no entry, index 3 is transparent.
fn overlapping(to: &mut Sink) {
    let other = ods(8, (2, 2), &[3, 6, 0, 0, 0, 0x82, 2, 0, 0]);
    for x in 0..4 {
        for y in 0..3 {
            for order in 0..4 {
                let (first, second) = (whole(7, 1, 0), whole(8, x, y));
                let placements = match order {
                    0 => vec![first, second],
                    1 => vec![second, first],
                    2 => vec![first, second, first],
                    _ => vec![second, second, whole(8, y, x)],
                };
                to.stream(&[pcs((4, 3), &placements), colors(), six(), other.clone(), end()].concat());
            }
        }
    }
}

fn palettes(to: &mut Sink) {
    let placements = [whole(7, 0, 0)];
    let parts = [
        colors(),
        pds(5, &[[1, 0xEB, 0x80, 0x80, 0x10], [1, 0x10, 0x90, 0x70, 0x20]]),
        pds(6, &[[2, 0x51, 0xF0, 0x5A, 0xFF]]),
        pds(5, &[]),
        pds(5, &[[0, 0x51, 0xF0, 0x5A, 0xFF], [255, 1, 2, 3, 4]]),
    ];
    for first in 0..=parts.len() {
        for second in 0..=parts.len() {
            for place in 0..3 {
                let mut all = vec![pcs((4, 3), &placements)];
                let palette = |number: usize| parts.get(number).cloned().unwrap_or_default();
                let (a, b) = (palette(first), palette(second));
                match place {
                    0 => all.extend([a, b, six()]),
                    1 => all.extend([a, six(), b]),
                    _ => all.extend([six(), a, b]),
                }
                all.push(end());
                to.stream(&all.concat());
            }
        }
    }
}

/// A bitmap of each refusal: for an object of 2 by 1.
const BAD: [&[u8]; 11] = [
    &[5, 5, 5],
    &[5, 5, 0],
    &[0, 0x40],
    &[0, 0x80],
    &[0, 0xC0, 1],
    &[0, 0],
    &[5, 5, 0, 0, 6, 6, 0, 0],
    &[5],
    &[5, 5, 0, 0, 6, 6],
    &[],
    &[5, 5, 0, 0, 0, 0x40, 0],
];

/// Bad bitmaps at each place among good ones, joined and not; placements of theirs, of others, of absent ids.
fn refused(to: &mut Sink) {
    let placed = [vec![], vec![1], vec![2], vec![1, 2], vec![9], vec![1, 9], vec![9, 2], vec![3, 3, 1]];
    for bad in BAD {
        for ids in &placed {
            for shape in 0..4 {
                let places: Vec<Placement> = ids.iter().map(|id| whole(*id, 0, 0)).collect();
                let [first, last] = split(1, (2, 1), bad);
                let good = ods(3, (2, 1), &[4, 4]);
                let objects = match shape {
                    0 => vec![ods(1, (2, 1), bad), ods(2, (2, 1), &[1, 2]), good],
                    1 => vec![good, first, ods(2, (2, 1), BAD[3]), last],
                    2 => vec![ods(2, (2, 1), &[1, 2]), good, first, last],
                    _ => vec![first, ods(2, (2, 1), &[3, 3]), last, good],
                };
                to.stream(&[pcs((4, 3), &places), colors(), objects.concat(), end()].concat());
            }
        }
    }
}

fn empty(to: &mut Sink) {
    for plane in [(0, 0), (0, 3), (3, 0), (1, 1)] {
        for size in [(0, 0), (0, 2), (2, 0), (65_535, 0), (1, 1)] {
            let lines = if size.0 == 0 {
                [0, 0].repeat(size.1 as usize)
            } else {
                vec![1; (size.0 * size.1) as usize]
            };
            for id in [7, 9] {
                for crop in [None, Some([0, 0, 1, 1])] {
                    let placement = placed(id, (0, 0), crop);
                    to.stream(&[pcs(plane, &[placement]), colors(), ods(7, size, &lines), end()].concat());
                }
            }
            to.stream(&[pcs(plane, &[]), colors(), ods(7, size, &lines), end()].concat());
        }
    }
    to.stream(&[pcs((65_535, 65_535), &[]), end()].concat());
    to.stream(&[pcs((65_535, 65_535), &[whole(7, 0, 0)]), ods(7, (65_535, 65_535), &[]), end()].concat());
    to.stream(&[pcs((4, 3), &[]), ods(7, (65_535, 65_535), &[]), end()].concat());
}

/// Some sets of captions, each alone, a quarter of an hour, and the sample sentences.
fn screens(to: &mut Sink) {
    to.stream(include_bytes!("../../../../samples/sentences.sup"));
    let mut p = Prng::named(to.seed, "screens");
    let some = captions(&mut p, 12);
    let mut from = 0;
    for at in starts(&some) {
        if some[at + 10] == END {
            to.stream(&some[from..at + 13]);
            from = at + 13;
        }
    }
    to.stream(&captions(&mut p, HOUR / 4));
}

/// A size: mostly small, now and then 0 or larger.
fn size(p: &mut Prng) -> u16 {
    match p.below(20) {
        0 => 0,
        1 => p.between(1, 70) as u16,
        _ => p.between(1, 9) as u16,
    }
}

/// A position or a crop's cell: mostly on the plane or the object, now and then far off.
fn cell(p: &mut Prng, most: u16) -> u16 {
    match p.below(12) {
        0 => p.pick(&[65_535, 65_534, 32_768, 256, 255]),
        1 => p.next() as u16,
        _ => p.between(0, most as usize + 2) as u16,
    }
}

/// A set whose objects decode, their fragments mixed; now and then one that is refused.
fn set(p: &mut Prng) -> Vec<u8> {
    let plane = (size(p) + p.below(20) as u16, size(p) + p.below(8) as u16);
    let objects: Vec<(u16, (u16, u16))> =
        (0..p.between(0, 4)).map(|id| (3 * id as u16 + 1, (size(p), size(p)))).collect();
    let mut placements = Vec::new();
    for _ in 0..p.between(0, 8) {
        let absent = objects.is_empty() || p.once_in(60);
        let (id, size) = if absent { (999, (1, 1)) } else { p.pick(&objects) };
        if absent && !p.once_in(8) {
            continue;
        }
        let at = (cell(p, plane.0), cell(p, plane.1));
        let crop = p.once_in(2).then(|| [size.0, size.1, size.0, size.1].map(|most| cell(p, most)));
        placements.push(placed(id, at, crop));
    }
    let mut chains: Vec<Vec<Vec<u8>>> = objects.iter().map(|(id, size)| chain(p, *id, *size)).collect();
    let mut stream = pcs(plane, &placements);
    if p.once_in(2) {
        stream.extend(segment(WDS, 1, 0, &[0]));
    }
    while chains.iter().any(|chain| !chain.is_empty()) {
        let at = p.below(chains.len() + 1);
        match chains.get_mut(at) {
            Some(chain) if !chain.is_empty() => stream.extend(chain.remove(0)),
            Some(_) => {}
            None => stream.extend(palette(p)),
        }
    }
    stream.extend(palette(p));
    stream.extend(end());
    stream
}

fn chain(p: &mut Prng, id: u16, size: (u16, u16)) -> Vec<Vec<u8>> {
    let mut data = good_data(p, size.0, size.1);
    if p.once_in(40) {
        let run = p.pick(&runs(1, 1));
        run.put(&mut data);
    }
    if p.once_in(2) {
        vec![ods(id, size, &data)]
    } else {
        split(id, size, &data).to_vec()
    }
}

fn palette(p: &mut Prng) -> Vec<u8> {
    let entries: Vec<[u8; 5]> = (0..p.below(9))
        .map(|_| {
            let any = p.byte();
            let id = p.pick(&[0, 1, 2, 7, 0x40, 0x80, 0xFF, any]);
            [id, p.byte(), p.byte(), p.byte(), p.pick(&[0, 255, any])]
        })
        .collect();
    pds(p.pick(&[5, 5, 5, 6]), &entries)
}

fn random(to: &mut Sink) {
    let mut p = Prng::named(to.seed, "random sets");
    for _ in 0..to.streams {
        let count = p.pick(&[1, 1, 1, 2]);
        let stream: Vec<u8> = (0..count).flat_map(|_| set(&mut p)).collect();
        to.stream(&stream);
    }
}

fn damaged_sets(to: &mut Sink) {
    let mut p = Prng::named(to.seed, "damaged sets to paint");
    for _ in 0..to.streams / 2 {
        let good = set(&mut p);
        to.stream(&damaged(&mut p, &good));
    }
}
