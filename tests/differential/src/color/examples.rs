//! Worked examples of colours and palettes.

use super::*;
use crate::examples::{rust_gives, Example, Outcome};

pub const EXAMPLES: [Example; 4] = [
    (31, "samples are Y, Cb, Cr; entries are Y, Cr, Cb", chroma_order),
    (32, "every byte is within 1/2 + 1/1000 of the exact value, and not always within 1/2", nearness),
    (33, "an entry with alpha 0 keeps its colour", transparent_entry),
    (34, "every segment with the named id counts, no other", named_segments),
];

/// Colours of document 01: Y, Cb, Cr and the colour.
pub const SAMPLES: [([u8; 3], u32); 2] = [([16, 128, 128], 0x000000), ([81, 90, 240], 0xFF1800)];

/// Whether both sides give this colour.
pub fn color_is(sample: [u8; 3], wanted: u32, tally: &mut Tally) -> Outcome {
    let [y, cb, cr] = sample;
    rust_gives(converted(y, cb, cr), &wanted)?;
    check_color(&sample, tally)
}

const NAMED: u8 = 5;

/// Whether both sides give a table with these colours, and 00 00 00 00 at every other index.
fn table_is(segments: &[Segment], colors: &[(u8, [u8; 4])], tally: &mut Tally) -> Outcome {
    let mut wanted = vec![0; TABLE];
    for (index, color) in colors {
        wanted[4 * *index as usize..][..4].copy_from_slice(color);
    }
    let published: Vec<Pds> = segments.iter().map(published_segment).collect();
    rust_gives(table(&Palette::from_palettes_with_id(&published, NAMED)), &wanted)?;
    for room in [TABLE, TABLE + 3] {
        cleared_and_applied(segments, NAMED, room, &wanted, &mut LentBytes::default(), tally)?;
    }
    Ok(())
}

const RED: EntryRecord = [0x01, 0x51, 0xF0, 0x5A, 0xFF];
const CLEAR_RED: EntryRecord = [0x01, 0x51, 0xF0, 0x5A, 0x00];
const GRAY: EntryRecord = [0x02, 0x7E, 0x80, 0x80, 0x40];

fn chroma_order(tally: &mut Tally) -> Outcome {
    color_is([0x51, 0x5A, 0xF0], 0xFF1800, tally)?;
    color_is([0x51, 0xF0, 0x5A], 0x0848FF, tally)?;
    table_is(&[(NAMED, vec![RED])], &[(1, [0xFF, 0x18, 0x00, 0xFF])], tally)?;
    // Without the exchange the Rust gives the other colour.
    let [id, y, cr, cb, alpha] = RED;
    let unchanged = PaletteEntry { palette_entry_id: id, y, cr, cb, alpha };
    rust_gives(unchanged.to_rgba().to_array(), &[0x08, 0x48, 0xFF, 0xFF])
}

/// The exact values are whole numbers over this.
const EXACT: i64 = 219 * 224 * 10_000;

/// The exact values of R, G and B, not clamped.
fn exact([y, cb, cr]: [u8; 3]) -> [i64; 3] {
    let luma = (y as i64 - 16) * 255 * 224 * 10_000;
    let (blue, red) = ((cb as i64 - 128) * 255 * 219, (cr as i64 - 128) * 255 * 219);
    [luma + 15_748 * red, luma - 1_873 * blue - 4_681 * red, luma + 18_556 * blue]
}

fn nearness(tally: &mut Tally) -> Outcome {
    let mut worst = [0; 3];
    for n in 0..1 << 24 {
        let [_, y, cb, cr] = u32::to_be_bytes(n);
        let [_, given @ ..] = library::ycbcr709_to_rgb(y, cb, cr).to_be_bytes();
        for (channel, exact) in exact([y, cb, cr]).into_iter().enumerate() {
            let error = (given[channel] as i64 * EXACT - exact.clamp(0, 255 * EXACT)).abs();
            worst[channel] = worst[channel].max(error);
        }
    }
    tally.calls += 1 << 24;
    let [_, green, _] = worst;
    if worst.iter().any(|error| 1_000 * error > 501 * EXACT) || 2 * green <= EXACT {
        return Err(format!("the worst errors are {worst:?} of {EXACT}"));
    }
    Ok(())
}

fn transparent_entry(tally: &mut Tally) -> Outcome {
    table_is(&[(NAMED, vec![CLEAR_RED])], &[(1, [0xFF, 0x18, 0x00, 0x00])], tally)?;
    table_is(&[(NAMED, vec![RED, CLEAR_RED])], &[(1, [0xFF, 0x18, 0x00, 0x00])], tally)
}

fn named_segments(tally: &mut Tally) -> Outcome {
    let (red, gray) = ([0xFF, 0x18, 0x00, 0xFF], [0x80, 0x80, 0x80, 0x40]);
    let other = NAMED + 1;
    table_is(&[], &[], tally)?;
    table_is(&[(other, vec![RED, GRAY])], &[], tally)?;
    table_is(&[(NAMED, vec![RED]), (NAMED, vec![GRAY])], &[(1, red), (2, gray)], tally)?;
    table_is(&[(NAMED, vec![CLEAR_RED]), (other, vec![GRAY]), (NAMED, vec![RED])], &[(1, red)], tally)
}
