//! Worked examples of the segment layer, with their answers written out: both sides must give them.

use super::*;
use crate::examples::{bytes, rust_gives, Example, Outcome};
use crate::generate::*;

/// A PCS with a plane of 4 by 1 and no placement.
const P: &str = "50470000000000000000 16 000B 0004 0001 10 0001 80 00 00 00";
/// An END.
const E: &str = "50470000000000000000 80 0000";

/// The examples by number; each says what it shows.
pub const EXAMPLES: [Example; 14] = [
    (1, "length before mark, cut body before a body in END", order_in_a_segment),
    (2, "1 to 12 bytes left over", left_over),
    (3, "a segment uses 13 bytes and its stored size, tail included", used_bytes),
    (4, "PDS bodies of 0 to 3 bytes", short_palettes),
    (5, "a crop only at flag 40", crop_flag),
    (6, "dimensions only at flags 80 and C0", fragments),
    (7, "states and flags are kept as they are", kept_bytes),
    (8, "unknown kinds with bodies of every length", unknown_kinds),
    (9, "a field past the end of its body", cut_fields),
    (10, "the empty stream", empty_stream),
    (11, "the cells of a segment record", record_cells),
    (12, "a stream that is bad at its last byte leaves the list as it was", bad_at_the_end),
    (13, "a segment of size 0 is not refused by 7", no_seven),
    (14, "places past 4 GiB", large_places),
];

fn stream_is(stream: &[u8], wanted: WantedSegments, tally: &mut Tally) -> Outcome {
    rust_gives(oracle::segments(stream), &wanted)?;
    check_segments(stream, &wanted, tally)
}

fn pcs_is(body: &[u8], wanted: WantedPcs, tally: &mut Tally) -> Outcome {
    rust_gives(oracle::pcs(oracle::body(PCS, body).as_ref().map_err(|e| *e)), &wanted)?;
    check_pcs(body, &wanted, tally)
}

fn wds_is(body: &[u8], wanted: WantedWds, tally: &mut Tally) -> Outcome {
    rust_gives(oracle::wds(oracle::body(WDS, body).as_ref().map_err(|e| *e)), &wanted)?;
    check_wds(body, &wanted, tally)
}

fn pds_is(body: &[u8], wanted: WantedPds, tally: &mut Tally) -> Outcome {
    rust_gives(oracle::pds(oracle::body(PDS, body).as_ref().map_err(|e| *e)), &wanted)?;
    check_pds(body, &wanted, tally)
}

fn ods_is(body: &[u8], wanted: WantedOds, tally: &mut Tally) -> Outcome {
    rust_gives(oracle::ods(oracle::body(ODS, body).as_ref().map_err(|e| *e), body), &wanted)?;
    check_ods(body, &wanted, tally)
}

fn order_in_a_segment(tally: &mut Tally) -> Outcome {
    stream_is(&bytes("58 58"), Err(1), tally)?;
    let announced = bytes("50470000000000000000 80 0005");
    stream_is(&announced, Err(3), tally)?;
    stream_is(&[&announced[..], &[0; 4]].concat(), Err(3), tally)?;
    stream_is(&[&announced[..], &[0; 5]].concat(), Err(6), tally)?;
    stream_is(&bytes("50470000000000000000 80 0001 00"), Err(6), tally)
}

fn left_over(tally: &mut Tally) -> Outcome {
    let set = [bytes(P), bytes(E)].concat();
    for good in [bytes(E), bytes(P), set] {
        for count in 1..=12 {
            stream_is(&[&good[..], &[0; 12][..count]].concat(), Err(1), tally)?;
            stream_is(&[&good[..], &bytes(E)[..count]].concat(), Err(1), tally)?;
        }
    }
    Ok(())
}

fn used_bytes(tally: &mut Tally) -> Outcome {
    let tailed = bytes("50470000000000000000 16 000E 0004 0001 10 0001 80 00 00 00 AABBCC");
    let stream = [tailed, bytes(E)].concat();
    rust_gives(oracle::first(&stream).map(|(_, used)| used), &Ok(27))?;
    stream_is(&stream, Ok(([], vec![[0, 0, 0, 0x16, 14], [27, 0, 0, 0x80, 0]])), tally)
}

fn short_palettes(tally: &mut Tally) -> Outcome {
    pds_is(&[], Err(4), tally)?;
    pds_is(&[7], Err(4), tally)?;
    pds_is(&[7, 8], Ok(([7, 8], vec![])), tally)?;
    pds_is(&[7, 8, 9], Err(5), tally)
}

fn crop_flag(tally: &mut Tally) -> Outcome {
    let fields = bytes("0004 0001 10 0001 80 00 00 01");
    let head = [4, 1, 0x10, 1, 0x80, 0, 0];
    for flag in [0xC0, 0x41, 0x80, 0xFF] {
        let body = [&fields[..], &[0, 7, 3, flag, 0, 1, 0, 2]].concat();
        let uncropped = [7, 3, flag as u16, 1, 2, 0, 0, 0, 0, 0];
        pcs_is(&body, Ok((head, vec![uncropped])), tally)?;
        pcs_is(&body[..18], Err(4), tally)?;
    }
    let short = [&fields[..], &[0, 7, 3, 0x40, 0, 1, 0, 2]].concat();
    pcs_is(&short, Err(4), tally)?;
    let body = [&short[..], &[0, 3, 0, 4, 0, 5, 0, 6]].concat();
    pcs_is(&body, Ok((head, vec![[7, 3, 0x40, 1, 2, 1, 3, 4, 5, 6]])), tally)?;
    pcs_is(&body[..26], Err(4), tally)
}

fn fragments(tally: &mut Tally) -> Outcome {
    for flag in [0x80, 0xC0] {
        let body = [0, 7, 2, flag, 0, 0, 6, 0, 2, 0, 1, 0x55, 0x66];
        let record = |data| [7, 2, flag as u64, 6, 1, 2, 1, 11, data];
        ods_is(&body, Ok(record(2)), tally)?;
        ods_is(&body[..11], Ok(record(0)), tally)?;
        for cut in 0..11 {
            ods_is(&body[..cut], Err(4), tally)?;
        }
    }
    for flag in [0x40, 0x00, 0x41, 0xFF] {
        let body = [0, 7, 2, flag, 0, 0, 6, 0x55, 0x66];
        let record = |data| [7, 2, flag as u64, 6, 0, 0, 0, 7, data];
        ods_is(&body, Ok(record(2)), tally)?;
        ods_is(&body[..7], Ok(record(0)), tally)?;
        for cut in 0..7 {
            ods_is(&body[..cut], Err(4), tally)?;
        }
    }
    Ok(())
}

fn kept_bytes(tally: &mut Tally) -> Outcome {
    for b in 0..=255u8 {
        let kept = b as u16;
        let state = [0, 4, 0, 1, 0x10, 0, 1, b, 0, 0, 0];
        pcs_is(&state, Ok(([4, 1, 0x10, 1, kept, 0, 0], vec![])), tally)?;
        let update = [0, 4, 0, 1, 0x10, 0, 1, 0x80, b, 0, 0];
        pcs_is(&update, Ok(([4, 1, 0x10, 1, 0x80, kept, 0], vec![])), tally)?;
        let crop = [0, 4, 0, 1, 0x10, 0, 1, 0x80, 0, 0, 1, 0, 7, 3, b, 0, 1, 0, 2];
        if b != CROPPED {
            let placement = [7, 3, kept, 1, 2, 0, 0, 0, 0, 0];
            pcs_is(&crop, Ok(([4, 1, 0x10, 1, 0x80, 0, 0], vec![placement])), tally)?;
        }
        let first = (b == 0x80 || b == 0xC0) as u64;
        let fragment = [0, 7, 2, b, 1, 2, 3, 0, 9, 0, 8];
        let record = [7, 2, b as u64, 0x010203, first, 9 * first, 8 * first, 7 + 4 * first];
        let [id, version, flag, declared, present, width, height, place] = record;
        let whole = [id, version, flag, declared, present, width, height, place, 11 - place];
        ods_is(&fragment, Ok(whole), tally)?;
    }
    Ok(())
}

fn unknown_kinds(tally: &mut Tally) -> Outcome {
    let stream = |kind, len| segment(kind, 1, 2, &vec![0x16; len]);
    let record = |kind: u8, len| Ok(([], vec![[0, 1, 2, kind as u64, len as u64]]));
    for kind in (0..=255).filter(|kind| !KNOWN.contains(kind)) {
        for len in [0, 1, 65_535] {
            stream_is(&stream(kind, len), record(kind, len), tally)?;
        }
    }
    for len in (0..2_000).chain((2_000..65_536).step_by(101)) {
        stream_is(&stream(0x99, len), record(0x99, len), tally)?;
    }
    Ok(())
}

/// The C interface has no cursor; each body that ends inside a field is 4.
fn cut_fields(tally: &mut Tally) -> Outcome {
    let ones = [1; 20];
    for len in 0..19 {
        pcs_is(&ones[..len], Err(4), tally)?;
    }
    for len in 0..10 {
        wds_is(&ones[..len], Err(4), tally)?;
    }
    wds_is(&ones[..10], Ok(([], vec![[1, 257, 257, 257, 257]])), tally)?;
    for len in 0..2 {
        pds_is(&ones[..len], Err(4), tally)?;
    }
    for len in 0..7 {
        ods_is(&ones[..len], Err(4), tally)?;
    }
    Ok(())
}

fn empty_stream(tally: &mut Tally) -> Outcome {
    stream_is(&[], Ok(([], vec![])), tally)
}

fn record_cells(tally: &mut Tally) -> Outcome {
    let stream = bytes(
        "5047 00015F90 00000000 16 000B 0780043810000180000500 \
         5047 FFFFFFFF FFFFFFFE 99 0003 AABBCC \
         5047 00015F91 00015F8F 80 0000",
    );
    let records = vec![
        [0, 90_000, 0, 0x16, 11],
        [24, 0xFFFF_FFFF, 0xFFFF_FFFE, 0x99, 3],
        [40, 90_001, 89_999, 0x80, 0],
    ];
    stream_is(&stream, Ok(([], records)), tally)
}

fn bad_at_the_end(tally: &mut Tally) -> Outcome {
    let good = bytes(E).repeat(200);
    let bad: [(&str, u8); 5] = [
        ("00", 1),
        ("50470000000000000000 80 0001 00", 6),
        ("50470000000000000000 14 0003 000000", 5),
        ("50470000000000000000 17 0001 01", 4),
        ("50470000000000000000 99 0002 00", 3),
    ];
    for (last, number) in bad {
        stream_is(&[&good[..], &bytes(last)].concat(), Err(number), tally)?;
    }
    Ok(())
}

fn no_seven(tally: &mut Tally) -> Outcome {
    for kind in 0..=255u8 {
        let head = segment(kind, 0, 0, &[]);
        if KNOWN.contains(&kind) && kind != END {
            stream_is(&head, Err(4), tally)?;
        } else {
            let records = vec![[0, 0, 0, kind as u64, 0], [13, 0, 0, 0x80, 0]];
            stream_is(&[head, bytes(E)].concat(), Ok(([], records)), tally)?;
        }
    }
    Ok(())
}

fn large_places(tally: &mut Tally) -> Outcome {
    if !check_past_4_gib(tally)? {
        println!("examples: no memory for a stream past 4 GiB: 14 was not run");
    }
    Ok(())
}
