//! The layer of painting: the plane of a display set.

mod examples;
mod inputs;
pub mod oracle;

use crate::compare::{same_number, Tally};
use crate::lent::{Input, Lent, LentBytes};
use crate::library::{self, ShownRecord};
use crate::numbers::TOO_SHORT;
use crate::run::Layer;
use crate::sets::NO_SUCH_SET;
use oracle::{Painting, WantedPlane};
use std::cell::RefCell;

pub use examples::EXAMPLES;

pub const LAYER: Layer = Layer {
    name: "paint",
    groups: inputs::groups,
    answers: &[(
        "pgs_render",
        &[
            0, 1, 2, 3, 4, 5, 6, 8, 9, 10, 11, 12, 13, 14, 15, 16, 17, 18, 19, 20, 21, 22, 23, 24, 25, 26,
            27, 28, 29, 30, 31, 32, 33, 34, 36,
        ],
    )],
};

/// Of a stream with more sets, some are painted.
const MOST_SETS: usize = 64;

/// Compares the plane of each set of a stream, of the last and some others if there are many, and of some that are not
/// there.
pub fn check(stream: &[u8], tally: &mut Tally) -> Result<(), String> {
    match crate::sets::oracle::sets(stream) {
        Err(number) => [0, u64::MAX]
            .iter()
            .try_for_each(|set| check_plane(stream, *set, &WantedPlane::Refused(number), tally)),
        Ok(sets) => {
            let step = if sets.len() > MOST_SETS { sets.len() / 7 } else { 1 };
            for (number, set) in sets.iter().enumerate().rev().step_by(step) {
                check_plane(stream, number as u64, &oracle::plane(stream, set), tally)?;
            }
            let past = sets.len() as u64;
            [past, past + (1 << 32), u64::MAX]
                .iter()
                .try_for_each(|set| check_plane(stream, *set, &WantedPlane::Refused(NO_SUCH_SET), tally))
        }
    }
}

thread_local! {
    /// The stream, the scratch and the plane of one call after the other.
    static LENT: RefCell<(Input, LentBytes, LentBytes)> = RefCell::default();
}

/// Compares one plane with the wanted one. Scratch and plane are exactly long enough, longer, and in turn one byte too
/// short; where the call is refused in any case, none and some are lent.
pub fn check_plane(stream: &[u8], set: u64, wanted: &WantedPlane, tally: &mut Tally) -> Result<(), String> {
    tally.inputs.planes += 1;
    let mut rooms = match wanted {
        WantedPlane::Refused(_) => vec![(0, 0), (stream.len().min(100), 64)],
        WantedPlane::Needs(scratch, plane) => {
            let most = |need: &u64| (*need).min(1_000) as usize;
            vec![(most(scratch), 0), (0, most(plane)), (0, 0)]
        }
        WantedPlane::Read(Painting { needs: (scratch, plane), .. }) => {
            let (less, smaller) = (scratch.saturating_sub(1), plane.saturating_sub(1));
            vec![(*scratch, *plane), (scratch + 5, plane + 9), (less, *plane), (*scratch, smaller), (0, 0)]
        }
    };
    rooms.dedup();
    LENT.with_borrow_mut(|(input, scratch, plane)| {
        input.set(stream);
        for (bytes, pixels) in rooms {
            call(tally, input, set, wanted, (bytes, scratch), (pixels, plane)).map_err(|what| {
                format!("pgs_render, set {set}, scratch of {bytes} and plane of {pixels} bytes: {what}")
            })?;
        }
        input.holds(stream)
    })
}

/// One call with so many bytes of scratch and plane.
fn call(
    tally: &mut Tally,
    input: &Input,
    set: u64,
    wanted: &WantedPlane,
    (bytes, scratch): (usize, &mut LentBytes),
    (pixels, plane): (usize, &mut LentBytes),
) -> Result<(), String> {
    let mut shown: Lent<ShownRecord> = Lent::new(1, 23);
    let lent = ((scratch.pointer(bytes), bytes), (plane.pointer(pixels), pixels));
    let answer = library::render(input, set, lent.0, lent.1, &mut shown);
    let (number, scratch_then, plane_then, shown_then): (u8, &[u8], &[u8], &[ShownRecord]) = match wanted {
        WantedPlane::Refused(number) => (*number, &[], &[], &[]),
        WantedPlane::Needs(..) => (TOO_SHORT, &[], &[], &[]),
        WantedPlane::Read(p) if bytes < p.needs.0 || pixels < p.needs.1 => (TOO_SHORT, &[], &[], &[]),
        WantedPlane::Read(p) => match &p.painted {
            Ok((plane, shown)) => (0, &p.scratch, plane, std::slice::from_ref(shown)),
            Err(number) => (*number, &p.scratch, &[], &[]),
        },
    };
    tally.called("pgs_render", number);
    let scratch_held = scratch.hold(bytes, scratch_then).map_err(|what| format!("scratch: {what}"));
    let plane_held = plane.hold(pixels, plane_then).map_err(|what| format!("plane: {what}"));
    same_number(answer, number)?;
    scratch_held.and(plane_held)?;
    shown.holds("shown", shown_then)
}
