// The boundaries of an OOK train in carry mode, from the text of R-1 (document 02) alone. tests/cut puts this file behind the lane
// that it cuts; `Lane::sample` takes its two widths here where the settings have carry on, and from the published `width` elsewhere.

/// "A larger difference counts as 2^47."
const BOUNDARY_MOST: i64 = 1 << 47;

/// No slot of a train.
const NO_SLOT: u32 = u32::MAX;

/// The boundaries of the train under way.
#[derive(Clone, Copy, Default)]
struct Boundaries {
    /// The first pulse's edge.
    origin: f64,
    /// The boundary before, in 64ths of a step.
    last: i64,
    /// The slots whose widths were taken, and the first of them of which `width` gives another number, or at whose end the
    /// boundary before held back a smaller one. They count cases and decide nothing.
    slots: u32,
    other_at: u32,
    held_at: u32,
}

/// "The edge's f64 difference from the first pulse's edge in 64ths of a step, to the nearest whole 64th with ties away from zero";
/// "a larger difference counts as 2^47, NaN as 0".
fn in_64ths(difference: f64) -> i64 {
    ((difference * 64.0).round() as i64).min(BOUNDARY_MOST)
}

/// "Each rounded to whole steps with ties up."
fn in_steps(boundary: i64) -> i64 {
    (boundary + 32).div_euclid(64)
}

impl Boundaries {
    /// Those of a train whose first pulse has this edge: its boundary is 0.
    fn from(origin: f64) -> Self {
        Self { origin, last: 0, slots: 0, other_at: NO_SLOT, held_at: NO_SLOT }
    }

    /// The width of the slot that ends at this edge, which becomes the boundary before; `plain` is what `width` gives.
    fn width(&mut self, edge: f64, plain: u32) -> u32 {
        let here = in_64ths(edge - self.origin);
        // "Never below the boundary before."
        let boundary = here.max(self.last);
        let steps = in_steps(boundary) - in_steps(self.last);
        // "A width stops at 2^32 - 1"; it is not below 0.
        let width = u32::try_from(steps).unwrap_or(u32::MAX);
        if width != plain {
            self.other_at = self.other_at.min(self.slots);
        }
        if here < self.last {
            self.held_at = self.held_at.min(self.slots);
        }
        self.slots += 1;
        self.last = boundary;
        width
    }
}
