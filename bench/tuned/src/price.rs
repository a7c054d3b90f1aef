//! The two prices.
//!
//! Both quote a fraction whose top and bottom have a factor in common: the top is that factor times the shares, and the bottom
//! that factor times a number that is called the parts here. So quotes of one class rank as shares over parts do.

use crate::text::Line;

/// The active count of a client without an estimate.
pub const NO_ESTIMATE: u32 = u32::MAX;

pub trait Price {
    const FACTOR: u32;
    const READS_CLASSES: bool;
    const READS_ESTIMATES: bool;

    /// The parts at k frames: at least k, and at most four times k.
    fn parts(k: u32, active: u32) -> u32;

    fn write_bottom(parts: u32, line: &mut Line);
}

/// The share price: class 0, shares over k.
pub struct Share;

impl Price for Share {
    const FACTOR: u32 = 1;
    const READS_CLASSES: bool = false;
    const READS_ESTIMATES: bool = false;

    fn parts(k: u32, _: u32) -> u32 {
        k
    }

    fn write_bottom(parts: u32, line: &mut Line) {
        line.number(parts);
    }
}

/// The class price over the taxed price at 75: 25 times the shares over 25 for each used frame and 100 for each idle one.
pub struct ClassOverTaxed;

impl Price for ClassOverTaxed {
    const FACTOR: u32 = 25;
    const READS_CLASSES: bool = true;
    const READS_ESTIMATES: bool = true;

    fn parts(k: u32, active: u32) -> u32 {
        4 * k - 3 * k.min(active)
    }

    fn write_bottom(parts: u32, line: &mut Line) {
        line.times_25(parts);
    }
}
