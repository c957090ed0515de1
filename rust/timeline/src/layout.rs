//! Where things stand in the picture, in pixels.

/// Left of the slots: names and scales.
pub const GUTTER: f64 = 190.0;
pub const MARGIN: f64 = 24.0;
/// The heading and the legend.
pub const HEAD: f64 = 76.0;
/// The strip that shows the line itself.
pub const STRIP: f64 = 30.0;
pub const AFTER_STRIP: f64 = 22.0;
/// A place's row: its grants, and below them its credit.
pub const BLOCK: f64 = 22.0;
pub const CREDIT: f64 = 46.0;
pub const ROW: f64 = BLOCK + CREDIT + 20.0;
/// The numbers of the slots.
pub const AXIS: f64 = 44.0;

pub struct Layout {
    slots: usize,
    places: usize,
    /// A slot's width.
    pub slot: f64,
}

impl Layout {
    /// Few slots are drawn wide, many narrow, and very many make the picture longer.
    pub fn of(slots: usize, places: usize) -> Layout {
        Layout { slots, places, slot: (900.0 / slots.max(1) as f64).clamp(6.0, 36.0) }
    }

    /// The left edge of a slot; of the slot after the last, the right end.
    pub fn x(&self, slot: usize) -> f64 {
        GUTTER + self.slot * slot as f64
    }

    pub fn right(&self) -> f64 {
        self.x(self.slots)
    }

    /// The top of a place's row.
    pub fn row(&self, place: usize) -> f64 {
        HEAD + STRIP + AFTER_STRIP + ROW * place as f64
    }

    /// Where credit 0 stands.
    pub fn ground(&self, place: usize) -> f64 {
        self.row(place) + BLOCK + 4.0 + CREDIT
    }

    /// The lower end of the rows.
    pub fn bottom(&self) -> f64 {
        self.row(self.places) - 8.0
    }

    pub fn width(&self) -> f64 {
        (self.right() + MARGIN).max(720.0)
    }

    pub fn height(&self) -> f64 {
        self.bottom() + AXIS
    }

    /// Every how many slots a number stands on the axis.
    pub fn step(&self) -> usize {
        [1, 2, 5, 10, 20, 50, 100].into_iter().find(|&step| self.slot * step as f64 >= 26.0).unwrap_or(100)
    }
}
