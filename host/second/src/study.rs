//! Segments, train entries and the refusals of their figures (01, "The study", "Turned back for a figure";
//! 02, L1 and L4).

use crate::steps;

/// Most segments and train entries of a study.
pub const SEGMENT_LIMIT: usize = 24;
pub const ENTRY_LIMIT: usize = 96;

/// Centimetres, degrees, tenths and decimetres as entered.
#[derive(Clone, Copy, PartialEq, Eq, Debug)]
pub struct Segment {
    pub distance: i32,
    pub window_height: i32,
    pub mean_height: i32,
    pub soft_ground: i32,
    pub view_angle: i32,
    /// Twice the angle of Figure 9.
    pub double_angle: i32,
    pub screen: i32,
    pub screen_distance: i32,
    pub screen_top: i32,
    pub reflection_reading: i32,
    pub track_reading: i32,
    pub ballast_reading: i32,
    pub facade: i32,
    pub opposite_angle: i32,
    /// The far wall's height.
    pub wall: i32,
}

#[derive(Clone, Copy, PartialEq, Eq, Debug)]
pub struct Entry {
    pub row: i32,
    pub speed: i32,
    pub vehicles: i32,
    pub day_trains: i32,
    pub night_trains: i32,
}

/// Segments in order, and entries in order, each with the position of its segment.
#[derive(Clone, PartialEq, Eq, Debug, Default)]
pub struct Study {
    pub segments: Vec<Segment>,
    pub entries: Vec<(usize, Entry)>,
}

impl Segment {
    /// From the 15 numbers of a segment's line, in their order.
    pub fn from_numbers(n: &[i32; 15]) -> Segment {
        Segment {
            distance: n[0],
            window_height: n[1],
            mean_height: n[2],
            soft_ground: n[3],
            view_angle: n[4],
            double_angle: n[5],
            screen: n[6],
            screen_distance: n[7],
            screen_top: n[8],
            reflection_reading: n[9],
            track_reading: n[10],
            ballast_reading: n[11],
            facade: n[12],
            opposite_angle: n[13],
            wall: n[14],
        }
    }

    pub fn screened(&self) -> bool {
        self.screen != 0
    }

    /// Fields 7 to 10 and the far wall within their lines, and no ballast reading with a screen.
    fn screen_in_order(&self) -> bool {
        let reading_limit = if self.screen == 2 { 100 } else { 0 };
        let reading = (0..=reading_limit).contains(&self.reflection_reading);
        match self.screen {
            0 => self.screen_distance == 0 && self.screen_top == 0 && reading && self.wall == 0,
            1 | 2 => {
                (100..=self.distance - 100).contains(&self.screen_distance)
                    && (-2000..=5000).contains(&self.screen_top)
                    && reading
                    && (0..=100).contains(&self.wall)
                    && self.ballast_reading == 0
            }
            _ => false,
        }
    }

    /// The lowest number that applies.
    pub fn refusal(&self) -> Option<u32> {
        if !(1000..=30000).contains(&self.distance) {
            return Some(1);
        }
        if !(-5000..=5000).contains(&self.window_height) || !(0..=5000).contains(&self.mean_height) {
            return Some(2);
        }
        if !(0..=10).contains(&self.soft_ground) {
            return Some(3);
        }
        if !(5..=180).contains(&self.view_angle) || !(self.view_angle..=180).contains(&self.double_angle) {
            return Some(4);
        }
        if !self.screen_in_order() {
            return Some(5);
        }
        if self.screened() && steps::in_shadow(self) && steps::path_difference(self) > steps::SHADOW_LIMIT {
            return Some(6);
        }
        let readings = (0..=150).contains(&self.track_reading) && (-30..=0).contains(&self.ballast_reading);
        let reflections = (0..=1).contains(&self.facade) && (0..=self.view_angle).contains(&self.opposite_angle);
        if !readings || !reflections {
            return Some(7);
        }
        None
    }
}

impl Entry {
    /// From the 5 numbers of a train line, in their order.
    pub fn from_numbers(n: &[i32; 5]) -> Entry {
        Entry { row: n[0], speed: n[1], vehicles: n[2], day_trains: n[3], night_trains: n[4] }
    }

    /// The lowest number that applies.
    pub fn refusal(&self) -> Option<u32> {
        if !(1..=34).contains(&self.row) {
            return Some(8);
        }
        if !(1..=300).contains(&self.speed) {
            return Some(9);
        }
        if !(1..=60).contains(&self.vehicles) {
            return Some(10);
        }
        if !(0..=2000).contains(&self.day_trains) || !(0..=2000).contains(&self.night_trains) {
            return Some(11);
        }
        None
    }
}
