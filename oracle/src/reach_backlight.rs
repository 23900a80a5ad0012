//! Hung onto the built copy of backlight.rs: makes any brightness pair, also ones its API cannot make.

use super::Brightness;

pub fn pair(level: u32, scale: u32) -> Brightness {
    Brightness { level, scale }
}
