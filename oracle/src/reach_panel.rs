//! Hung onto the built copy of st7789.rs: its private fields, to set and to read.

use super::{PanelConfig, St7789p3, TimingWarning, TraceEntry};
use crate::backlight::Brightness;
use pemu_core::time::VTime;

/// Every field of the panel, borrowed for setting.
pub struct Fields<'a> {
    pub cfg: &'a mut PanelConfig,
    pub ram: &'a mut Box<[u16]>,
    pub powered: &'a mut bool,
    pub sleeping: &'a mut bool,
    pub display_on: &'a mut bool,
    pub inverted: &'a mut bool,
    pub madctl: &'a mut u8,
    pub colmod: &'a mut u8,
    pub ramctrl: &'a mut [u8; 2],
    pub xs: &'a mut u16,
    pub xe: &'a mut u16,
    pub ys: &'a mut u16,
    pub ye: &'a mut u16,
    pub x: &'a mut u16,
    pub y: &'a mut u16,
    pub carry: &'a mut Option<u8>,
    pub in_pixels: &'a mut bool,
    pub cmd: &'a mut Option<u8>,
    pub params: &'a mut Vec<u8>,
    pub applied: &'a mut bool,
    pub dropped_params: &'a mut u64,
    pub stored: &'a mut Vec<(u8, Vec<u8>)>,
    pub brightness: &'a mut Brightness,
    pub frame_duty: &'a mut u16,
    pub trace: &'a mut Vec<TraceEntry>,
    pub trace_cur: &'a mut Option<usize>,
    pub commands: &'a mut u64,
    pub ramwr_count: &'a mut u64,
    pub pixels_written: &'a mut u64,
    pub dirty: &'a mut Option<(u16, u16)>,
    pub warnings: &'a mut Vec<TimingWarning>,
    pub last_slpout: &'a mut Option<VTime>,
    pub last_slpin: &'a mut Option<VTime>,
}

pub fn fields(panel: &mut St7789p3) -> Fields<'_> {
    let St7789p3 {
        cfg,
        ram,
        powered,
        sleeping,
        display_on,
        inverted,
        madctl,
        colmod,
        ramctrl,
        xs,
        xe,
        ys,
        ye,
        x,
        y,
        carry,
        in_pixels,
        cmd,
        params,
        applied,
        dropped_params,
        stored,
        brightness,
        frame_duty,
        trace,
        trace_cur,
        commands,
        ramwr_count,
        pixels_written,
        dirty,
        warnings,
        last_slpout,
        last_slpin,
    } = panel;
    Fields {
        cfg,
        ram,
        powered,
        sleeping,
        display_on,
        inverted,
        madctl,
        colmod,
        ramctrl,
        xs,
        xe,
        ys,
        ye,
        x,
        y,
        carry,
        in_pixels,
        cmd,
        params,
        applied,
        dropped_params,
        stored,
        brightness,
        frame_duty,
        trace,
        trace_cur,
        commands,
        ramwr_count,
        pixels_written,
        dirty,
        warnings,
        last_slpout,
        last_slpin,
    }
}

/// The fields that the panel's own readers do not show.
pub struct Hidden<'a> {
    pub in_pixels: bool,
    pub cmd: Option<u8>,
    pub params: &'a [u8],
    pub applied: bool,
    pub stored: &'a [(u8, Vec<u8>)],
    pub frame_duty: u16,
    pub trace_cur: Option<usize>,
    pub last_slpout: Option<u64>,
    pub last_slpin: Option<u64>,
}

pub fn hidden(panel: &St7789p3) -> Hidden<'_> {
    Hidden {
        in_pixels: panel.in_pixels,
        cmd: panel.cmd,
        params: &panel.params,
        applied: panel.applied,
        stored: &panel.stored,
        frame_duty: panel.frame_duty,
        trace_cur: panel.trace_cur,
        last_slpout: panel.last_slpout.map(|at| at.0),
        last_slpin: panel.last_slpin.map(|at| at.0),
    }
}

/// Whether the pixel at the pointer has a cell, by the Rust's own `map`.
pub fn is_mapped(panel: &St7789p3) -> bool {
    panel.map(panel.x, panel.y).is_some()
}

/// The pointer moves, by the Rust's own `advance`.
pub fn advance(panel: &mut St7789p3) {
    panel.advance();
}
