//! Stand-in for the crate pemu_core: the three types that the panel's sources name.

pub mod time {
    /// An instant, here a count of nanoseconds.
    #[derive(Copy, Clone, PartialEq, Eq, PartialOrd, Ord, Debug)]
    pub struct VTime(pub u64);

    impl VTime {
        pub const fn from_ms(ms: u64) -> VTime {
            VTime(ms * 1_000_000)
        }
    }
}

pub mod sched {
    /// A chip's number; nothing here reads it.
    #[derive(Copy, Clone, PartialEq, Eq, Debug)]
    pub struct ChipId(pub u32);
}

pub mod hostio {
    /// The frame with the flags last published to it.
    #[derive(Clone, Debug)]
    pub struct FramePort {
        pub pixels: Vec<u16>,
        pub powered: bool,
        pub sleeping: bool,
        pub inverted: bool,
        pub display_on: bool,
        pub invon_shows_ram: bool,
        pub backlight: u16,
        /// The rows of the last `mark_dirty`.
        pub marked: Option<(u16, u16)>,
    }

    impl FramePort {
        /// A frame of this many zeros with all flags off.
        pub fn zeros(pixels: usize) -> FramePort {
            FramePort {
                pixels: vec![0; pixels],
                powered: false,
                sleeping: false,
                inverted: false,
                display_on: false,
                invon_shows_ram: false,
                backlight: 0,
                marked: None,
            }
        }

        pub fn set_powered(&mut self, on: bool) {
            self.powered = on;
        }

        pub fn set_sleeping(&mut self, on: bool) {
            self.sleeping = on;
        }

        pub fn set_inverted(&mut self, on: bool) {
            self.inverted = on;
        }

        pub fn set_display_on(&mut self, on: bool) {
            self.display_on = on;
        }

        pub fn set_invon_shows_ram(&mut self, on: bool) {
            self.invon_shows_ram = on;
        }

        pub fn set_backlight(&mut self, duty: u16) {
            self.backlight = duty;
        }

        pub fn pixels_mut(&mut self) -> &mut [u16] {
            &mut self.pixels
        }

        pub fn mark_dirty(&mut self, first: u16, last: u16) {
            self.marked = Some((first, last));
        }
    }
}
