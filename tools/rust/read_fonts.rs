//! Stand-in for the few items of `read_fonts` (also named `raw`) that skrifa's
//! outline.rs, unscaled.rs and topo/ use. Nothing here decides anything that
//! is compared, except the on-curve bit and the two markers of `PointFlags`.
pub mod limits {
    /// More than a sheet ever holds.
    pub const MAX_OUTLINE_POINTS: usize = 65535;
}

pub mod types {
    #[derive(Copy, Clone, PartialEq, Eq, Default, Debug)]
    pub struct GlyphId(pub u32);
    #[derive(Copy, Clone, PartialEq, Eq, Default, Debug)]
    pub struct F2Dot14(pub i16);
    #[derive(Copy, Clone, PartialEq, Eq, Default, Debug)]
    pub struct F26Dot6(pub i32);
    impl F26Dot6 {
        pub fn from_bits(bits: i32) -> Self {
            Self(bits)
        }
    }
    #[derive(Copy, Clone, PartialEq, Eq, Default, Debug)]
    pub struct Point<T> {
        pub x: T,
        pub y: T,
    }
    impl<T> Point<T> {
        pub fn new(x: T, y: T) -> Self {
            Self { x, y }
        }
    }
}

pub mod tables {
    pub mod glyf {
        /// The kind (bit 0: on curve) and the marks.
        #[derive(Copy, Clone, PartialEq, Eq, Default, Debug)]
        pub struct PointFlags(u8);
        #[derive(Copy, Clone, PartialEq, Eq, Debug)]
        pub struct PointMarker(u8);
        impl PointMarker {
            pub const WEAK_INTERPOLATION: Self = Self(0x2);
            pub const NEAR: Self = Self(0x8);
        }
        impl PointFlags {
            const ON_CURVE: u8 = 1;
            pub const fn on_curve() -> Self {
                Self(Self::ON_CURVE)
            }
            pub const fn off_curve_quad() -> Self {
                Self(0)
            }
            pub const fn off_curve_cubic() -> Self {
                Self(0x80)
            }
            pub const fn is_on_curve(self) -> bool {
                self.0 & Self::ON_CURVE != 0
            }
            pub fn set_marker(&mut self, marker: PointMarker) {
                self.0 |= marker.0;
            }
            pub const fn has_marker(self, marker: PointMarker) -> bool {
                self.0 & marker.0 != 0
            }
        }
        pub mod outline {
            /// Makes paths of outlines: never called.
            pub fn contour_to_path<P, R, K>(
                _points: &[P],
                _f: impl Fn(&P) -> R,
                _style: u8,
                _pen: &mut K,
            ) -> bool {
                unimplemented!()
            }
        }
    }
}

pub mod model {
    pub mod glyph {
        pub mod outline {
            use crate::tables::glyf::PointFlags;
            pub trait UnscaledOutlineSink {
                fn start_contour(&mut self);
                fn point(&mut self, x: i32, y: i32, flags: PointFlags);
                fn end_contour(&mut self);
            }
            pub trait PathSink {
                fn move_to(&mut self, x: f32, y: f32);
                fn line_to(&mut self, x: f32, y: f32);
                fn quad_to(&mut self, cx0: f32, cy0: f32, x: f32, y: f32);
                fn curve_to(&mut self, cx0: f32, cy0: f32, cx1: f32, cy1: f32, x: f32, y: f32);
                fn close(&mut self);
            }
        }
    }
}
