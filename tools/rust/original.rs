// skrifa's own files with what they need around them. Included by a program's root: their names are private to a crate.
extern crate alloc;

/// Stand-in for the crate's own font type (named in a doc link only).
pub struct FontRef;

mod outline {
    pub mod pen {
        #[derive(Copy, Clone)]
        pub struct PathStyle;
        impl From<PathStyle> for u8 {
            fn from(_: PathStyle) -> u8 {
                0
            }
        }
    }
    pub trait OutlinePen {}
    #[derive(Debug)]
    pub enum DrawError {
        TooManyPoints(raw::types::GlyphId),
        Malformed,
    }
    pub struct LocationRef;
    impl LocationRef {
        pub fn new(_coords: &[raw::types::F2Dot14]) -> Self {
            Self
        }
    }
    /// Never made: `Outline::fill` needs the type, and this program calls `fill_with`.
    pub struct OutlineGlyph;
    impl OutlineGlyph {
        pub fn units_per_em(&self) -> u16 {
            unimplemented!()
        }
        pub fn glyph_id(&self) -> raw::types::GlyphId {
            unimplemented!()
        }
        pub fn draw_unscaled<S>(
            &self,
            _location: LocationRef,
            _user: Option<i32>,
            _sink: &mut S,
        ) -> Result<i32, DrawError> {
            unimplemented!()
        }
    }

    #[path = "unscaled.rs"]
    pub mod unscaled;

    pub mod autohint {
        pub mod metrics {
            pub struct Scale {
                pub x_scale: i32,
                pub y_scale: i32,
                pub x_delta: i32,
                pub y_delta: i32,
            }
            #[derive(Copy, Clone, PartialEq, Eq, Default, Debug)]
            pub struct ScaledWidth;
            /// For scaling and for the linking of other scripts: never called.
            pub fn fixed_mul(_a: i32, _b: i32) -> i32 {
                unimplemented!()
            }
            pub fn fixed_div(_a: i32, _b: i32) -> i32 {
                unimplemented!()
            }
        }
        pub mod style {
            #[derive(Copy, Clone, PartialEq, Eq)]
            pub enum ScriptGroup {
                Default,
                Cjk,
                Indic,
            }
        }
        // The next two are copied from autohint/mod.rs.
        #[derive(Copy, Clone, PartialEq, Eq, Default, Debug)]
        pub(crate) enum QuirksMode {
            #[default]
            Jit,
            Aot,
        }
        fn derived_constant(units_per_em: i32, value: i32) -> i32 {
            value * units_per_em / 2048
        }

        #[path = "outline.rs"]
        pub mod outline;
        #[path = "topo/mod.rs"]
        pub mod topo;
    }
}
