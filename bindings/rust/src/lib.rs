//! Curves and surfaces of pipe and rolled sheet: arcs in space, cuts through rolled sheet, their
//! chords, their boxes, and the volumes of the bodies that they bound.
//!
//! The types and names are those of datum's `curve.rs`; the formulas are a port of it to Rattle, a
//! language whose checker proves every function. This crate only hands numbers to the proved
//! library and reads its answers. A caller of `curve.rs` changes a `use` line and adds `?`:
//! docs/COMING_FROM_CURVE_RS.md has each call beside its old form.
//!
//! Lengths are millimetres, angles radians, all numbers `f64`. Every call takes every bit pattern
//! and finishes: with the result, each operation rounded once by IEEE 754, or with a [`Refusal`]
//! that leaves rows, boxes and sums as they were.
//!
//! ```
//! use juniperreef::{Arc, Bounds, Refusal, Vec3};
//!
//! fn half_a_rim(bounds: &mut Bounds) -> Result<(), Refusal> {
//!     let axis = Vec3::new(0.0, 0.0, 1.0);
//!     let rim = Arc { center: Vec3::ZERO, axis, radius: 5.0 };
//!     rim.extend_bounds(Vec3::new(5.0, 0.0, 0.0), Vec3::new(-5.0, 0.0, 0.0), bounds)
//! }
//!
//! let mut bounds = Bounds::EMPTY;
//! half_a_rim(&mut bounds)?;
//! assert_eq!(bounds.low, Vec3::new(-5.0, 0.0, 0.0));
//! assert_eq!(bounds.high, Vec3::new(5.0, 5.0, 0.0));
//! # Ok::<(), Refusal>(())
//! ```
//!
//! # The library
//!
//! An archive is linked into the program; it is for Linux on x86-64. The crate's build takes the
//! first of these:
//!
//! 1. the file that the environment variable `JUNIPERREEF_LIBRARY` names by its full path;
//! 2. `crates/exports_c/out/libexports_c.a` of the repository that the crate stands in, where no source
//!    of the library is newer: `scripts/built exports_c`, run there once, makes it;
//! 3. `libjuniperreef.a` of the crate's own release that `scripts/install` put where `pkg-config`
//!    finds it;
//! 4. one that it proves and builds itself, where the Rattle kit is installed. That takes long, once:
//!    a cache (`$XDG_CACHE_HOME` or `~/.cache`, folder `juniperreef`) keeps it for other profiles and
//!    target folders.
//!
//! An archive of another layout of numbers than this crate's does not link.
//!
//! # Without `std`
//!
//! The crate never asks for `std`. Without its feature `alloc`, which is on by default, it asks for
//! no allocator either and has only the forms of `inner_points` that take a row.

#![no_std]
#![deny(missing_docs)]
#![deny(unsafe_op_in_unsafe_fn)]

#[cfg(feature = "alloc")]
extern crate alloc;

mod arcs;
mod curves;
mod developments;
mod faces;
mod ffi;
mod pieces;
mod refusal;
mod surfaces;
mod vectors;

pub use arcs::{ARC_ROW, Arc, ProfileArc, per_turn};
pub use curves::{CURVE_ROW, Curve};
pub use developments::{Development, Meet, Trace, Wave};
pub use faces::{Frame, Integrals, Path, Revolution, frame, revolution, segment, wall};
pub use pieces::Rolled;
pub use refusal::Refusal;
pub use surfaces::{Cone, Cylinder, Plane, Surface};
pub use vectors::{Bounds, Rigid, Vec2, Vec3, unit};

/// The example of the crate's README, as a test.
#[cfg(doctest)]
#[doc = include_str!("../README.md")]
struct Readme;
