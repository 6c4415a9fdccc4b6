//! The units that are measured.

use reference::generate::Shape;

/// A full unit: 3,900 files of one slice.
pub const MANY: Shape = Shape {
    h: 64,
    s: 2,
    layers: 5,
    slices: 4_096,
    files: 3_900,
    held: (1, 1),
    sys_stretches: 1,
    stretch: 0,
};

/// A small catalog: 100 files of about 30 slices.
pub const FEW: Shape = Shape {
    h: 8,
    layers: 1,
    files: 100,
    held: (25, 35),
    ..MANY
};

/// A unit in between: 1,000 files.
pub const MIDDLE: Shape = Shape {
    layers: 2,
    files: 1_000,
    held: (1, 4),
    ..MANY
};

/// 100,000 entries: SYS, MAP and files without slices. SYS is as full as that of [`MANY`].
pub const LARGEST: Shape = Shape {
    s: 64,
    layers: 128,
    slices: 130,
    files: 99_998,
    held: (0, 0),
    ..MANY
};
