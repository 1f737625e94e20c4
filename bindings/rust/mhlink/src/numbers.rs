//! Numbers of sites, points, links, snapshots and plans.

macro_rules! number {
    ($(#[$doc:meta])* $name:ident($kind:ty)) => {
        $(#[$doc])*
        #[derive(Clone, Copy, Debug, PartialEq, Eq, PartialOrd, Ord, Hash)]
        #[repr(transparent)]
        pub struct $name(pub $kind);
    };
}

number!(
    /// The number of a site, from 0, in the order of the definition.
    Site(usize)
);
number!(
    /// The number of a switch point, from 0, in the order of the definition.
    Point(u32)
);
number!(
    /// The number of a link, from 0, through all sites in the order of the definition.
    Link(usize)
);
number!(
    /// The number of a snapshot, from 1.
    Snapshot(usize)
);
number!(
    /// The number of a published plan, from 1.
    Plan(usize)
);

/// Returns the numbers of points as the library takes them.
pub(crate) fn numbers_of(points: &[Point]) -> *const u32 {
    // `Point` is transparent over its number.
    points.as_ptr().cast()
}
