//! The planner, without a machine.

use crate::error::Error;
use mhlink_sys as sys;

/// A link of a problem.
#[derive(Clone, Copy, Debug, PartialEq, Eq)]
pub struct ProblemLink<'a> {
    /// Its gain: how often it is hit, times what a hit saves.
    pub gain: u64,
    /// A cost of its own.
    pub charge: u64,
    /// Whether it may be selected.
    pub eligible: bool,
    /// The points that it needs, ascending.
    pub needs: &'a [u32],
}

/// An optimal selection of links.
#[derive(Clone, Debug, PartialEq, Eq)]
pub struct Selection {
    /// The selected links, ascending.
    pub links: Vec<u32>,
    /// Their gains less their charges and the costs of the points that they need, each counted once.
    pub value: i64,
}

/// Computes an optimal selection of links; among optimal selections, the one with the fewest links,
/// which is unique. `costs` has the cost of each point.
///
/// Fails with a fault of the problem, `MHLINK_PROBLEM` and above, or with `MHLINK_NO_MEMORY`.
///
/// ```
/// use mhlink::{ProblemLink, plan};
///
/// let link = |gain, needs| ProblemLink { gain, charge: 0, eligible: true, needs };
/// let selection = plan(&[2500, 400, 900], &[link(1500, &[0]), link(1600, &[0, 1]), link(500, &[2])])?;
/// assert_eq!(selection.links, [0, 1]);
/// assert_eq!(selection.value, 200);
/// # Ok::<(), mhlink::Error>(())
/// ```
pub fn plan(costs: &[u64], links: &[ProblemLink<'_>]) -> Result<Selection, Error> {
    let (mut rows, mut needs) = (Vec::with_capacity(links.len()), Vec::new());
    for link in links {
        rows.push(sys::mhlink_problem_link {
            gain: link.gain,
            charge: link.charge,
            first: needs.len(),
            count: link.needs.len(),
            eligible: u32::from(link.eligible),
        });
        needs.extend_from_slice(link.needs);
    }
    let (mut selected, mut count, mut value) = (vec![0; links.len()], 0, 0);
    // SAFETY: each pointer is that of a slice, with its length.
    Error::check(unsafe {
        sys::mhlink_plan_problem(
            costs.as_ptr(),
            costs.len(),
            rows.as_ptr(),
            rows.len(),
            needs.as_ptr(),
            needs.len(),
            selected.as_mut_ptr(),
            selected.len(),
            &mut count,
            &mut value,
        )
    })?;
    selected.truncate(count);
    Ok(Selection {
        links: selected,
        value,
    })
}
