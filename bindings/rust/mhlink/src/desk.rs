//! Desks and callers: calls from several threads.

use crate::error::Error;
use crate::limits::{Limits, OldHits};
use crate::numbers::{Plan, Point, Site, Snapshot, numbers_of};
use crate::raw::{read_number, read_text, with_part};
use crate::value::{Reply, Value, reply_of, with_raw};
use mhlink_sys as sys;
use std::ptr;

/// The coordinator of callers: it records changes, and has the totals and the plans. Keep it behind
/// a lock if several threads change something.
///
/// Failing calls change nothing.
#[derive(Debug)]
pub struct Desk {
    raw: sys::mhlink_desk,
}

/// The handle through which one thread calls, in the state of its last look. It takes no lock. Its
/// unflushed hits are lost when it is dropped.
#[derive(Debug)]
#[repr(transparent)]
pub struct Caller {
    raw: sys::mhlink_caller,
}

// SAFETY: a desk and a caller own what their handles lead to, and share immutable states, whose
// owners are counted atomically.
unsafe impl Send for Desk {}
unsafe impl Send for Caller {}

impl Drop for Desk {
    fn drop(&mut self) {
        let raw = sys::mhlink_desk { at: self.raw.at };
        // SAFETY: an open function filled the handle in, and this closes it, once.
        unsafe { sys::mhlink_desk_close(raw) }
    }
}

impl Drop for Caller {
    fn drop(&mut self) {
        let raw = sys::mhlink_caller { at: self.raw.at };
        // SAFETY: an open function filled the handle in, and this closes it, once.
        unsafe { sys::mhlink_caller_close(raw) }
    }
}

impl Desk {
    /// Opens a desk for a definition in JSON, with 1 to 64 callers.
    pub fn open(
        definition: &str,
        callers: usize,
        limits: Limits,
    ) -> Result<(Desk, Vec<Caller>), Error> {
        let (text, limits) = (definition.as_bytes(), limits.to_raw());
        let mut raw = sys::mhlink_desk {
            at: ptr::null_mut(),
        };
        let none = || sys::mhlink_caller {
            at: ptr::null_mut(),
        };
        let mut handles: Vec<_> = (0..callers).map(|_| none()).collect();
        // SAFETY: the pointers are those of slices with their lengths and of variables of this function.
        with_part(|part| unsafe {
            let (text, length) = (text.as_ptr(), text.len());
            let (handles, count) = (handles.as_mut_ptr(), handles.len());
            sys::mhlink_desk_open(text, length, &limits, handles, count, &mut raw, part)
        })?;
        let callers = handles.into_iter().map(|raw| Caller { raw }).collect();
        Ok((Desk { raw }, callers))
    }

    /// Returns the site with this name.
    pub fn site(&mut self, name: &str) -> Result<Site, Error> {
        // SAFETY: the handle is open, and the name is a slice with its length.
        let number = read_number(|site| unsafe {
            sys::mhlink_desk_site(&mut self.raw, name.as_ptr(), name.len(), site)
        })?;
        Ok(Site(number as usize))
    }

    /// Returns the point with this name.
    pub fn point(&mut self, name: &str) -> Result<Point, Error> {
        // SAFETY: the handle is open, and the name is a slice with its length.
        let number = read_number(|point| unsafe {
            sys::mhlink_desk_point(&mut self.raw, name.as_ptr(), name.len(), point)
        })?;
        Ok(Point(number as u32))
    }

    /// Publishes the current state. Each caller uses it from its next look on.
    pub fn show(&mut self) -> Result<(), Error> {
        // SAFETY: the handle is open.
        Error::check(unsafe { sys::mhlink_desk_show(&mut self.raw) })
    }

    /// Adds a caller's unflushed hits to the totals.
    pub fn flush(&mut self, caller: &mut Caller) -> Result<(), Error> {
        // SAFETY: both handles are open.
        Error::check(unsafe { sys::mhlink_desk_flush(&mut self.raw, &mut caller.raw) })
    }

    /// Replaces the tree of a site by a tree in JSON.
    pub fn target(&mut self, site: Site, tree: &str) -> Result<(), Error> {
        // SAFETY: the handle is open, and the tree is a slice with its length.
        with_part(|part| unsafe {
            sys::mhlink_desk_target(&mut self.raw, site.0, tree.as_ptr(), tree.len(), part)
        })
    }

    /// Invalidates points together and for good.
    pub fn invalidate(&mut self, points: &[Point]) -> Result<(), Error> {
        // SAFETY: the handle is open, and the points are a slice with its length.
        Error::check(unsafe {
            sys::mhlink_desk_invalidate(&mut self.raw, numbers_of(points), points.len())
        })
    }

    /// Takes a snapshot of the totals.
    pub fn snapshot(&mut self) -> Result<Snapshot, Error> {
        // SAFETY: the handle is open.
        let number = read_number(|it| unsafe { sys::mhlink_desk_snapshot(&mut self.raw, it) })?;
        Ok(Snapshot(number as usize))
    }

    /// Computes the optimal plan for a snapshot, and publishes it.
    pub fn plan(&mut self, snapshot: Snapshot) -> Result<Plan, Error> {
        let at = snapshot.0;
        // SAFETY: the handle is open.
        let number = read_number(|it| unsafe { sys::mhlink_desk_plan(&mut self.raw, at, it) })?;
        Ok(Plan(number as usize))
    }

    /// Installs the newest plan, and returns the number of sites at which it installs links.
    pub fn install(&mut self, plan: Plan) -> Result<u64, Error> {
        let mut linked = 0;
        // SAFETY: the handle is open.
        with_part(|part| unsafe {
            sys::mhlink_desk_install(&mut self.raw, plan.0, &mut linked, part)
        })?;
        Ok(linked)
    }

    /// Starts a new history, as `Machine::renew` does, with all callers, in the order in which the
    /// desk was opened with them.
    pub fn renew(
        &mut self,
        callers: &mut [Caller],
        again: &[Point],
        hits: OldHits,
    ) -> Result<(), Error> {
        // `Caller` is transparent over its handle.
        let (handles, count) = (callers.as_mut_ptr().cast(), callers.len());
        let (points, recycled) = (numbers_of(again), again.len());
        // SAFETY: all handles are open, and the points are a slice with its length.
        Error::check(unsafe {
            sys::mhlink_desk_renew(
                &mut self.raw,
                handles,
                count,
                points,
                recycled,
                hits.to_raw(),
            )
        })
    }
}

impl Caller {
    /// Calls a site in the state of the last look, and counts the hit of its link until it is
    /// flushed.
    pub fn call(&mut self, site: Site, arguments: &[Value]) -> Result<Reply, Error> {
        let mut reply = sys::mhlink_reply {
            kind: 0,
            number: 0,
            steps: 0,
        };
        // SAFETY: the handle is open, and values and texts are slices with their lengths.
        let status = with_raw(arguments, |values, texts| unsafe {
            let (values, count) = (values.as_ptr(), values.len());
            let (texts, length) = (texts.as_ptr(), texts.len());
            sys::mhlink_caller_call(
                &mut self.raw,
                site.0,
                values,
                count,
                texts,
                length,
                &mut reply,
            )
        });
        Error::check(status)?;
        // SAFETY: the handle is open, and the buffer is that of `read_text`.
        reply_of(reply, || {
            read_text(|buffer, capacity, length| unsafe {
                sys::mhlink_caller_text(&mut self.raw, buffer, capacity, length)
            })
        })
    }

    /// Uses the state that the desk published last, from the next call on.
    pub fn look(&mut self, desk: &mut Desk) -> Result<(), Error> {
        // SAFETY: both handles are open.
        Error::check(unsafe { sys::mhlink_caller_look(&mut self.raw, &mut desk.raw) })
    }
}
