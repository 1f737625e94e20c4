//! Machines: runtimes for one thread at a time.

use crate::error::Error;
use crate::limits::{Limits, OldHits, Usage};
use crate::numbers::{Link, Plan, Point, Site, Snapshot, numbers_of};
use crate::raw::{read_number, read_text, with_part};
use crate::value::{Reply, Value, reply_of, with_raw};
use mhlink_sys as sys;
use std::ptr;

/// A runtime for one thread at a time: call sites with their trees, counts of hits, and plans.
///
/// Failing calls change nothing.
#[derive(Debug)]
pub struct Machine {
    raw: sys::mhlink_machine,
}

// SAFETY: a machine owns what its handle leads to, and shares nothing; it may move between threads.
unsafe impl Send for Machine {}

impl Drop for Machine {
    fn drop(&mut self) {
        let raw = sys::mhlink_machine { at: self.raw.at };
        // SAFETY: an open function filled the handle in, and this closes it, once.
        unsafe { sys::mhlink_close(raw) }
    }
}

impl Machine {
    /// Opens a machine for a definition in JSON, with 1 to 64 workers, each of which counts its own
    /// hits.
    pub fn open(definition: &str, workers: u32, limits: Limits) -> Result<Machine, Error> {
        let mut raw = sys::mhlink_machine {
            at: ptr::null_mut(),
        };
        let limits = limits.to_raw();
        // SAFETY: the pointers are those of a slice with its length and of variables of this function.
        with_part(|part| unsafe {
            sys::mhlink_open(
                definition.as_ptr(),
                definition.len(),
                workers,
                &limits,
                &mut raw,
                part,
            )
        })?;
        Ok(Machine { raw })
    }

    /// Returns the site with this name.
    pub fn site(&mut self, name: &str) -> Result<Site, Error> {
        // SAFETY: the handle is open, and the name is a slice with its length.
        let number = read_number(|site| unsafe {
            sys::mhlink_site(&mut self.raw, name.as_ptr(), name.len(), site)
        })?;
        Ok(Site(number as usize))
    }

    /// Returns the point with this name.
    pub fn point(&mut self, name: &str) -> Result<Point, Error> {
        // SAFETY: the handle is open, and the name is a slice with its length.
        let number = read_number(|point| unsafe {
            sys::mhlink_point(&mut self.raw, name.as_ptr(), name.len(), point)
        })?;
        Ok(Point(number as u32))
    }

    /// Returns the link of a site with this key.
    pub fn link(&mut self, site: Site, key: &Value) -> Result<Link, Error> {
        let mut text = Vec::new();
        let key = key.to_raw(&mut text);
        // SAFETY: the handle is open, and the text is a slice with its length.
        let number = read_number(|link| unsafe {
            sys::mhlink_link(&mut self.raw, site.0, &key, text.as_ptr(), text.len(), link)
        })?;
        Ok(Link(number as usize))
    }

    /// Calls a site as a worker, and counts the hit of its link. A call with up to 16 arguments takes
    /// no memory, provided that no argument is a text and no node that it evaluates has String in its
    /// type.
    pub fn call(&mut self, worker: u32, site: Site, arguments: &[Value]) -> Result<Reply, Error> {
        let mut reply = sys::mhlink_reply {
            kind: 0,
            number: 0,
            steps: 0,
        };
        // SAFETY: the handle is open, and values and texts are slices with their lengths.
        let status = with_raw(arguments, |values, texts| unsafe {
            let (values, count) = (values.as_ptr(), values.len());
            let (texts, length) = (texts.as_ptr(), texts.len());
            sys::mhlink_call(
                &mut self.raw,
                worker,
                site.0,
                values,
                count,
                texts,
                length,
                &mut reply,
            )
        });
        Error::check(status)?;
        // SAFETY: the handle is open, and the buffer is that of `read_text`.
        reply_of(reply, || {
            read_text(|buffer, capacity, length| unsafe {
                sys::mhlink_text(&mut self.raw, buffer, capacity, length)
            })
        })
    }

    /// Adds the unflushed hits of a worker to the totals.
    pub fn flush(&mut self, worker: u32) -> Result<(), Error> {
        // SAFETY: the handle is open.
        Error::check(unsafe { sys::mhlink_flush(&mut self.raw, worker) })
    }

    /// Replaces the tree of a site by a tree in JSON (`MutableCallSite.setTarget`).
    pub fn target(&mut self, site: Site, tree: &str) -> Result<(), Error> {
        // SAFETY: the handle is open, and the tree is a slice with its length.
        with_part(|part| unsafe {
            sys::mhlink_target(&mut self.raw, site.0, tree.as_ptr(), tree.len(), part)
        })
    }

    /// Invalidates points together and for good (`SwitchPoint.invalidateAll`).
    pub fn invalidate(&mut self, points: &[Point]) -> Result<(), Error> {
        // SAFETY: the handle is open, and the points are a slice with its length.
        Error::check(unsafe {
            sys::mhlink_invalidate(&mut self.raw, numbers_of(points), points.len())
        })
    }

    /// Takes a snapshot of the totals.
    pub fn snapshot(&mut self) -> Result<Snapshot, Error> {
        // SAFETY: the handle is open.
        let number = read_number(|it| unsafe { sys::mhlink_snapshot(&mut self.raw, it) })?;
        Ok(Snapshot(number as usize))
    }

    /// Computes the optimal plan for a snapshot, and publishes it.
    pub fn plan(&mut self, snapshot: Snapshot) -> Result<Plan, Error> {
        // SAFETY: the handle is open.
        let number = read_number(|it| unsafe { sys::mhlink_plan(&mut self.raw, snapshot.0, it) })?;
        Ok(Plan(number as usize))
    }

    /// Returns the optimal plan for a snapshot as JSON, with the flow that proves it optimal.
    pub fn certificate(&mut self, snapshot: Snapshot) -> Result<String, Error> {
        // SAFETY: the handle is open, and the buffer is that of `read_text`.
        read_text(|buffer, capacity, length| unsafe {
            sys::mhlink_certificate(&mut self.raw, snapshot.0, buffer, capacity, length)
        })
    }

    /// Installs the newest plan, and returns the number of sites at which it installs links.
    pub fn install(&mut self, plan: Plan) -> Result<u64, Error> {
        let mut linked = 0;
        // SAFETY: the handle is open.
        with_part(|part| unsafe { sys::mhlink_install(&mut self.raw, plan.0, &mut linked, part) })?;
        Ok(linked)
    }

    /// Starts a new history, in which the points `again` are valid. Calls return what they returned
    /// before; no site has links installed.
    pub fn renew(&mut self, again: &[Point], hits: OldHits) -> Result<(), Error> {
        // SAFETY: the handle is open, and the points are a slice with its length.
        Error::check(unsafe {
            sys::mhlink_renew(&mut self.raw, numbers_of(again), again.len(), hits.to_raw())
        })
    }

    /// Appends points and sites, given as an object in JSON, and starts a new history.
    pub fn extend(&mut self, json: &str) -> Result<(), Error> {
        // SAFETY: the handle is open, and the text is a slice with its length.
        with_part(|part| unsafe {
            sys::mhlink_extend(&mut self.raw, json.as_ptr(), json.len(), part)
        })
    }

    /// Returns the usage of the history.
    pub fn used(&mut self) -> Result<Usage, Error> {
        let mut used = sys::mhlink_usage {
            records: 0,
            snapshots: 0,
            plans: 0,
        };
        // SAFETY: the handle is open.
        Error::check(unsafe { sys::mhlink_used(&mut self.raw, &mut used) })?;
        Ok(Usage::from_raw(used))
    }

    /// Returns the unflushed hits of a link by a worker.
    pub fn hits(&mut self, worker: u32, link: Link) -> Result<u64, Error> {
        // SAFETY: the handle is open.
        read_number(|it| unsafe { sys::mhlink_hits(&mut self.raw, worker, link.0, it) })
    }

    /// Returns the flushed hits of a link.
    pub fn total(&mut self, link: Link) -> Result<u64, Error> {
        // SAFETY: the handle is open.
        read_number(|it| unsafe { sys::mhlink_total(&mut self.raw, link.0, it) })
    }

    /// Returns the number of links installed at a site.
    pub fn linked(&mut self, site: Site) -> Result<u64, Error> {
        // SAFETY: the handle is open.
        read_number(|it| unsafe { sys::mhlink_linked(&mut self.raw, site.0, it) })
    }

    /// Returns the current tree of a site as JSON, in the form of a definition.
    pub fn tree(&mut self, site: Site) -> Result<String, Error> {
        // SAFETY: the handle is open, and the buffer is that of `read_text`.
        read_text(|buffer, capacity, length| unsafe {
            sys::mhlink_tree_text(&mut self.raw, site.0, buffer, capacity, length)
        })
    }

    /// Returns a line for each point, site and link, as `mhlink run --report` prints them.
    pub fn report(&mut self) -> Result<String, Error> {
        // SAFETY: the handle is open, and the buffer is that of `read_text`.
        read_text(|buffer, capacity, length| unsafe {
            sys::mhlink_report(&mut self.raw, buffer, capacity, length)
        })
    }
}
