/* mhlink.h: a verified runtime for dynamic calls in the style of java.lang.invoke, and a planner
   for inline caches, for VMs in C and in every language that can call C.

   Preconditions. The library does not validate its arguments. The caller must ensure that
   - every handle was filled in by an open function and has not been closed;
   - no handle is used by two calls at once, or from a signal handler;
   - every pointer is valid for the length passed with it and does not alias another argument;
   - no pointer is null, unless its length is 0.

   Results. Every function except mhlink_version and the close functions returns a status: MHLINK_OK
   on success, or an error code. After an error the machine, the desk and the caller are unchanged,
   and nothing is stored but `part` and, with MHLINK_SHORT, lengths and counts. Bytes of a buffer
   past the reported length are left unmodified. `part`, if a function has it, gets what the status
   leaves open: the number of the fault's cause, of the checker's test that failed, or of the newest
   plan; 0 if there is none.

   Numbers. Sites, points and links are numbered from 0 in the order of the definition, links
   through all sites. Snapshots and plans are numbered from 1.

   Threads. A handle may move from thread to thread if a lock or a join orders its calls. Machines
   share nothing. The host calls the functions of one desk one at a time, under a lock of its own.
   Callers of a desk run concurrently with each other and with the desk's functions, except that
   mhlink_desk_flush, mhlink_caller_look and mhlink_caller_close exclude calls of the same caller,
   and mhlink_desk_renew excludes calls of all its callers.

   Histories. A history ends: after 1,024 snapshots or plans, or as many records as its limit
   allows, changes fail with MHLINK_HISTORY_FULL. Call mhlink_renew before mhlink_used reports that
   records, snapshots or plans are near their limits; a machine then never has to end. If an
   invalidation or a retargeting fails, the sites that it concerns answer as before. A host that
   relies on the change must not call them: it frees memory and tries again until the status is
   MHLINK_OK, or closes the machine. Each flush, retargeting and snapshot keeps some memory until
   mhlink_renew or mhlink_close.

   docs/EMBEDDING-C.md has the figures, and explains how a site dispatches to methods of the host. */
#ifndef MHLINK_H
#define MHLINK_H

#include <stddef.h>
#include <stdint.h>

#ifdef __cplusplus
extern "C" {
#endif

#define MHLINK_VERSION 1u

enum mhlink_status {
    MHLINK_OK = 0,
    /* 1 to 14: rejections of events, by their numbers in docs/FAULTS.md */
    MHLINK_NO_MEMORY = 1, MHLINK_HISTORY_FULL = 2, MHLINK_NO_SITE = 3, MHLINK_NO_POINT = 4,
    MHLINK_WRONG_TYPE = 5, MHLINK_NO_SNAPSHOT = 6, MHLINK_NO_PLAN = 7, MHLINK_PLAN_REFUSED = 8,
    MHLINK_OLD_PLAN = 9, MHLINK_TOTAL_TOO_LARGE = 10, MHLINK_LEDGER_FULL = 11,
    MHLINK_GAIN_TOO_LARGE = 12, MHLINK_NO_WORKER = 13, MHLINK_WRONG_LEVEL = 14,
    /* 100 + the number of an input's fault, in the same document */
    MHLINK_INPUT = 100, MHLINK_TOO_LONG = 102, MHLINK_NOT_JSON = 103, MHLINK_BAD_SHAPE = 104,
    MHLINK_BAD_INPUT_VALUE = 105, MHLINK_UNKNOWN_SHARED = 106, MHLINK_BAD_TREE = 107,
    MHLINK_BAD_DEFINITION = 108, MHLINK_BAD_TYPE = 112, MHLINK_UNKNOWN_SITE = 113,
    /* 200 + the number of a problem's fault, in the same document */
    MHLINK_PROBLEM = 200, MHLINK_GAINS_TOO_LARGE = 202, MHLINK_COSTS_TOO_LARGE = 203,
    MHLINK_NEED_OUT_OF_RANGE = 204, MHLINK_NEEDS_NOT_ASCENDING = 205, MHLINK_TOO_MANY_LINKS = 206,
    MHLINK_TOO_MANY_POINTS = 207, MHLINK_TOO_MANY_NEEDS = 208,
    /* of this library alone */
    MHLINK_UNKNOWN = 301,    /* no such name, key or number */
    MHLINK_SHORT = 302,      /* the buffer is shorter than the length that is reported */
    MHLINK_BAD_VALUE = 303,  /* an unknown kind, a number out of its kind's range, or a text that is
                                longer than the bytes that are passed */
    MHLINK_BAD_LIMITS = 304  /* a limit, or the number of workers, is out of its range */
};

enum mhlink_kind {
    MHLINK_INT = 1, MHLINK_LONG = 2, MHLINK_BOOLEAN = 3, MHLINK_STRING = 4, MHLINK_THROWN = 5
};

/* A machine: a runtime for one thread at a time. mhlink_open opens it, mhlink_close closes it. */
typedef struct mhlink_machine {
    void *at;
} mhlink_machine;

/* A desk, which records changes, and a caller, through which one thread calls. mhlink_desk_open
   opens a desk with its callers. */
typedef struct mhlink_desk {
    void *at;
} mhlink_desk;

typedef struct mhlink_caller {
    void *at;
} mhlink_caller;

/* A tree that was read from JSON once, for any number of sites. */
typedef struct mhlink_tree {
    void *at;
} mhlink_tree;

/* The limits of a history. */
typedef struct mhlink_limits {
    uint64_t history; /* most records, that is, flushes and changes (calls are none): 0 to 2^20 */
    uint64_t ledger;  /* most unflushed hits of a link by a worker: 1 to 2^20 */
    uint64_t total;   /* most flushed hits of a link: 0 to 2^40 */
} mhlink_limits;

#define MHLINK_WIDEST_LIMITS {1u << 20, 1u << 20, (uint64_t)1 << 40}
#define MHLINK_MOST_SNAPSHOTS 1024u
#define MHLINK_MOST_PLANS 1024u

/* The usage of a history. */
typedef struct mhlink_usage {
    uint64_t records;   /* at most the limit of the history */
    uint64_t snapshots; /* at most MHLINK_MOST_SNAPSHOTS */
    uint64_t plans;     /* at most MHLINK_MOST_PLANS */
} mhlink_usage;

/* The part of the flushed hits that a renewal keeps: all; half of each worker's at a link, rounded
   down; or none. */
enum mhlink_old_hits { MHLINK_KEEP_HITS = 0, MHLINK_HALVE_HITS = 1, MHLINK_DROP_HITS = 2 };

/* The forms of texts: a definition, as mhlink_open reads one, or an input of the program mhlink. */
enum mhlink_forms {
    MHLINK_FORM_DEFINITION = 0, MHLINK_FORM_SCRIPT = 1, MHLINK_FORM_PROBLEM = 2,
    MHLINK_FORM_PROBLEM_WITH_PLAN = 3
};

/* The properties that mhlink_detail reports: a count, or a property of a point, a site, a link or a
   published plan, selected by its number. A list, whose length is the property before it, is read
   element by element, from 0. */
enum mhlink_details {
    MHLINK_POINTS = 0, MHLINK_SITES = 1, MHLINK_LINKS = 2,
    MHLINK_POINT_IS_VALID = 3, /* 1 or 0 */
    MHLINK_POINT_COST = 4,
    MHLINK_SITE_LEVEL = 5,
    MHLINK_SITE_KEY = 6,    /* the position of its key among the parameters */
    MHLINK_SITE_RESULT = 7, /* an mhlink_kind, as MHLINK_SITE_PARAMETER is */
    MHLINK_SITE_PARAMETERS = 8, MHLINK_SITE_PARAMETER = 9,
    MHLINK_SITE_LINKS = 10, MHLINK_SITE_LINK = 11,
    /* the installed links: those of the last installation, unless the site was retargeted since */
    MHLINK_SITE_HELD_LINKS = 12, MHLINK_SITE_HELD_LINK = 13,
    MHLINK_SITE_RETARGETINGS = 14,
    MHLINK_LINK_SITE = 15, MHLINK_LINK_WEIGHT = 16, MHLINK_LINK_CHARGE = 17,
    MHLINK_LINK_NEEDS = 18, MHLINK_LINK_NEED = 19,
    MHLINK_LINK_IS_ELIGIBLE = 20, /* 1, or 0 if a point that it needs is invalid: an installation
                                     leaves it out */
    MHLINK_PLAN_LINKS = 21, MHLINK_PLAN_LINK = 22, MHLINK_PLAN_POINTS = 23, MHLINK_PLAN_POINT = 24,
    MHLINK_PLAN_IS_CURRENT = 25 /* 1, or 0 if site `place` was retargeted since the plan's snapshot:
                                   an installation skips it */
};

/* A value. `number` is an int, a long, a boolean (0 or 1), or the length of a String in the texts
   passed with the values: at most 65,536 bytes, each from 0x20 to 0x7E. */
typedef struct mhlink_value {
    uint32_t kind;
    int64_t number;
} mhlink_value;

/* The outcome of a call: a value, as above; or, with kind MHLINK_THROWN, 1 for an
   ArithmeticException and 2 for a text of more than 65,536 bytes. `steps` is the number of nodes
   evaluated. */
typedef struct mhlink_reply {
    uint32_t kind;
    int64_t number;
    uint64_t steps;
} mhlink_reply;

/* A link of a problem: its gain, its own charge, and `count` needs from index `first` of all needs.
   `eligible` is 0 if it must not be selected. */
typedef struct mhlink_problem_link {
    uint64_t gain, charge;
    size_t first, count;
    uint32_t eligible;
} mhlink_problem_link;

/* mhlink_version: returns the version of the library, MHLINK_VERSION. */
uint32_t mhlink_version(void);

/* mhlink_fault_text: copies the text of a status, as the program mhlink prints it (docs/FAULTS.md),
   followed by `part` if that is not 0, without a terminating byte.

   Returns MHLINK_OK; MHLINK_UNKNOWN if there is no such status; or MHLINK_SHORT. */
uint32_t mhlink_fault_text(uint32_t status, uint64_t part, uint8_t *buffer, size_t capacity,
                           size_t *length);

/* mhlink_explain: copies an explanation of why `text` cannot be read as one of enum mhlink_forms:
   the place of its first fault, what was found there, and why it is a fault, in the lines that
   `mhlink --explain` prints (docs/FORMATS.md). The explanation is empty if the text can be read, or
   if its only fault is that it is too long. To have a tree or a plan explained, pass a script, or a
   problem with a plan, that contains it.

   Returns MHLINK_OK; MHLINK_UNKNOWN if there is no such form; MHLINK_SHORT; or MHLINK_NO_MEMORY. */
uint32_t mhlink_explain(uint32_t form, const uint8_t *text, size_t text_length, uint8_t *buffer,
                        size_t capacity, size_t *length);

/* Machines */

/* mhlink_open: opens a machine for a definition in JSON (docs/FORMATS.md), with 1 to 64 workers.

   A text has at most 1,048,576 bytes. Open a longer definition with its first sites and add the
   others by mhlink_extend, in as many texts as it takes.

   Returns MHLINK_OK; MHLINK_BAD_LIMITS; the fault of the definition; or MHLINK_NO_MEMORY. */
uint32_t mhlink_open(const uint8_t *definition, size_t length, uint32_t workers,
                     const mhlink_limits *limits, mhlink_machine *machine, uint64_t *part);

/* mhlink_resume: opens a machine that continues an earlier one, of which the host kept the invalid
   points and the totals, one for each link of the definition. The first two records are these.

   Returns a status of mhlink_open; MHLINK_NO_POINT; MHLINK_UNKNOWN if the number of totals is
   not that of links; MHLINK_HISTORY_FULL if the limit of the history is below 2; or
   MHLINK_TOTAL_TOO_LARGE. */
uint32_t mhlink_resume(const uint8_t *definition, size_t length, uint32_t workers,
                       const mhlink_limits *limits, const uint32_t *invalid, size_t count,
                       const uint64_t *totals, size_t links, mhlink_machine *machine,
                       uint64_t *part);

/* mhlink_close: closes a machine and frees its memory. */
void mhlink_close(mhlink_machine machine);

/* mhlink_site, mhlink_point: store the number of the site or the point with this name. mhlink_link:
   stores the number of the site's link with this key; `text` has the bytes of a String. Look
   numbers up once and keep them.

   Return MHLINK_OK; MHLINK_UNKNOWN if there is none; or MHLINK_BAD_VALUE. */
uint32_t mhlink_site(mhlink_machine *machine, const uint8_t *name, size_t length, uint64_t *site);
uint32_t mhlink_point(mhlink_machine *machine, const uint8_t *name, size_t length, uint64_t *point);
uint32_t mhlink_link(mhlink_machine *machine, size_t site, const mhlink_value *key,
                     const uint8_t *text, size_t length, uint64_t *link);

/* mhlink_key: stores the key of a link. The bytes of a String are copied to the buffer, and their
   number is stored in `length`, with MHLINK_SHORT too. */
uint32_t mhlink_key(mhlink_machine *machine, size_t link, mhlink_value *key, uint8_t *buffer,
                    size_t capacity, size_t *length);

/* mhlink_call: calls a site as a worker, and counts the hit of its link. `texts` has the bytes of
   the values that are Strings, in order. Calls take no record.

   A call with up to 16 arguments does not allocate, provided that no argument is a String and no
   node that it evaluates has String in its type.

   Returns MHLINK_OK; MHLINK_BAD_VALUE; MHLINK_NO_WORKER; MHLINK_NO_SITE; MHLINK_WRONG_TYPE;
   MHLINK_LEDGER_FULL: flush the worker and call again; or MHLINK_NO_MEMORY. */
uint32_t mhlink_call(mhlink_machine *machine, uint32_t worker, size_t site,
                     const mhlink_value *values, size_t count, const uint8_t *texts, size_t length,
                     mhlink_reply *reply);

/* mhlink_text: copies the String that the last call returned.

   Returns MHLINK_OK; MHLINK_UNKNOWN if the last call returned no String; or MHLINK_SHORT. */
uint32_t mhlink_text(mhlink_machine *machine, uint8_t *buffer, size_t capacity, size_t *length);

/* mhlink_flush: adds the unflushed hits of a worker to the totals.

   Returns MHLINK_OK; MHLINK_NO_WORKER; MHLINK_HISTORY_FULL; MHLINK_TOTAL_TOO_LARGE; or
   MHLINK_NO_MEMORY. */
uint32_t mhlink_flush(mhlink_machine *machine, uint32_t worker);

/* mhlink_target: replaces the tree of a site by a tree in JSON (MutableCallSite.setTarget).

   Returns MHLINK_OK; MHLINK_NO_SITE; the fault of the text; MHLINK_WRONG_TYPE; MHLINK_NO_POINT;
   MHLINK_WRONG_LEVEL; MHLINK_HISTORY_FULL; or MHLINK_NO_MEMORY. */
uint32_t mhlink_target(mhlink_machine *machine, size_t site, const uint8_t *tree, size_t length,
                       uint64_t *part);

/* mhlink_tree_read: reads a tree from JSON, which is most of the cost of a retargeting.
   mhlink_target_tree: replaces the tree of a site by a tree that was read; the tree remains the
   caller's. mhlink_tree_close: frees a tree.

   A tree refers to points and sites by number: use it with the machine for which it was read, also
   after mhlink_renew and mhlink_extend, or with others whose numbers are the same.

   Return the statuses of mhlink_target. */
uint32_t mhlink_tree_read(mhlink_machine *machine, const uint8_t *json, size_t length,
                          mhlink_tree *tree, uint64_t *part);
uint32_t mhlink_target_tree(mhlink_machine *machine, size_t site, mhlink_tree *tree,
                            uint64_t *part);
void mhlink_tree_close(mhlink_tree tree);

/* mhlink_invalidate: invalidates points together and for good (SwitchPoint.invalidateAll). Points
   may be invalid already.

   Returns MHLINK_OK; MHLINK_NO_POINT; MHLINK_HISTORY_FULL; or MHLINK_NO_MEMORY. */
uint32_t mhlink_invalidate(mhlink_machine *machine, const uint32_t *points, size_t count);

/* mhlink_snapshot: takes a snapshot of the totals and stores its number.

   Returns MHLINK_OK; MHLINK_HISTORY_FULL; or MHLINK_NO_MEMORY. */
uint32_t mhlink_snapshot(mhlink_machine *machine, uint64_t *snapshot);

/* mhlink_plan: computes the optimal plan for a snapshot, publishes it and stores its number.
   mhlink_offer: publishes the caller's plan, in JSON, if the checker accepts it.

   Return MHLINK_OK; MHLINK_NO_SNAPSHOT; MHLINK_GAIN_TOO_LARGE; the fault of the plan's text;
   MHLINK_PLAN_REFUSED; MHLINK_HISTORY_FULL; or MHLINK_NO_MEMORY. */
uint32_t mhlink_plan(mhlink_machine *machine, size_t snapshot, uint64_t *plan);
uint32_t mhlink_offer(mhlink_machine *machine, size_t snapshot, const uint8_t *json, size_t length,
                      uint64_t *plan, uint64_t *part);

/* mhlink_install: installs the newest plan and stores the number of sites at which it installs
   links.

   Returns MHLINK_OK; MHLINK_NO_PLAN; MHLINK_OLD_PLAN if `plan` is not the newest, whose number is
   stored in `part`; MHLINK_HISTORY_FULL; or MHLINK_NO_MEMORY. */
uint32_t mhlink_install(mhlink_machine *machine, size_t plan, uint64_t *linked, uint64_t *part);

/* mhlink_certificate: copies the optimal plan for a snapshot as JSON, with the flow that proves it
   optimal, as mhlink_offer and `mhlink check` read it. */
uint32_t mhlink_certificate(mhlink_machine *machine, size_t snapshot, uint8_t *buffer,
                            size_t capacity, size_t *length);

/* mhlink_used: stores the usage of the history. Always succeeds. */
uint32_t mhlink_used(mhlink_machine *machine, mhlink_usage *used);

/* mhlink_renew: starts a new history.

   hits    the part of the flushed hits to keep, of enum mhlink_old_hits. Unflushed hits are always
           kept.
   again   `count` points to recycle: they are valid in the new history. In every site's tree, one
           that was invalid is first replaced by its fallback, so calls return what they returned
           before and the host may use the number for the next version of a method.

   Sites, points and links keep their numbers, and calls return what they returned before. No site
   has links installed, and snapshots and plans are numbered from 1 again: take a snapshot, plan and
   install at once. The new history starts with one record per worker plus one.

   Returns MHLINK_OK; MHLINK_UNKNOWN if `hits` is none of the three; MHLINK_HISTORY_FULL if the
   limit of the history does not exceed the number of workers; MHLINK_NO_POINT; or
   MHLINK_NO_MEMORY. */
uint32_t mhlink_renew(mhlink_machine *machine, const uint32_t *again, size_t count, uint32_t hits);

/* mhlink_extend: appends points and sites, and starts a new history.

   The text is an object with the keys `points`, `sites` and, optionally, `shared`, as in a
   definition of version 2 (docs/FORMATS.md); other keys are ignored. Its trees may name any point,
   the shared trees of the text, and earlier sites, the existing ones among them. Trees that are
   passed later may name the shared trees of the newest text, and no earlier ones. The limits of a
   definition apply to all points and sites together: 4,096 of each.

   The new points are valid. Otherwise everything is as after mhlink_renew with MHLINK_KEEP_HITS and
   no recycled points.

   Returns MHLINK_OK; the fault of the text, as mhlink_open does; MHLINK_HISTORY_FULL if the
   limit of the history does not exceed the number of workers; or MHLINK_NO_MEMORY. */
uint32_t mhlink_extend(mhlink_machine *machine, const uint8_t *json, size_t length, uint64_t *part);

/* mhlink_hits: stores the unflushed hits of a link by a worker. mhlink_total: stores its flushed
   hits. mhlink_linked: stores the number of links installed at a site.

   Return MHLINK_OK; or MHLINK_UNKNOWN if there is no such worker, link or site. */
uint32_t mhlink_hits(mhlink_machine *machine, uint32_t worker, size_t link, uint64_t *hits);
uint32_t mhlink_total(mhlink_machine *machine, size_t link, uint64_t *total);
uint32_t mhlink_linked(mhlink_machine *machine, size_t site, uint64_t *links);

/* mhlink_detail: stores in `told` the property `detail`, of enum mhlink_details, of item `number`.
   `place` selects an element if the property is a list. Arguments that a property does not use are
   ignored. Does not allocate.

   Returns MHLINK_OK; or MHLINK_UNKNOWN if there is no such property, as the key of a site without
   one. */
uint32_t mhlink_detail(mhlink_machine *machine, uint32_t detail, size_t number, size_t place,
                       uint64_t *told);

/* mhlink_tree_text: copies the current tree of a site as JSON, in the form of a definition. Shared
   subtrees are written out.

   Returns MHLINK_OK; MHLINK_UNKNOWN if there is no such site; MHLINK_SHORT; or MHLINK_NO_MEMORY. */
uint32_t mhlink_tree_text(mhlink_machine *machine, size_t site, uint8_t *buffer, size_t capacity,
                          size_t *length);

/* mhlink_report: copies a line for each point, site and link, as `mhlink run --report` prints them
   (docs/FORMATS.md). */
uint32_t mhlink_report(mhlink_machine *machine, uint8_t *buffer, size_t capacity, size_t *length);

/* Desks and callers: calls from several threads */

/* mhlink_desk_open: opens a desk for a definition in JSON, as mhlink_open opens a machine, and
   `count` callers, 1 to 64, whose handles are stored in `callers`.

   The desk has the records, the totals and the plans. A caller evaluates calls against an immutable
   state, that of its last look; at first it is that of the definition. No function here waits. */
uint32_t mhlink_desk_open(const uint8_t *definition, size_t length, const mhlink_limits *limits,
                          mhlink_caller *callers, size_t count, mhlink_desk *desk, uint64_t *part);

/* mhlink_desk_close: closes a desk. Its callers keep the states of their last looks, and are closed
   separately, before or after. Under the host's lock. */
void mhlink_desk_close(mhlink_desk desk);

/* mhlink_caller_close: closes a caller. Its unflushed hits are lost. */
void mhlink_caller_close(mhlink_caller caller);

/* mhlink_caller_call: calls a site, as mhlink_call does, in the state of the caller's last look.
   Takes no lock. The hit is counted in the caller until it is flushed.

   A call writes to the caller's handle: keep each thread's handle on its own cache line, for
   example as a copy in a variable of that thread. */
uint32_t mhlink_caller_call(mhlink_caller *caller, size_t site, const mhlink_value *values,
                            size_t count, const uint8_t *texts, size_t length, mhlink_reply *reply);

/* mhlink_caller_text: copies the String that the caller's last call returned. mhlink_caller_hits:
   stores the caller's unflushed hits of a link. */
uint32_t mhlink_caller_text(mhlink_caller *caller, uint8_t *buffer, size_t capacity,
                            size_t *length);
uint32_t mhlink_caller_hits(mhlink_caller *caller, size_t link, uint64_t *hits);

/* mhlink_desk_show: publishes the current state of the desk. Each caller uses it from its next look
   on. Under the host's lock. */
uint32_t mhlink_desk_show(mhlink_desk *desk);

/* mhlink_caller_look: has the caller use the published state from its next call on. Under the
   host's lock, and not concurrently with calls of this caller.

   If a host publishes a change and then has each caller look, at a safepoint of its thread, no
   later call uses an older state.

   Returns MHLINK_OK; MHLINK_NO_WORKER if the desk's count of the worker's flushed hits is not
   the caller's; or MHLINK_NO_MEMORY. A caller of another desk is rejected only once the two
   counts differ: keep the callers of different desks apart. */
uint32_t mhlink_caller_look(mhlink_caller *caller, mhlink_desk *desk);

/* mhlink_desk_flush: adds the caller's unflushed hits to the totals. The caller's state stays.
   Under the host's lock, and not concurrently with calls of this caller.

   Returns MHLINK_NO_WORKER as mhlink_caller_look does; otherwise a status of mhlink_flush. */
uint32_t mhlink_desk_flush(mhlink_desk *desk, mhlink_caller *caller);

/* The functions of a machine, for a desk, under the host's lock and concurrently with calls. A
   caller sees a change after the next mhlink_desk_show and a look of its own. */
uint32_t mhlink_desk_target(mhlink_desk *desk, size_t site, const uint8_t *tree, size_t length,
                            uint64_t *part);
uint32_t mhlink_desk_tree_read(mhlink_desk *desk, const uint8_t *json, size_t length,
                               mhlink_tree *tree, uint64_t *part);
uint32_t mhlink_desk_target_tree(mhlink_desk *desk, size_t site, mhlink_tree *tree, uint64_t *part);
uint32_t mhlink_desk_invalidate(mhlink_desk *desk, const uint32_t *points, size_t count);
uint32_t mhlink_desk_snapshot(mhlink_desk *desk, uint64_t *snapshot);
uint32_t mhlink_desk_plan(mhlink_desk *desk, size_t snapshot, uint64_t *plan);
uint32_t mhlink_desk_offer(mhlink_desk *desk, size_t snapshot, const uint8_t *json, size_t length,
                           uint64_t *plan, uint64_t *part);
uint32_t mhlink_desk_install(mhlink_desk *desk, size_t plan, uint64_t *linked, uint64_t *part);
uint32_t mhlink_desk_site(mhlink_desk *desk, const uint8_t *name, size_t length, uint64_t *site);
uint32_t mhlink_desk_point(mhlink_desk *desk, const uint8_t *name, size_t length, uint64_t *point);
uint32_t mhlink_desk_link(mhlink_desk *desk, size_t site, const mhlink_value *key,
                          const uint8_t *text, size_t length, uint64_t *link);
uint32_t mhlink_desk_key(mhlink_desk *desk, size_t link, mhlink_value *key, uint8_t *buffer,
                         size_t capacity, size_t *length);
uint32_t mhlink_desk_total(mhlink_desk *desk, size_t link, uint64_t *total);
uint32_t mhlink_desk_linked(mhlink_desk *desk, size_t site, uint64_t *links);
uint32_t mhlink_desk_detail(mhlink_desk *desk, uint32_t detail, size_t number, size_t place,
                            uint64_t *told);
uint32_t mhlink_desk_tree_text(mhlink_desk *desk, size_t site, uint8_t *buffer, size_t capacity,
                               size_t *length);
uint32_t mhlink_desk_used(mhlink_desk *desk, mhlink_usage *used);

/* mhlink_desk_renew: starts a new history, as mhlink_renew does, with all callers of the desk in
   the order of their workers. Under the host's lock, with each caller at a safepoint of its thread.

   Each caller keeps the state of its last look, and uses the new one from its next look after
   mhlink_desk_show on. Its unflushed hits are kept, and count in the new history from its next
   flush on. MHLINK_HALVE_HITS keeps half of each caller's flushed hits.

   Returns MHLINK_UNKNOWN if `hits` is none of the three; MHLINK_NO_WORKER if these are not the
   callers of all workers, in order; otherwise a status of mhlink_renew, of which
   MHLINK_NO_MEMORY may come first. On failure neither the desk nor a caller changes. */
uint32_t mhlink_desk_renew(mhlink_desk *desk, mhlink_caller *callers, size_t callers_count,
                           const uint32_t *again, size_t count, uint32_t hits);

/* The planner, without a machine */

/* mhlink_plan_problem: computes an optimal selection of links; among optimal selections, the one
   with the fewest links, which is unique. Stores the selected links, ascending, and their value:
   their gains less their charges and the costs of the points that they need, each cost counted
   once.

   costs   the costs of the points. There are at most 2^20 points and 2^20 links.
   needs   the needs of all links: numbers of points, ascending for each link.

   Returns MHLINK_OK; a fault of the problem, MHLINK_PROBLEM and above; MHLINK_UNKNOWN if a link's
   needs are not among all needs; MHLINK_SHORT, with the count in `length`; or MHLINK_NO_MEMORY. On
   failure `chosen` and `value` are unchanged. */
uint32_t mhlink_plan_problem(const uint64_t *costs, size_t points, const mhlink_problem_link *links,
                             size_t count, const uint32_t *needs, size_t all_needs,
                             uint32_t *chosen, size_t capacity, size_t *length, int64_t *value);

/* mhlink_plan_problem_flow: does the same, and stores a proof that the selection is optimal: the
   points that the selected links need, ascending, and a flow.

   In the flow each link divides its gain (0 if it is not eligible): it pays its own charge, sends
   amounts to the points that it needs, and keeps the rest. No charge is overpaid, and no point gets
   more than its cost. The value is the sum of what all links keep; a link that is not selected
   keeps nothing (theorem `left_links_spend_all` of mh_network).

   paid    the amount that each link pays of its charge; one number per link
   given   the amount that is sent for each need, at the need's index in `needs`; if several links
           share a need there, the sum of their amounts
   gets    the amount that each point gets; one number per point

   Returns the statuses of mhlink_plan_problem; MHLINK_SHORT if any array is too short, with both
   lengths stored. After any other error nothing is stored. */
uint32_t mhlink_plan_problem_flow(const uint64_t *costs, size_t points,
                                  const mhlink_problem_link *links, size_t count,
                                  const uint32_t *needs, size_t all_needs, uint32_t *chosen,
                                  size_t capacity, size_t *length, int64_t *value,
                                  uint32_t *needed, size_t needed_capacity, size_t *needed_length,
                                  uint64_t *paid, size_t paid_capacity, uint64_t *given,
                                  size_t given_capacity, uint64_t *gets, size_t gets_capacity);

#ifdef __cplusplus
}
#endif

#endif
