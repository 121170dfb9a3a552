// SPDX-License-Identifier: MIT OR Apache-2.0
//! The stack that a call wants at most, in bytes, beside the host's own frames: the figures of `include/sofa.h`, which are measured.
//!
//! A search, and a load, goes one level deeper for each level of the tree. 16384 measurements that come in no order make a tree of about 35
//! levels, which any thread has room for. Measurements that are sorted along all three axes make one chain, as deep as there are
//! measurements: with 16384 of them a call wants 5.6 MiB ([`ANY`]), and a thread of [`std::thread::spawn`] has 2 MiB. Load and ask such a set
//! in a thread that was given more:
//!
//! ```
//! let own = 256 << 10; // what the thread does beside the calls
//! let thread = std::thread::Builder::new().stack_size(sofa::stack::ANY + own).spawn(|| sofa::root(2.0))?;
//! # thread.join().unwrap();
//! # Ok::<(), std::io::Error>(())
//! ```

/// Any call, without the levels of a tree.
pub const CALL: usize = 2048;

/// Each level of the tree that a call searches.
pub const LEVEL: usize = 352;

/// Each level of the tree that a load makes.
pub const LOAD: usize = 352;

/// Each level that [`crate::Tree::insert`] goes down.
pub const INSERT: usize = 112;

/// Any call whatsoever, 5.6 MiB: 16384 levels.
pub const ANY: usize = CALL + 16384 * LEVEL;
