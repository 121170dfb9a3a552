// SPDX-License-Identifier: MIT OR Apache-2.0
//! The floating-point environment: the default one while the archive is called, and the host's again afterwards.
//!
//! The proofs are about IEEE 754 as it stands: rounding to nearest even, subnormal numbers kept, no traps. A thread that renders audio often
//! has it otherwise, and the archive would answer something else there. What decides is one register: read before each call, and written
//! only where the host has changed it. Nothing in this crate does arithmetic on floats itself.
//!
//! Where it is written, the flags of exceptions are the host's again afterwards, and those that the call raised are forgotten, as with the
//! header's `sofa_enter` and `sofa_leave`; else they stay, as after any arithmetic.
use machine::Host;

/// The host's environment, put aside while this lives. Dropped, the registers hold again what they held.
pub(crate) struct Aside(Option<Host>);

impl Aside {
    #[inline]
    pub(crate) fn put() -> Aside {
        Aside(machine::enter())
    }
}

impl Drop for Aside {
    #[inline]
    fn drop(&mut self) {
        if let Some(host) = self.0 {
            machine::leave(host);
        }
    }
}

/// MXCSR, by which all of the archive's arithmetic goes: it does not use the x87 unit. The flags stand in it too.
#[cfg(target_arch = "x86_64")]
mod machine {
    use std::arch::asm;

    pub(super) type Host = u32;

    /// Every exception masked, nearest even, neither flush-to-zero (bit 15) nor denormals-are-zero (bit 6).
    const DEFAULT: u32 = 0x1f80;

    /// The six flags of exceptions that were met, which decide nothing.
    const FLAGS: u32 = 0x3f;

    /// Puts the default in force and answers what was there, nothing where that is the default. Flags stay raised meanwhile: a processor may
    /// take ten times as long where one is cleared and raised again.
    #[inline]
    pub(super) fn enter() -> Option<Host> {
        let mut host = 0;
        // SAFETY: writes the four bytes of a local.
        unsafe { asm!("stmxcsr [{}]", in(reg) std::ptr::addr_of_mut!(host), options(nostack, preserves_flags)) };
        if host & !FLAGS == DEFAULT {
            return None;
        }
        write(DEFAULT | host & FLAGS);
        Some(host)
    }

    #[inline]
    pub(super) fn leave(host: Host) {
        write(host);
    }

    #[inline]
    fn write(register: u32) {
        // SAFETY: reads the four bytes of a local, which are the default with flags, or what `enter` read: no reserved bit is set.
        unsafe { asm!("ldmxcsr [{}]", in(reg) std::ptr::addr_of!(register), options(nostack)) };
    }
}

/// FPCR, and FPSR with the flags, which is looked at only where FPCR is to be written.
#[cfg(target_arch = "aarch64")]
mod machine {
    use std::arch::asm;

    #[derive(Clone, Copy)]
    pub(super) struct Host {
        control: u64,
        status: u64,
    }

    /// FPCR: no traps, nearest even, no flush-to-zero, NaNs as they come.
    const DEFAULT: u64 = 0;

    /// Puts the default in force and answers what was there, nothing where that is the default.
    #[inline]
    pub(super) fn enter() -> Option<Host> {
        let control: u64;
        // SAFETY: reads a register that every thread may read.
        unsafe { asm!("mrs {}, fpcr", out(reg) control, options(nomem, nostack, preserves_flags)) };
        if control == DEFAULT {
            return None;
        }
        let status: u64;
        // SAFETY: reads another such register, and writes the default to the first, as every thread may.
        unsafe { asm!("mrs {}, fpsr", "msr fpcr, {}", out(reg) status, in(reg) DEFAULT, options(nostack, preserves_flags)) };
        Some(Host { control, status })
    }

    #[inline]
    pub(super) fn leave(host: Host) {
        // SAFETY: writes what `enter` read to registers that every thread may write.
        unsafe { asm!("msr fpcr, {}", "msr fpsr, {}", in(reg) host.control, in(reg) host.status, options(nostack, preserves_flags)) };
    }
}

/// There is no archive for other machines: `build.rs` says so. Documentation builds all the same.
#[cfg(not(any(target_arch = "x86_64", target_arch = "aarch64")))]
mod machine {
    pub(super) type Host = ();

    pub(super) fn enter() -> Option<Host> {
        None
    }

    pub(super) fn leave(_: Host) {}
}
