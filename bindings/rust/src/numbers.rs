//! Numbers of processes, buffers, devices and semaphores, a type each, so that none is taken for another.

use core::fmt;

/// A number's type: any number may be asked for, and what a table hasn't is refused by name.
macro_rules! number {
    ($(#[$doc:meta])* $name:ident) => {
        $(#[$doc])*
        #[derive(Clone, Copy, Debug, PartialEq, Eq, PartialOrd, Ord, Hash)]
        #[repr(transparent)]
        pub struct $name(pub u16);

        impl $name {
            /// The bare number.
            #[must_use]
            pub const fn number(self) -> u16 {
                self.0
            }
        }

        /// The bare number.
        impl fmt::Display for $name {
            fn fmt(&self, to: &mut fmt::Formatter<'_>) -> fmt::Result {
                self.0.fmt(to)
            }
        }
    };
}

number! {
    /// A process's number, from 1 on in the order of the list.
    ///
    /// A buffer's number is no process's:
    ///
    /// ```compile_fail,E0308
    /// # use elvomike_monitor::{calls::Start, Buffer};
    /// Start(Buffer(1));
    /// ```
    ///
    /// ```
    /// # use elvomike_monitor::{calls::Start, Process};
    /// Start(Process(1));
    /// ```
    Process
}
number! {
    /// A buffer's number, from 1 on: first those of process 1, then those of process 2, and so on.
    Buffer
}
number! {
    /// A device's number, 0 to 63.
    Device
}
number! {
    /// A semaphore's number, from 1 on in the order of the counters.
    Semaphore
}

impl Process {
    /// The process of a word in which 0 stands for none.
    pub(crate) fn of(word: u16) -> Option<Process> {
        Some(Process(word)).filter(|_| word != 0)
    }
}

impl Buffer {
    /// The buffer of a word in which 0 stands for none.
    pub(crate) fn of(word: u16) -> Option<Buffer> {
        Some(Buffer(word)).filter(|_| word != 0)
    }
}
