//! A thin safe wrapper of the proved catalogue (include/goravesha.h has each call's promise).
//!
//! The state stands in words that the caller lends for as long as the [`Catalogue`] lives. Any words may be lent: those that are no catalogue are
//! refused as [`Reason::Damaged`] by every call. Every refusal is a [`Refused`], whose [`Reason`] has the header's name, number and sentence.
//!
//! The exclusive borrow keeps calls one after the other. From threads, put the catalogue into a `Mutex`: examples/threads.rs.
#![deny(missing_docs)]

mod reason;
pub use reason::{Reason, Refused};

mod ffi {
    pub type Numbers = [u64; 4];
    extern "C" {
        pub fn goravesha_make(words: *mut u32, count: usize, workers: u32, items: u32, nodes: u32, projects: u32, counter: u32, answer: *mut Numbers) -> u32;
        pub fn goravesha_register(words: *mut u32, count: usize, project: u32, size: u32, answer: *mut Numbers) -> u32;
        pub fn goravesha_start_vread(words: *mut u32, count: usize, worker: u32, item: u32, answer: *mut Numbers) -> u32;
        pub fn goravesha_start_vcas(words: *mut u32, count: usize, worker: u32, item: u32, old: u32, new: u32, answer: *mut Numbers) -> u32;
        pub fn goravesha_start_take_snapshot(words: *mut u32, count: usize, worker: u32, answer: *mut Numbers) -> u32;
        pub fn goravesha_start_read_snapshot(words: *mut u32, count: usize, worker: u32, item: u32, handle: u32, answer: *mut Numbers) -> u32;
        pub fn goravesha_start_total(words: *mut u32, count: usize, worker: u32, project: u32, handle: u32, answer: *mut Numbers) -> u32;
        pub fn goravesha_step(words: *mut u32, count: usize, worker: u32, answer: *mut Numbers) -> u32;
        pub fn goravesha_abandon(words: *mut u32, count: usize, worker: u32, answer: *mut Numbers) -> u32;
    }
}

/// The sizes of a catalogue: P, M, N, Q and C.
#[derive(Clone, Copy, Debug, PartialEq, Eq)]
pub struct Sizes {
    /// P, 1 to 64.
    pub workers: u32,
    /// M, 1 to 256.
    pub items: u32,
    /// N, 1 to 4,096.
    pub nodes: u32,
    /// Q, 1 to 256.
    pub projects: u32,
    /// C, 1 to 4,294,967,294.
    pub counter: u32,
}

impl Sizes {
    /// How many words a catalogue of these sizes needs.
    pub fn words(&self) -> usize {
        16 + 16 * self.workers as usize + 4 * self.items as usize + 3 * self.nodes as usize
    }
}

/// What a step came to.
#[derive(Clone, Copy, Debug, PartialEq, Eq)]
pub enum Step {
    /// The operation goes on; so many steps were taken.
    Running {
        /// Steps so far, this one included.
        steps: u64,
    },
    /// The operation answered.
    Finished {
        /// What it answers.
        value: u64,
        /// Its steps, this one included.
        steps: u64,
    },
}

/// Words lent to a catalogue. The exclusive borrow is the host's duty that calls come one after the other.
#[derive(Debug)]
pub struct Catalogue<'w> {
    words: &'w mut [u32],
}

impl<'w> Catalogue<'w> {
    /// A fresh catalogue in these words, whatever they held.
    pub fn make(words: &'w mut [u32], sizes: Sizes) -> Result<Self, Refused> {
        let mut catalogue = Catalogue { words };
        let Sizes { workers, items, nodes, projects, counter } = sizes;
        catalogue.call(|w, n, a| unsafe { ffi::goravesha_make(w, n, workers, items, nodes, projects, counter, a) })?;
        Ok(catalogue)
    }

    /// The catalogue that stands in these words already; where none does, its calls are refused as [`Reason::Damaged`].
    pub fn over(words: &'w mut [u32]) -> Self {
        Catalogue { words }
    }

    /// The lent words, to look at.
    pub fn words(&self) -> &[u32] {
        self.words
    }

    /// A new item, charged to a project, of so many MiB; its number.
    pub fn register(&mut self, project: u32, size: u32) -> Result<u32, Refused> {
        let (_, numbers) = self.call(|w, n, a| unsafe { ffi::goravesha_register(w, n, project, size, a) })?;
        Ok(numbers[0] as u32)
    }

    /// Starts a vRead.
    pub fn start_vread(&mut self, worker: u32, item: u32) -> Result<(), Refused> {
        self.call(|w, n, a| unsafe { ffi::goravesha_start_vread(w, n, worker, item, a) }).map(|_| ())
    }

    /// Starts a vCAS from project `old` to project `new`.
    pub fn start_vcas(&mut self, worker: u32, item: u32, old: u32, new: u32) -> Result<(), Refused> {
        self.call(|w, n, a| unsafe { ffi::goravesha_start_vcas(w, n, worker, item, old, new, a) }).map(|_| ())
    }

    /// Starts a takeSnapshot.
    pub fn start_take_snapshot(&mut self, worker: u32) -> Result<(), Refused> {
        self.call(|w, n, a| unsafe { ffi::goravesha_start_take_snapshot(w, n, worker, a) }).map(|_| ())
    }

    /// Starts a readSnapshot.
    pub fn start_read_snapshot(&mut self, worker: u32, item: u32, handle: u32) -> Result<(), Refused> {
        self.call(|w, n, a| unsafe { ffi::goravesha_start_read_snapshot(w, n, worker, item, handle, a) }).map(|_| ())
    }

    /// Starts a total.
    pub fn start_total(&mut self, worker: u32, project: u32, handle: u32) -> Result<(), Refused> {
        self.call(|w, n, a| unsafe { ffi::goravesha_start_total(w, n, worker, project, handle, a) }).map(|_| ())
    }

    /// One step of a worker.
    pub fn step(&mut self, worker: u32) -> Result<Step, Refused> {
        let (code, [value, steps, ..]) = self.call(|w, n, a| unsafe { ffi::goravesha_step(w, n, worker, a) })?;
        Ok(if code == 0 { Step::Finished { value, steps } } else { Step::Running { steps } })
    }

    /// Steps of a worker until its operation answers: the value and the steps. It ends on any words, within 5,121 steps.
    pub fn finish(&mut self, worker: u32) -> Result<(u64, u64), Refused> {
        loop {
            if let Step::Finished { value, steps } = self.step(worker)? {
                return Ok((value, steps));
            }
        }
    }

    /// Abandons a worker's operation, where whoever stepped it has ended: the worker is idle at once, and there is no answer. A change that it has published
    /// takes effect once, by whichever operation stamps its node, before this call or after it; any other operation never takes effect. After an abandoned
    /// vCAS, read the item's present project and decide anew. Refused as [`Reason::WorkerIdle`] where the worker is in no operation.
    pub fn abandon(&mut self, worker: u32) -> Result<(), Refused> {
        self.call(|w, n, a| unsafe { ffi::goravesha_abandon(w, n, worker, a) }).map(|_| ())
    }

    // Safe: the pointer and the count are those of an exclusive slice, and the answer's numbers are apart from it.
    fn call(&mut self, call: impl FnOnce(*mut u32, usize, *mut ffi::Numbers) -> u32) -> Result<(u32, ffi::Numbers), Refused> {
        let mut numbers = [0; 4];
        let code = call(self.words.as_mut_ptr(), self.words.len(), &mut numbers);
        if code >= 16 {
            return Err(Refused { reason: Reason::of(code - 16), steps: numbers[1] });
        }
        Ok((code, numbers))
    }
}
