//! Why a call is refused: the header's names, numbers and sentences. tests/texts.rs holds them to include/goravesha.h.

/// Why a call is refused. Later versions may add reasons.
#[derive(Clone, Copy, Debug, PartialEq, Eq)]
#[non_exhaustive]
pub enum Reason {
    /// 1, make: a size outside its range, or too few lent words.
    BadSize,
    /// 2: a word that the call uses is outside its range, or fewer words are lent than the header needs.
    Damaged,
    /// 3: the worker number is P or more.
    NoSuchWorker,
    /// 4, start: the worker is in an operation.
    WorkerBusy,
    /// 5, step, abandon: the worker is idle.
    WorkerIdle,
    /// 6: the item number is not registered.
    NotRegistered,
    /// 7: a project number is Q or more.
    NoSuchProject,
    /// 8: the handle is at or above the present counter.
    NoSuchHandle,
    /// 9, readSnapshot: the handle is below the item's birth stamp.
    BornLater,
    /// 10, register: M items exist.
    ItemsFull,
    /// 11, register, or a vCAS at line 45: no node waits and all N were used.
    NodesFull,
    /// 12, takeSnapshot at line 5: the counter is C.
    CounterFull,
    /// 13, the schedule program alone: a line that is no frame.
    BadFrame,
    /// A number that this version does not know.
    Unknown(u32),
}

/// By number, from 1 on: the reason and its sentence.
const REASONS: [(Reason, &str); 13] = [
    (Reason::BadSize, "A size is outside its range, or too few words are lent; see goravesha_make and GORAVESHA_WORDS."),
    (Reason::Damaged, "The words are damaged, too few or hold no catalogue; make a new one and look for what wrote into them."),
    (Reason::NoSuchWorker, "There is no worker of this number; they are numbered from 0 to P - 1."),
    (Reason::WorkerBusy, "The worker is in an operation; step it to its end first, or abandon it, if whoever stepped it has died."),
    (Reason::WorkerIdle, "The worker is idle; there is no operation to step or to abandon."),
    (Reason::NotRegistered, "No item of this number is registered."),
    (Reason::NoSuchProject, "There is no project of this number; they are numbered from 0 to Q - 1, and 0 means unlinked."),
    (Reason::NoSuchHandle, "No snapshot has this handle yet; take one first."),
    (Reason::BornLater, "The item was registered after this snapshot; it has no project there."),
    (Reason::ItemsFull, "All M items are registered; make a larger catalogue."),
    (Reason::NodesFull, "All N nodes are in use; make a new catalogue and register the items anew."),
    (Reason::CounterFull, "All C handles are taken; make a new catalogue and register the items anew."),
    (Reason::BadFrame, "The line is no frame; only the schedule program says so."),
];

impl Reason {
    /// The reason of a refusal's number.
    pub fn of(number: u32) -> Reason {
        let known = number.checked_sub(1).and_then(|place| REASONS.get(place as usize));
        known.map_or(Reason::Unknown(number), |(reason, _)| *reason)
    }

    /// Document 01's number.
    pub fn number(self) -> u32 {
        match self {
            Reason::Unknown(number) => number,
            _ => 1 + REASONS.iter().take_while(|(reason, _)| *reason != self).count() as u32,
        }
    }

    /// What it means and what to do, in a sentence.
    pub fn sentence(self) -> &'static str {
        REASONS.iter().find(|(reason, _)| *reason == self).map_or("This code is unknown to this version.", |(_, sentence)| *sentence)
    }
}

impl std::fmt::Display for Reason {
    fn fmt(&self, f: &mut std::fmt::Formatter<'_>) -> std::fmt::Result {
        f.write_str(self.sentence())
    }
}

/// A refusal. Steps are 0 but where [`Reason::NodesFull`] or [`Reason::CounterFull`] ended an operation in a step.
#[derive(Clone, Copy, Debug, PartialEq, Eq)]
pub struct Refused {
    /// Why.
    pub reason: Reason,
    /// The operation's steps, where this refusal ended it.
    pub steps: u64,
}

impl std::fmt::Display for Refused {
    fn fmt(&self, f: &mut std::fmt::Formatter<'_>) -> std::fmt::Result {
        write!(f, "refused with number {}: {}", self.reason.number(), self.reason)
    }
}

impl std::error::Error for Refused {}
