//! The faults of wrong engines.
//!
//! A test is worth something if it tells a wrong engine from the right one. A
//! wrong engine is the second engine with one of these faults; [`wrong`](crate::wrong)
//! has its calls.

/// One change that makes the engine wrong.
#[derive(Clone, Copy, PartialEq, Eq, Debug)]
pub enum Fault {
    /// Identifiers of more than sixteen bytes are cut to their first sixteen.
    CutIdentifiers,
    /// F is added up over the partitions and the buffer.
    AddedFrequencies,
    /// F is added up, less the windows that the place just before holds too.
    MendedNeighbours,
    /// A merge drops sums below 0.
    DroppedNegatives,
    /// A list is filled before removed windows are taken out.
    FilledFirst,
    /// N / F is rounded down before it is weighed.
    RoundedQuotient,
    /// A query reads a merge's output in progress beside its inputs.
    ReadOutput,
    /// A query does not read the buffer.
    ForgottenBuffer,
    /// A partition is passed over if its lowest window is outside the stretch.
    LowestAlone,
    /// A partition's highest window is taken to be that of its last list.
    LastListHighest,
    /// Postings taken count those of partitions that are passed over.
    TakenOutside,
    /// N is the state's, of all windows.
    LiveOutside,
    /// F counts the windows outside the stretch as well.
    FrequencyOutside,
}

impl Fault {
    /// All faults.
    pub const ALL: [Fault; 13] = [
        Fault::CutIdentifiers,
        Fault::AddedFrequencies,
        Fault::MendedNeighbours,
        Fault::DroppedNegatives,
        Fault::FilledFirst,
        Fault::RoundedQuotient,
        Fault::ReadOutput,
        Fault::ForgottenBuffer,
        Fault::LowestAlone,
        Fault::LastListHighest,
        Fault::TakenOutside,
        Fault::LiveOutside,
        Fault::FrequencyOutside,
    ];

    /// Whether the fault shows only where a query is asked over a part of the windows, on
    /// cards that the engine wrote.
    pub fn needs_stretch(self) -> bool {
        match self {
            Fault::LowestAlone
            | Fault::LastListHighest
            | Fault::TakenOutside
            | Fault::LiveOutside
            | Fault::FrequencyOutside => true,
            Fault::CutIdentifiers
            | Fault::AddedFrequencies
            | Fault::MendedNeighbours
            | Fault::DroppedNegatives
            | Fault::FilledFirst
            | Fault::RoundedQuotient
            | Fault::ReadOutput
            | Fault::ForgottenBuffer => false,
        }
    }

    /// The name by which the fault is chosen.
    pub fn name(self) -> &'static str {
        match self {
            Fault::CutIdentifiers => "cut-identifiers",
            Fault::AddedFrequencies => "added-frequencies",
            Fault::MendedNeighbours => "mended-neighbours",
            Fault::DroppedNegatives => "dropped-negatives",
            Fault::FilledFirst => "filled-first",
            Fault::RoundedQuotient => "rounded-quotient",
            Fault::ReadOutput => "read-output",
            Fault::ForgottenBuffer => "forgotten-buffer",
            Fault::LowestAlone => "lowest-alone",
            Fault::LastListHighest => "last-list-highest",
            Fault::TakenOutside => "taken-outside",
            Fault::LiveOutside => "live-outside",
            Fault::FrequencyOutside => "frequency-outside",
        }
    }

    /// What the engine with this fault does wrong, for testers.
    pub fn sentence(self) -> &'static str {
        match self {
            Fault::CutIdentifiers => "identifiers are cut at sixteen bytes",
            Fault::AddedFrequencies => {
                "F counts a split window once for each partition and buffer that has a part of it"
            }
            Fault::MendedNeighbours => {
                "F counts a split window again where the partition just before has no part of it"
            }
            Fault::DroppedNegatives => {
                "a merge drops counts below 0, and removed windows come back"
            }
            Fault::FilledFirst => "removed windows take places in the list from live ones",
            Fault::RoundedQuotient => "N / F is rounded down before it is weighed",
            Fault::ReadOutput => "a query during a merge counts twice what is merged so far",
            Fault::ForgottenBuffer => "a query does not read the buffer",
            Fault::LowestAlone => {
                "a partition is passed over where its lowest window is outside the stretch, though others are inside"
            }
            Fault::LastListHighest => {
                "a partition's highest window is taken from its last list, and the partition passed over by that"
            }
            Fault::TakenOutside => "postings taken count those of partitions passed over",
            Fault::LiveOutside => "N counts the windows outside the stretch, too",
            Fault::FrequencyOutside => "F counts the windows outside the stretch, too",
        }
    }

    /// The fault of a name.
    pub fn named(name: &str) -> Option<Fault> {
        Fault::ALL.into_iter().find(|fault| fault.name() == name)
    }
}
