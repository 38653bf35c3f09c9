//! The rules one by one, each with a change of it. A rule decides an input where the model
//! answers differently under the rule's change; so coverage is counted.

use crate::input::{CODES, KINDS};

/// The passes that look at uses.
#[derive(Clone, Copy, Debug, PartialEq, Eq)]
pub enum Pass {
    Collect,
    Interposed,
    Instances,
}

/// A change of one rule, told as the wrong behaviour. Bytes are codes, kinds and modes.
#[derive(Clone, Copy, Debug, PartialEq, Eq)]
pub enum Change {
    // Uses.
    UseOmitted(Pass, u8),
    LvalueIsUse(Pass),
    MarkIsUse(Pass),
    OperandsReversed(Pass),
    // Reasons 1 and 2.
    OwnParametersOmitted,
    DependenciesOmitted,
    DeclarationsOmitted,
    ReassignmentsNamed,
    DeclarationsFirst,
    // Reason 3.
    EscapeOmitted,
    EscapeOfDependencies,
    EscapeWithoutScope,
    EscapeByInnermostRecorded,
    EscapeByAnyActive,
    EscapeKept,
    EscapeAtRow,
    EscapeByScopeRow,
    EscapeByIdentifier,
    EscapeByEarlierUse,
    EscapeByLastUse,
    EscapeNotTakenBack,
    PrunedIsActive,
    ScopeStaysActive,
    AlwaysEscaped,
    // Reason 4.
    InnerOmitted(u8),
    NestedOmitted,
    DeeplyNestedOmitted,
    NestedFirst,
    BreadthFirst,
    InnerLast,
    // Reason 5.
    ParametersNotConstant,
    BarrierOmitted(u8),
    BarrierAdded(u8),
    BarrierWithoutLvalueOmitted,
    BarrierWithNamedOmitted,
    BarrierWithUnnamed,
    BarrierBeforeUses,
    ConstantStoreIsBarrier(u8, u8),
    ConstantOmitted(u8, u8),
    ConstantAdded(u8, u8),
    ConstantAfterUses,
    TrackingOmitted(u8),
    TrackingAdded(u8),
    TrackingBeforeUses,
    TrackingAfterUses(u8),
    TrackingOnce,
    LookedAtBeforeUses,
    ConstantNotHandedOn(u8),
    ConstantHandedToNamed(u8),
    ConstantHandedByProperty(u8),
    GlobalOmitted,
    GlobalByLoads,
    GlobalByOthers,
    GlobalIsConstant,
    GlobalNotHandedOn(u8),
    GlobalNotConstant(u8),
    GlobalNotToNamed(u8),
    LeafActsUnder(u8),
    SequenceInert,
    NamedAtStart,
    TrackedByDeclaration,
    ConstantByDeclaration,
    UntrackedPromoted,
    ConstantPromoted,
    // Reason 6.
    InstancesOmitted,
    LvalueOmitted,
    LvalueAfterValue,
    PrunedDeclarationsOmitted,
    PrunedDependenciesOmitted,
    PrunedReassignmentsOmitted,
    ScopeReassignmentsOmitted,
    ScopeListsOnEntering,
    ScopeListsReversed,
    ScopeDependenciesFirst,
    ScopeReassignmentsSecond,
    MarksVisited,
    InstancesOfEarlierRuns,
    InstancesOfAuthors,
    InstancesOfCovered,
    InstancesOfInterposedOmitted,
    // Letters and runs.
    LetterOmitted,
    LetterByIdentifier,
    LetterByOperand,
    LetterOfEarlierRuns,
    ConstantsKept,
    TrackingKept,
    GlobalsKept,
}

use Change::*;

pub const BARRIER_KINDS: [u8; 13] = [4, 5, 6, 11, 12, 22, 24, 25, 27, 29, 33, 37, 38];

pub fn is_barrier_kind(kind: u8) -> bool {
    BARRIER_KINDS.contains(&kind)
}

/// Whether a mode makes what it stores or declares constant.
pub fn is_constant_mode(mode: u8) -> bool {
    mode == 0 || mode == 4
}

/// Every change that can decide an input of the Rust.
pub fn all() -> Vec<Change> {
    let mut list = Vec::new();
    for pass in [Pass::Collect, Pass::Interposed, Pass::Instances] {
        for code in [5, 12, 13, 14, 15, 21, 24] {
            list.push(UseOmitted(pass, code));
        }
    }
    for pass in [Pass::Collect, Pass::Interposed] {
        list.extend([LvalueIsUse(pass), MarkIsUse(pass)]);
    }
    list.extend([OperandsReversed(Pass::Interposed), OperandsReversed(Pass::Instances)]);
    list.extend([OwnParametersOmitted, DependenciesOmitted, DeclarationsOmitted]);
    list.extend([ReassignmentsNamed, DeclarationsFirst]);
    list.extend([EscapeOmitted, EscapeOfDependencies, EscapeWithoutScope]);
    list.extend([EscapeByInnermostRecorded, EscapeByAnyActive, EscapeKept, EscapeAtRow]);
    list.extend([EscapeByScopeRow, EscapeByIdentifier, EscapeByEarlierUse, EscapeByLastUse]);
    list.extend([EscapeNotTakenBack, PrunedIsActive, ScopeStaysActive, AlwaysEscaped]);
    list.extend([InnerOmitted(17), InnerOmitted(30), NestedOmitted]);
    list.extend([DeeplyNestedOmitted, NestedFirst, BreadthFirst, InnerLast]);
    interposed(&mut list);
    list.extend([InstancesOmitted, LvalueOmitted, LvalueAfterValue, PrunedDeclarationsOmitted]);
    list.extend([PrunedDependenciesOmitted, PrunedReassignmentsOmitted]);
    list.extend([ScopeReassignmentsOmitted, ScopeListsOnEntering, ScopeListsReversed]);
    list.extend([ScopeDependenciesFirst, ScopeReassignmentsSecond]);
    list.extend([MarksVisited, InstancesOfEarlierRuns, InstancesOfAuthors]);
    list.extend([InstancesOfCovered, InstancesOfInterposedOmitted]);
    list.extend([LetterOmitted, LetterByIdentifier, LetterByOperand, LetterOfEarlierRuns]);
    list.extend([ConstantsKept, TrackingKept, GlobalsKept]);
    list
}

fn interposed(list: &mut Vec<Change>) {
    list.push(ParametersNotConstant);
    for kind in 0..42 {
        let loads = matches!(kind, 0 | 1 | 23 | 26);
        let barrier = is_barrier_kind(kind);
        list.push(if barrier { BarrierOmitted(kind) } else { BarrierAdded(kind) });
        list.push(if barrier || loads { TrackingOmitted(kind) } else { TrackingAdded(kind) });
    }
    list.extend([BarrierWithoutLvalueOmitted, BarrierWithNamedOmitted, BarrierWithUnnamed]);
    list.extend([BarrierBeforeUses, ConstantAfterUses, ConstantOmitted(12, 0)]);
    for kind in 2..7 {
        for mode in 0..8 {
            if !is_constant_mode(mode) {
                list.push(ConstantAdded(kind, mode));
            } else {
                list.push(ConstantOmitted(kind, mode));
                if kind >= 4 {
                    list.push(ConstantStoreIsBarrier(kind, mode));
                }
            }
        }
    }
    list.extend([TrackingBeforeUses, TrackingOnce, LookedAtBeforeUses]);
    for kind in [0, 1] {
        list.extend([TrackingAfterUses(kind), ConstantNotHandedOn(kind)]);
        list.push(ConstantHandedToNamed(kind));
    }
    for kind in [23, 26] {
        list.extend([TrackingAfterUses(kind), ConstantHandedByProperty(kind)]);
        list.extend([GlobalNotHandedOn(kind), GlobalNotConstant(kind), GlobalNotToNamed(kind)]);
    }
    list.extend([GlobalOmitted, GlobalByLoads, GlobalByOthers, GlobalIsConstant]);
    list.extend([6, 7, 8, 9, 16, 17, 18, 19, 20].map(LeafActsUnder));
    list.extend([SequenceInert, NamedAtStart, TrackedByDeclaration, ConstantByDeclaration]);
    list.extend([UntrackedPromoted, ConstantPromoted]);
}

/// The change in words.
pub fn title(change: Change) -> String {
    let kind = |kind: u8| KINDS[usize::from(kind)];
    let code = |code: u8| CODES[usize::from(code)];
    match change {
        UseOmitted(pass, at) => format!("UseOmitted {pass:?} {}", code(at)),
        LeafActsUnder(at) => format!("LeafActsUnder {}", code(at)),
        InnerOmitted(k) => format!("InnerOmitted {}", kind(k)),
        BarrierOmitted(k) => format!("BarrierOmitted {}", kind(k)),
        BarrierAdded(k) => format!("BarrierAdded {}", kind(k)),
        ConstantStoreIsBarrier(k, m) => format!("ConstantStoreIsBarrier {} mode {m}", kind(k)),
        ConstantOmitted(k, m) => format!("ConstantOmitted {} mode {m}", kind(k)),
        ConstantAdded(k, m) => format!("ConstantAdded {} mode {m}", kind(k)),
        TrackingOmitted(k) => format!("TrackingOmitted {}", kind(k)),
        TrackingAdded(k) => format!("TrackingAdded {}", kind(k)),
        TrackingAfterUses(k) => format!("TrackingAfterUses {}", kind(k)),
        ConstantNotHandedOn(k) => format!("ConstantNotHandedOn {}", kind(k)),
        ConstantHandedToNamed(k) => format!("ConstantHandedToNamed {}", kind(k)),
        ConstantHandedByProperty(k) => format!("ConstantHandedByProperty {}", kind(k)),
        GlobalNotHandedOn(k) => format!("GlobalNotHandedOn {}", kind(k)),
        GlobalNotConstant(k) => format!("GlobalNotConstant {}", kind(k)),
        GlobalNotToNamed(k) => format!("GlobalNotToNamed {}", kind(k)),
        other => format!("{other:?}"),
    }
}
