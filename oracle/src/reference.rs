//! The answers that the library is held against: naga's handle check on the module that an image decodes to, and sealing
//! of that module.
use crate::decode::{decode, Decoded, Memory};
use crate::locate::locate;
use crate::positions::Positions;
use crate::seal::seal;
use crate::verdict::{kind, Fault, Verdict, Verdicts, EARLIER, INSIDE, RANGE, UNFINISHED};
use naga::{InvalidHandleError, Module, ValidationError};

/// The position where `locate` finds another fault or position than naga says, so that the verdict agrees with none.
const NOWHERE: usize = usize::MAX;

/// Both verdicts for an image. The four numbers of a fault of the check are naga's, its position is found by `locate`.
pub fn verdicts(image: &[u8], memory: Memory) -> Verdicts {
    match decode::<true>(image, memory) {
        Ok(decoded) => verdicts_of(&decoded),
        Err(refusal) => Verdicts::both(Verdict::refused(refusal.number())),
    }
}

/// The module of an image that sealing accepts, or else the verdict of sealing.
pub fn sealed_module(image: &[u8], memory: Memory) -> Result<Module, Verdict> {
    let decoded =
        decode::<true>(image, memory).map_err(|refusal| Verdict::refused(refusal.number()))?;
    let verdicts = verdicts_of(&decoded);
    if verdicts.accepts() {
        Ok(decoded.module)
    } else {
        Err(verdicts.seal)
    }
}

fn verdicts_of(decoded: &Decoded) -> Verdicts {
    let check = check_verdict(decoded);
    if check != Verdict::default() {
        return Verdicts::both(check);
    }
    Verdicts {
        check,
        seal: seal(&decoded.module, &decoded.positions),
    }
}

fn check_verdict(decoded: &Decoded) -> Verdict {
    if !decoded.finished {
        return Verdict::refused(UNFINISHED);
    }
    let naga = check(&decoded.module);
    if naga == Fault::default() {
        return Verdict::default();
    }
    let found = locate(&decoded.module, &decoded.positions);
    let position = subject_position(naga, &decoded.positions).unwrap_or(found.position);
    if found == naga.at(position) {
        found
    } else {
        naga.at(NOWHERE)
    }
}

/// The position that a fault says by itself: that of a subject whose number is one of the module.
fn subject_position(fault: Fault, positions: &Positions) -> Option<usize> {
    match (fault.number, fault.kind) {
        (EARLIER, kind::TYPE) => Some(positions.types[fault.first]),
        (EARLIER, kind::FUNCTION) => Some(positions.functions[fault.first].opener),
        (EARLIER, kind::FILTER_NODE) => Some(positions.diagnostic_filters[fault.first]),
        _ => None,
    }
}

/// What naga's handle check answers for a module, in the numbers of docs/CHECK.md.
pub fn check(module: &Module) -> Fault {
    match naga::validate_module_handles(module) {
        Ok(()) => Fault::default(),
        Err(ValidationError::InvalidHandle(error)) => fault(&error),
        Err(error) => panic!("no image has doc comments: {error:?}"),
    }
}

fn fault(error: &InvalidHandleError) -> Fault {
    match error {
        InvalidHandleError::BadHandle(bad) => Fault {
            number: INSIDE,
            kind: kind::of_name(bad.kind),
            first: bad.index,
            second: 0,
        },
        // The fields of the other two errors are private, so they are read from what `Debug` prints.
        InvalidHandleError::ForwardDependency(error) => {
            let text = format!("{error:?}");
            Fault {
                number: EARLIER,
                kind: kind::of_name(between(&text, "subject_kind: \"", "\"")),
                first: number(between(&text, "subject: [", "]")),
                second: number(between(&text, "depends_on: [", "]")),
            }
        }
        InvalidHandleError::BadRange(error) => {
            let text = format!("{error:?}");
            Fault {
                number: RANGE,
                kind: kind::of_name(between(&text, "kind: \"", "\"")),
                first: number(between(&text, "range: [", "..")),
                second: number(between(&text, "..", "]")),
            }
        }
    }
}

fn between<'a>(text: &'a str, before: &str, after: &str) -> &'a str {
    let rest = text.split_once(before).expect("the field is printed").1;
    rest.split_once(after).expect("the field is printed").0
}

fn number(text: &str) -> usize {
    text.parse().expect("a number is printed")
}
