// The wrapper's names, numbers and sentences are the header's, all of them and no others.
use goravesha::Reason;

const HEADER: &str = include_str!("../../../include/goravesha.h");

/// A constant of the header's enum: its number.
fn code_of(name: &str) -> u32 {
    let start = format!("  {name} = ");
    let line = HEADER.lines().find(|line| line.starts_with(&start)).expect("the enum has the name");
    line[start.len()..].trim_end_matches(',').parse().expect("a number")
}

/// NO_SUCH_WORKER as NoSuchWorker.
fn in_camel_case(name: &str) -> String {
    name.split('_').map(|word| word[..1].to_string() + &word[1..].to_lowercase()).collect()
}

/// The header's refusals: name, number, sentence.
fn refusals() -> Vec<(String, u32, String)> {
    let cases = HEADER.lines().filter_map(|line| line.trim().strip_prefix("case GORAVESHA_")?.strip_suffix("\";")?.split_once(": return \""));
    let named = cases.map(|(name, sentence)| (in_camel_case(name), code_of(&format!("GORAVESHA_{name}")), sentence.to_string()));
    named.filter(|(_, code, _)| *code >= 16).map(|(name, code, sentence)| (name, code - 16, sentence)).collect()
}

#[test]
fn each_refusal_of_the_header() {
    let refusals = refusals();
    assert_eq!(refusals.iter().map(|(_, number, _)| *number).collect::<Vec<_>>(), (1..=refusals.len() as u32).collect::<Vec<_>>());
    for (name, number, sentence) in &refusals {
        let reason = Reason::of(*number);
        assert_eq!((format!("{reason:?}"), reason.number(), reason.sentence()), (name.clone(), *number, sentence.as_str()));
    }
    assert_eq!(Reason::of(refusals.len() as u32 + 1), Reason::Unknown(refusals.len() as u32 + 1));
}

#[test]
fn an_unknown_number() {
    let default = HEADER.lines().find_map(|line| line.trim().strip_prefix("default: return \"")?.strip_suffix("\";")).expect("the header has one");
    for number in [0, 99, u32::MAX] {
        assert_eq!((Reason::of(number), Reason::of(number).number(), Reason::of(number).sentence()), (Reason::Unknown(number), number, default));
    }
}
