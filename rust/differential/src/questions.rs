//! What each call answers, held to the table of calls: every code that it lists comes up, under
//! each of its conditions, and no other does.
use crate::generate::row;
use model::calls::Arg;
use model::table::Call;
use std::collections::BTreeSet;

/// The codes that came up for one call.
pub struct Reached {
    call: &'static Call,
    /// For each line of questions: with whatever room, and with ample room.
    seen: Vec<[BTreeSet<u64>; 2]>,
    /// What a call that says yes or no said.
    truths: BTreeSet<u64>,
}

/// The highest number of a question.
const LAST: u64 = 24;

/// The lent numbers that are 0 or 1.
const TRUTHS: [&str; 3] = ["holds", "names", "fits"];

/// What a line of questions says of a code.
#[derive(Clone, Copy, PartialEq, Eq)]
enum Says {
    Never,
    Comes,
    /// It comes up where the room is short, and with ample room never.
    WithShortRoom,
    /// It comes up with ample room too.
    WithAmpleRoom,
}

fn says(questions: &str, code: u64) -> Says {
    let mut accepted = true;
    for mark in questions.split_whitespace() {
        accepted &= !mark.ends_with('!');
        let (listed, says) = match mark {
            "absent" => (100, Says::Comes),
            "remove" => (101, Says::Comes),
            "21" => (21, Says::WithShortRoom),
            "21+" => (21, Says::WithAmpleRoom),
            _ if mark.starts_with('(') => continue,
            _ => {
                let digits = mark.trim_end_matches(['n', 'h', '*', '!']);
                (digits.parse().expect("a question's number"), Says::Comes)
            }
        };
        if listed == code {
            return says;
        }
    }
    match code {
        0 if accepted => Says::Comes,
        _ => Says::Never,
    }
}

/// Whether the parameters are as a condition has them.
fn holds(call: &Call, condition: &str, args: &[Arg]) -> bool {
    condition.split_whitespace().all(|word| {
        let (name, value) = word.split_once('=').expect("name=value");
        let at = call.parameters.iter().position(|p| p.0 == name).expect("a parameter");
        args[at] == Arg::Number(value.parse().expect("a number"))
    })
}

impl Reached {
    pub fn new(call: &str) -> Self {
        let call = row(call);
        let seen = call.asks.iter().map(|_| Default::default()).collect();
        Reached { call, seen, truths: BTreeSet::new() }
    }

    /// The arguments after the call, and its code.
    pub fn note(&mut self, args: &[Arg], code: u64, ample: bool) {
        if let Some(Arg::Lent(truth)) = self.truth().map(|at| &args[at]).filter(|_| code == 0) {
            self.truths.insert(*truth);
        }
        let code = if self.call.result == "code" { code } else { 0 };
        let asks = self.call.asks.iter();
        let line = asks.clone().position(|(condition, _)| holds(self.call, condition, args));
        let seen = &mut self.seen[line.expect("a line without a condition")];
        seen[0].insert(code);
        if ample {
            seen[1].insert(code);
        }
    }

    /// Which argument is a yes or no.
    fn truth(&self) -> Option<usize> {
        self.call.parameters.iter().position(|(name, _)| TRUTHS.contains(name))
    }

    /// What is wrong with the codes that came up: with all, those that did not come up, too.
    fn faults(&self, all: bool) -> Vec<String> {
        let mut faults = Vec::new();
        if all && self.truth().is_some() && self.truths != BTreeSet::from([0, 1]) {
            faults.push(format!("it says {:?}, and not both 0 and 1", self.truths));
        }
        for ((condition, questions), [any, ample]) in self.call.asks.iter().zip(&self.seen) {
            let mut fault = |code: u64, text: &str| {
                let which =
                    if condition.is_empty() { String::new() } else { format!("{condition}: ") };
                faults.push(format!("{which}{code} {text}"));
            };
            for code in (0..=LAST).chain([100, 101]) {
                let said = says(questions, code);
                if any.contains(&code) && said == Says::Never {
                    fault(code, "comes up, which the table does not list");
                }
                if ample.contains(&code) && said == Says::WithShortRoom {
                    fault(code, "comes up with ample room");
                }
                if all && !any.contains(&code) && said != Says::Never {
                    fault(code, "was not reached");
                } else if all && !ample.contains(&code) && said == Says::WithAmpleRoom {
                    fault(code, "was not reached with ample room");
                }
            }
        }
        faults
    }

    /// Whether every code came up that the table lists.
    pub fn whole(&self) -> bool {
        self.faults(true).len() == self.faults(false).len()
    }

    /// One line that begins with `ok` or `FAIL`.
    pub fn line(&self) -> String {
        let faults = self.faults(true);
        let count: usize = self.seen.iter().map(|[any, _]| any.len()).sum();
        match faults.is_empty() {
            true => {
                format!("ok   {} codes: the {count} of the table, each reached", self.call.name)
            }
            false => format!("FAIL {} codes: {}", self.call.name, faults.join("; ")),
        }
    }
}

#[cfg(test)]
mod tests {
    use super::*;
    use model::table::CALLS;

    fn line(call: &str, seen: &[(u64, u64, bool)]) -> String {
        let mut reached = Reached::new(call);
        let count = reached.call.parameters.len();
        for &(first, code, ample) in seen {
            reached.note(&vec![Arg::Number(first); count], code, ample);
        }
        reached.line()
    }

    #[test]
    fn a_code_that_is_not_reached_fails() {
        let all = [(0, 0, true), (0, 3, true), (0, 6, true)];
        assert!(line("backref_flags", &all).starts_with("ok"));
        for left_out in 0..3 {
            let mut seen = all.to_vec();
            seen.remove(left_out);
            assert!(line("backref_flags", &seen).starts_with("FAIL"));
        }
        assert!(line("backref_flags", &[]).starts_with("FAIL"));
    }

    #[test]
    fn a_code_that_is_not_listed_fails() {
        let seen = [(0, 0, true), (0, 3, true), (0, 6, true), (0, 7, true)];
        assert!(line("backref_flags", &seen).starts_with("FAIL"));
    }

    #[test]
    fn question_21_tells_the_room_from_the_limits() {
        let body = |ample| [(0, 0, true), (0, 21, ample)];
        assert!(line("backref_keyed_data_ref_body", &body(false)).starts_with("ok"));
        assert!(line("backref_keyed_data_ref_body", &body(true)).starts_with("FAIL"));
        let add = |ample| {
            let mut seen = [0, 3, 6, 7, 8, 9].map(|code| (0, code, true)).to_vec();
            seen.push((0, 21, ample));
            seen
        };
        assert!(line("backref_add_inline_keyed_block", &add(true)).starts_with("ok"));
        assert!(line("backref_add_inline_keyed_block", &add(false)).starts_with("FAIL"));
    }

    #[test]
    fn each_condition_has_its_codes() {
        // Every argument is the number of the change here.
        let mut seen = Vec::new();
        for (change, codes) in [
            (1, &[0, 1, 2, 3, 4, 5, 9, 17, 21][..]),
            (2, &[0, 1, 2, 3, 4, 5, 9, 10, 11, 17, 21]),
            (3, &[0, 1, 2, 3, 4, 5, 9, 10, 11, 17, 21]),
            (4, &[0, 1, 2, 3, 4, 5, 13]),
            (5, &[0, 1, 2, 3, 4, 5, 13, 15]),
            (6, &[0, 1, 2, 3, 4, 5, 10, 22]),
            (7, &[1, 2, 3]),
        ] {
            seen.extend(codes.iter().map(|&code| (change, code, true)));
        }
        seen.extend([4, 5, 6].map(|change| (change, 21, false)));
        assert!(line("ledger_post", &seen).starts_with("ok"), "{}", line("ledger_post", &seen));
        // No other change is accepted, 12 cannot come, and neither 13 nor 14 is put to a drop of a
        // shared reference.
        for (change, code) in [(7, 0), (2, 12), (6, 13), (6, 14), (5, 22)] {
            seen.push((change, code, true));
            assert!(line("ledger_post", &seen).starts_with("FAIL"));
            seen.pop();
        }
        for (change, code) in [(5, 15), (6, 10), (6, 22)] {
            let mut seen = seen.clone();
            seen.retain(|s| *s != (change, code, true));
            let missing = format!("change={change}: {code} was not reached");
            assert!(line("ledger_post", &seen).contains(&missing));
        }
    }

    #[test]
    fn each_refusal_has_a_sentence_of_its_own() {
        let listed = |code| {
            let mut asks = CALLS.iter().flat_map(|call| call.asks);
            asks.any(|(_, questions)| says(questions, code) != Says::Never)
        };
        let refusals: Vec<u64> = (1..=LAST).filter(|&code| listed(code)).collect();
        let sentence = |number| extent_refs::error::Error { number }.sentence();
        let own: BTreeSet<_> = refusals.iter().map(|&code| sentence(code as u32)).collect();
        assert_eq!(own.len(), refusals.len());
        assert!(!own.contains(sentence(0)));
    }
}
