//! One call, all comparisons.
use crate::archive::{self, Archive};
use crate::generate::{ample, edges, lent, random};
use crate::questions::Reached;
use crate::random::Random;
use crate::show;
use crate::spent::Spent;
use crate::verdict::{
    agreement, has_original, inside, of_original, written, Agreement, Verdict, ORIGINAL_HERE,
};
use model::calls::{outcome, returns_value, Arg, Outcome};
use std::collections::BTreeMap;
use std::time::Duration;

pub const SEED: u64 = 20_261_115;

/// No more than this many random cases of one call, however much time there is.
const MOST: usize = 400_000;

/// And no fewer than this many, however little.
const LEAST: usize = 600;

/// What one comparison of one call came to.
#[derive(Default)]
pub struct Tally {
    pub cases: usize,
    pub outside: usize,
    pub overflows: usize,
    pub different: usize,
    pub codes: BTreeMap<u64, usize>,
    smallest: Option<(u64, String)>,
}

impl Tally {
    fn note(&mut self, agreed: Agreement, args: &[Arg], text: impl FnOnce() -> String) {
        match agreed {
            Agreement::Same => self.cases += 1,
            Agreement::Outside => self.outside += 1,
            Agreement::Overflow => self.overflows += 1,
            Agreement::Different => {
                self.different += 1;
                let size = show::size(args);
                if self.smallest.as_ref().is_none_or(|(least, _)| size < *least) {
                    self.smallest = Some((size, text()));
                }
            }
        }
    }

    /// One line that begins with `ok` or `FAIL`, and the smallest difference.
    pub fn line(&self, call: &str, what: &str) -> String {
        let mut line = format!(
            "{} {call} {what}: {} the same",
            // A comparison that compared nothing has shown nothing.
            if self.different == 0 && self.cases > 0 { "ok  " } else { "FAIL" },
            self.cases
        );
        if self.outside > 0 {
            line += &format!(", {} outside the compared domain", self.outside);
        }
        if self.overflows > 0 {
            line += &format!(", {} overflows on which the original panics", self.overflows);
        }
        if !self.codes.is_empty() {
            let codes: Vec<String> = self.codes.iter().map(|(c, n)| format!("{c}:{n}")).collect();
            line += &format!("; codes {}", codes.join(" "));
        }
        if let Some((_, text)) = &self.smallest {
            line += &format!("\n     {} differ, the smallest found:\n{text}", self.different);
        }
        line
    }
}

/// Past the time, no longer than this for codes that did not come up.
const LONGER: Duration = Duration::from_secs(20);

/// The comparisons of one call, within a time: some random cases whatever the time, the edges,
/// then random cases again, and past the time until every code of the call has come up.
pub fn call(name: &'static str, time: Duration) -> Vec<String> {
    let begun = Spent::begin();
    let mut both = Both::new(name);
    let mut r = Random::named(name, SEED);
    for _ in 0..LEAST {
        let args = random(name, &mut r);
        both.case(&args);
    }
    for args in &edges(name, &mut Random::named(name, SEED + 1)) {
        both.case(args);
    }
    for _ in 0..MOST {
        let over = begun.elapsed();
        if over > time && (both.reached.whole() || over > time + LONGER) {
            break;
        }
        let args = random(name, &mut r);
        both.case(&args);
    }
    both.lines()
}

struct Both {
    call: &'static str,
    archive: Option<Archive>,
    turn: usize,
    reached: Reached,
    model_original: Tally,
    archive_model: Tally,
    archive_original: Tally,
}

impl Both {
    fn new(call: &'static str) -> Self {
        Both {
            call,
            archive: archive::has(call).then(Archive::default),
            turn: 0,
            reached: Reached::new(call),
            model_original: Tally::default(),
            archive_model: Tally::default(),
            archive_original: Tally::default(),
        }
    }

    /// With ample room, then with exactly enough, one too few and none.
    fn case(&mut self, bare: &[Arg]) {
        let call = self.call;
        let args = lent(bare, ample(bare));
        let said = outcome(call, &args);
        self.turn += 1;
        self.reached.note(&said.args, said.code, true);
        let verdict = match inside(call, said.code) {
            true => of_original(call, &args),
            false => Verdict::NotAsked,
        };
        let agreed = agreement(call, &verdict, &said);
        self.model_original.note(agreed, &args, || {
            let (asked, model) = (show::args(call, &args), show::outcome(&said));
            format!("       {asked}\n       original {verdict:?}\n       model    {model}")
        });
        if let Some(given) = self.one(&args, &said, self.turn % 2 == 0) {
            let agreed = agreement(call, &verdict, &given);
            self.archive_original.note(agreed, &args, || {
                let (asked, archive) = (show::args(call, &args), show::outcome(&given));
                format!("       {asked}\n       original {verdict:?}\n       archive  {archive}")
            });
        }
        if args.iter().any(|a| matches!(a, Arg::Out(_) | Arg::Cuts(_))) {
            self.with_less_room(bare, &said);
        }
    }

    fn with_less_room(&mut self, bare: &[Arg], said: &Outcome) {
        let length = written(self.call, said).numbers.first().copied().unwrap_or(0) as usize;
        let few = match said.code {
            0 => vec![length, length.saturating_sub(1), 0],
            _ => vec![self.turn % 3],
        };
        for room in few {
            let args = lent(bare, room);
            let said = outcome(self.call, &args);
            self.reached.note(&said.args, said.code, false);
            self.one(&args, &said, self.turn % 2 == 1);
        }
    }

    fn one(&mut self, args: &[Arg], said: &Outcome, at_end: bool) -> Option<Outcome> {
        let call = self.call;
        let given = self.archive.as_ref()?.run(call, args, at_end);
        let same = given.as_ref() == Ok(said);
        let agreed = if same { Agreement::Same } else { Agreement::Different };
        *self
            .archive_model
            .codes
            .entry(if returns_value(call) { 0 } else { said.code })
            .or_default() += 1;
        self.archive_model.note(agreed, args, || {
            let (asked, model) = (show::args(call, args), show::outcome(said));
            let archive = given.as_ref().map_or_else(|stray| stray.clone(), show::outcome);
            format!("       {asked}\n       model    {model}\n       archive  {archive}")
        });
        given.ok()
    }

    fn lines(&self) -> Vec<String> {
        let mut lines = vec![self.reached.line()];
        let beside_original = ORIGINAL_HERE && has_original(self.call);
        if beside_original {
            lines.push(self.model_original.line(self.call, "original/model"));
        }
        if self.archive.is_none() {
            lines.push(format!("FAIL {}: not in the archive", self.call));
            return lines;
        }
        lines.push(self.archive_model.line(self.call, "archive/model"));
        if beside_original {
            lines.push(self.archive_original.line(self.call, "archive/original"));
        }
        lines
    }
}
