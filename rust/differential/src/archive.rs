//! The archive's calls, on guarded memory.
use crate::guarded::Guarded;
use extent_refs::by_name::{call as linked, Value};
use model::calls::{outcome, Arg, Outcome};
use std::slice::{from_raw_parts, from_raw_parts_mut};

pub struct Archive {
    regions: Vec<Guarded>,
}

/// Whether the linked archive defines the call.
pub fn has(call: &str) -> bool {
    !extent_refs::MISSING.contains(&call)
}

/// What answers one call.
pub type Caller<'a> = &'a dyn Fn(&[Arg]) -> Option<Outcome>;

/// A run's line by the model, and one by the archive where it has the call.
pub fn by_each(call: &str, runs: &str, run: impl Fn(&str, Caller) -> String) -> Vec<String> {
    let mut lines = vec![run("model", &|args| Some(outcome(call, args)))];
    if has(call) {
        let archive = Archive::default();
        lines.push(run("archive", &|args| archive.run(call, args, true).ok()));
    } else {
        lines.push(format!("FAIL {runs} archive: {call} is not in the archive"));
    }
    lines
}

impl Default for Archive {
    fn default() -> Self {
        // No call has more than 10 parameters.
        Archive { regions: (0..12).map(|_| Guarded::new()).collect() }
    }
}

impl Archive {
    /// The call's outcome, or what it did that no call may do.
    pub fn run(&self, call: &str, args: &[Arg], at_end: bool) -> Result<Outcome, String> {
        let mut values: Vec<Value> = Vec::new();
        for (arg, region) in args.iter().zip(&self.regions) {
            values.push(match arg {
                Arg::Number(n) => Value::Number(*n),
                Arg::Bytes(b) => {
                    Value::Bytes(unsafe { from_raw_parts(region.put(b, at_end), b.len()) })
                }
                Arg::Words(w) => {
                    Value::Words(unsafe { from_raw_parts(region.put(w, at_end), w.len()) })
                }
                Arg::Out(b) => {
                    Value::Out(unsafe { from_raw_parts_mut(region.put(b, at_end), b.len()) })
                }
                Arg::Cuts(c) => {
                    Value::Cuts(unsafe { from_raw_parts_mut(region.put(c, at_end), c.len()) })
                }
                Arg::Lent(n) => Value::Lent(unsafe { &mut *region.put(&[*n], at_end) }),
            });
        }
        let code = linked(call, &mut values).ok_or("the declaration has other parameters")?;
        drop(values);

        let mut after = Vec::new();
        for (arg, region) in args.iter().zip(&self.regions) {
            let (arg_after, whole) = match arg {
                Arg::Number(n) => (Arg::Number(*n), true),
                Arg::Bytes(b) => {
                    let (now, whole) = region.take(b.len(), at_end);
                    (Arg::Bytes(now), whole)
                }
                Arg::Words(w) => {
                    let (now, whole) = region.take(w.len(), at_end);
                    (Arg::Words(now), whole)
                }
                Arg::Out(b) => {
                    let (now, whole) = region.take(b.len(), at_end);
                    (Arg::Out(now), whole)
                }
                Arg::Cuts(c) => {
                    let (now, whole) = region.take(c.len(), at_end);
                    (Arg::Cuts(now), whole)
                }
                Arg::Lent(_) => {
                    let (now, whole) = region.take(1, at_end);
                    (Arg::Lent(now[0]), whole)
                }
            };
            if !whole {
                return Err("it wrote beside a lent slice".into());
            }
            after.push(arg_after);
        }
        Ok(Outcome { code, args: after })
    }
}
