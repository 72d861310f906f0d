//! Cases in words, for reports.
use model::calls::{Arg, Outcome};

fn hex(bytes: &[u8]) -> String {
    if bytes.len() > 400 {
        return format!("<{} bytes>", bytes.len());
    }
    bytes.iter().map(|b| format!("{b:02x}")).collect()
}

/// Name and value of each argument; lent outputs by their length.
pub fn args(call: &str, args: &[Arg]) -> String {
    let named = crate::generate::parameters(call).iter().zip(args);
    let words: Vec<String> = named
        .map(|((name, _), arg)| match arg {
            Arg::Number(n) => format!("{name}={n}"),
            Arg::Bytes(b) => format!("{name}={}", hex(b)),
            Arg::Words(w) => format!("{name}={w:?}"),
            Arg::Out(b) => format!("{name}:{} bytes", b.len()),
            Arg::Cuts(c) => format!("{name}:{} places", c.len()),
            Arg::Lent(_) => name.to_string(),
        })
        .collect();
    format!("{call}({})", words.join(", "))
}

/// The code and what is lent.
pub fn outcome(outcome: &Outcome) -> String {
    let lent: Vec<String> = outcome
        .args
        .iter()
        .filter_map(|arg| match arg {
            Arg::Out(b) => Some(hex(b)),
            Arg::Cuts(c) => Some(format!("{c:?}")),
            Arg::Lent(n) => Some(n.to_string()),
            _ => None,
        })
        .collect();
    format!("{} [{}]", outcome.code, lent.join(", "))
}

/// How large a case is, to report the smallest.
pub fn size(args: &[Arg]) -> u64 {
    args.iter()
        .map(|arg| match arg {
            Arg::Number(n) => u64::from(64 - n.leading_zeros()),
            Arg::Bytes(b) => 100 * b.len() as u64 + b.iter().filter(|&&b| b != 0).count() as u64,
            Arg::Words(w) => 100 * w.len() as u64,
            _ => 0,
        })
        .sum()
}
