//! The reference lister, run as a program: a table of inputs with the text of each, generated
//! bodies beside the model, and every record of the real leaves beside dump-tree's text. The last
//! line is 'N passed, M failed'.
//!
//! The program is crates/lister/out/lister in the repository, which `rt run` there makes, or what
//! EXTENT_REFS_LISTER names.
//!
//!     lister [MOST]    no more than that many generated bodies
use differential::dump_tree::{self, Leaf};
use differential::generate::{edges, random};
use differential::program::{self, Program};
use differential::random::Random;
use differential::read_errors::read_errors;
use differential::write_errors::write_errors;
use model::calls::Arg;
use model::lister::listed;
use model::sheet::Item;
use std::collections::BTreeSet;
use std::io::{ErrorKind, Read, Write};
use std::path::PathBuf;
use std::process::{Command, ExitCode, Stdio};
use std::time::Duration;

fn main() -> ExitCode {
    let most = match std::env::args().nth(1).map(|word| word.parse()) {
        None => usize::MAX,
        Some(Ok(most)) => most,
        Some(Err(_)) => {
            println!("usage: lister [MOST]");
            return ExitCode::from(2);
        }
    };
    let mut run = match Program::find("lister") {
        Ok(program) => Run { program },
        Err(missing) => return missing,
    };
    for (name, cases) in table() {
        run.all(name, &cases);
    }
    // What arrives in parts is read to its end.
    let parts = run.prints(&[&e()[..20], &e()[20..]], E_TEXT);
    run.program.count("E in two parts", parts);
    let unread = read_errors(&run.program.path);
    run.program.count_all("inputs whose reading fails", unread);
    // A listing, and a refusal.
    for input in [e(), vec![]] {
        let unwritten = write_errors(&run.program.path, "lister", &input);
        run.program.count_all("outputs that cannot be written", unwritten);
    }
    run.all("generated bodies", &generated(most));
    let paths = dump_tree::leaves();
    if let Some(paths) = &paths {
        run.leaves(paths);
    } else {
        println!("{}", dump_tree::LEFT_OUT);
    }
    run.program.sum()
}

struct Run {
    program: Program,
}

impl Run {
    /// Counts as one: each input, and the text that has to be printed for it. None is a fault.
    fn all(&mut self, name: &str, cases: &[(Vec<u8>, String)]) {
        let said = match cases {
            [] => Err("nothing was compared".into()),
            _ => cases.iter().try_for_each(|(input, text)| self.prints(&[input], text)),
        };
        self.program.count(name, said);
    }

    fn prints(&self, parts: &[&[u8]], text: &str) -> Result<(), String> {
        program::prints(&self.print(parts).map_err(|fault| fault.to_string())?, text)
    }

    /// The program reads all of its input before it writes, so one pipe after the other will do.
    fn print(&self, parts: &[&[u8]]) -> std::io::Result<String> {
        let mut child = Command::new(&self.program.path)
            .stdin(Stdio::piped())
            .stdout(Stdio::piped())
            .spawn()?;
        if let Some(mut stdin) = child.stdin.take() {
            for (number, part) in parts.iter().enumerate() {
                if number > 0 {
                    std::thread::sleep(Duration::from_millis(20));
                }
                match stdin.write_all(part) {
                    // It need not read what is past the longest input.
                    Err(fault) if fault.kind() == ErrorKind::BrokenPipe => break,
                    other => other?,
                }
            }
        }
        let mut printed = String::new();
        if let Some(mut stdout) = child.stdout.take() {
            stdout.read_to_string(&mut printed)?;
        }
        child.wait()?;
        Ok(printed)
    }

    /// Every record of every leaf, a leaf at a time; a leaf may have none, all of them may not.
    fn leaves(&mut self, paths: &[PathBuf]) {
        let mut records = 0;
        for path in paths {
            let name = path.file_name().unwrap_or_default().to_string_lossy().into_owned();
            match Leaf::read(path).map(|leaf| records_of(&leaf)) {
                Ok(cases) if cases.is_empty() => {}
                Ok(cases) => {
                    records += cases.len();
                    self.all(&name, &cases);
                }
                Err(fault) => self.program.count(&name, Err(fault)),
            }
        }
        if records == 0 {
            self.program.count("real leaves", Err("not one record was compared".into()));
        }
        println!("{records} records of {} leaves as dump-tree lists them", paths.len());
    }
}

/// The bodies that the differential run puts to inline_refs, each with the model's text.
fn generated(most: usize) -> Vec<(Vec<u8>, String)> {
    let call = "backref_inline_refs";
    let r = &mut Random::named("lister", 1);
    let mut cases = edges(call, r);
    cases.extend((0..1500).map(|_| random(call, r)));
    let inputs: BTreeSet<Vec<u8>> = cases.iter().filter_map(|args| input_of(args)).collect();
    println!("{} generated bodies", inputs.len().min(most));
    inputs.into_iter().take(most).map(|input| (input.clone(), listed(&input))).collect()
}

fn input_of(args: &[Arg]) -> Option<Vec<u8>> {
    match args {
        [Arg::Number(item_type), Arg::Bytes(body), ..] => {
            Some([&[*item_type as u8], &body[..]].concat())
        }
        _ => None,
    }
}

fn records_of(leaf: &Leaf) -> Vec<(Vec<u8>, String)> {
    let records = leaf.items.iter().zip(&leaf.texts).filter(|(i, _)| [168, 169].contains(&i.key.1));
    let case = |(item, part): (&Item, &String)| {
        let input = [&[item.key.1], &item.data[..]].concat();
        (input, of_dump_tree(item.key.1, &dump_tree::lines(part)))
    };
    records.map(case).collect()
}

/// What the lister has to print, from dump-tree's lines alone.
fn of_dump_tree(item_type: u8, lines: &[String]) -> String {
    let words: Vec<&str> = lines[0].split(' ').collect();
    let ["refs", total, "gen", _, "flags", flags] = words[..] else {
        return format!("dump-tree says {}", lines[0]);
    };
    let flags = match flags {
        "DATA" => 1,
        "TREE_BLOCK" => 2,
        "TREE_BLOCK|FULL_BACKREF" => 258,
        other => return format!("flags {other}"),
    };
    let start = if item_type == 168 && flags != 1 { 42 } else { 24 };
    let mut text = format!("{start} {total} {flags} {}\n", lines.len() - 1);
    for line in &lines[1..] {
        // "(178 0x..) extent data backref root 5 objectid 257 offset 0 count 1"
        let (kind, fields) = line.trim_start_matches('(').split_once(' ').unwrap_or((line, ""));
        text += kind;
        for number in fields.split(' ').filter(|word| word.parse::<u64>().is_ok()) {
            text += " ";
            text += number;
        }
        text += "\n";
    }
    text
}

const E_TEXT: &str = "24 1 1 1\n178 5 257 0 1\n";

/// A type byte, and a body of that total and those flags with some references behind it.
fn input(item_type: u8, total: u64, flags: u64, references: &[&[u8]]) -> Vec<u8> {
    let mut bytes = vec![item_type];
    for field in [total, 7, flags] {
        bytes.extend(field.to_le_bytes());
    }
    bytes.extend(references.concat());
    bytes
}

/// A type byte, fields, and a count where there is one.
fn reference(kind: u8, fields: &[u64], count: Option<u32>) -> Vec<u8> {
    let mut bytes = vec![kind];
    bytes.extend(fields.iter().flat_map(|f| f.to_le_bytes()));
    bytes.extend(count.iter().flat_map(|c| c.to_le_bytes()));
    bytes
}

/// Document 01's E: generation 7, root 5, inode 257, offset 0.
fn e() -> Vec<u8> {
    input(168, 1, 1, &[&reference(178, &[5, 257, 0], Some(1))])
}

fn refused(number: u32) -> String {
    format!("refused {number}\n")
}

/// The five kinds with the same number in each field.
fn five(field: u64, count: u32) -> Vec<u8> {
    [
        reference(172, &[field], None),
        reference(176, &[field], None),
        reference(178, &[field; 3], Some(count)),
        reference(182, &[field], None),
        reference(184, &[field], Some(count)),
    ]
    .concat()
}

fn five_lines(f: u64, c: u32) -> String {
    format!("172 {f}\n176 {f}\n178 {f} {f} {f} {c}\n182 {f}\n184 {f} {c}\n")
}

type Cases = Vec<(Vec<u8>, String)>;

fn table() -> Vec<(&'static str, Cases)> {
    let mut table: Vec<(&str, Cases)> = Vec::new();
    let mut row = |name, input, text| table.push((name, vec![(input, text)]));
    let block = reference(176, &[5], None);
    let zeros = |n: usize| [vec![168], vec![0; n]].concat();
    row("E", e(), E_TEXT.into());
    row("an empty input", vec![], refused(6));
    row("a type alone", vec![168], refused(6));
    row("23 bytes", zeros(23), refused(6));
    row("24 bytes", zeros(24), "24 0 0 0\n".into());
    row("type 168 and flag 2, 24 bytes", input(168, 1, 2, &[]), refused(6));
    row("41 bytes", input(168, 1, 2, &[&[0; 17]]), refused(6));
    row("42 bytes", input(168, 1, 2, &[&[0; 18]]), "42 1 2 0\n".into());
    row("a block", input(168, 1, 258, &[&[9; 18], &block]), "42 1 258 1\n176 5\n".into());
    row("type 169 and flag 2", input(169, 1, 2, &[&block]), "24 1 2 1\n176 5\n".into());
    row("an unknown kind", input(168, 1, 1, &[&[177]]), refused(7));
    row("an unknown kind after a block", input(168, 1, 1, &[&block, &[0; 9]]), refused(7));
    row("8 of 9 bytes", input(168, 1, 1, &[&block[..8]]), refused(8));
    row("1 of 9 bytes after a block", input(168, 1, 1, &[&block, &block[..1]]), refused(8));
    row("28 of 29 bytes", e()[..53].to_vec(), refused(8));
    row("12 of 13 bytes", input(169, 1, 1, &[&[184; 12]]), refused(8));
    row("65,535 bytes of zeros", zeros(65_535), refused(7));
    row("65,536 bytes", zeros(65_536), refused(3));
    row("65,537 bytes", zeros(65_537), refused(3));
    row("a million bytes", zeros(1_000_000), refused(3));
    for (f, c) in [(0, 0), (u64::MAX, u32::MAX)] {
        let text = format!("24 {f} {f} 5\n{}", five_lines(f, c));
        row("the five kinds", input(169, f, f, &[&five(f, c)]), text);
    }
    let most = reference(176, &[u64::MAX], None).repeat(7_279);
    let text = format!("24 0 0 7279\n{}", format!("176 {}\n", u64::MAX).repeat(7_279));
    row("65,535 bytes of references", input(169, 0, 0, &[&most]), text);
    row("65,536 bytes of references", input(169, 0, 0, &[&most, &[176]]), refused(3));
    table.push(("powers of ten", powers_of_ten()));
    table.push(("every type of an item", (0..=255).map(item_type).collect()));
    table.push(("every kind of a reference", (0..=255).map(kind).collect()));
    table
}

/// Both sides of each.
fn powers_of_ten() -> Cases {
    let numbers = (0..20).map(|k| 10u64.pow(k)).flat_map(|p| [p - 1, p, p + 1]);
    let case = |n: u64| {
        let input = input(169, n, n, &[&reference(182, &[n], None)]);
        (input, format!("24 {n} {n} 1\n182 {n}\n"))
    };
    // Type 169, so that references start at 24 whatever the flags are.
    numbers.map(case).collect()
}

/// Behind 18 bytes that are two references, or a block's key and level.
fn item_type(byte: u8) -> (Vec<u8>, String) {
    let text = match byte {
        168 => "42 3 2 0\n".into(),
        _ => format!("24 3 2 2\n{}", format!("176 {}\n", u64::from_le_bytes([176; 8])).repeat(2)),
    };
    (input(byte, 3, 2, &[&[176; 18]]), text)
}

/// With eight bytes of payload.
fn kind(byte: u8) -> (Vec<u8>, String) {
    let text = match byte {
        172 | 176 | 182 => format!("24 3 0 1\n{byte} 0\n"),
        178 | 184 => refused(8),
        _ => refused(7),
    };
    (input(169, 3, 0, &[&reference(byte, &[0], None)]), text)
}

#[test]
fn nothing_compared_fails() {
    let mut run = Run { program: Program::at(PathBuf::new()) };
    let failed = |run: &Run| (run.program.passed, run.program.failed);
    run.all("no inputs", &[]);
    assert_eq!(failed(&run), (0, 1));
    run.leaves(&[]);
    assert_eq!(failed(&run), (0, 2));
    // Nor does a program that is not there pass.
    run.all("E", &[(e(), E_TEXT.into())]);
    assert_eq!(failed(&run), (0, 3));
}
