//! Every C call by its name, on arguments in the order of its C parameters.
use crate::asked::{ask, Asked, Stop};
use crate::ledger::Change;
use crate::sheet::Item;
use crate::table::CALLS;
use crate::{apply, body, hash, leaf, ledger, sheet};

/// One C argument. Of a lent one it holds the contents before the call, or after it.
#[derive(Debug, Clone, PartialEq, Eq)]
pub enum Arg {
    /// u8, u32, u64 or bool, by value.
    Number(u64),
    /// `&[u8]`
    Bytes(Vec<u8>),
    /// `&[u64]`
    Words(Vec<u64>),
    /// `&mut [u8]`
    Out(Vec<u8>),
    /// `&mut [u16]`
    Cuts(Vec<u16>),
    /// `&mut u64`
    Lent(u64),
}

/// What a call returns, a code or a value, and its arguments after it.
#[derive(Debug, Clone, PartialEq, Eq)]
pub struct Outcome {
    pub code: u64,
    pub args: Vec<Arg>,
}

/// What an accepted call writes: the front of the lent output, and the lent numbers in the
/// order of the parameters (the lengths of outputs among them).
#[derive(Debug, Clone, Default, PartialEq, Eq)]
pub struct Written {
    pub bytes: Vec<u8>,
    pub cuts: Vec<u16>,
    pub numbers: Vec<u64>,
}

fn numbers(numbers: &[u64]) -> Written {
    Written { numbers: numbers.to_vec(), ..Written::default() }
}

fn bytes(bytes: Vec<u8>) -> Written {
    Written { numbers: vec![bytes.len() as u64], bytes, ..Written::default() }
}

fn cuts(cuts: Vec<u16>) -> Written {
    Written { numbers: vec![cuts.len() as u64], cuts, ..Written::default() }
}

fn truth(yes: bool) -> Written {
    numbers(&[u64::from(yes)])
}

/// The arguments of a call, taken one after the other.
struct Given<'a>(std::slice::Iter<'a, Arg>);

impl Given<'_> {
    fn u64(&mut self) -> u64 {
        match self.0.next() {
            Some(Arg::Number(n)) => *n,
            other => panic!("a number is wanted, not {other:?}"),
        }
    }

    fn u8(&mut self) -> u8 {
        self.u64().try_into().expect("8 bits")
    }

    fn u32(&mut self) -> u32 {
        self.u64().try_into().expect("32 bits")
    }

    fn bool(&mut self) -> bool {
        self.u64() == 1
    }

    fn triple(&mut self) -> [u64; 3] {
        [self.u64(), self.u64(), self.u64()]
    }
}

impl<'a> Given<'a> {
    fn bytes(&mut self) -> &'a [u8] {
        match self.0.next() {
            Some(Arg::Bytes(b)) => b,
            other => panic!("bytes are wanted, not {other:?}"),
        }
    }

    fn words(&mut self) -> &'a [u64] {
        match self.0.next() {
            Some(Arg::Words(w)) => w,
            other => panic!("words are wanted, not {other:?}"),
        }
    }
}

/// The model's answer, before the lent output's length is looked at.
pub fn answer(call: &str, args: &[Arg]) -> Asked<Written> {
    let mut g = Given(args.iter());
    Ok(match call {
        "crc32c_table_text" => bytes(hash::table_text(g.u32()).into_bytes()),

        "extent_write_tree_block_key" => {
            let (bytenr, level) = (g.u64(), g.u8());
            numbers(&[bytenr, 169, u64::from(level)])
        }
        "extent_write_tree_block_body" => bytes(body::tree_block_body(g.u64(), g.u64())),
        "extent_write_data_extent_body" => {
            bytes(body::data_extent_body(g.u64(), g.u64(), g.u64(), g.u64()))
        }

        "backref_flags" => numbers(&[body::flags(g.bytes())?]),
        "backref_inline_refs" => cuts(body::inline_refs(g.u8(), g.bytes())?),
        "backref_inline_ref" => numbers(&body::inline_ref(g.u8(), g.bytes(), g.u64())?),
        "backref_take_inline_shared" => {
            let (left, count) = body::take_inline_shared(g.u8(), g.bytes(), g.u8(), g.u64())?;
            let mut written = bytes(left);
            written.numbers.push(count);
            written
        }
        "backref_add_inline_keyed_block" => {
            bytes(body::add_inline_keyed_block(g.u8(), g.bytes(), g.u64())?)
        }
        "backref_add_inline_keyed_data" => {
            bytes(body::add_inline_keyed_data(g.u8(), g.bytes(), g.triple(), g.u32())?)
        }
        "backref_drop_inline_data_ref" => {
            bytes(body::drop_inline_data_ref(g.u8(), g.bytes(), g.triple())?)
        }
        "backref_drop_keyed_data_ref" => bytes(body::drop_keyed_data_ref(g.bytes(), g.triple())?),
        "backref_lower_total" => {
            g.u8();
            bytes(body::lower_total(g.bytes())?)
        }
        "backref_reduce_total" => {
            g.u8();
            bytes(body::reduce_total(g.bytes(), g.u64())?)
        }
        "backref_raise_total" => {
            g.u8();
            bytes(body::raise_total(g.bytes(), g.u64())?)
        }
        "backref_holds_inline_data_ref" => {
            truth(body::holds_inline_data_ref(g.u8(), g.bytes(), g.triple())?)
        }
        "backref_add_inline_data_ref" => {
            bytes(body::add_inline_data_ref(g.u8(), g.bytes(), g.triple())?)
        }
        "backref_add_inline_tree_ref" => {
            bytes(body::add_inline_tree_ref(g.u8(), g.bytes(), g.u64())?)
        }
        "backref_keyed_data_ref_body" => bytes(body::keyed_data_ref_body(g.triple(), g.u32())),
        "backref_add_inline_shared" => {
            bytes(body::add_inline_shared(g.u8(), g.bytes(), g.u8(), g.u64(), g.u32())?)
        }
        "backref_drop_inline_tree_ref" => {
            bytes(body::drop_inline_tree_ref(g.u8(), g.bytes(), g.u64())?)
        }
        "backref_with_flags" => bytes(body::with_flags(g.bytes(), g.u64())?),

        "transaction_held_only_by" => {
            truth(body::held_only_by(g.bytes(), g.u64(), g.u64(), g.words())?)
        }
        "transaction_keyed_data_ref_names" => {
            truth(body::keyed_data_ref_names(g.bytes(), g.triple())?)
        }
        "transaction_shared_add_item" => bytes(apply::shared_add_item(g.u8(), g.u32())?),
        "transaction_shared_add_key" => {
            let (objectid, kind, offset) = apply::shared_add_key(g.u64(), g.u8(), g.u64())?;
            numbers(&[objectid, u64::from(kind), offset])
        }
        "transaction_shared_add_inline_size" => numbers(&[apply::shared_add_inline_size(g.u8())?]),
        "transaction_max_inline_extent_item" => numbers(&[apply::max_inline_extent_item(g.u32())?]),
        "transaction_record_of" => numbers(&[apply::record_of(g.bytes(), g.u64())?]),
        "transaction_apply_keyed_add_block" => bytes(apply::apply_keyed_add_block(
            g.u32(),
            g.bytes(),
            g.u64(),
            g.u64(),
            g.u32(),
            g.bool(),
        )?),
        "transaction_apply_keyed_add_data" => bytes(apply::apply_keyed_add_data(
            g.u32(),
            g.bytes(),
            g.u64(),
            g.triple(),
            g.u32(),
            g.bool(),
        )?),
        "transaction_apply_shared_add" => bytes(apply::apply_shared_add(
            g.u32(),
            g.bytes(),
            g.u64(),
            g.u8(),
            g.u64(),
            g.u32(),
            g.bool(),
        )?),
        "transaction_apply_shared_drop" => {
            bytes(apply::apply_shared_drop(g.bytes(), g.u64(), g.u8(), g.u64(), g.u32(), g.bool())?)
        }
        "transaction_drop_kept_tree_ref" => {
            bytes(apply::drop_kept_tree_ref(g.bytes(), g.u64(), g.u8(), g.u64(), g.bool())?)
        }

        "leaf_edit_insert" => {
            let (size, list) = (g.u32(), g.bytes());
            let item = Item::new(g.u64(), g.u8(), g.u64(), g.bytes().to_vec());
            bytes(sheet::insert(size, list, item)?)
        }
        "leaf_edit_insert_unbounded" => {
            let list = g.bytes();
            let item = Item::new(g.u64(), g.u8(), g.u64(), g.bytes().to_vec());
            bytes(sheet::insert_unbounded(list, item)?)
        }
        "leaf_edit_delete" => bytes(sheet::delete(g.bytes(), (g.u64(), g.u8(), g.u64()))?),
        "leaf_edit_fit" => truth(sheet::fit(g.u32(), g.bytes())?),
        "leaf_edit_fits" => truth(sheet::fits(g.u32(), g.bytes(), g.bytes())?),
        "leaf_edit_split" => cuts(sheet::split(g.bytes())?),
        "leaf_edit_split_to_fit" => cuts(sheet::split_to_fit(g.u32(), g.bytes())?),
        "leaf_edit_item" => {
            let (start, length) = sheet::item(g.bytes(), g.u64())?;
            numbers(&[start, length])
        }

        "leaf_image_read" => bytes(leaf::read(g.u32(), g.bytes())?),
        "leaf_image_write" => bytes(leaf::write(g.u32(), g.bytes(), g.bytes())?),

        "ledger_post" => {
            let (size, list, change, extent) = (g.u32(), g.bytes(), g.u64(), g.u64());
            let [a, b, c] = g.triple();
            bytes(ledger::post(size, list, extent, Change::from_numbers(change, a, b, c, g.u32()))?)
        }
        other => panic!("no call {other}"),
    })
}

/// Question 21 of the lent outputs, put last.
fn room(args: &[Arg], written: &Written) -> Asked<()> {
    for arg in args {
        match arg {
            Arg::Out(out) => ask(21, written.bytes.len() <= out.len())?,
            Arg::Cuts(out) => ask(21, written.cuts.len() <= out.len())?,
            _ => {}
        }
    }
    Ok(())
}

/// Whether a call returns a value of its own and no code.
pub fn returns_value(call: &str) -> bool {
    CALLS.iter().any(|row| row.name == call && row.result != "code")
}

/// What such a call returns.
fn value(call: &str, args: &[Arg]) -> u64 {
    let mut g = Given(args.iter());
    match call {
        "crc32c_word_step" => hash::word_step(g.u32(), g.u32()).into(),
        "crc32c_update" => hash::register(g.u32(), g.bytes()).into(),
        "extent_write_data_ref_hash" => {
            let [tree, objectid, offset] = g.triple();
            hash::data_ref_hash(tree, objectid, offset)
        }
        other => panic!("no value of {other}"),
    }
}

/// The whole outcome: the code, or the value that is returned in its place, and every lent number
/// and byte after the call.
pub fn outcome(call: &str, args: &[Arg]) -> Outcome {
    if returns_value(call) {
        return Outcome { code: value(call, args), args: args.to_vec() };
    }
    let answered = answer(call, args).and_then(|written| {
        room(args, &written)?;
        Ok(written)
    });
    let code = match &answered {
        Ok(_) => 0,
        Err(Stop::Refused(number)) => u64::from(*number),
        Err(Stop::Absent) => 100,
        Err(Stop::Remove) => 101,
    };
    let written = answered.unwrap_or_default();
    let mut lent = written.numbers.iter();
    let mut after = args.to_vec();
    for arg in &mut after {
        match arg {
            Arg::Out(out) => out[..written.bytes.len()].copy_from_slice(&written.bytes),
            Arg::Cuts(out) => out[..written.cuts.len()].copy_from_slice(&written.cuts),
            Arg::Lent(number) => *number = lent.next().copied().unwrap_or(0),
            _ => {}
        }
    }
    Outcome { code, args: after }
}
