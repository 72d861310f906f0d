//! Writes one exported function per call, from the table of calls.
use std::path::PathBuf;
use std::{env, fs};

fn main() {
    println!("cargo:rerun-if-changed=build.rs");
    let mut text = String::new();
    for model::table::Call { name: call, parameters, result, .. } in model::table::CALLS {
        let result = if *result == "code" { "u32" } else { result };
        let (mut head, mut args, mut back) = (String::new(), String::new(), String::new());
        for (at, (name, kind)) in parameters.iter().enumerate() {
            let slice =
                |mutable, element| format!("{name}: *{mutable} {element}, {name}_len: usize, ");
            match *kind {
                "bytes" | "words" => {
                    let (element, case) =
                        if *kind == "bytes" { ("u8", "Bytes") } else { ("u64", "Words") };
                    head += &slice("const", element);
                    args += &format!("Arg::{case}(from_raw_parts({name}, {name}_len).to_vec()), ");
                }
                "out" | "cuts" => {
                    let (element, case) =
                        if *kind == "out" { ("u8", "Out") } else { ("u16", "Cuts") };
                    head += &slice("mut", element);
                    args += &format!("Arg::{case}(from_raw_parts({name}, {name}_len).to_vec()), ");
                    back += &format!("if let Arg::{case}(now) = &said.args[{at}] {{ from_raw_parts_mut({name}, {name}_len).copy_from_slice(now); }}\n");
                    if *kind == "out" {
                        back += &format!("beside({name}, {name}_len);\n");
                    }
                }
                "lent" => {
                    head += &format!("{name}: *mut u64, ");
                    args += &format!("Arg::Lent(*{name}), ");
                    back +=
                        &format!("if let Arg::Lent(now) = said.args[{at}] {{ *{name} = now; }}\n");
                }
                _ => {
                    head += &format!("{name}: {kind}, ");
                    args += &format!("Arg::Number(u64::from({name})), ");
                }
            }
        }
        text += &format!(
            "#[no_mangle]\npub unsafe extern \"C\" fn {call}({head}) -> {result} {{\n\
             let args = [{args}];\nlet said = faulty({call:?}, &args);\n{back}said.code as {result}\n}}\n"
        );
    }
    fs::write(PathBuf::from(env::var("OUT_DIR").unwrap()).join("exports.rs"), text).unwrap();
}
