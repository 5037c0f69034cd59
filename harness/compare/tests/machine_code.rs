//! No multiplication, no division and no root of the machine's in the exported
//! root (document 02, order 4: multiplying by constants alone, which the
//! compiler makes shifts and sums). Read from the archive's machine code by
//! `objdump`, or what OBJDUMP names.

use std::collections::{BTreeMap, BTreeSet};
use std::path::{Path, PathBuf};
use std::process::Command;

/// What a function does, and which others it calls or jumps to.
#[derive(Default)]
struct Function {
    instructions: Vec<String>,
    others: BTreeSet<String>,
}

fn archive() -> PathBuf {
    match std::env::var_os("PROBE_DIR") {
        Some(folder) => PathBuf::from(folder),
        None => Path::new(env!("CARGO_MANIFEST_DIR")).join("../../target/staticlib"),
    }
    .join("libprobe.a")
}

/// The archive's functions. A function starts with a line `.. <name>:`; an
/// instruction is a line `place: tab mnemonic ..`, and what it refers to stands
/// in a line `place: R_X86_64_.. name-0x4` below it.
fn functions() -> BTreeMap<String, Function> {
    let tool = std::env::var_os("OBJDUMP").unwrap_or_else(|| "objdump".into());
    let output = Command::new(tool)
        .args(["-d", "-r", "--no-show-raw-insn"])
        .arg(archive())
        .output()
        .expect("objdump, of the GNU binutils");
    assert!(output.status.success());
    let text = String::from_utf8(output.stdout).expect("plain text");
    let mut all = BTreeMap::<String, Function>::new();
    let mut name = String::new();
    for line in text.lines() {
        if let Some(head) = line.strip_suffix(">:") {
            name = head.split_once('<').expect("a name").1.to_string();
        } else if let Some((_, rest)) = line.split_once(": R_X86_64_") {
            let target = rest.split_whitespace().nth(1).expect("a target");
            let target = target.split(['-', '+']).next().expect("a name");
            let target = target.strip_prefix(".text.").unwrap_or(target);
            all.entry(name.clone())
                .or_default()
                .others
                .insert(target.to_string());
        } else if let Some((_, instruction)) = line.split_once(":\t") {
            all.entry(name.clone())
                .or_default()
                .instructions
                .push(instruction.to_string());
        }
    }
    all
}

/// Whether an instruction multiplies, divides or takes a root, of whole
/// numbers or of doubles, one or several.
fn is_barred(instruction: &str) -> bool {
    let mnemonic = instruction.split_whitespace().next().unwrap_or("");
    ["mul", "div", "sqrt", "fma", "madd", "rcp"]
        .iter()
        .any(|part| mnemonic.contains(part))
}

/// The instructions of a function and of those that it calls. Whatever it
/// refers to is a constant or a function of the archive.
fn reached(all: &BTreeMap<String, Function>, name: &str) -> Vec<String> {
    let mut names = vec![name.to_string()];
    let mut list = Vec::new();
    let mut at = 0;
    while at < names.len() {
        let function = &all[&names[at]];
        list.extend(function.instructions.iter().cloned());
        for other in &function.others {
            let known = all.contains_key(other) || other.starts_with(".LCPI");
            let known = known || other.starts_with(".rodata");
            assert!(known, "{} refers to {other}", names[at]);
            if all.contains_key(other) && !names.contains(other) {
                names.push(other.clone());
            }
        }
        at += 1;
    }
    list
}

#[test]
fn the_root_multiplies_by_nothing() {
    let all = functions();
    for name in ["probe_sqrt", "probe_sqrt_two"] {
        let list = reached(&all, name);
        let barred: Vec<_> = list.iter().filter(|one| is_barred(one)).collect();
        assert!(barred.is_empty(), "{name}: {barred:?}");
        // The digits are there: the loop's choices, without a jump.
        let chosen = list.iter().filter(|one| one.starts_with("cmov")).count();
        assert!(list.len() > 50 && chosen >= 2, "{name}: {list:?}");
        println!("{name}: {} instructions", list.len());
    }
}

/// The reading sees a multiplication, a division and, through a call, those of
/// another function, where they are.
#[test]
fn elsewhere_they_are_seen() {
    let all = functions();
    let list = reached(&all, "probe_quadratic_root");
    for part in ["mulsd", "divsd"] {
        assert!(list.iter().any(|one| one.starts_with(part)), "{part}");
    }
    assert!(list.iter().any(|one| is_barred(one)));
    for barred in ["imul   %rdx,%rax", "mulq   %rcx", "sqrtsd %xmm0,%xmm0"] {
        assert!(is_barred(barred));
    }
    assert!(!is_barred("lea    (%rdi,%rsi,1),%rax"));
}
