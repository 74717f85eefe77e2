//! Holds the library to what disassemblers and an assembler say of words (tools/judges runs them).
//!
//! ```text
//! judges read NAME     standard input is what NAME's objdump prints of an image (-d, no aliases, numeric registers): each word is
//!                      read as it is printed
//! judges write         prints one line of assembler for each instruction that the library writes here
//! judges check FILE    the bytes of FILE, which an assembler made of these lines, are the words that the library writes
//! judges halves        prints one line of assembler for each halfword that is an instruction by itself
//! ```

use std::collections::BTreeMap;
use std::io::Read;
use std::process::exit;

use matnosoru::{Csr, IllegalInst, Instr, LoadInstr, Profile, Refusal, Register, StoreInstr, Width};

/// Everything that a profile can have.
fn full() -> Profile {
    Profile::from_flags(0xFF, u64::MAX)
}

fn main() {
    let words: Vec<String> = std::env::args().skip(1).collect();
    match &words.iter().map(String::as_str).collect::<Vec<&str>>()[..] {
        ["read", name] => read(name),
        ["write"] => write(),
        ["check", file] => check(file),
        ["halves"] => halves(),
        _ => {
            eprintln!("usage: judges read NAME | write | check FILE | halves");
            exit(2);
        }
    }
}

/// A register's name in the assembler, where a custom one is a number.
fn csr_name(csr: Csr) -> String {
    match csr {
        Csr::Custom(id) => format!("{id:#x}"),
        named => named.to_string(),
    }
}

/// An instruction in the assembler's words, with no alias and no space after a comma.
fn text(instr: Instr) -> String {
    use IllegalInst::*;
    let x = |r: Register| format!("x{}", r as u8);
    let csr = |op: &str, csr: Csr, rd: Register, from: String| format!("{op} {},{},{from}", x(rd), csr_name(csr));
    let size = |w: Width| match w {
        Width::Byte => "b",
        Width::Byte2 => "h",
        Width::Byte4 => "w",
        Width::Byte8 => "d",
    };
    let c = |compressed: bool| if compressed { "c." } else { "" };
    // a stack-based form has sp in its name too
    let sp = |compressed: bool, base: Register| if compressed && base == Register::X2 { "sp" } else { "" };
    match instr {
        Instr::Illegal(i) => match i {
            Wfi => "wfi".into(),
            Mret => "mret".into(),
            Sret => "sret".into(),
            Sfencevma { rs1, rs2 } => format!("sfence.vma {},{}", x(rs1), x(rs2)),
            Hfencevvma { rs1, rs2 } => format!("hfence.vvma {},{}", x(rs1), x(rs2)),
            Hfencegvma { rs1, rs2 } => format!("hfence.gvma {},{}", x(rs1), x(rs2)),
            Csrrw { csr: r, rd, rs1 } => csr("csrrw", r, rd, x(rs1)),
            Csrrs { csr: r, rd, rs1 } => csr("csrrs", r, rd, x(rs1)),
            Csrrc { csr: r, rd, rs1 } => csr("csrrc", r, rd, x(rs1)),
            Csrrwi { csr: r, rd, uimm } => csr("csrrwi", r, rd, uimm.to_string()),
            Csrrsi { csr: r, rd, uimm } => csr("csrrsi", r, rd, uimm.to_string()),
            Csrrci { csr: r, rd, uimm } => csr("csrrci", r, rd, uimm.to_string()),
        },
        Instr::Load(l) => {
            let u = if l.is_unsigned { "u" } else { "" };
            let (c, sp) = (c(l.is_compressed), sp(l.is_compressed, l.rs1));
            format!("{c}l{}{u}{sp} {},{}({})", size(l.len), x(l.rd), l.imm, x(l.rs1))
        }
        Instr::Store(s) => {
            let (c, sp) = (c(s.is_compressed), sp(s.is_compressed, s.rs1));
            format!("{c}s{}{sp} {},{}({})", size(s.len), x(s.rs2), s.imm, x(s.rs1))
        }
    }
}

/// What is read: the mnemonics whose words the library accepts.
const OURS: [&str; 31] = [
    "lb",
    "lh",
    "lw",
    "ld",
    "lbu",
    "lhu",
    "lwu",
    "c.lw",
    "c.ld",
    "c.lwsp",
    "c.ldsp",
    "sb",
    "sh",
    "sw",
    "sd",
    "c.sw",
    "c.sd",
    "c.swsp",
    "c.sdsp",
    "wfi",
    "mret",
    "sret",
    "sfence.vma",
    "hfence.vvma",
    "hfence.gvma",
    "csrrw",
    "csrrs",
    "csrrc",
    "csrrwi",
    "csrrsi",
    "csrrci",
];

/// A line of a disassembly: the word and what is printed for it, or nothing where it is no such line.
fn line(line: &str) -> Option<(u64, String)> {
    let (_, rest) = line.split_once(':')?;
    // the word, as one number or as its bytes from the lowest, then the mnemonic
    let mut parts = rest.trim_start().splitn(2, '\t');
    let digits: Vec<&str> = parts.next()?.split_whitespace().collect();
    let number = |text: &str| u64::from_str_radix(text, 16).ok();
    let word = match &digits[..] {
        [one] if one.len() == 4 || one.len() == 8 => number(one)?,
        bytes if bytes.iter().all(|b| b.len() == 2) && matches!(bytes.len(), 2 | 4) => {
            bytes.iter().rev().try_fold(0, |n, b| Some(n << 8 | number(b)?))?
        }
        _ => return None,
    };
    // what comes after a remark sign is no part of the instruction
    let said = parts.next()?.split('#').next()?;
    let mut said = said.split_whitespace();
    let mnemonic = said.next()?.to_string();
    let operands: Vec<String> = said.collect::<String>().split(',').map(|o| by_name(&mnemonic, o)).collect();
    Some((word, format!("{mnemonic} {}", operands.join(",")).trim_end().into()))
}

/// An operand; a CSR that the disassembler has no name for is printed as a number, and is given its name.
fn by_name(mnemonic: &str, operand: &str) -> String {
    let number = match operand.strip_prefix("0x") {
        Some(digits) => usize::from_str_radix(digits, 16).ok(),
        // an immediate of a CSR form is below 32, and so are the few CSRs there, which have names
        None => operand.parse().ok().filter(|n| *n > 31),
    };
    match number.and_then(Csr::at) {
        Some(csr) if mnemonic.starts_with("csrr") => csr_name(csr),
        _ => operand.into(),
    }
}

/// The three readings of a word.
type Readings = [Result<Instr, Refusal>; 3];

/// What is read, in the assembler's words: one of the three at most.
fn texts(readings: &Readings) -> Vec<String> {
    readings.iter().flatten().map(|i| text(*i)).collect()
}

/// Whether the library reads a word as it is printed, and the class that the word is counted in.
fn judged<'a>(word: u64, said: &'a str, readings: &Readings) -> (bool, &'a str) {
    let mnemonic = said.split(' ').next().unwrap_or_default();
    let half = word & 3 != 3;
    // a CSR that is in no profile is printed by its name, and refused with 2
    let missing = matches!(readings[0], Err(Refusal::InvalidCsrOp(_))) && full().decode_csr(word as usize >> 20).is_none();
    // what is no CSR form and no load or store is refused by all three
    let number = if word & 3 == 2 { 5 } else { 3 };
    let refused = [1, number, number].into_iter().eq(readings.iter().map(|r| r.map_or_else(|r| r.number(), |_| 0)));
    match mnemonic {
        _ if !half && (mnemonic == "<unknown>" || mnemonic.starts_with('.')) => (true, "words not known to it: not judged"),
        _ if mnemonic.starts_with("csrr") && missing => (texts(readings).is_empty(), "CSR forms of a CSR that is in no profile: refused"),
        _ if OURS.contains(&mnemonic) => (texts(readings) == [said], mnemonic),
        _ => (refused, if half { "other halfwords: refused" } else { "other words: refused" }),
    }
}

fn read(name: &str) {
    let mut input = String::new();
    if let Err(e) = std::io::stdin().read_to_string(&mut input) {
        eprintln!("judges: {e}");
        exit(1);
    }
    let hart = full();
    let mut counts: BTreeMap<String, u64> = BTreeMap::new();
    let (mut all, mut differ) = (0, 0);
    for (word, said) in input.lines().filter_map(line) {
        all += 1;
        let raw = word as usize;
        let readings = [
            hart.decode_illegal_instruction(raw).map(Instr::from),
            hart.decode_load(raw).map(Instr::from),
            hart.decode_store(raw).map(Instr::from),
        ];
        let (same, class) = judged(word, &said, &readings);
        *counts.entry(class.into()).or_default() += 1;
        if !same {
            differ += 1;
            if differ <= 10 {
                println!("  {word:#X}: {name} prints {said:?}, the library reads {:?} {readings:?}", texts(&readings));
            }
        }
    }
    for (class, n) in counts {
        println!("  {class}: {n}");
    }
    println!("{name}: {all} words, {differ} differ");
    exit(if differ == 0 && all > 0 { 0 } else { 1 });
}

/// The edges of a register field: each bit alone, none, all.
const EDGES: [usize; 7] = [0, 1, 2, 4, 8, 16, 31];

const WIDTHS: [Width; 4] = [Width::Byte, Width::Byte2, Width::Byte4, Width::Byte8];

/// The instructions that are written, each with the word that the library writes: those of 32 bits, then the compressed ones.
fn instructions() -> [Vec<(Instr, u32)>; 2] {
    let hart = full();
    let pairs: Vec<(Register, Register)> = EDGES.iter().flat_map(|a| EDGES.map(|b| (Register::from(*a), Register::from(b)))).collect();
    let long = [system(&hart, &pairs), accesses(&pairs)].concat();
    // what it refuses to write has no word
    [long, compressed()].map(|all| all.into_iter().filter_map(|i| hart.encode(i).ok().map(|w| (i, w))).collect())
}

fn system(hart: &Profile, pairs: &[(Register, Register)]) -> Vec<Instr> {
    let mut all = vec![IllegalInst::Wfi, IllegalInst::Mret, IllegalInst::Sret];
    for &(rs1, rs2) in pairs {
        all.push(IllegalInst::Sfencevma { rs1, rs2 });
        all.push(IllegalInst::Hfencevvma { rs1, rs2 });
        all.push(IllegalInst::Hfencegvma { rs1, rs2 });
    }
    for csr in (0..4096).filter_map(|a| hart.decode_csr(a)) {
        for (rd, rs1) in [(0, 0), (5, 0), (31, 0), (0, 1), (1, 31), (10, 16)] {
            let (uimm, rd, rs1) = (rs1, Register::from(rd), Register::from(rs1));
            all.push(IllegalInst::Csrrw { csr, rd, rs1 });
            all.push(IllegalInst::Csrrs { csr, rd, rs1 });
            all.push(IllegalInst::Csrrc { csr, rd, rs1 });
            all.push(IllegalInst::Csrrwi { csr, rd, uimm });
            all.push(IllegalInst::Csrrsi { csr, rd, uimm });
            all.push(IllegalInst::Csrrci { csr, rd, uimm });
        }
    }
    all.into_iter().map(Instr::from).collect()
}

/// Loads and stores of 32 bits, some that have no form among them.
fn accesses(pairs: &[(Register, Register)]) -> Vec<Instr> {
    let mut all: Vec<Instr> = Vec::new();
    for len in WIDTHS {
        for &(a, b) in pairs {
            for imm in [0, 1, -1, 2, 4, 8, 16, 31, 32, 64, 128, 256, 512, 1024, 2047, -2048, -1024, 1365, -1366] {
                for is_unsigned in [false, true] {
                    all.push(LoadInstr { rd: a, rs1: b, imm, len, is_compressed: false, is_unsigned }.into());
                }
                all.push(StoreInstr { rs2: a, rs1: b, imm, len, is_compressed: false }.into());
            }
        }
    }
    all
}

/// All compressed loads and stores, and many that are none: register-based, then stack-based.
fn compressed() -> Vec<Instr> {
    let mut all: Vec<Instr> = Vec::new();
    let mut one = |a: usize, b: usize, imm, len| {
        let (a, b) = (Register::from(a), Register::from(b));
        all.push(LoadInstr { rd: a, rs1: b, imm, len, is_compressed: true, is_unsigned: false }.into());
        all.push(StoreInstr { rs2: a, rs1: b, imm, len, is_compressed: true }.into());
    };
    for len in WIDTHS {
        for a in 7..17 {
            for b in 7..17 {
                (-4..=260).for_each(|imm| one(a, b, imm, len));
            }
        }
        for a in 0..32 {
            (-8..=520).for_each(|imm| one(a, 2, imm, len));
        }
    }
    all
}

fn write() {
    let [long, short] = instructions();
    println!(".option norvc");
    long.iter().for_each(|(i, _)| println!("{}", text(*i)));
    println!(".option rvc");
    short.iter().for_each(|(i, _)| println!("{}", text(*i)));
}

fn halves() {
    (0..0x1_0000).filter(|half| half & 3 != 3).for_each(|half| println!(".insn {half:#x}"));
}

fn check(file: &str) {
    let bytes = std::fs::read(file).unwrap_or_else(|e| {
        eprintln!("judges: {file}: {e}");
        exit(1)
    });
    let [long, short] = instructions();
    let all = long.iter().map(|(i, w)| (i, *w, 4)).chain(short.iter().map(|(i, w)| (i, *w, 2)));
    let (mut at, mut differ) = (0, 0);
    for (instr, word, len) in all {
        let made = bytes.get(at..at + len).map(|b| b.iter().rev().fold(0, |n, b| n << 8 | *b as u32));
        if made != Some(word) {
            differ += 1;
            if differ <= 10 {
                println!("  {}: the library writes {word:#X}, the assembler {made:X?}", text(*instr));
            }
        }
        at += len;
    }
    if at != bytes.len() {
        differ += 1;
        println!("  the words have {at} bytes, the assembler made {}", bytes.len());
    }
    println!("the assembler: {} words and {} halfwords, {differ} differ", long.len(), short.len());
    exit(if differ == 0 { 0 } else { 1 });
}
