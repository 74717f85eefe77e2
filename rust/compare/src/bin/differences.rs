//! What Miralis's own decoder does outside and at the edges of the domain that was ported: one row for each class of input, with
//! one input of it, the answer of the Rust (in a debug build, and in a release build where that differs) and the wanted answer.
//! Where a class is large, a number of its words is tried, and the row says how many did the same.
//!
//! It prints the tables of docs/DIFFERENCES.md.

#[cfg(not(have_miralis))]
fn main() {
    eprintln!("differences: there was no Miralis text when this was built (MIRALIS_SRC names its folder), so nothing is run");
    std::process::exit(1);
}

#[cfg(have_miralis)]
fn main() {
    // The panics are the answers here; their text goes into the table.
    std::panic::set_hook(Box::new(|_| {}));
    run::all();
}

#[cfg(have_miralis)]
mod run {
    use std::any::Any;
    use std::fmt::Write;
    use std::panic::{AssertUnwindSafe, catch_unwind};

    use compare::Reading;
    use compare::domain::stack_form;

    const NONE: u64 = 0;
    const ZIHPM: u64 = 1 << 1;
    const CRYPTO: u64 = 1 << 7;
    const ALL: u64 = 0xFF;

    /// What a call did: its answer in words, or the message of its panic.
    #[derive(Clone, PartialEq)]
    enum Did {
        Answer(String),
        Panic(String),
    }

    impl Did {
        fn of(call: impl FnOnce() -> String) -> Did {
            match catch_unwind(AssertUnwindSafe(call)) {
                Ok(answer) => Did::Answer(answer),
                Err(payload) => Did::Panic(message(&*payload)),
            }
        }

        fn text(&self) -> String {
            match self {
                Did::Answer(text) => text.clone(),
                Did::Panic(text) => format!("panics: {text}"),
            }
        }

        /// What all words of a class have in common: that they are answered, or the panic.
        fn kind(&self) -> String {
            match self {
                Did::Answer(_) => "answered".into(),
                Did::Panic(text) => format!("panics: {text}"),
            }
        }
    }

    fn message(payload: &(dyn Any + Send)) -> String {
        match (payload.downcast_ref::<&str>(), payload.downcast_ref::<String>()) {
            (Some(text), _) => (*text).into(),
            (_, Some(text)) => text.clone(),
            _ => "(no text)".into(),
        }
    }

    /// A call of the Rust, made on either build of it.
    #[derive(Clone, Copy)]
    enum Call {
        System { flags: u64, raw: u64 },
        Load { raw: u64 },
        Store { raw: u64 },
        DecodeCsr { flags: u64, address: u64 },
        Pmpcfg(usize),
        Pmpaddr(usize),
        Mhpmcounter(usize),
        Mhpmevent(usize),
        Custom(usize),
        Address { base: usize, imm: isize },
        Bits { raw: usize, start: isize, end: isize },
        Width(usize),
        Register(usize),
    }

    impl Call {
        fn input(self) -> String {
            match self {
                Call::System { flags: NONE, raw } | Call::Load { raw } | Call::Store { raw } => format!("{raw:#X}"),
                Call::System { flags, raw } => format!("{raw:#X} (flags {flags:#04X})"),
                Call::DecodeCsr { flags, address } => format!("{address:#X} (flags {flags:#04X})"),
                Call::Pmpcfg(id) => format!("`Pmpcfg({})`", number(id)),
                Call::Pmpaddr(id) => format!("`Pmpaddr({})`", number(id)),
                Call::Mhpmcounter(id) => format!("`Mhpmcounter({})`", number(id)),
                Call::Mhpmevent(id) => format!("`Mhpmevent({})`", number(id)),
                Call::Custom(id) => format!("`Custom({})`", number(id)),
                Call::Address { base, imm } => format!("base {base:#X}, imm {imm}"),
                Call::Bits { raw, start, end } => format!("raw {raw:#X}, bits {start} to {end}"),
                Call::Width(bits) => bits.to_string(),
                Call::Register(value) => format!("{value:#X}"),
            }
        }
    }

    fn number(n: usize) -> String {
        if n == usize::MAX {
            "2^64 - 1".into()
        } else if n < 100 {
            n.to_string()
        } else {
            format!("{n:#X}")
        }
    }

    /// The calls on one build of the text. Each build is a crate with types of its own, so the code is written out for each.
    macro_rules! build {
        ($name:ident, $oracle:ident) => {
            mod $name {
                use super::{Call, Did};
                use $oracle::arch::Csr;
                use $oracle::calls;
                use $oracle::decoder::IllegalInst::{self, *};
                use $oracle::host::MiralisContext;

                pub fn call(call: Call) -> Did {
                    Did::of(|| answer(call))
                }

                fn answer(call: Call) -> String {
                    match call {
                        Call::System { flags, raw } => system(calls::system(&MiralisContext::with_flags(flags), raw as usize)),
                        Call::Load { raw } => {
                            let l = calls::load(&MiralisContext::with_flags(0), raw as usize);
                            let sign = if l.is_unsigned { "unsigned" } else { "signed" };
                            format!("load {} {sign}, rd {}, base {}, {}", l.len.to_bits(), l.rd as u8, l.rs1 as u8, l.imm)
                        }
                        Call::Store { raw } => {
                            let s = calls::store(&MiralisContext::with_flags(0), raw as usize);
                            format!("store {}, rs2 {}, base {}, {}", s.len.to_bits(), s.rs2 as u8, s.rs1 as u8, s.imm)
                        }
                        Call::DecodeCsr { flags, address } => {
                            let csr = calls::decode_csr(&MiralisContext::with_flags(flags), address as usize);
                            csr.map_or("none".into(), |c| format!("{c:?}"))
                        }
                        Call::Pmpcfg(id) => format!("{:#X}", calls::idx(Csr::Pmpcfg(id))),
                        Call::Pmpaddr(id) => format!("{:#X}", calls::idx(Csr::Pmpaddr(id))),
                        Call::Mhpmcounter(id) => format!("{:#X}", calls::idx(Csr::Mhpmcounter(id))),
                        Call::Mhpmevent(id) => format!("{:#X}", calls::idx(Csr::Mhpmevent(id))),
                        Call::Custom(id) => format!("{:#X}", calls::idx(Csr::Custom(id))),
                        Call::Address { base, imm } => format!("{:#X}", calls::calculate_addr(base, imm)),
                        Call::Bits { raw, start, end } => calls::bits_to_int(raw, start, end).to_string(),
                        Call::Width(bits) => format!("{:?}", calls::width(bits)),
                        Call::Register(value) => format!("{:?}", calls::register(value)),
                    }
                }

                fn system(i: IllegalInst) -> String {
                    let csr = |op: &str, csr: Csr, rd: u8, from: usize| format!("{op} {csr:?}, rd {rd}, {from}");
                    match i {
                        Csrrw { csr: c, rd, rs1 } => csr("write", c, rd as u8, rs1 as usize),
                        Csrrs { csr: c, rd, rs1 } => csr("set", c, rd as u8, rs1 as usize),
                        Csrrc { csr: c, rd, rs1 } => csr("clear", c, rd as u8, rs1 as usize),
                        Csrrwi { csr: c, rd, uimm } => csr("write immediate", c, rd as u8, uimm),
                        Csrrsi { csr: c, rd, uimm } => csr("set immediate", c, rd as u8, uimm),
                        Csrrci { csr: c, rd, uimm } => csr("clear immediate", c, rd as u8, uimm),
                        Sfencevma { rs1, rs2 } => format!("sfence.vma {}, {}", rs1 as u8, rs2 as u8),
                        Hfencevvma { rs1, rs2 } => format!("hfence.vvma {}, {}", rs1 as u8, rs2 as u8),
                        Hfencegvma { rs1, rs2 } => format!("hfence.gvma {}, {}", rs1 as u8, rs2 as u8),
                        Wfi | Mret | Sret | InvalidCsrOp | Unknown => format!("{i:?}"),
                    }
                }
            }
        };
    }
    build!(debug, oracle_checked);
    build!(release, oracle);

    /// One class of input.
    struct Row {
        class: &'static str,
        one: Call,
        /// What is wanted for `one`.
        wanted: &'static str,
        /// The class, or some of it: the row says how many are answered, and how many end in which panic. Empty: `one` alone.
        more: Vec<Call>,
    }

    fn row(class: &'static str, one: Call, wanted: &'static str) -> Row {
        Row { class, one, wanted, more: Vec::new() }
    }

    impl Row {
        fn with(mut self, more: impl Iterator<Item = Call>) -> Row {
            self.more = more.collect();
            self
        }
    }

    fn table(title: &str, rows: &[Row]) {
        println!("\n### {title}\n");
        println!("| class | input | the Rust | tried | wanted |\n|---|---|---|---|---|");
        for r in rows {
            let (checked, wrapped) = (debug::call(r.one), release::call(r.one));
            let mut did = checked.text();
            if checked != wrapped {
                did = format!("debug {did}; release {}", wrapped.text());
            }
            // how the words of the class go, in the debug build
            let mut ways: Vec<(String, u64)> = Vec::new();
            let class = if r.more.is_empty() { std::slice::from_ref(&r.one) } else { &r.more[..] };
            for c in class {
                let kind = debug::call(*c).kind();
                match ways.iter_mut().find(|w| w.0 == kind) {
                    Some(w) => w.1 += 1,
                    None => ways.push((kind, 1)),
                }
            }
            let mut tried = String::new();
            match &ways[..] {
                [(_, 1)] => tried.push('1'),
                [(_, n)] => write!(tried, "{n}, all alike").unwrap(),
                several => {
                    for (i, (kind, n)) in several.iter().enumerate() {
                        write!(tried, "{}{n} {kind}", if i > 0 { "; " } else { "" }).unwrap();
                    }
                }
            }
            println!("| {} | {} | {did} | {tried} | {} |", r.class, r.one.input(), r.wanted);
        }
    }

    /// Numbers with no pattern that matters here, the same in every run.
    fn random() -> impl Iterator<Item = u64> {
        let mut x: u64 = 0x9E37_79B9_7F4A_7C15;
        std::iter::repeat_with(move || {
            x ^= x << 13;
            x ^= x >> 7;
            x ^= x << 17;
            x.wrapping_mul(0x2545_F491_4F6C_DD1D)
        })
    }

    fn load(raw: u64) -> Call {
        Call::Load { raw }
    }

    fn store(raw: u64) -> Call {
        Call::Store { raw }
    }

    /// All halfwords with these low two bits and one of these funct3.
    fn halves(low: u64, funct3: &'static [u64]) -> impl Iterator<Item = u64> {
        (0..0x1_0000u64).filter(move |w| w & 3 == low && funct3.contains(&(w >> 13)))
    }

    /// All halfwords with low two bits 10: the reading's stack-based forms, or all others.
    fn stack(reading: Reading, forms: bool) -> impl Iterator<Item = u64> {
        halves(2, ANY).filter(move |w| stack_form(reading, *w).is_some() == forms)
    }

    /// Random 32-bit words with low two bits 11, an opcode that passes and one of these funct3.
    fn words(opcode: impl Fn(u64) -> bool, funct3: &'static [u64]) -> impl Iterator<Item = u64> {
        random().map(|w| w & 0xFFFF_FFFF | 3).filter(move |w| opcode(w & 0x7F) && funct3.contains(&(w >> 12 & 7))).take(100_000)
    }

    const ANY: &[u64] = &[0, 1, 2, 3, 4, 5, 6, 7];

    pub fn all() {
        table(
            "The load reading",
            &[
                row("low two bits 10, C.LWSP and C.LDSP, rd not 0", load(0x4502), "load 32 signed, rd 10, base 2, 0")
                    .with(stack(Reading::Load, true).map(load)),
                row("low two bits 10, any other", load(0x4002), "5").with(stack(Reading::Load, false).map(load)),
                row("low two bits 01", load(0x4501), "3").with(halves(1, ANY).map(load)),
                row("00, funct3 0 (c.addi4spn, and all zeros)", load(0x0000), "3").with(halves(0, &[0]).map(load)),
                row("00, funct3 1 (c.fld), 0x2000 among them", load(0x2000), "3").with(halves(0, &[1]).map(load)),
                row("00, funct3 4 (Zcb, else reserved)", load(0x8000), "3").with(halves(0, &[4]).map(load)),
                row("00, funct3 5 (c.fsd)", load(0xA000), "3").with(halves(0, &[5]).map(load)),
                row("00, funct3 6, 7: the stores c.sw, c.sd", load(0xDFFC), "3").with(halves(0, &[6, 7]).map(load)),
                row("00, funct3 2, rubbish above bit 15", load(0xDEAD_5FFC), "load 32 signed, rd 15, base 15, 124")
                    .with(halves(0, &[2, 3]).map(|w| load(w | 0xDEAD_BEEF_DEAD_0000))),
                row("11, opcode 0x07: flw f5,-2048(x10)", load(0x8005_2287), "3").with(words(|o| o == 0x07, ANY).map(load)),
                row("11, opcode 0x23: a store's word", load(0xFEB1_3C23), "3").with(words(|o| o == 0x23, ANY).map(load)),
                row("11, opcode 0x2F: lr.w x5,(x10)", load(0x1005_22AF), "3").with(words(|o| o == 0x2F, ANY).map(load)),
                row("11, opcode 0x73: csrrs x5,mhartid,x0", load(0xF140_22F3), "3").with(words(|o| o == 0x73, ANY).map(load)),
                row("11, any opcode but 0x03", load(0xFFFF_FFFF), "3").with(words(|o| o != 0x03, ANY).map(load)),
                row("opcode 0x03, funct3 7", load(0x8005_7283), "4").with(words(|o| o == 0x03, &[7]).map(load)),
                row("opcode 0x03, rubbish above bit 31", load(0xDEAD_BEEF_8005_2283), "load 32 signed, rd 5, base 10, -2048")
                    .with(words(|o| o == 0x03, &[0, 1, 2, 3, 4, 5, 6]).map(|w| load(w | 0xDEAD_BEEF << 32))),
            ],
        );
        table(
            "The store reading",
            &[
                row("low two bits 10, C.SWSP and C.SDSP", store(0xC502), "store 32, rs2 0, base 2, 136")
                    .with(stack(Reading::Store, true).map(store)),
                row("low two bits 10, any other", store(0x4502), "5").with(stack(Reading::Store, false).map(store)),
                row("low two bits 01", store(0xC501), "3").with(halves(1, ANY).map(store)),
                row("00, funct3 0, 1, 4, 5", store(0x0000), "3").with(halves(0, &[0, 1, 4, 5]).map(store)),
                row("00, funct3 2, 3: the loads c.lw, c.ld", store(0x5FFC), "3").with(halves(0, &[2, 3]).map(store)),
                row("00, funct3 7, rubbish above bit 15", store(0xDEAD_FD64), "store 64, rs2 9, base 10, 248")
                    .with(halves(0, &[6, 7]).map(|w| store(w | 0xDEAD_BEEF_DEAD_0000))),
                row("11, opcode 0x27: fsw f11,-8(x2)", store(0xFEB1_2C27), "3").with(words(|o| o == 0x27, &[0, 1, 2, 3]).map(store)),
                row("11, opcode 0x03: a load's word", store(0x8005_2283), "3").with(words(|o| o == 0x03, &[0, 1, 2, 3]).map(store)),
                row("11, opcode 0x2F: sc.w x5,x11,(x10)", store(0x18B5_22AF), "3").with(words(|o| o == 0x2F, &[0, 1, 2, 3]).map(store)),
                row("11, any opcode but 0x23, funct3 0 to 3", store(0xFFFF_BFFF), "3").with(words(|o| o != 0x23, &[0, 1, 2, 3]).map(store)),
                row("11, any opcode but 0x23, funct3 4 to 7", store(0xFFFF_FFFF), "3").with(words(|o| o != 0x23, &[4, 5, 6, 7]).map(store)),
                row("opcode 0x23, funct3 4 to 7", store(0xFEB1_4C23), "4").with(words(|o| o == 0x23, &[4, 5, 6, 7]).map(store)),
                row("opcode 0x23, rubbish above bit 31", store(0xDEAD_BEEF_FEB1_3C23), "store 64, rs2 11, base 2, -8")
                    .with(words(|o| o == 0x23, &[0, 1, 2, 3]).map(|w| store(w | 0xDEAD_BEEF << 32))),
            ],
        );
        let system = |flags, raw| Call::System { flags, raw };
        table(
            "The SYSTEM reading: where the manuals want something else",
            &[
                row("sret with no S", system(NONE, 0x1020_0073), "Sret"),
                row("sfence.vma with no S", system(NONE, 0x12B5_0073), "sfence.vma 10, 11"),
                row("hfence.vvma with no H", system(NONE, 0x22B5_0073), "hfence.vvma 10, 11"),
                row("hfence.gvma with no H", system(NONE, 0x62B5_0073), "hfence.gvma 10, 11"),
                row("csrrs x5,seed,x0: seed read and not written", system(CRYPTO, 0x0150_22F3), "set Seed, rd 5, 0"),
                row("csrrci x5,seed,0: the same", system(CRYPTO, 0x0150_72F3), "clear immediate Seed, rd 5, 0"),
                row("csrrs x10,hpmcounter3,x0", system(ZIHPM, 0xC030_2573), "2")
                    .with((0xC03..=0xC1F).map(|a| system(ALL, a << 20 | 0x2573))),
                row("ebreak", system(ALL, 0x0010_0073), "1"),
                row("sinval.vma x10,x11", system(ALL, 0x16B5_0073), "1"),
                row("sfence.w.inval", system(ALL, 0x1800_0073), "1"),
                row("mnret", system(ALL, 0x7020_0073), "1"),
                row("hlv.w x5,(x10): funct3 4", system(ALL, 0x6805_42F3), "1"),
                row("CSR form, bits above 31", system(NONE, 0x1_F140_22F3), "as 0xF14022F3"),
                row("CSR form, bits above 31", system(NONE, 0xDEAD_BEEF_3A03_1073), "as 0x3A031073"),
                row("wfi, bits above 31", system(NONE, 0x1_1050_0073), "1"),
                row("fence, bits above 31", system(NONE, 0x1_12B5_0073), "1"),
            ],
        );
        let decode = |flags, address| Call::DecodeCsr { flags, address };
        table(
            "`decode_csr`",
            &[
                row("above 4095", decode(ALL, 0x1300), "none").with(random().map(|a| decode(ALL, a | 0x1000)).take(100_000)),
                row("above 4095", decode(ALL, u64::MAX), "none"),
                row("odd pmpcfg", decode(ALL, 0x3A1), "none").with((0x3A1..=0x3AF).step_by(2).map(|a| decode(ALL, a))),
                row("tdata1 to 3, mcontext, dcsr, dpc, dscratch0, 1", decode(ALL, 0x7A1), "none")
                    .with([0x7A1, 0x7A2, 0x7A3, 0x7A8, 0x7B0, 0x7B1, 0x7B2, 0x7B3].into_iter().map(|a| decode(ALL, a))),
            ],
        );
        table(
            "`idx`",
            &[
                row("pmpcfg above 15", Call::Pmpcfg(16), "7: the address is pmpaddr 0's"),
                row("odd pmpcfg", Call::Pmpcfg(1), "7"),
                row("pmpaddr above 63", Call::Pmpaddr(64), "7"),
                row("mhpmcounter above 28", Call::Mhpmcounter(29), "7"),
                row("mhpmevent above 28", Call::Mhpmevent(29), "7: the address is mscratch's"),
                row("custom outside 0x7C0 to 0x7FF", Call::Custom(0x300), "7: the address is mstatus's"),
                row("custom below the block", Call::Custom(0x7BF), "7"),
                row("custom above the block", Call::Custom(0x800), "7"),
                row("custom above 4095", Call::Custom(usize::MAX), "7"),
                row("a payload that overflows", Call::Pmpaddr(usize::MAX), "7"),
                row("a payload that overflows", Call::Pmpcfg(usize::MAX), "7"),
                row("a payload that overflows", Call::Mhpmcounter(usize::MAX), "7"),
                row("a payload that overflows", Call::Mhpmevent(usize::MAX), "7"),
            ],
        );
        table(
            "The arithmetic",
            &[
                row("`calculate_addr`, above 2^64", Call::Address { base: usize::MAX, imm: 1 }, "0x0"),
                row("`calculate_addr`, below 0", Call::Address { base: 0, imm: -1 }, "0xFFFFFFFFFFFFFFFF"),
                row("`calculate_addr`, the least immediate", Call::Address { base: 0, imm: isize::MIN }, "0x8000000000000000"),
                row("the same, no borrow", Call::Address { base: 1 << 63, imm: isize::MIN }, "0x0"),
                row("`bits_to_int`, 12 bits", Call::Bits { raw: 0x8005_2283, start: 20, end: 31 }, "-2048"),
                row("`bits_to_int`, past the top", Call::Bits { raw: usize::MAX, start: 60, end: 71 }, "15"),
                row("`bits_to_int`, from bit 64", Call::Bits { raw: usize::MAX, start: 64, end: 75 }, "0"),
                row("`bits_to_int`, 64 bits", Call::Bits { raw: usize::MAX, start: 0, end: 63 }, "not ported"),
                row("`bits_to_int`, end below start", Call::Bits { raw: usize::MAX, start: 3, end: 1 }, "not ported"),
                row("`Width::from`, no such width", Call::Width(7), "no width"),
                row("`Register::from`, above 31", Call::Register(0x12F), "register 15"),
            ],
        );
        manual();
    }

    /// CSRs for RV64 of Volume II's list (and Volume I's) that no profile makes available.
    const MANUAL: &[(&str, std::ops::RangeInclusive<u64>)] = &[
        ("fflags, frm, fcsr", 0x001..=0x003),
        ("ssp", 0x011..=0x011),
        ("jvt", 0x017..=0x017),
        ("hpmcounter3 to 31", 0xC03..=0xC1F),
        ("sstateen0 to 3", 0x10C..=0x10F),
        ("scountinhibit", 0x120..=0x120),
        ("sctrctl, sctrstatus", 0x14E..=0x14F),
        ("siselect, sireg, sireg2, sireg3", 0x150..=0x153),
        ("sireg4 to 6", 0x155..=0x157),
        ("sctrdepth", 0x15F..=0x15F),
        ("srmcfg", 0x181..=0x181),
        ("scountovf", 0xDA0..=0xDA0),
        ("hstateen0 to 3", 0x60C..=0x60F),
        ("hcontext", 0x6A8..=0x6A8),
        ("vstimecmp, vsctrctl", 0x24D..=0x24E),
        ("vsiselect, vsireg, vsireg2, vsireg3", 0x250..=0x253),
        ("vsireg4 to 6", 0x255..=0x257),
        ("mstateen0 to 3", 0x30C..=0x30F),
        ("mcyclecfg, minstretcfg", 0x321..=0x322),
        ("mctrctl", 0x34E..=0x34E),
        ("miselect, mireg, mireg2, mireg3", 0x350..=0x353),
        ("mireg4 to 6", 0x355..=0x357),
        ("mnscratch, mnepc, mncause", 0x740..=0x742),
        ("mnstatus", 0x744..=0x744),
        ("tdata1 to 3", 0x7A1..=0x7A3),
        ("mcontext", 0x7A8..=0x7A8),
        ("dcsr, dpc, dscratch0, dscratch1", 0x7B0..=0x7B3),
    ];

    fn manual() {
        println!("\n### CSRs of the manuals that the Rust's list lacks\n");
        println!("| CSRs | addresses | the Rust, all flags and the whole mask |\n|---|---|---|");
        oracle_checked::platform::set_custom(u64::MAX);
        for (name, at) in MANUAL {
            let missing =
                at.clone().filter(|a| debug::call(Call::DecodeCsr { flags: ALL, address: *a }) == Did::Answer("none".into())).count();
            let all = at.clone().count();
            let says = if missing == all { "none".to_string() } else { format!("{missing} of {all} none") };
            let (a, b) = (at.start(), at.end());
            let addresses = if a == b { format!("{a:#05X}") } else { format!("{a:#05X} to {b:#05X}") };
            println!("| {name} | {addresses} | {says} |");
        }
        let found = (0..4096).filter(|a| debug::call(Call::DecodeCsr { flags: ALL, address: *a }) != Did::Answer("none".into())).count();
        println!("\nAddresses that the Rust has under all flags and the whole mask: {found}.");
    }
}
