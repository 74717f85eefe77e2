//! Compares every answer of Miralis's own decoder, its text unchanged, with the proved library: `compare [--quick | --all] [--monitor]`.
//!
//! - `--quick` thins everything out, to take less than a minute.
//! - `--all` leaves no word of 32 bits out, in any reading, and no flag of a profile for the SYSTEM words.
//! - `--monitor` puts rust/miralis/decoder.rs in the place of Miralis's src/decoder.rs.
//!
//! Where the Rust's answer is the wanted one (`compare::domain`), the two answers are the same. The refusal 2 has a reason in the
//! library's alone: it is held to the one that follows from the Rust's look-up (`compare::reasons`). Everywhere else the library's answer
//! is a stack-based form or document 01's number, and docs/DIFFERENCES.md has a row that says what the Rust does and what the
//! library does. Each instruction that the library reads it also writes back to the word that it was.
//!
//! The exit status is 1 where anything differs, and where there is no text of Miralis to compare with.

#[cfg(not(have_miralis))]
fn main() {
    eprintln!("compare: there was no Miralis text when this was built (MIRALIS_SRC names its folder), so nothing is compared");
    std::process::exit(1);
}

#[cfg(have_miralis)]
fn main() {
    let (mut extent, mut monitor) = (run::Extent::Usual, false);
    for word in std::env::args().skip(1) {
        match &word[..] {
            "--quick" => extent = run::Extent::Quick,
            "--all" => extent = run::Extent::All,
            "--monitor" => monitor = true,
            _ => {
                eprintln!("usage: compare [--quick | --all] [--monitor]");
                std::process::exit(2);
            }
        }
    }
    let same = if monitor { run::run::<run::StandIn>(extent) } else { run::run::<run::Original>(extent) };
    std::process::exit(if same { 0 } else { 1 });
}

#[cfg(have_miralis)]
mod run {
    use std::any::Any;
    use std::cell::Cell;
    use std::collections::BTreeMap;
    use std::fmt::{Display, Formatter};
    use std::io::{IsTerminal, Write};
    use std::panic::{AssertUnwindSafe, catch_unwind};
    use std::sync::Mutex;
    use std::sync::atomic::{AtomicU64, Ordering};
    use std::time::{Duration, Instant};

    use compare::Reading::{self, Load, Store, System};
    use compare::random::Random;
    use compare::reasons::Reasons;
    use compare::sides::{Checked, Library, Side};
    pub use compare::sides::{Original, StandIn};
    use compare::{Profile, domain, letter, refusal};

    /// The profiles under which all SYSTEM words are compared.
    const PROFILES: [Profile; 16] = [
        Profile::EMPTY,
        Profile { flags: 0x01, custom: 0 },
        Profile { flags: 0x02, custom: 0 },
        Profile { flags: 0x04, custom: 0 },
        Profile { flags: 0x08, custom: 0 },
        Profile { flags: 0x10, custom: 0 },
        Profile { flags: 0x20, custom: 0 },
        Profile { flags: 0x40, custom: 0 },
        Profile { flags: 0x80, custom: 0 },
        Profile::FULL,
        Profile { flags: 0x00, custom: u64::MAX },
        Profile { flags: 0xFF, custom: 0 },
        Profile { flags: 0xA5, custom: 0x0123_4567_89AB_CDEF },
        Profile { flags: 0x5A, custom: 0xFEDC_BA98_7654_3210 },
        Profile { flags: 0x0F, custom: 1 },
        Profile { flags: 0xF0, custom: 1 << 63 },
    ];

    /// How many differing inputs of a part are printed.
    const SHOWN: usize = 10;

    /// How much is compared.
    #[derive(Clone, Copy, PartialEq, Eq)]
    pub enum Extent {
        Quick,
        Usual,
        All,
    }

    /// What a part of the run found.
    #[derive(Default)]
    struct Found {
        /// Answers compared with the Rust's.
        compared: u64,
        /// Answers outside the domain, held to the wanted ones.
        outside: u64,
        /// Instructions read, and written back.
        written: u64,
        differ: u64,
        first: Vec<String>,
    }

    impl Found {
        #[cold]
        fn differs(&mut self, text: String) {
            self.differ += 1;
            if self.first.len() < SHOWN {
                self.first.push(text);
            }
        }

        fn same(&mut self, same: bool, text: impl FnOnce() -> String) {
            self.compared += 1;
            if !same {
                self.differs(text());
            }
        }

        fn add(&mut self, other: Found) {
            self.compared += other.compared;
            self.outside += other.outside;
            self.written += other.written;
            self.differ += other.differ;
            self.first.extend(other.first);
            self.first.truncate(SHOWN);
        }
    }

    impl Display for Found {
        fn fmt(&self, f: &mut Formatter) -> std::fmt::Result {
            let Found { compared, outside, written, differ, .. } = self;
            write!(f, "{compared} compared, {outside} outside, {written} written back, {differ} differ")
        }
    }

    /// The two decoders under one profile, and the reasons that the Rust leaves out.
    struct Pair<R> {
        profile: Profile,
        rust: R,
        library: Library,
        reasons: &'static Reasons,
    }

    impl<R: Side> Pair<R> {
        fn new(profile: Profile) -> Self {
            Pair { profile, rust: R::new(profile), library: Library::new(profile), reasons: Reasons::get() }
        }

        /// One word in one reading.
        #[inline(always)]
        fn word(&self, found: &mut Found, reading: Reading, raw: u64) {
            let ours = self.library.read(reading, raw);
            let wanted = if domain::contains(reading, raw) {
                found.compared += 1;
                self.reasons.with_letter(self.rust.read(reading, raw), raw)
            } else {
                found.outside += 1;
                domain::wanted(reading, raw)
            };
            if ours != wanted {
                let who = if domain::contains(reading, raw) { R::NAME } else { "wanted" };
                found.differs(format!(
                    "{} {raw:#X} under {}: the library {}, {who} {}",
                    reading.name(),
                    self.profile,
                    text(ours),
                    text(wanted)
                ));
            }
            let [kind, _, flags, ..] = ours.to_le_bytes();
            if kind != 9 {
                found.written += 1;
                let whole = if kind >= 7 && flags & 1 == 1 { 0xFFFF } else { 0xFFFF_FFFF };
                let word = self.library.write(ours);
                if word != raw & whole {
                    found.differs(format!(
                        "{} {raw:#X} under {}: read as {}, written as {word:#X}",
                        reading.name(),
                        self.profile,
                        text(ours)
                    ));
                }
            }
        }

        /// One CSR address: the register there, the same register read out of an instruction, and the look-up. Answers whether the Rust
        /// has a register there.
        fn address(&self, found: &mut Found, address: u64) -> bool {
            let Pair { profile, rust, library, reasons } = self;
            let (ours, theirs) = (library.decode_csr(address), rust.decode_csr(address));
            let is_found = theirs.is_some();
            found.same(ours == theirs && ours.as_ref().is_none_or(|(_, at)| *at == address), || {
                format!("CSR {address:#X} under {profile}: the library {ours:?}, {} {theirs:?}", R::NAME)
            });
            let (looked, wanted) = (library.csr_lookup(address), reasons.lookup(is_found, address));
            found.same(looked == wanted, || format!("look-up of {address:#X} under {profile}: the library {looked}, wanted {wanted}"));
            if address < 4096 {
                let csrrs = address << 20 | 0x2073;
                let read = library.system(csrrs);
                let wanted = if is_found {
                    u64::from_le_bytes([5, 2, address as u8, (address >> 8) as u8, 0, 0, 0, 0])
                } else {
                    reasons.with_letter(System.refused(2), csrrs)
                };
                found.same(read == wanted, || format!("{csrrs:#X} under {profile}: the library {}, wanted {}", text(read), text(wanted)));
            }
            is_found
        }
    }

    /// An answer in words.
    fn text(answer: u64) -> String {
        let [kind, width, flags, a, b, low, high, _] = answer.to_le_bytes();
        let (bits, imm) = (width as u32 * 8, i16::from_le_bytes([low, high]));
        match (kind, refusal(answer)) {
            (_, Some(number)) if letter(answer) != 0 => format!("refuses {number} {}", letter(answer) as char),
            (_, Some(number)) => format!("refuses {number}"),
            (7, _) => format!("load {bits} {}, rd {a}, base {b}, {imm}", if flags & 2 == 2 { "unsigned" } else { "signed" }),
            (8, _) => format!("store {bits}, rs2 {b}, base {a}, {imm}"),
            _ => format!("{answer:#018X}"),
        }
    }

    /// The whole run: its parts, and when it last said something.
    struct Run {
        threads: usize,
        began: Instant,
        said: Mutex<Instant>,
        all: Found,
    }

    impl Run {
        /// One part: `chunks` pieces of work, shared out among the threads.
        fn part(&mut self, name: &str, chunks: u64, work: impl Fn(&mut Found, u64) + Sync) {
            let (next, part, began) = (AtomicU64::new(0), Mutex::new(Found::default()), Instant::now());
            std::thread::scope(|scope| {
                for _ in 0..self.threads {
                    scope.spawn(|| {
                        let mut found = Found::default();
                        loop {
                            let chunk = next.fetch_add(1, Ordering::Relaxed);
                            if chunk >= chunks {
                                break;
                            }
                            work(&mut found, chunk);
                            self.progress(name, chunk * 100 / chunks);
                        }
                        part.lock().unwrap().add(found);
                    });
                }
            });
            let part = part.into_inner().unwrap();
            self.clear();
            println!("{name}: {part} ({:.1} s)", began.elapsed().as_secs_f64());
            for line in &part.first {
                println!("  {line}");
            }
            self.all.add(part);
        }

        /// Says on standard error how far a part is: on a terminal one line that moves, elsewhere a line now and then.
        fn progress(&self, name: &str, percent: u64) {
            let terminal = std::io::stderr().is_terminal();
            let mut said = self.said.lock().unwrap();
            if said.elapsed() > Duration::from_secs(if terminal { 1 } else { 30 }) {
                *said = Instant::now();
                let (start, end) = if terminal { ("\r\x1b[K", "") } else { ("", "\n") };
                eprint!("{start}.. {name}: {percent} of 100, {:.0} s in all{end}", self.began.elapsed().as_secs_f64());
                let _ = std::io::stderr().flush();
            }
        }

        /// Takes the line that moves off the terminal.
        fn clear(&self) {
            if std::io::stderr().is_terminal() {
                eprint!("\r\x1b[K");
            }
        }
    }

    pub fn run<R: Side>(extent: Extent) -> bool {
        quiet();
        let quick = extent == Extent::Quick;
        let threads = std::thread::available_parallelism().map_or(1, |n| n.get().min(2));
        let mut run = Run { threads, began: Instant::now(), said: Mutex::new(Instant::now()), all: Found::default() };
        let how = match extent {
            Extent::Quick => ", thinned out",
            Extent::Usual => "",
            Extent::All => ", by exhaustion",
        };
        println!("{} and the library{how}", R::NAME);
        registers::<R>(&mut run, quick);
        arithmetic::<R>(&mut run, quick);
        if extent == Extent::All {
            all_words::<R>(&mut run);
            all_flags::<R>(&mut run);
            above::<R>(&mut run);
        } else {
            opcodes::<R>(&mut run, if quick { 16 } else { 1 });
        }
        halves::<R>(&mut run, if extent == Extent::All { 256 } else { 1 });
        random_words::<R>(&mut run, quick);
        classes::<R>(&mut run, quick);
        println!("{} and the library: {} ({:.0} s)", R::NAME, run.all, run.began.elapsed().as_secs_f64());
        run.all.differ == 0
    }

    /// How many words one piece of work has where the words are counted through.
    const CHUNK: u64 = 1 << 18;

    /// Every word of 32 bits in each reading, under the empty and the full profile.
    fn all_words<R: Side>(run: &mut Run) {
        for reading in Reading::ALL {
            for profile in [Profile::EMPTY, Profile::FULL] {
                run.part(&format!("all 2^32 words, {} reading, {profile}", reading.name()), (1 << 32) / CHUNK, |found, chunk| {
                    let pair = Pair::<R>::new(profile);
                    for raw in chunk * CHUNK..(chunk + 1) * CHUNK {
                        pair.word(found, reading, raw);
                    }
                });
            }
        }
    }

    /// Every word of opcode 0x73 under all 256 flags, with no custom CSR, with all of them and with some.
    fn all_flags<R: Side>(run: &mut Run) {
        const EACH: u64 = (1 << 25) / CHUNK;
        for custom in [0, u64::MAX, 0x0123_4567_89AB_CDEF] {
            run.part(&format!("opcode 0x73, all flags, custom {custom:#X}"), 256 * EACH, |found, chunk| {
                let (flags, chunk) = (chunk / EACH, chunk % EACH);
                let pair = Pair::<R>::new(Profile { flags, custom });
                for upper in chunk * CHUNK..(chunk + 1) * CHUNK {
                    pair.word(found, System, upper << 7 | 0x73);
                }
            });
        }
    }

    /// Every word of the three opcodes with each bit above bit 31 alone, and with rubbish there.
    fn above<R: Side>(run: &mut Run) {
        for (reading, opcode) in [(System, 0x73), (Load, 0x03), (Store, 0x23)] {
            run.part(&format!("opcode {opcode:#04X}, bits above 31"), (1 << 25) / CHUNK, |found, chunk| {
                let pair = Pair::<R>::new(Profile::FULL);
                let mut random = Random::new(chunk << 16);
                for upper in chunk * CHUNK..(chunk + 1) * CHUNK {
                    let raw = upper << 7 | opcode;
                    for bit in 32..64 {
                        pair.word(found, reading, raw | 1 << bit);
                    }
                    pair.word(found, reading, raw | random.next() << 32);
                }
            });
        }
    }

    /// All words of opcode 0x73 under each profile, and of the load and store opcodes.
    fn opcodes<R: Side>(run: &mut Run, thin: u64) {
        let mut opcode = |name: &str, reading, opcode, profile| {
            run.part(name, (1 << 25) / CHUNK, |found, chunk| {
                let pair = Pair::<R>::new(profile);
                // where it is thinned out, another one of each group is taken, so that no field stays the same
                for group in chunk * CHUNK / thin..(chunk + 1) * CHUNK / thin {
                    let upper = group * thin + group.wrapping_mul(0x9E37_79B9_7F4A_7C15) % thin;
                    pair.word(found, reading, upper << 7 | opcode);
                }
            });
        };
        for profile in PROFILES {
            opcode(&format!("opcode 0x73, {profile}"), System, 0x73, profile);
        }
        opcode("opcode 0x03", Load, 0x03, Profile::EMPTY);
        opcode("opcode 0x23", Store, 0x23, Profile::FULL);
    }

    /// All halfwords, alone and with rubbish above, in each reading. (With low two bits 11 the rubbish makes words of them.)
    fn halves<R: Side>(run: &mut Run, rounds: u64) {
        run.part("all halfwords, alone and with rubbish above", 256, |found, chunk| {
            let mut random = Random::new(chunk);
            for profile in [Profile::EMPTY, Profile::FULL] {
                let pair = Pair::<R>::new(profile);
                for half in chunk * 256..(chunk + 1) * 256 {
                    for reading in Reading::ALL {
                        pair.word(found, reading, half);
                        for _ in 0..rounds {
                            pair.word(found, reading, half | random.next() << 16);
                            pair.word(found, reading, half | random.next() << 32);
                        }
                    }
                }
            }
        });
    }

    /// Random words of 64 bits, and words that are a few bits from an instruction, under random profiles.
    fn random_words<R: Side>(run: &mut Run, quick: bool) {
        const EACH: u64 = 1 << 17;
        /// Words to bend: the bits that are set in the second number are random.
        const SEEDS: [(u64, u64); 14] = [
            (0x1050_0073, 0),
            (0x3020_0073, 0),
            (0x1020_0073, 0),
            (0x1200_0073, 0x01FF_8000),
            (0x2200_0073, 0x01FF_8000),
            (0x6200_0073, 0x01FF_8000),
            (0x73, 0xFFFF_FF80),
            (0x7C00_0073, 0x03FF_FF80),
            (0x03, 0xFFFF_FF80),
            (0x23, 0xFFFF_FF80),
            (0x4000, 0x3FFC),
            (0xC000, 0x3FFC),
            (0x4002, 0x3FFC),
            (0xC002, 0x3FFC),
        ];
        let chunks = if quick { 20 } else { 800 };
        run.part("random and bent words", chunks, |found, chunk| {
            let mut random = Random::new(chunk << 32);
            let mut pair = Pair::<R>::new(Profile::EMPTY);
            for k in 0..EACH {
                if k % 1024 == 0 {
                    let (custom, some) = (random.next(), random.next());
                    let custom = [custom, custom & some, custom | some, 0][random.below(4) as usize];
                    pair = Pair::new(Profile { flags: random.below(256), custom });
                }
                let any = random.next();
                let raw = if k % 4 == 0 {
                    any
                } else {
                    let pick = random.next();
                    let (fixed, free) = SEEDS[(pick % 14) as usize];
                    let mut raw = fixed | any & free;
                    // none, one or two bits turned over, anywhere or below bit 32; then rubbish above bit 31 in some
                    for shift in [8, 16] {
                        let turn = pick >> shift & 0xFF;
                        if turn < 128 {
                            raw ^= 1 << (turn & if turn & 64 == 0 { 63 } else { 31 });
                        }
                    }
                    if pick >> 24 & 3 == 0 {
                        raw ^= any & !0xFFFF_FFFF;
                    }
                    raw
                };
                for reading in Reading::ALL {
                    pair.word(found, reading, raw);
                }
            }
        });
    }

    /// `decode_csr`: which registers there are, by their names, their addresses and the count; the same register read out of an
    /// instruction; the look-up; and `idx` over every register.
    fn registers<R: Side>(run: &mut Run, quick: bool) {
        let masks = [0, u64::MAX, 0x0123_4567_89AB_CDEF, 0x8000_0000_0000_0001];
        let flags: Vec<u64> = if quick { PROFILES.iter().map(|p| p.flags).collect() } else { (0..256).collect() };
        run.part("decode_csr and the look-up, all addresses", flags.len() as u64, |found, chunk| {
            for custom in masks {
                let profile = Profile { flags: flags[chunk as usize], custom };
                let pair = Pair::<R>::new(profile);
                let count = (0..4096).filter(|address| pair.address(found, *address)).count() as u64;
                // beyond the 4096 there is no register
                for address in [0x1000, 0x1300, 0x1F14, 0x1_0300, 1 << 32 | 0x300, 1 << 63 | 0x7C0, u64::MAX] {
                    pair.address(found, address);
                }
                let ours = pair.library.csr_count();
                found.same(ours == count, || format!("count under {profile}: the library {ours}, {} {count}", R::NAME));
            }
        });
        run.part("idx", 1, |found, _| idx(found));
    }

    /// `idx` of the crate `matnosoru` over every variant, payloads around each bound among them, and the address in a word that the
    /// library writes.
    fn idx(found: &mut Found) {
        use matnosoru::Csr as Ours;
        use oracle::arch::Csr as Theirs;
        let library = Library::new(Profile::FULL);
        let mut one = |ours: Ours, theirs: Theirs, listed: Option<&str>| {
            let name = format!("{theirs:?}");
            found.same(name == format!("{ours:?}"), || format!("{name} is {ours:?}"));
            let (a, b) = (ours.idx(), oracle::calls::idx(theirs));
            match listed {
                // where the Rust adds up what is no address, the library's side refuses, and the class is listed
                Some(listed) => {
                    let row = row("### `idx`", listed).is_some();
                    let same = row && a.err().map(|r| r.number()) == Some(7);
                    found.same(same, || {
                        format!(
                            "{name}: {a:?}, {} {b:#X}, and {listed} is{} in docs/DIFFERENCES.md",
                            Original::NAME,
                            if row { "" } else { " not" }
                        )
                    });
                }
                None => {
                    found.same(a == Ok(b), || format!("{name}: {a:?}, {} {b:#X}", Original::NAME));
                    let word = library.write(u64::from_le_bytes([5, 2, b as u8, (b >> 8) as u8, 0, 0, 0, 0]));
                    let never = (0x7A1..0x7C0).contains(&b);
                    let wanted = if never { 7 << 32 } else { (b as u64) << 20 | 0x2073 };
                    found.same(word == wanted, || format!("{name}: written as {word:#X}, wanted {wanted:#X}"));
                }
            }
        };
        macro_rules! plain {
            ($($name:ident)*) => { $(one(Ours::$name, Theirs::$name, None);)* };
        }
        plain! {
            Mhartid Mstatus Misa Mie Mtvec Mscratch Mip Mvendorid Marchid Mimpid Mcycle Minstret Cycle Time Instret
            Mcountinhibit Mcounteren Menvcfg Mseccfg Mconfigptr Medeleg Mideleg Mtinst Mtval2 Tselect Tdata1 Tdata2 Tdata3
            Mcontext Dcsr Dpc Dscratch0 Dscratch1 Mepc Mcause Mtval Sstatus Sie Stvec Scounteren Senvcfg Sscratch Sepc
            Scause Stval Sip Satp Scontext Stimecmp Hstatus Hedeleg Hideleg Hvip Hip Hie Hgeip Hgeie Henvcfg Hcounteren
            Htimedelta Htval Htinst Hgatp Vsstatus Vsie Vstvec Vsscratch Vsepc Vscause Vstval Vsip Vsatp Vstart Vxsat Vxrm
            Vcsr Vl Vtype Vlenb Seed
        }
        let far = [100, 1000, 4095, 4096, 1 << 32, 1 << 63, usize::MAX - 1, usize::MAX];
        for id in (0..0x1100).chain(far) {
            let over = id > usize::MAX - 0xB03;
            let listed = |within: bool, past: &'static str, wraps: &'static str| (!within).then_some(if over { wraps } else { past });
            let pmpcfg = if id % 2 == 1 && id < 16 { "`Pmpcfg(1)`" } else { "`Pmpcfg(16)`" };
            one(Ours::Pmpcfg(id), Theirs::Pmpcfg(id), listed(id < 16 && id % 2 == 0, pmpcfg, "`Pmpcfg(2^64 - 1)`"));
            one(Ours::Pmpaddr(id), Theirs::Pmpaddr(id), listed(id < 64, "`Pmpaddr(64)`", "`Pmpaddr(2^64 - 1)`"));
            one(Ours::Mhpmcounter(id), Theirs::Mhpmcounter(id), listed(id < 29, "`Mhpmcounter(29)`", "`Mhpmcounter(2^64 - 1)`"));
            one(Ours::Mhpmevent(id), Theirs::Mhpmevent(id), listed(id < 29, "`Mhpmevent(29)`", "`Mhpmevent(2^64 - 1)`"));
            let custom = match id {
                0x300 => "`Custom(0x300)`",
                ..0x7C0 => "`Custom(0x7BF)`",
                0x800..0x1000 => "`Custom(0x800)`",
                _ => "`Custom(2^64 - 1)`",
            };
            one(Ours::Custom(id), Theirs::Custom(id), listed((0x7C0..0x800).contains(&id), custom, custom));
        }
    }

    /// `sign_extend` and `calculate_addr`.
    fn arithmetic<R: Side>(run: &mut Run, quick: bool) {
        let mut edges: Vec<u64> = vec![0];
        for k in 0..64 {
            edges.extend([1 << k, (1 << k) - 1, (1 << k) + 1, !(1 << k), (1u64 << k).wrapping_neg()]);
        }
        let each = if quick { 20_000 } else { 1_000_000 };
        run.part("sign_extend", 64, |found, chunk| {
            let mut random = Random::new(chunk);
            let low = chunk * 1024..(chunk + 1) * 1024;
            let values = low.flat_map(|v| [v, v | random.next() << 16, !v]).chain(edges.iter().copied()).collect::<Vec<u64>>();
            let more = (0..each / 64).map(|_| random.next());
            for value in values.into_iter().chain(more) {
                for bytes in [1, 2, 4, 8] {
                    let (ours, theirs) = (Library::sign_extend(value, bytes), R::sign_extend(value, bytes));
                    found.same(ours == theirs, || {
                        format!("sign_extend({value:#X}, {bytes}): the library {ours:#X}, {} {theirs:#X}", R::NAME)
                    });
                }
                for bytes in [0, 3, 5, 7, 9, 16, 1 << 32, u64::MAX] {
                    let ours = Library::sign_extend(value, bytes);
                    found.same(ours == value, || format!("sign_extend({value:#X}, {bytes}): the library {ours:#X}, wanted the value"));
                }
            }
        });
        run.part("calculate_addr", 64, |found, chunk| {
            let mut random = Random::new(chunk << 8);
            let mut one = |base: u64, imm: i64| {
                let (ours, theirs) = (Library::calculate_addr(base, imm), R::calculate_addr(base, imm));
                found.same(ours == theirs, || format!("calculate_addr({base:#X}, {imm}): the library {ours:#X}, {} {theirs:#X}", R::NAME));
            };
            for &base in edges.iter().skip(chunk as usize).step_by(64) {
                for &imm in &edges {
                    one(base, imm as i64);
                }
            }
            for _ in 0..each / 64 {
                one(random.next(), random.next() as i64);
                one(random.next(), random.next() as i64 >> 52);
            }
        });
        run.part("calculate_addr with overflow checks", 1, |found, _| {
            // each class of inputs where a debug build panics, with the row that lists it
            let listed = |base: u64, imm: i64| match imm {
                i64::MIN if base < 1 << 63 => Some("base 0x0, imm -9223372036854775808"),
                i64::MIN => Some("base 0x8000000000000000, imm -9223372036854775808"),
                0.. => base.checked_add(imm as u64).is_none().then_some("base 0xFFFFFFFFFFFFFFFF, imm 1"),
                _ => (base < imm.unsigned_abs()).then_some("base 0x0, imm -1"),
            };
            for &base in &edges {
                for &imm in edges.iter().chain(&[1 << 63, 1, u64::MAX]) {
                    let imm = imm as i64;
                    let did = did(|| Checked::calculate_addr(base, imm));
                    let ours = Library::calculate_addr(base, imm);
                    let same = match (&did, listed(base, imm)) {
                        (Ok(theirs), None) => ours == *theirs,
                        (Err(_), Some(example)) => row("### The arithmetic", example).is_some(),
                        _ => false,
                    };
                    found.same(same, || format!("calculate_addr({base:#X}, {imm}): the library {ours:#X}, {} {did:?}", Checked::NAME));
                }
            }
        });
    }

    /// The classes of words outside the domain: what the Rust does there, and that docs/DIFFERENCES.md says so.
    fn classes<R: Side>(run: &mut Run, quick: bool) {
        let each = if quick { 2_000 } else { 50_000 };
        let lines = Mutex::new(BTreeMap::new());
        run.part("classes outside the domain", domain::CLASSES.len() as u64, |found, chunk| {
            let class = &domain::CLASSES[chunk as usize];
            let (reading, name) = (class.reading.name(), class.name);
            let pair = Pair::<R>::new(Profile::EMPTY);
            // what the Rust does, and with how many words
            let mut ways: BTreeMap<String, (u64, u64)> = BTreeMap::new();
            for raw in [class.example].into_iter().chain(some_of(class, each, chunk)) {
                let (ours, wanted) = (pair.library.read(class.reading, raw), domain::wanted(class.reading, raw));
                let theirs = did(|| pair.rust.read(class.reading, raw));
                found.outside += 1;
                if ours != wanted {
                    found.differs(format!("{reading} {raw:#X}: the library {}, wanted {}", text(ours), text(wanted)));
                }
                let way = match &theirs {
                    Ok(_) => "answers".into(),
                    // the replacement says the word, which is another each time
                    Err(panic) => format!("panics: {}", panic.replace(&format!("{raw:#x} "), "")),
                };
                ways.entry(way).or_insert((0, raw)).0 += 1;
                let said = if R::NAME == StandIn::NAME {
                    does_as_library(class, raw, &theirs)
                } else {
                    // the rest of the class does what its example does
                    ways.len() == 1 && (raw != class.example || is_row(class, &theirs))
                };
                found.same(said, || format!("{reading}, {name}: {raw:#X}: the Rust {theirs:?}, which docs/DIFFERENCES.md does not say"));
            }
            let ways: Vec<String> = ways.iter().map(|(way, (n, first))| format!("{n} {way} (first {first:#X})")).collect();
            let ours = class.refusal.map_or("reads them".into(), |number| format!("refuses {number}"));
            lines.lock().unwrap().insert(chunk, format!("{reading}, {name}: {}; the library {ours}", ways.join("; ")));
        });
        for line in lines.into_inner().unwrap().values() {
            println!("  {line}");
        }
    }

    /// Random words of a class, with and without rubbish above.
    fn some_of(class: &domain::Class, count: usize, seed: u64) -> Vec<u64> {
        let mut random = Random::new(seed);
        std::iter::from_fn(|| Some(random.next() & [0xFFFF, 0xFFFF_FFFF, u64::MAX][random.below(3) as usize]))
            // most random words are none of a small class: the bits that make one are bent to those of its word
            .map(|w| if class.has(w) { w } else { w & !0xE07F | class.example & 0xE07F })
            .map(|w| if class.has(w) { w } else { w & !0x7000 | class.example & 0x7000 })
            .filter(|w| class.has(*w))
            .take(count)
            .collect()
    }

    /// Whether the replacement answers as the library does, or panics with the number of the library's refusal.
    fn does_as_library(class: &domain::Class, raw: u64, theirs: &Result<u64, String>) -> bool {
        match (class.refusal, theirs) {
            (None, Ok(answer)) => *answer == domain::wanted(class.reading, raw),
            (Some(number), Err(panic)) => panic.contains(&format!(" {raw:#x} is refused with {number} (")),
            _ => false,
        }
    }

    /// Whether docs/DIFFERENCES.md says what the Rust did with the class's example, and what the library does.
    fn is_row(class: &domain::Class, theirs: &Result<u64, String>) -> bool {
        let theirs = theirs.as_ref().map_or_else(|panic| format!("panics: {panic}"), |answer| text(*answer));
        let ours = class.refusal.map_or_else(|| text(domain::wanted(class.reading, class.example)), |number| number.to_string());
        let cells = row(&format!("### The {} reading", class.reading.name()), &format!("{:#X}", class.example));
        cells.is_some_and(|cells| cells[3] == theirs && cells[4] == ours)
    }

    /// The cells of the row of docs/DIFFERENCES.md that has this input in its second cell, below this heading.
    fn row(heading: &str, input: &str) -> Option<Vec<&'static str>> {
        const TEXT: &str = include_str!("../../../../docs/DIFFERENCES.md");
        let below = TEXT.split_once(&format!("\n{heading}\n"))?.1;
        let table = below.split("\n#").next()?;
        let mut rows = table.lines().map(|line| line.trim_matches('|').split('|').map(str::trim).collect::<Vec<&str>>());
        rows.find(|cells| cells.get(1) == Some(&input))
    }

    thread_local! {
        static EXPECTED: Cell<bool> = const { Cell::new(false) };
    }

    /// Panics of a decoder are answers here, and say nothing; all others do.
    fn quiet() {
        let usual = std::panic::take_hook();
        std::panic::set_hook(Box::new(move |info| {
            if !EXPECTED.get() {
                usual(info);
            }
        }));
    }

    /// What a call did: its answer, or the text of its panic.
    fn did(call: impl FnOnce() -> u64) -> Result<u64, String> {
        EXPECTED.set(true);
        let did = catch_unwind(AssertUnwindSafe(call));
        EXPECTED.set(false);
        did.map_err(|payload: Box<dyn Any + Send>| match (payload.downcast_ref::<&str>(), payload.downcast_ref::<String>()) {
            (Some(text), _) => (*text).into(),
            (_, Some(text)) => text.clone(),
            _ => "(no text)".into(),
        })
    }
}
