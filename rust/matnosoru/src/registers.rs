//! RISC-V registers: the counterpart of Miralis's src/arch/registers.rs.

use core::fmt::{self, Write};

use crate::Refusal;

/// General purpose registers.
#[derive(Clone, Copy, Debug, PartialEq, Eq, Hash)]
#[repr(u8)]
pub enum Register {
    /// zero - Hard-wired zero register
    X0 = 0,
    /// ra - Return address
    X1 = 1,
    /// sp - Stack pointer
    X2 = 2,
    /// gp - Global pointer
    X3 = 3,
    /// tp - Thread pointer
    X4 = 4,
    /// t0 - Temporary register
    X5 = 5,
    /// t1 - Temporary register
    X6 = 6,
    /// t2 - Temporary register
    X7 = 7,
    /// s0 / fp Saved register / frame pointer
    X8 = 8,
    /// s1 - Saved register
    X9 = 9,
    /// a0 - Function argument / return value
    X10 = 10,
    /// a1 - Function argument / return value
    X11 = 11,
    /// a2 - Function argument
    X12 = 12,
    /// a3 - Function argument
    X13 = 13,
    /// a4 - Function argument
    X14 = 14,
    /// a5 - Function argument
    X15 = 15,
    /// a6 - Function argument - Encodes FID
    X16 = 16,
    /// a7 - Function argument - Encodes EID
    X17 = 17,
    /// s2 - Saved register
    X18 = 18,
    /// s3 - Saved register
    X19 = 19,
    /// s4 - Saved register
    X20 = 20,
    /// s5 - Saved register
    X21 = 21,
    /// s6 - Saved register
    X22 = 22,
    /// s7 - Saved register
    X23 = 23,
    /// s8 - Saved register
    X24 = 24,
    /// s9 - Saved register
    X25 = 25,
    /// s10 - Saved register
    X26 = 26,
    /// s11 - Saved register
    X27 = 27,
    /// t3 - Temporary register
    X28 = 28,
    /// t4 - Temporary register
    X29 = 29,
    /// t5 - Temporary register
    X30 = 30,
    /// t6 - Temporary register
    X31 = 31,
}

impl Register {
    /// Convert a `usize` to a register by masking high order bits.
    #[must_use]
    pub const fn from(value: usize) -> Self {
        use Register::*;
        match value & 0b11111 {
            0 => X0,
            1 => X1,
            2 => X2,
            3 => X3,
            4 => X4,
            5 => X5,
            6 => X6,
            7 => X7,
            8 => X8,
            9 => X9,
            10 => X10,
            11 => X11,
            12 => X12,
            13 => X13,
            14 => X14,
            15 => X15,
            16 => X16,
            17 => X17,
            18 => X18,
            19 => X19,
            20 => X20,
            21 => X21,
            22 => X22,
            23 => X23,
            24 => X24,
            25 => X25,
            26 => X26,
            27 => X27,
            28 => X28,
            29 => X29,
            30 => X30,
            // what is left of five bits
            _ => X31,
        }
    }
}

impl TryFrom<usize> for Register {
    type Error = Refusal;

    /// The register of this number; above 31 the refusal is 6.
    fn try_from(value: usize) -> Result<Self, Refusal> {
        if value < 32 { Ok(Register::from(value)) } else { Err(Refusal::RegisterRange) }
    }
}

/// The first and last address of each block of registers, by which a payload is an address and back.
mod block {
    pub const PMPCFG: (usize, usize) = (super::csr::PMPCFG0, super::csr::PMPCFG15);
    pub const PMPADDR: (usize, usize) = (super::csr::PMPADDR0, super::csr::PMPADDR63);
    pub const MHPMCOUNTER: (usize, usize) = (super::csr::MHPMCOUNTER3, super::csr::MHPMCOUNTER31);
    pub const MHPMEVENT: (usize, usize) = (super::csr::MHPMEVENT3, super::csr::MHPMEVENT31);

    /// The address of a payload in its block.
    pub const fn address((first, last): (usize, usize), id: usize) -> Option<usize> {
        // the sum wraps only where it is then below `first`
        let address = first.wrapping_add(id);
        if first <= address && address <= last { Some(address) } else { None }
    }
}

/// Writes out the registers that have no payload: the type with all its cases, the addresses, and the way between the two.
macro_rules! csrs {
    ($($(#[$doc:meta])* $name:ident $address:ident = $value:literal;)*) => {
        /// A RISC-V Control and Status Register (CSR).
        ///
        /// A payload may be any number; [`Csr::idx`] refuses one that no register has.
        ///
        /// A later library may know further registers. A match that lists all of them, as the one in rust/miralis/decoder.rs does,
        /// then stops compiling where it has to say what becomes of the new one.
        #[derive(Clone, Copy, Debug, PartialEq, Eq, Hash)]
        pub enum Csr {
            $($(#[$doc])* $name,)*
            /// PMP config, by the register's number, which is even: 0 to 14
            Pmpcfg(usize),
            /// PMP addr: 0 to 63
            Pmpaddr(usize),
            /// Machine performance-monitoring counter: 0 for mhpmcounter3, to 28
            Mhpmcounter(usize),
            /// Machine performance-monitoring event selector: 0 for mhpmevent3, to 28
            Mhpmevent(usize),
            /// Those CSRs are specific to each SoC, refer to the corresponding manual for details.
            /// The `usize` fields encode the CSR ID: 0x7C0 to 0x7FF
            Custom(usize),
        }

        /// Module with the CSR registers indexes.
        pub mod csr {
            $(
                #[doc = concat!("Address of [`Csr::", stringify!($name), "`](super::Csr::", stringify!($name), ").")]
                pub const $address: usize = $value;
            )*
            /// Address of `Csr::Pmpcfg(0)`.
            pub const PMPCFG0: usize = 0x3A0;
            /// The last address of the pmpcfg block.
            pub const PMPCFG15: usize = 0x3AF;
            /// Address of `Csr::Pmpaddr(0)`.
            pub const PMPADDR0: usize = 0x3B0;
            /// Address of `Csr::Pmpaddr(63)`.
            pub const PMPADDR63: usize = 0x3EF;
            /// Address of `Csr::Mhpmcounter(0)`.
            pub const MHPMCOUNTER3: usize = 0xB03;
            /// Address of `Csr::Mhpmcounter(28)`.
            pub const MHPMCOUNTER31: usize = 0xB1F;
            /// Address of `Csr::Mhpmevent(0)`.
            pub const MHPMEVENT3: usize = 0x323;
            /// Address of `Csr::Mhpmevent(28)`.
            pub const MHPMEVENT31: usize = 0x33F;
            /// The first address for custom CSRs.
            pub const CUSTOM0: usize = 0x7C0;
            /// The last address for custom CSRs.
            pub const CUSTOM63: usize = 0x7FF;
        }

        impl Csr {
            /// Return the index of the CSR (i.e. its address in the CSR address space), whatever the profile. Refusal 7 for a payload
            /// that [`Profile::decode_csr`](crate::Profile::decode_csr) makes under no profile, where Miralis's adds it up all the
            /// same.
            pub const fn idx(self) -> Result<usize, Refusal> {
                let address = match self {
                    $(Csr::$name => Some(csr::$address),)*
                    // an odd one is invalid on rv64
                    Csr::Pmpcfg(id) => if id & 1 == 0 { block::address(block::PMPCFG, id) } else { None },
                    Csr::Pmpaddr(id) => block::address(block::PMPADDR, id),
                    Csr::Mhpmcounter(id) => block::address(block::MHPMCOUNTER, id),
                    Csr::Mhpmevent(id) => block::address(block::MHPMEVENT, id),
                    Csr::Custom(id) => if csr::CUSTOM0 <= id && id <= csr::CUSTOM63 { Some(id) } else { None },
                };
                match address {
                    Some(address) => Ok(address),
                    None => Err(Refusal::NoSuchCsr),
                }
            }

            /// The register whose address this is, available or not. The way back from [`Csr::idx`].
            #[must_use]
            pub const fn at(address: usize) -> Option<Csr> {
                Some(match address {
                    $(csr::$address => Csr::$name,)*
                    csr::PMPCFG0..=csr::PMPCFG15 if address & 1 == 0 => Csr::Pmpcfg(address.wrapping_sub(csr::PMPCFG0)),
                    csr::PMPADDR0..=csr::PMPADDR63 => Csr::Pmpaddr(address.wrapping_sub(csr::PMPADDR0)),
                    csr::MHPMCOUNTER3..=csr::MHPMCOUNTER31 => Csr::Mhpmcounter(address.wrapping_sub(csr::MHPMCOUNTER3)),
                    csr::MHPMEVENT3..=csr::MHPMEVENT31 => Csr::Mhpmevent(address.wrapping_sub(csr::MHPMEVENT3)),
                    csr::CUSTOM0..=csr::CUSTOM63 => Csr::Custom(address),
                    _ => return None,
                })
            }
        }

        /// The register's name as the manuals write it: mhartid, pmpcfg2, mhpmcounter3. A custom one has only its address.
        impl fmt::Display for Csr {
            fn fmt(&self, f: &mut fmt::Formatter<'_>) -> fmt::Result {
                let name = match *self {
                    $(Csr::$name => stringify!($name),)*
                    Csr::Pmpcfg(id) => return write!(f, "pmpcfg{id}"),
                    Csr::Pmpaddr(id) => return write!(f, "pmpaddr{id}"),
                    // the first has the number 3
                    Csr::Mhpmcounter(id) => return write!(f, "mhpmcounter{}", id.saturating_add(3)),
                    Csr::Mhpmevent(id) => return write!(f, "mhpmevent{}", id.saturating_add(3)),
                    Csr::Custom(id) => return write!(f, "custom CSR {id:#05x}"),
                };
                name.chars().try_for_each(|letter| f.write_char(letter.to_ascii_lowercase()))
            }
        }
    };
}

csrs! {
    /// Machine Hart ID
    Mhartid MHARTID = 0xF14;
    /// Machine Status
    Mstatus MSTATUS = 0x300;
    /// Machine ISA extensions
    Misa MISA = 0x301;
    /// Machine Interrupt Enable
    Mie MIE = 0x304;
    /// Machine Trap Vector
    Mtvec MTVEC = 0x305;
    /// Machine Scratch
    Mscratch MSCRATCH = 0x340;
    /// Machine Interrupt Pending
    Mip MIP = 0x344;
    /// Machine Vendor ID
    Mvendorid MVENDORID = 0xF11;
    /// Machine Architecture ID
    Marchid MARCHID = 0xF12;
    /// Machine Implementation ID
    Mimpid MIMPID = 0xF13;
    /// Machine cycle counter
    Mcycle MCYCLE = 0xB00;
    /// Machine instructions-retired counter
    Minstret MINSTRET = 0xB02;
    /// Cycle register
    Cycle CYCLE = 0xC00;
    /// Time register
    Time TIME = 0xC01;
    /// Instret register
    Instret INSTRET = 0xC02;
    /// Machine counter-inhibit register
    Mcountinhibit MCOUNTINHIBIT = 0x320;
    /// Machine counter enable
    Mcounteren MCOUNTEREN = 0x306;
    /// Machine environment configuration register
    Menvcfg MENVCFG = 0x30A;
    /// Machine security configuration register
    Mseccfg MSECCFG = 0x747;
    /// Ponter to configuration data structure
    Mconfigptr MCONFIGPTR = 0xF15;
    /// Machine exception delegation register
    Medeleg MEDELEG = 0x302;
    /// Machine interrupt delegation register
    Mideleg MIDELEG = 0x303;
    /// Machine trap instruction (transformed)
    Mtinst MTINST = 0x34A;
    /// Machine bad guest physical address
    Mtval2 MTVAL2 = 0x34B;
    /// Debug/Trace trigger register select
    Tselect TSELECT = 0x7A0;
    /// First Debug/Trace trigger data register
    Tdata1 TDATA1 = 0x7A1;
    /// Second Debug/Trace trigger data register
    Tdata2 TDATA2 = 0x7A2;
    /// Third Debug/Trace trigger data register
    Tdata3 TDATA3 = 0x7A3;
    /// Machine-mode context register
    Mcontext MCONTEXT = 0x7A8;
    /// Debug control and status register
    Dcsr DCSR = 0x7B0;
    /// Debug PC
    Dpc DPC = 0x7B1;
    /// Debug scratch register 0
    Dscratch0 DSCRATCH0 = 0x7B2;
    /// Debug scratch register 1
    Dscratch1 DSCRATCH1 = 0x7B3;
    /// Machine exception program counter
    Mepc MEPC = 0x341;
    /// Machine trap cause
    Mcause MCAUSE = 0x342;
    /// Machine bad address or instruction
    Mtval MTVAL = 0x343;
    /// Supervisor status register
    Sstatus SSTATUS = 0x100;
    /// Supervisor interrupt-enable register
    Sie SIE = 0x104;
    /// Supervisor trap handler base address
    Stvec STVEC = 0x105;
    /// Supervisor counter enable
    Scounteren SCOUNTEREN = 0x106;
    /// Supervisor environment configuration register
    Senvcfg SENVCFG = 0x10A;
    /// Scratch register for supervisor trap handlers
    Sscratch SSCRATCH = 0x140;
    /// Supervisor exception program counter
    Sepc SEPC = 0x141;
    /// Supervisor trap cause
    Scause SCAUSE = 0x142;
    /// Supervisor bad address or instruction
    Stval STVAL = 0x143;
    /// Supervisor interrupt pending
    Sip SIP = 0x144;
    /// Supervisor address translation and protection
    Satp SATP = 0x180;
    /// Supervisor-mode context register
    Scontext SCONTEXT = 0x5A8;
    /// Supervisor timer compare
    Stimecmp STIMECMP = 0x14D;
    /// Hypervisor Status Register
    Hstatus HSTATUS = 0x600;
    /// Hypervisor Exception Delegation Register
    Hedeleg HEDELEG = 0x602;
    /// Hypervisor Interrupt Delegation Register
    Hideleg HIDELEG = 0x603;
    /// Hypervisor Virtual Interrupt Pending Register
    Hvip HVIP = 0x645;
    /// Hypervisor Interrupt Pending Register
    Hip HIP = 0x644;
    /// Hypervisor Interrupt Enable Register
    Hie HIE = 0x604;
    /// Hypervisor Guest External Interrupt Pending Register
    Hgeip HGEIP = 0xE12;
    /// Hypervisor Guest External Interrupt Enable Register
    Hgeie HGEIE = 0x607;
    /// Hypervisor Environment Configuration Register
    Henvcfg HENVCFG = 0x60A;
    /// Hypervisor Counter-Enable Register
    Hcounteren HCOUNTEREN = 0x606;
    /// Hypervisor Time Delta Register
    Htimedelta HTIMEDELTA = 0x605;
    /// Hypervisor Trap Value Register
    Htval HTVAL = 0x643;
    /// Hypervisor Trap Instruction Register
    Htinst HTINST = 0x64A;
    /// Hypervisor Guest Address Translation and Protection Register
    Hgatp HGATP = 0x680;
    /// Virtual Supervisor Status Register
    Vsstatus VSSTATUS = 0x200;
    /// Virtual Supervisor Interrupt Enable
    Vsie VSIE = 0x204;
    /// Virtual Supervisor Trap-Vector Base Address
    Vstvec VSTVEC = 0x205;
    /// Virtual Supervisor Scratch Register
    Vsscratch VSSCRATCH = 0x240;
    /// Virtual Supervisor Exception Program Counter
    Vsepc VSEPC = 0x241;
    /// Virtual Supervisor Cause Register
    Vscause VSCAUSE = 0x242;
    /// Virtual Supervisor Trap Value Register
    Vstval VSTVAL = 0x243;
    /// Virtual Supervisor Interrupt Pending Register
    Vsip VSIP = 0x244;
    /// Virtual Supervisor Address Translation and Protection
    Vsatp VSATP = 0x280;
    /// Vector Start Index CSR
    Vstart VSTART = 0x008;
    /// Vector Fixed-Point Saturation Flag
    Vxsat VXSAT = 0x009;
    /// Vector Fixed-Point Rounding Mode Register
    Vxrm VXRM = 0x00A;
    /// Vector Control and Status Register
    Vcsr VCSR = 0x00F;
    /// Vector Length Register
    Vl VL = 0xC20;
    /// Vector Type Register
    Vtype VTYPE = 0xC21;
    /// Vector Byte Length
    Vlenb VLENB = 0xC22;
    /// Seed register
    Seed SEED = 0x015;
}

impl Csr {
    /// The lock bits of a pmpcfg register.
    pub const PMP_CFG_LOCK_MASK: usize = 0x8080_8080_8080_8080;
    /// The bits of a pmpcfg register that can be written.
    pub const PMP_CFG_LEGAL_MASK: usize = 0x9F9F_9F9F_9F9F_9F9F;
    /// The bits of a pmpaddr register that can be written.
    pub const PMP_ADDR_LEGAL_MASK: usize = 0x003F_FFFF_FFFF_FFFF;
    /// The bits of mcountinhibit that can be written.
    pub const MCOUNTINHIBIT_LEGAL_MASK: usize = 0xFFFF_FFFF_FFFF_FFFD;
}
