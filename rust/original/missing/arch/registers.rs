//! Stands for the registers: their addresses from the Privileged Architecture.
#[derive(Clone, Copy, Debug, PartialEq, Eq)]
pub enum Csr {
    Mhartid,
    Mstatus,
    Misa,
    Mie,
    Mip,
    Mtvec,
    Mscratch,
    Mvendorid,
    Marchid,
    Mimpid,
    Pmpcfg(usize),
    Pmpaddr(usize),
    Mcycle,
    Minstret,
    Mhpmcounter(usize),
    Mcountinhibit,
    Mhpmevent(usize),
    Mcounteren,
    Menvcfg,
    Mseccfg,
    Medeleg,
    Mideleg,
    Mtinst,
    Mtval2,
    Tdata1,
    Tdata2,
    Tdata3,
    Mcontext,
    Dcsr,
    Dpc,
    Dscratch0,
    Dscratch1,
    Mconfigptr,
    Tselect,
    Mepc,
    Mcause,
    Mtval,
    Sstatus,
    Sie,
    Stvec,
    Scounteren,
    Senvcfg,
    Sscratch,
    Sepc,
    Scause,
    Stval,
    Sip,
    Satp,
    Scontext,
    Stimecmp,
    Hstatus,
    Hedeleg,
    Hideleg,
    Hvip,
    Hip,
    Hie,
    Hgeip,
    Hgeie,
    Henvcfg,
    Hcounteren,
    Htimedelta,
    Htval,
    Htinst,
    Hgatp,
    Vsstatus,
    Vsie,
    Vstvec,
    Vsscratch,
    Vsepc,
    Vscause,
    Vstval,
    Vsip,
    Vsatp,
    Vstart,
    Vxsat,
    Vxrm,
    Vcsr,
    Vl,
    Vtype,
    Vlenb,
    Cycle,
    Time,
    Instret,
    Seed,
    Custom(usize),
}
impl Csr {
    pub const PMP_CFG_LOCK_MASK: usize = 0x8080_8080_8080_8080;
    pub const PMP_CFG_LEGAL_MASK: usize = 0x1F1F_1F1F_1F1F_1F1F;
    pub const PMP_ADDR_LEGAL_MASK: usize = !(0x3FF << 54);
}
#[allow(unused)]
pub mod csr {
    pub const MSTATUS: usize = 0x300;
    pub const MISA: usize = 0x301;
    pub const MEDELEG: usize = 0x302;
    pub const MIDELEG: usize = 0x303;
    pub const MIE: usize = 0x304;
    pub const MTVEC: usize = 0x305;
    pub const MCOUNTEREN: usize = 0x306;
    pub const MENVCFG: usize = 0x30a;
    pub const MSECCFG: usize = 0x747;
    pub const MCOUNTINHIBIT: usize = 0x320;
    pub const MHPMEVENT3: usize = 0x323;
    pub const MHPMEVENT31: usize = 0x33f;
    pub const MSCRATCH: usize = 0x340;
    pub const MEPC: usize = 0x341;
    pub const MCAUSE: usize = 0x342;
    pub const MTVAL: usize = 0x343;
    pub const MIP: usize = 0x344;
    pub const MTINST: usize = 0x34a;
    pub const MTVAL2: usize = 0x34b;
    pub const PMPCFG0: usize = 0x3a0;
    pub const PMPCFG15: usize = 0x3af;
    pub const PMPADDR0: usize = 0x3b0;
    pub const PMPADDR63: usize = 0x3ef;
    pub const MCYCLE: usize = 0xb00;
    pub const MINSTRET: usize = 0xb02;
    pub const MHPMCOUNTER3: usize = 0xb03;
    pub const MHPMCOUNTER31: usize = 0xb1f;
    pub const TSELECT: usize = 0x7a0;
    pub const TDATA1: usize = 0x7a1;
    pub const TDATA2: usize = 0x7a2;
    pub const TDATA3: usize = 0x7a3;
    pub const MCONTEXT: usize = 0x7a8;
    pub const DCSR: usize = 0x7b0;
    pub const DPC: usize = 0x7b1;
    pub const DSCRATCH0: usize = 0x7b2;
    pub const DSCRATCH1: usize = 0x7b3;
    pub const MVENDORID: usize = 0xf11;
    pub const MARCHID: usize = 0xf12;
    pub const MIMPID: usize = 0xf13;
    pub const MHARTID: usize = 0xf14;
    pub const MCONFIGPTR: usize = 0xf15;
    pub const SSTATUS: usize = 0x100;
    pub const SIE: usize = 0x104;
    pub const STVEC: usize = 0x105;
    pub const SCOUNTEREN: usize = 0x106;
    pub const SENVCFG: usize = 0x10a;
    pub const SSCRATCH: usize = 0x140;
    pub const SEPC: usize = 0x141;
    pub const SCAUSE: usize = 0x142;
    pub const STVAL: usize = 0x143;
    pub const SIP: usize = 0x144;
    pub const STIMECMP: usize = 0x14d;
    pub const SATP: usize = 0x180;
    pub const SCONTEXT: usize = 0x5a8;
    pub const HSTATUS: usize = 0x600;
    pub const HEDELEG: usize = 0x602;
    pub const HIDELEG: usize = 0x603;
    pub const HIE: usize = 0x604;
    pub const HCOUNTEREN: usize = 0x606;
    pub const HGEIE: usize = 0x607;
    pub const HENVCFG: usize = 0x60a;
    pub const HTIMEDELTA: usize = 0x605;
    pub const HTVAL: usize = 0x643;
    pub const HIP: usize = 0x644;
    pub const HVIP: usize = 0x645;
    pub const HTINST: usize = 0x64a;
    pub const HGATP: usize = 0x680;
    pub const HGEIP: usize = 0xe12;
    pub const VSSTATUS: usize = 0x200;
    pub const VSIE: usize = 0x204;
    pub const VSTVEC: usize = 0x205;
    pub const VSSCRATCH: usize = 0x240;
    pub const VSEPC: usize = 0x241;
    pub const VSCAUSE: usize = 0x242;
    pub const VSTVAL: usize = 0x243;
    pub const VSIP: usize = 0x244;
    pub const VSATP: usize = 0x280;
    pub const VSTART: usize = 0x8;
    pub const VXSAT: usize = 0x9;
    pub const VXRM: usize = 0xa;
    pub const VCSR: usize = 0xf;
    pub const VL: usize = 0xc20;
    pub const VTYPE: usize = 0xc21;
    pub const VLENB: usize = 0xc22;
    pub const SEED: usize = 0x15;
    pub const CYCLE: usize = 0xc00;
    pub const TIME: usize = 0xc01;
    pub const INSTRET: usize = 0xc02;
}
#[derive(Clone, Copy, Debug, PartialEq, Eq)]
#[repr(usize)]
pub enum Register {
    X0,
    X1,
    X2,
    X3,
    X4,
    X5,
    X6,
    X7,
    X8,
    X9,
    X10,
    X11,
    X12,
    X13,
    X14,
    X15,
    X16,
    X17,
    X18,
    X19,
    X20,
    X21,
    X22,
    X23,
    X24,
    X25,
    X26,
    X27,
    X28,
    X29,
    X30,
    X31,
}
impl From<usize> for Register {
    fn from(v: usize) -> Register {
        use Register::*;
        const ALL: [Register; 32] = [
            X0, X1, X2, X3, X4, X5, X6, X7, X8, X9, X10, X11, X12, X13, X14, X15, X16, X17, X18,
            X19, X20, X21, X22, X23, X24, X25, X26, X27, X28, X29, X30, X31,
        ];
        ALL[v]
    }
}
