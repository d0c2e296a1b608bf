//! Stands for the trap record and its causes: codes from the Privileged Architecture.
#[derive(Clone, Copy, Debug, PartialEq, Eq)]
#[repr(usize)]
pub enum MCause {
    InstrAddrMisaligned = 0,
    InstrAccessFault = 1,
    IllegalInstr = 2,
    Breakpoint = 3,
    LoadAddrMisaligned = 4,
    LoadAccessFault = 5,
    StoreAddrMisaligned = 6,
    StoreAccessFault = 7,
    EcallFromUMode = 8,
    EcallFromSMode = 9,
    EcallFromMMode = 11,
    InstrPageFault = 12,
    LoadPageFault = 13,
    StorePageFault = 15,
    UnknownException = 16,
    MachineSoftInt = 1 << 63 | 3,
    MachineTimerInt = 1 << 63 | 7,
    MachineExternalInt = 1 << 63 | 11,
    UnknownInt = 1 << 63 | 63,
}
impl MCause {
    pub fn new(cause: usize) -> MCause {
        use MCause::*;
        for c in [
            InstrAddrMisaligned,
            InstrAccessFault,
            IllegalInstr,
            Breakpoint,
            LoadAddrMisaligned,
            LoadAccessFault,
            StoreAddrMisaligned,
            StoreAccessFault,
            EcallFromUMode,
            EcallFromSMode,
            EcallFromMMode,
            InstrPageFault,
            LoadPageFault,
            StorePageFault,
            MachineSoftInt,
            MachineTimerInt,
            MachineExternalInt,
        ] {
            if c as usize == cause {
                return c;
            }
        }
        if cause >> 63 == 1 {
            UnknownInt
        } else {
            UnknownException
        }
    }
    pub fn is_interrupt(self) -> bool {
        self as usize >> 63 == 1
    }
    pub fn is_trap(self) -> bool {
        !self.is_interrupt()
    }
    pub fn cause_number(cause: usize) -> usize {
        cause & !(1 << 63)
    }
}
impl TryFrom<usize> for MCause {
    type Error = core::convert::Infallible;
    fn try_from(v: usize) -> Result<MCause, Self::Error> {
        Ok(MCause::new(v))
    }
}
#[derive(Clone, Debug, PartialEq, Eq)]
#[repr(C)]
pub struct TrapInfo {
    pub mepc: usize,
    pub mstatus: usize,
    pub mcause: usize,
    pub mip: usize,
    pub mtval: usize,
    pub mtval2: usize,
    pub mtinst: usize,
    pub gva: bool,
}
impl TrapInfo {
    pub fn get_cause(&self) -> MCause {
        MCause::new(self.mcause)
    }
    pub fn is_from_mmode(&self) -> bool {
        (self.mstatus >> 11) & 3 == 3
    }
}
