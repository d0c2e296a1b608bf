//! The calls as methods of the images.

use entries::TrapInfo;

use crate::answer::{Answer, Effect, Refusal};
use crate::fault::Fault;
use crate::host::Host;
use crate::image::{Caps, Hart, HART_BYTES};
use crate::log::Wait;
use crate::lost::Lost;
use crate::numbers::{Csr, Imm, Rd, Rs1};
use crate::slices;
use crate::totals::Totals;

impl Caps {
    /// Says whether the image is legal, and else which word is at fault and what it must be.
    ///
    /// ```
    /// use vhart::{misa, Caps, CapsWords, Fault};
    ///
    /// let misa = misa::RV64 | misa::A | misa::C | misa::I | misa::M | misa::U;
    /// let mut words = CapsWords { misa, interrupts: 0x888, ..CapsWords::default() };
    /// assert_eq!(Caps::from(words).check(), Ok(()));
    ///
    /// words.interrupts = 0xAAA; // with the interrupts of S, which this hart lacks
    /// assert_eq!(
    ///     Caps::from(words).check().map_err(|fault| fault.to_string()),
    ///     Err("refusal 1: capability word interrupts (word 1) holds 0xaaa, but must be within \
    ///          0x2aaa, with S have all of 0x222, and without S none of 0x2222".to_string())
    /// );
    /// ```
    ///
    /// # Errors
    ///
    /// The lowest word that isn't legal. Every call refuses such an image with
    /// [`BadCaps`](Refusal::BadCaps).
    pub fn check(&self) -> Result<(), Fault> {
        slices::check_caps(self.as_bytes())
    }
}

/// The calls. Besides what each names, all may refuse [`BadCaps`](Refusal::BadCaps), and all but
/// `fresh` then [`BadHart`](Refusal::BadHart). A refused call has changed nothing.
impl Hart {
    /// A fresh record: mode M, this pc, mstatus legalized from 0, mideleg 0x222 with S, every other
    /// word 0.
    ///
    /// ```
    /// use vhart::{misa, Caps, CapsWords, Hart, Mode, Refusal};
    ///
    /// let misa = misa::RV64 | misa::A | misa::C | misa::I | misa::M | misa::U;
    /// let caps = Caps::from(CapsWords { misa, interrupts: 0x888, ..CapsWords::default() });
    /// let hart = Hart::fresh(&caps, 0x8000_0000)?;
    /// assert_eq!(hart.mode(), Some(Mode::M));
    /// assert_eq!(Hart::fresh(&caps, 0x8000_0001), Err(Refusal::BadStart));
    /// # Ok::<(), Refusal>(())
    /// ```
    ///
    /// # Errors
    ///
    /// [`BadStart`](Refusal::BadStart).
    pub fn fresh(caps: &Caps, pc: u64) -> Result<Hart, Refusal> {
        let mut hart = Hart::from_bytes([0; HART_BYTES]);
        slices::fresh(caps.as_bytes(), hart.as_mut_bytes(), pc).map(|()| hart)
    }

    /// Says whether both images are legal, and else which word is at fault and what it must be.
    ///
    /// ```
    /// # use vhart::{misa, Caps, CapsWords, Hart, Refusal, Word};
    /// # let mut words = CapsWords::default();
    /// # (words.misa, words.interrupts) = (misa::RV64 | misa::C | misa::I | misa::U, 0x888);
    /// # let caps = Caps::from(words);
    /// let mut hart = Hart::fresh(&caps, 0x8000_0000)?;
    /// assert_eq!(hart.check(&caps), Ok(()));
    ///
    /// hart.set(Word::Mepc, 0x8000_0001);
    /// assert_eq!(
    ///     hart.check(&caps).map_err(|fault| fault.to_string()),
    ///     Err("refusal 2: hart word mepc (word 45) holds 0x80000001, but must be a multiple of 2 \
    ///          with C, of 4 without".to_string())
    /// );
    /// # Ok::<(), Refusal>(())
    /// ```
    ///
    /// # Errors
    ///
    /// The lowest word that isn't legal: of the capabilities if they aren't legal, and else of the
    /// record. Every call refuses with the same number; only `fresh` accepts a record at fault,
    /// since it overwrites it.
    pub fn check(&self, caps: &Caps) -> Result<(), Fault> {
        slices::check_hart(caps.as_bytes(), self.as_bytes())
    }

    /// Answers what the CSR reads, in any mode. mip and sip show [the line](Host::line) too.
    ///
    /// # Errors
    ///
    /// [`NoSuchCsr`](Refusal::NoSuchCsr), [`CsrAbsent`](Refusal::CsrAbsent).
    pub fn read(&self, caps: &Caps, csr: Csr, host: Host) -> Result<u64, Refusal> {
        slices::read(caps.as_bytes(), self.as_bytes(), csr.0, host)
    }

    /// Writes a CSR by its rule, in any mode: what isn't legal is made legal or ignored.
    ///
    /// ```
    /// # use vhart::{misa, Caps, CapsWords, Csr, Effect, Hart, Refusal, Word};
    /// # let mut words = CapsWords::default();
    /// # (words.misa, words.interrupts) = (misa::RV64 | misa::I | misa::S | misa::U, 0xAAA);
    /// # let caps = Caps::from(words);
    /// # let mut hart = Hart::fresh(&caps, 0x8000_0000)?;
    /// let effect = hart.write(&caps, Csr::MIP, 0xFFFF)?;
    /// assert_eq!(hart.get(Word::Mip), 0x222); // SSIP, STIP and SEIP are what a write can reach
    /// assert_eq!(effect, Effect::SetSeip);
    /// # Ok::<(), Refusal>(())
    /// ```
    ///
    /// # Errors
    ///
    /// [`NoSuchCsr`](Refusal::NoSuchCsr), [`CsrAbsent`](Refusal::CsrAbsent).
    pub fn write(&mut self, caps: &Caps, csr: Csr, value: u64) -> Result<Effect, Refusal> {
        slices::write(caps.as_bytes(), self.as_mut_bytes(), csr.0, value)
    }

    /// Says which bits of the value a [`write`](Hart::write) wouldn't store, and for each of them
    /// why. Nothing is written.
    ///
    /// It is for whoever asks why a bit vanished, or was set by itself. The value is compared with
    /// what the write would store; of a CSR whose writes store nothing, with what it reads. Of
    /// sstatus, sie and sip only the bits that they show are compared. `host.line` has no part in
    /// it.
    ///
    /// ```
    /// # use vhart::{misa, Caps, CapsWords, Csr, Hart, Host, Reason, Refusal};
    /// # let mut words = CapsWords { highest: 0x8000_0000, ..CapsWords::default() };
    /// # (words.misa, words.interrupts) = (misa::RV64 | misa::I | misa::S | misa::U, 0xAAA);
    /// # let caps = Caps::from(words);
    /// # let hart = Hart::fresh(&caps, 0x8000_0000)?;
    /// // mepc takes 3: bit 0 is 0 on every hart, and bit 1 on those without C
    /// let lost = hart.explain(&caps, Csr::MEPC, 3, Host::default())?;
    /// assert!(lost.iter().eq([(0, Reason::NeverCopied), (1, Reason::OtherExtensions)]));
    ///
    /// // what the CSR reads is stored as it is
    /// let mstatus = hart.read(&caps, Csr::MSTATUS, Host::default())?;
    /// assert!(hart.explain(&caps, Csr::MSTATUS, mstatus, Host::default())?.is_empty());
    /// # Ok::<(), Refusal>(())
    /// ```
    ///
    /// # Errors
    ///
    /// As [`write`](Hart::write).
    pub fn explain(&self, caps: &Caps, csr: Csr, value: u64, host: Host) -> Result<Lost, Refusal> {
        slices::explain(caps.as_bytes(), self.as_bytes(), csr.0, value, host)
    }

    /// Adds a write to the totals: each bit that [`explain`](Hart::explain) lists to the total of
    /// its reason, 1 to `writes`, and 1 to `lossless` if no bit is lost. Nothing is written to the
    /// record.
    ///
    /// Call it beside the [`write`](Hart::write), on the record as it is before.
    ///
    /// ```
    /// # use vhart::{misa, Caps, CapsWords, Csr, Hart, Host, Refusal, Totals};
    /// # let mut words = CapsWords::default();
    /// # (words.misa, words.interrupts) = (misa::RV64 | misa::I | misa::S | misa::U, 0xAAA);
    /// # let caps = Caps::from(words);
    /// # let hart = Hart::fresh(&caps, 0x8000_0000)?;
    /// // a total that is full is stored by the host, and the next ones start from 0
    /// let mut month = Totals { writes: u32::MAX, ..Totals::default() };
    /// let mut stored = Vec::new();
    /// let full = hart.tally(&caps, Csr::MSTATUS, 0x1000, Host::default(), &mut month);
    /// if full == Err(Refusal::TotalFull) {
    ///     stored.push(std::mem::take(&mut month));
    ///     hart.tally(&caps, Csr::MSTATUS, 0x1000, Host::default(), &mut month)?;
    /// }
    /// assert_eq!((stored[0].writes, month.writes), (u32::MAX, 1));
    /// assert_eq!(month.lost, [0, 0, 1, 1, 1, 0, 0]);
    /// # Ok::<(), Refusal>(())
    /// ```
    ///
    /// # Errors
    ///
    /// As [`write`](Hart::write), and then [`TotalFull`](Refusal::TotalFull). A full total to which
    /// the write adds nothing is no reason to refuse.
    pub fn tally(
        &self,
        caps: &Caps,
        csr: Csr,
        value: u64,
        host: Host,
        totals: &mut Totals,
    ) -> Result<(), Refusal> {
        slices::tally(caps.as_bytes(), self.as_bytes(), csr.0, value, host, totals)
    }

    /// csrrw: writes what rs1 holds; rd and the answer take the value read. pc isn't moved.
    ///
    /// # Errors
    ///
    /// [`NoSuchCsr`](Refusal::NoSuchCsr), [`CsrAbsent`](Refusal::CsrAbsent),
    /// [`BadOperand`](Refusal::BadOperand), [`NotMachine`](Refusal::NotMachine).
    pub fn csrrw(
        &mut self,
        caps: &Caps,
        csr: Csr,
        rd: Rd,
        rs1: Rs1,
        host: Host,
    ) -> Result<Answer, Refusal> {
        slices::csrrw(
            caps.as_bytes(),
            self.as_mut_bytes(),
            csr.0,
            rd.0,
            rs1.0,
            host,
        )
    }

    /// csrrs: writes what the CSR reads without [the line](Host::line), with the bits set that rs1
    /// holds, and nothing where rs1 is x0.
    ///
    /// ```
    /// # use vhart::{misa, Caps, CapsWords, Csr, Hart, Host, Rd, Refusal, Rs1, X};
    /// # let mut words = CapsWords::default();
    /// # (words.misa, words.interrupts) = (misa::RV64 | misa::I | misa::U, 0x888);
    /// # let caps = Caps::from(words);
    /// # let mut hart = Hart::fresh(&caps, 0x8000_0000)?;
    /// // rdtime x10 is csrrs x10, time, x0
    /// let host = Host { time: 1234, ..Host::default() };
    /// let answer = hart.csrrs(&caps, Csr::TIME, Rd(10), Rs1(0), host)?;
    /// assert_eq!(answer.value, 1234);
    /// assert_eq!(hart.x(X(10)), 1234);
    /// # Ok::<(), Refusal>(())
    /// ```
    ///
    /// # Errors
    ///
    /// As [`csrrw`](Hart::csrrw).
    pub fn csrrs(
        &mut self,
        caps: &Caps,
        csr: Csr,
        rd: Rd,
        rs1: Rs1,
        host: Host,
    ) -> Result<Answer, Refusal> {
        slices::csrrs(
            caps.as_bytes(),
            self.as_mut_bytes(),
            csr.0,
            rd.0,
            rs1.0,
            host,
        )
    }

    /// csrrc: writes what the CSR reads without [the line](Host::line), with the bits cleared that
    /// rs1 holds, and nothing where rs1 is x0.
    ///
    /// ```
    /// # use vhart::{mip, misa, Caps, CapsWords, Csr, Effect, Hart, Host, Rd, Refusal, Rs1};
    /// # use vhart::{Word, X};
    /// # let mut words = CapsWords::default();
    /// # (words.misa, words.interrupts) = (misa::RV64 | misa::I | misa::S | misa::U, 0xAAA);
    /// # let caps = Caps::from(words);
    /// # let mut hart = Hart::fresh(&caps, 0x8000_0000)?;
    /// // csrrc x6, mip, x5: the firmware clears its own SEIP, while the controller raises the line
    /// hart.set(Word::Mip, mip::SEIP);
    /// hart.set_x(X(5), mip::SEIP);
    /// let host = Host { line: true, ..Host::default() };
    /// let answer = hart.csrrc(&caps, Csr::MIP, Rd(6), Rs1(5), host)?;
    /// assert_eq!((answer.value, answer.effect), (mip::SEIP, Effect::ClearSeip));
    /// assert_eq!(hart.get(Word::Mip), 0); // its own is cleared,
    /// assert_eq!(hart.read(&caps, Csr::MIP, host)?, mip::SEIP); // but the line still shows
    /// # Ok::<(), Refusal>(())
    /// ```
    ///
    /// # Errors
    ///
    /// As [`csrrw`](Hart::csrrw).
    pub fn csrrc(
        &mut self,
        caps: &Caps,
        csr: Csr,
        rd: Rd,
        rs1: Rs1,
        host: Host,
    ) -> Result<Answer, Refusal> {
        slices::csrrc(
            caps.as_bytes(),
            self.as_mut_bytes(),
            csr.0,
            rd.0,
            rs1.0,
            host,
        )
    }

    /// csrrwi: writes the immediate.
    ///
    /// # Errors
    ///
    /// As [`csrrw`](Hart::csrrw).
    pub fn csrrwi(
        &mut self,
        caps: &Caps,
        csr: Csr,
        rd: Rd,
        imm: Imm,
        host: Host,
    ) -> Result<Answer, Refusal> {
        slices::csrrwi(
            caps.as_bytes(),
            self.as_mut_bytes(),
            csr.0,
            rd.0,
            imm.0,
            host,
        )
    }

    /// csrrsi: writes what the CSR reads without [the line](Host::line), with the immediate's bits
    /// set, and nothing where that is 0.
    ///
    /// # Errors
    ///
    /// As [`csrrw`](Hart::csrrw).
    pub fn csrrsi(
        &mut self,
        caps: &Caps,
        csr: Csr,
        rd: Rd,
        imm: Imm,
        host: Host,
    ) -> Result<Answer, Refusal> {
        slices::csrrsi(
            caps.as_bytes(),
            self.as_mut_bytes(),
            csr.0,
            rd.0,
            imm.0,
            host,
        )
    }

    /// csrrci: writes what the CSR reads without [the line](Host::line), with the immediate's bits
    /// cleared, and nothing where that is 0.
    ///
    /// # Errors
    ///
    /// As [`csrrw`](Hart::csrrw).
    pub fn csrrci(
        &mut self,
        caps: &Caps,
        csr: Csr,
        rd: Rd,
        imm: Imm,
        host: Host,
    ) -> Result<Answer, Refusal> {
        slices::csrrci(
            caps.as_bytes(),
            self.as_mut_bytes(),
            csr.0,
            rd.0,
            imm.0,
            host,
        )
    }

    /// The interrupt to inject now (3, 7 or 11), if any: in M with MIE 0 there is none.
    ///
    /// While [`Word::Waiting`](crate::Word::Waiting) is 1, MIE doesn't matter: so clear the word
    /// before you ask. The answer leaves out what mideleg delegates, and so every interrupt of
    /// supervisor level. A sleeping hart wakes if mie shares a bit with what mip reads, line and
    /// all, whatever this answers. What it gives is never refused by [`inject`](Hart::inject).
    ///
    /// ```
    /// # use vhart::{mip, misa, mstatus, Caps, CapsWords, Csr, Effect, Hart, Refusal, Word};
    /// # let mut words = CapsWords::default();
    /// # (words.misa, words.interrupts) = (misa::RV64 | misa::I | misa::U, 0x888);
    /// # let caps = Caps::from(words);
    /// # let mut hart = Hart::fresh(&caps, 0x8000_0000)?;
    /// hart.set(Word::Mie, mip::MTIP);
    /// hart.set(Word::Mip, mip::MTIP);
    /// assert_eq!(hart.pending(&caps)?, None);
    /// assert_eq!(hart.write(&caps, Csr::MSTATUS, mstatus::MIE)?, Effect::None);
    /// assert_eq!(hart.pending(&caps)?, Some(7));
    /// # Ok::<(), Refusal>(())
    /// ```
    ///
    /// # Errors
    ///
    /// Only what every call may refuse.
    pub fn pending(&self, caps: &Caps) -> Result<Option<u64>, Refusal> {
        slices::pending(caps.as_bytes(), self.as_bytes())
    }

    /// Takes this interrupt to mode M: pc to mtvec's base, in vectored mode plus 4 times the
    /// number.
    ///
    /// # Errors
    ///
    /// [`BadInterrupt`](Refusal::BadInterrupt).
    pub fn inject(&mut self, caps: &Caps, number: u64) -> Result<(), Refusal> {
        slices::inject(caps.as_bytes(), self.as_mut_bytes(), number)
    }

    /// Takes an exception to mode M: pc to mtvec's base.
    ///
    /// ```
    /// # use vhart::{misa, Caps, CapsWords, Hart, Refusal, TrapInfo, Word};
    /// # let mut words = CapsWords::default();
    /// # (words.misa, words.interrupts) = (misa::RV64 | misa::I | misa::U, 0x888);
    /// # let caps = Caps::from(words);
    /// # let mut hart = Hart::fresh(&caps, 0x8000_0000)?;
    /// // an illegal instruction of the firmware: csrrs x6, tdata1, x0
    /// let mepc = hart.get(Word::Pc);
    /// let mip = hart.get(Word::Mip); // with 0, a pending SSIP or STIP would be lost
    /// let trap = TrapInfo { mcause: 2, mtval: 0x7A10_2373, mepc, mip, ..TrapInfo::default() };
    /// hart.trap(&caps, trap)?;
    /// assert_eq!(hart.get(Word::Mepc), 0x8000_0000);
    /// # Ok::<(), Refusal>(())
    /// ```
    ///
    /// # Errors
    ///
    /// [`NotException`](Refusal::NotException), [`BadTrap`](Refusal::BadTrap).
    pub fn trap(&mut self, caps: &Caps, trap: TrapInfo) -> Result<(), Refusal> {
        slices::trap(caps.as_bytes(), self.as_mut_bytes(), trap)
    }

    /// mret: the mode is MPP's, pc is mepc.
    ///
    /// # Errors
    ///
    /// [`NotMachine`](Refusal::NotMachine).
    pub fn mret(&mut self, caps: &Caps) -> Result<(), Refusal> {
        slices::mret(caps.as_bytes(), self.as_mut_bytes())
    }

    /// sret: the mode is SPP's, pc is sepc.
    ///
    /// # Errors
    ///
    /// [`NotMachine`](Refusal::NotMachine), [`NoSupervisor`](Refusal::NoSupervisor).
    pub fn sret(&mut self, caps: &Caps) -> Result<(), Refusal> {
        slices::sret(caps.as_bytes(), self.as_mut_bytes())
    }

    /// Answers what [`read`](Hart::read) answers, and refuses what it refuses, always: that is
    /// proved. But it is found by the plain engine, which goes by one table of rows: people can
    /// check that against the manual (docs/REGISTERS.md).
    ///
    /// It is there to check `read` by while a monitor runs, and not to serve the firmware: it takes
    /// more time than the other calls, and more stack.
    ///
    /// ```
    /// # use vhart::{misa, Caps, CapsWords, Csr, Hart, Host, Refusal};
    /// # let mut words = CapsWords::default();
    /// # (words.misa, words.interrupts) = (misa::RV64 | misa::I | misa::S | misa::U, 0xAAA);
    /// # let caps = Caps::from(words);
    /// # let hart = Hart::fresh(&caps, 0x8000_0000)?;
    /// let host = Host { line: true, ..Host::default() };
    /// for csr in (0..0x1000).map(Csr) {
    ///     assert_eq!(hart.plain_read(&caps, csr, host), hart.read(&caps, csr, host), "{csr}");
    /// }
    /// # Ok::<(), Refusal>(())
    /// ```
    ///
    /// # Errors
    ///
    /// As [`read`](Hart::read).
    pub fn plain_read(&self, caps: &Caps, csr: Csr, host: Host) -> Result<u64, Refusal> {
        slices::plain_read(caps.as_bytes(), self.as_bytes(), csr.0, host)
    }

    /// Writes what [`write`](Hart::write) writes, asks for what it asks for, and refuses what it
    /// refuses, always: that is proved. It is of the plain engine, as
    /// [`plain_read`](Hart::plain_read) is.
    ///
    /// ```
    /// # use vhart::{misa, Caps, CapsWords, Csr, Effect, Hart, Refusal, Word};
    /// # let mut words = CapsWords::default();
    /// # (words.misa, words.interrupts) = (misa::RV64 | misa::I | misa::S | misa::U, 0xAAA);
    /// # let caps = Caps::from(words);
    /// # let mut hart = Hart::fresh(&caps, 0x8000_0000)?;
    /// // the same write by both engines, on two copies of a record
    /// let mut copy = hart.clone();
    /// let effect = hart.write(&caps, Csr::MIP, 0xFFFF)?;
    /// assert_eq!(copy.plain_write(&caps, Csr::MIP, 0xFFFF)?, effect);
    /// assert_eq!(copy, hart);
    /// assert_eq!((copy.get(Word::Mip), effect), (0x222, Effect::SetSeip));
    /// # Ok::<(), Refusal>(())
    /// ```
    ///
    /// # Errors
    ///
    /// As [`write`](Hart::write).
    pub fn plain_write(&mut self, caps: &Caps, csr: Csr, value: u64) -> Result<Effect, Refusal> {
        slices::plain_write(caps.as_bytes(), self.as_mut_bytes(), csr.0, value)
    }

    /// Replays a fragment of a call log: makes each call that it completes, in order, and puts what
    /// each gives into `out`, [`RESULT_BYTES`](crate::RESULT_BYTES) bytes each, from which
    /// [`Results`](crate::Results) reads them. Gives how many they are. What is left of the
    /// fragment waits for the next one. The bytes of `out` behind the last call's stay as they
    /// were.
    ///
    /// A call that is refused leaves the record, and the next one follows. The record and what
    /// waits depend on the log alone, and not on where it was cut:
    ///
    /// ```
    /// use vhart::{misa, Caps, CapsWords, Csr, Hart, Logged, Refusal, Results, Wait};
    /// use vhart::RESULT_BYTES;
    ///
    /// let misa = misa::RV64 | misa::I | misa::S | misa::U;
    /// let caps = Caps::from(CapsWords { misa, interrupts: 0xAAA, ..CapsWords::default() });
    /// let mut hart = Hart::fresh(&caps, 0x8000_0000)?;
    /// let log = [
    ///     Logged::Write { csr: Csr::MSTATUS, value: 0x1000 }, // MPP 2 is no mode, and becomes U
    ///     Logged::Read { csr: Csr::MSTATUS },
    ///     Logged::Read { csr: Csr(0x7A1) }, // there is no such CSR
    ///     Logged::Mret,
    /// ];
    /// let log: Vec<u8> = log.into_iter().flat_map(Logged::to_bytes).collect();
    ///
    /// let mut wait = Wait::new();
    /// let mut values = Vec::new();
    /// for fragment in log.chunks(40) {
    ///     let mut out = [0; 2 * RESULT_BYTES]; // 40 bytes complete two entries at most
    ///     let entries = hart.replay(&caps, &mut wait, fragment, &mut out)?;
    ///     values.extend(Results::new(&out, entries).map(|result| result.map(|done| done.value)));
    /// }
    /// hart.replay_end(&caps, &wait)?;
    /// assert_eq!(values, [Ok(0), Ok(0xA_0000_0000), Err(Refusal::NoSuchCsr), Ok(0)]);
    /// # Ok::<(), Refusal>(())
    /// ```
    ///
    /// The effects that the calls ask for are in `out` alone.
    ///
    /// # Errors
    ///
    /// [`BadHart`](Refusal::BadHart) also where more bytes wait than an entry has, and
    /// [`ShortBuffer`](Refusal::ShortBuffer). A refused fragment has changed nothing: neither the
    /// record nor what waits nor `out`.
    pub fn replay(
        &mut self,
        caps: &Caps,
        wait: &mut Wait,
        fragment: &[u8],
        out: &mut [u8],
    ) -> Result<usize, Refusal> {
        slices::replay(
            caps.as_bytes(),
            self.as_mut_bytes(),
            wait.as_mut_bytes(),
            fragment,
            out,
        )
    }

    /// Says that a call log has ended, which it may where no entry waits.
    ///
    /// ```
    /// # use vhart::{misa, Caps, CapsWords, Hart, Logged, Refusal, Wait};
    /// # let mut words = CapsWords::default();
    /// # (words.misa, words.interrupts) = (misa::RV64 | misa::I | misa::U, 0x888);
    /// # let caps = Caps::from(words);
    /// # let mut hart = Hart::fresh(&caps, 0x8000_0000)?;
    /// let mut wait = Wait::new();
    /// assert_eq!(hart.replay_end(&caps, &wait), Ok(()));
    /// hart.replay(&caps, &mut wait, &Logged::Mret.to_bytes()[..23], &mut [])?;
    /// assert_eq!(hart.replay_end(&caps, &wait), Err(Refusal::EntryWaits));
    /// # Ok::<(), Refusal>(())
    /// ```
    ///
    /// # Errors
    ///
    /// [`BadHart`](Refusal::BadHart) also where more bytes wait than an entry has, and
    /// [`EntryWaits`](Refusal::EntryWaits).
    pub fn replay_end(&self, caps: &Caps, wait: &Wait) -> Result<(), Refusal> {
        slices::replay_end(caps.as_bytes(), self.as_bytes(), wait.as_bytes())
    }
}
