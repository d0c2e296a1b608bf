//! Random inputs for the entries: legal boards and records, arguments mostly accepted, and damage
//! to all of these.
use crate::csr;
use crate::image::{
    self, caps, hart, store, CapsWords, HartWords, CAPS_BYTES, CAPS_WORDS, HART_BYTES, HART_WORDS,
};
use crate::interface::{args, Args, Checks, Entry, Explain, Function, ARGS, WHOLE};
use crate::outcome::{Fault, Listing, Outcome};
use crate::rules::{self, flags, interrupts, misa, mode, mstatus};
use crate::whole::{self, Caps, Logged};

/// Bytes behind each image that no call may touch, and room for lengths that are too large.
const MARGIN: usize = 16;
pub const CAPS_ROOM: usize = CAPS_BYTES + MARGIN;
pub const HART_ROOM: usize = HART_BYTES + MARGIN;

/// SplitMix64.
#[derive(Clone)]
pub struct Rng(u64);

impl Rng {
    pub const fn new(seed: u64) -> Rng {
        Rng(seed)
    }

    /// Any word, each as often.
    pub fn bits(&mut self) -> u64 {
        self.0 = self.0.wrapping_add(0x9E37_79B9_7F4A_7C15);
        let z = (self.0 ^ self.0 >> 30).wrapping_mul(0xBF58_476D_1CE4_E5B9);
        let z = (z ^ z >> 27).wrapping_mul(0x94D0_49BB_1331_11EB);
        z ^ z >> 31
    }

    /// A number below n.
    pub fn below(&mut self, n: u64) -> u64 {
        ((self.bits() >> 32) * n) >> 32
    }

    /// True once in n times.
    pub fn once_in(&mut self, n: u64) -> bool {
        self.below(n) == 0
    }

    pub fn pick<T: Copy, const N: usize>(&mut self, of: [T; N]) -> T {
        of[self.below(N as u64) as usize]
    }

    /// A word as registers hold them: empty, full, of one bit, of few bits, small, or any.
    pub fn word(&mut self) -> u64 {
        match self.below(8) {
            0 => 0,
            1 => !0,
            2 => 1 << self.below(64),
            3 => !(1 << self.below(64)),
            4 => self.bits() & self.bits() & self.bits(),
            5 => self.below(0x4000),
            _ => self.bits(),
        }
    }
}

/// Legal capabilities, with S or without.
pub fn legal_caps(rng: &mut Rng, s: bool) -> CapsWords {
    let mut word = [0; CAPS_WORDS];
    word[caps::MISA] = rules::merge(rng.bits(), if s { misa::S } else { 0 }, misa::S);
    word[caps::FLAGS] = rng.bits();
    if word[caps::FLAGS] & flags::ZFINX != 0 {
        word[caps::MISA] &= !misa::F; // else Zfinx would be rare
    }
    word[caps::INTERRUPTS] = rng.word();
    word[caps::HIGHEST] = match rng.below(4) {
        0 => !0,
        1 => 0x8000_0000,
        _ => rng.word(),
    };
    word[caps::MHARTID] = rng.word();
    word[caps::MVENDORID] = rng.word() >> 32;
    word[caps::MARCHID] = rng.word();
    word[caps::MIMPID] = rng.word();
    word[caps::MCONFIGPTR] = rng.word();
    whole::legal_caps(&word)
}

/// A value to write: any word, or one at the edge of what a rule tells apart.
fn value(rng: &mut Rng, caps: &CapsWords) -> u64 {
    match rng.below(8) {
        0 => caps[caps::HIGHEST]
            .wrapping_add(rng.below(9))
            .wrapping_sub(4),
        1 => rng.word() & !rules::SATP_RESERVED,
        2 => {
            let mask = rng.pick(MASKS);
            rng.pick([mask, !mask])
        }
        _ => rng.word(),
    }
}

/// The masks that the rules have.
const MASKS: [u64; 12] = [
    mstatus::WITHOUT_S,
    mstatus::WITH_S,
    mstatus::SSTATUS,
    interrupts::SUPERVISOR,
    interrupts::MACHINE,
    interrupts::ENABLED,
    interrupts::ALL,
    interrupts::VIRTUAL,
    rules::MEDELEG,
    rules::SATP_RESERVED,
    rules::COUNTEREN,
    rules::COUNTINHIBIT,
];

/// A legal record in the given mode. Where a word must be 0 none is drawn for it.
pub fn legal_hart(rng: &mut Rng, caps: &CapsWords, mode: u64) -> HartWords {
    let board = Caps::of(caps);
    let mut word = [0; HART_WORDS];
    for x in &mut word[hart::X0 + 1..hart::PC] {
        *x = value(rng, caps);
    }
    word[hart::PC] = rng.word();
    word[hart::MODE] = mode;
    word[hart::WAITING] = rng.below(2);
    let common = (hart::MSTATUS..hart::MIDELEG).chain(hart::MTVEC..hart::STVEC);
    let with_s = (hart::MIDELEG..hart::MTVEC).chain(hart::STVEC..hart::STIMECMP);
    common.for_each(|at| word[at] = rng.word());
    if board.s() {
        with_s.for_each(|at| word[at] = rng.word());
    }
    if board.sstc() {
        word[hart::STIMECMP] = rng.word();
    }
    whole::legal_hart(caps, &word)
}

/// A mode that a hart with these capabilities has.
pub fn legal_mode(rng: &mut Rng, caps: &CapsWords) -> u64 {
    let board = Caps::of(caps);
    let modes = || (0..4).filter(|&mode| board.is_mode(mode));
    let n = rng.below(modes().count() as u64);
    modes().nth(n as usize).unwrap_or(mode::M)
}

/// The address of a CSR, each as often.
fn csr_address(rng: &mut Rng) -> u64 {
    let runs = csr::RUNS.len() as u64;
    let n = rng.below(csr::SINGLE.len() as u64 + runs);
    if n < runs {
        let run = &csr::RUNS[n as usize];
        run.start() + rng.below(run.end() - run.start() + 1)
    } else {
        csr::SINGLE[(n - runs) as usize]
    }
}

/// Arguments that the entry may accept, with the images as they are.
pub fn good_args(rng: &mut Rng, entry: Entry, caps: &CapsWords, hart: &HartWords) -> Args {
    let board = Caps::of(caps);
    let mstatus = (entry == Entry::Trap).then(|| {
        let mpp = hart[hart::MODE] << mstatus::MPP_SHIFT;
        board.legalize_mstatus(rules::merge(rng.word(), mpp, mstatus::MPP))
    });
    let mut args = [0; ARGS];
    for (arg, name) in args.iter_mut().zip(entry.numbers()) {
        *arg = match *name {
            "address" => csr_address(rng),
            "value" => value(rng, caps),
            "rd" | "rs1" | "imm" => register(rng),
            "number" => interrupt(rng, board.interrupts),
            "mcause" => rng.word() & !rules::INTERRUPT,
            "mepc" | "pc" => board.aligned(rng.word()),
            "mip" => rng.word() & board.interrupts,
            "mstatus" => mstatus.unwrap_or_default(),
            "line" => rng.below(2),
            _ => rng.word(),
        };
    }
    args
}

/// A call of a log that the record may accept, of each kind as often.
pub fn logged(rng: &mut Rng, caps: &CapsWords) -> Logged {
    match rng.below(5) {
        0 => Logged::Read {
            address: csr_address(rng),
        },
        1 => Logged::Write {
            address: csr_address(rng),
            value: value(rng, caps),
        },
        2 => Logged::Inject {
            number: interrupt(rng, caps[caps::INTERRUPTS]),
        },
        3 => Logged::Mret,
        _ => Logged::Sret,
    }
}

/// A general register, x0 more often than the others, or an immediate.
fn register(rng: &mut Rng) -> u64 {
    if rng.once_in(4) {
        0
    } else {
        rng.below(32)
    }
}

/// The number of one of the interrupts, or any below 64 where there are none.
fn interrupt(rng: &mut Rng, interrupts: u64) -> u64 {
    let some = rng.below(64);
    let next = interrupts.rotate_right(some as u32).trailing_zeros() as u64;
    (some + next) % 64
}

/// One argument changed for another that the entry may refuse.
fn damage_args(rng: &mut Rng, entry: Entry, args: &mut Args) {
    match entry {
        Entry::Read | Entry::PlainRead if rng.once_in(2) => {
            args[entry.arity() - 1] = wild_line(rng)
        }
        Entry::Read | Entry::PlainRead | Entry::Write | Entry::PlainWrite => {
            args[0] = wild_address(rng)
        }
        Entry::Csrrw
        | Entry::Csrrs
        | Entry::Csrrc
        | Entry::Csrrwi
        | Entry::Csrrsi
        | Entry::Csrrci => match rng.below(4) {
            0 => args[0] = wild_address(rng),
            3 => args[entry.arity() - 1] = wild_line(rng),
            n => args[n as usize] = wild_number(rng),
        },
        Entry::Inject => args[0] = wild_number(rng),
        Entry::Trap => {
            let n = rng.pick([0, 2, 3, 4]);
            args[n] = if rng.once_in(2) {
                args[n] ^ 1 << rng.below(64)
            } else {
                rng.word()
            };
        }
        Entry::Fresh => args[0] = rng.word(),
        Entry::Pending | Entry::Mret | Entry::Sret => {}
    }
}

/// Any of the 4096 addresses, or a larger number.
fn wild_address(rng: &mut Rng) -> u64 {
    match rng.below(8) {
        0 => csr_address(rng) | 1 << (12 + rng.below(52)),
        1 => rng.word(),
        _ => rng.below(0x1000),
    }
}

/// A number that is mostly too large for a register or an interrupt.
fn wild_number(rng: &mut Rng) -> u64 {
    match rng.below(4) {
        0 => rng.below(32) | 1 << (5 + rng.below(59)),
        1 => rng.below(128),
        _ => rng.word(),
    }
}

/// A number that is mostly neither 0 nor 1.
fn wild_line(rng: &mut Rng) -> u64 {
    match rng.below(4) {
        0 => 2,
        1 => rng.below(2) | 1 << (1 + rng.below(63)),
        _ => rng.word(),
    }
}

/// The registers that lose bits on some harts alone, or by some values alone.
const WITH_REASONS: [u64; 12] = [
    csr::SSTATUS,
    csr::STVEC,
    csr::SENVCFG,
    csr::SEPC,
    csr::SATP,
    csr::MSTATUS,
    csr::MIDELEG,
    csr::MIE,
    csr::MTVEC,
    csr::MENVCFG,
    csr::MEPC,
    csr::MIP,
];

/// A call's images with a margin behind each, their lengths, and the arguments.
#[derive(Clone, PartialEq, Eq)]
pub struct Input {
    pub caps: [u8; CAPS_ROOM],
    pub caps_len: usize,
    pub hart: [u8; HART_ROOM],
    pub hart_len: usize,
    pub args: Args,
}

impl Input {
    pub fn new(caps: &CapsWords, hart: &HartWords, args: Args) -> Input {
        let mut input = Input {
            caps: [0xA5; CAPS_ROOM],
            caps_len: CAPS_BYTES,
            hart: [0xA5; HART_ROOM],
            hart_len: HART_BYTES,
            args,
        };
        store(&mut input.caps, caps);
        store(&mut input.hart, hart);
        input
    }

    /// An input that the entry accepts or refuses with any of its numbers.
    pub fn any(rng: &mut Rng, entry: Entry) -> Input {
        let s = !rng.once_in(4);
        let mut caps = legal_caps(rng, s);
        let mode = if rng.once_in(2) {
            mode::M
        } else {
            legal_mode(rng, &caps)
        };
        let mut hart = legal_hart(rng, &caps, mode);
        let mut args = good_args(rng, entry, &caps, &hart);
        // two at times, so that the order of their refusals shows
        for _ in 0..rng.below(3) {
            damage_args(rng, entry, &mut args);
        }
        match rng.below(8) {
            0 => damage(rng, &mut caps, 0),
            1 => damage(rng, &mut hart, hart::PC),
            2 if rng.once_in(4) => hart[hart::X0] = rng.word(),
            _ => {}
        }
        let mut input = Input::new(&caps, &hart, args);
        match rng.below(32) {
            0 => input.caps_len = rng.below((CAPS_ROOM + 1) as u64) as usize,
            1 => input.hart_len = rng.below((HART_ROOM + 1) as u64) as usize,
            _ => {}
        }
        input
    }

    /// An input of explain, which takes what a write does, and then the time and the seed: often
    /// of a register that has many reasons, and with a value near what it reads.
    pub fn to_explain(rng: &mut Rng) -> Input {
        let mut input = Input::any(rng, Entry::Write);
        let [address, value, ..] = input.args;
        let address = match rng.below(4) {
            0 | 1 => rng.pick(WITH_REASONS),
            2 => csr_address(rng),
            _ => address,
        };
        let (time, seed) = (rng.word(), rng.word());
        input.args = args([address, time, seed, 0]);
        let read = input.call(WHOLE.function(Entry::Read)).answer;
        let value = match rng.below(4) {
            0 => read ^ 1 << rng.below(64),
            1 => read ^ (rng.bits() & rng.bits() & rng.bits()),
            _ => value,
        };
        input.args = args([address, value, time, seed]);
        input
    }

    /// The words of the hart image.
    pub fn hart_words(&self) -> HartWords {
        image::words(&self.hart)
    }

    /// Asks what is wrong with the images, each of which is only lent: of the capabilities alone,
    /// and with the record.
    pub fn check(&self, checks: Checks) -> [Fault; 2] {
        let (caps, hart) = (self.caps.as_ptr(), self.hart.as_ptr());
        // SAFETY: neither length is above its buffer's
        unsafe {
            [
                (checks.caps)(caps, self.caps_len),
                (checks.hart)(caps, self.caps_len, hart, self.hart_len),
            ]
        }
    }

    /// Asks which bits the write of an input of explain loses. The images are only lent.
    pub fn explain(&self, explain: Explain) -> Listing {
        let (caps, hart) = (self.caps.as_ptr(), self.hart.as_ptr());
        let [address, value, time, seed, ..] = self.args;
        // SAFETY: neither length is above its buffer's
        unsafe {
            explain(
                caps,
                self.caps_len,
                hart,
                self.hart_len,
                address,
                value,
                time,
                seed,
            )
        }
    }

    /// Makes the call: the outcome, with the images as the call leaves them.
    pub fn call(&mut self, function: Function) -> Outcome {
        // SAFETY: neither length is above its buffer's
        unsafe {
            function.call(
                self.caps.as_ptr(),
                self.caps_len,
                self.hart.as_mut_ptr(),
                self.hart_len,
                &self.args,
            )
        }
    }
}

/// Changes one of the words from the first on: by a bit, to another word, or to a small number.
pub(crate) fn damage(rng: &mut Rng, words: &mut [u64], first: usize) {
    let at = first + rng.below((words.len() - first) as u64) as usize;
    words[at] = match rng.below(4) {
        0 => rng.word(),
        1 => rng.below(16),
        _ => words[at] ^ 1 << rng.below(64),
    };
}

/// Mostly the right length, else any up to the most.
pub(crate) fn length(rng: &mut Rng, right: usize, most: usize) -> usize {
    match rng.below(8) {
        0 => rng.below(most as u64 + 1) as usize,
        1 => rng.pick([right - 1, right + 1]),
        _ => right,
    }
}
