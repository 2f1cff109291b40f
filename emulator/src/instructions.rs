//! The instructions by 01's names: one table for what a source may have, for what is told of a wrong
//! line, and for listings.

use std::fmt::Write;

use crate::assemble::{function, opcode};
use crate::dlx::special;

/// What stands behind an instruction's name.
#[derive(Clone, Copy, Debug, PartialEq, Eq)]
enum Operand {
    /// A register, and the lowest bit of its field.
    Register(&'static str, u32),
    /// A special register, by name or number, in bits 10..6. A number that none has is a guest's
    /// matter.
    Special,
    /// A number of so many bits that the machine extends by its sign.
    Signed(u32),
    /// The same; a label may stand in its place.
    Target(u32),
    /// A number of 16 bits that becomes the high half of a word.
    High,
}

use Operand::{High, Register, Signed, Special, Target};

const RS1: Operand = Register("RS1", 21);
const RS2: Operand = Register("RS2", 16);
/// RD of I-type instructions.
const RD: Operand = Register("RD", 16);
/// RD of R-type instructions.
const RD_R: Operand = Register("RD", 11);

const IMMEDIATE: &[Operand] = &[RD, RS1, Signed(16)];
const REGISTERS: &[Operand] = &[RD_R, RS1, RS2];
const JUMP: &[Operand] = &[Target(26)];
const BRANCH: &[Operand] = &[RS1, Target(16)];

/// An instruction: its name, its word with all operands 0, these, and what it does. Opcodes 24..31 and
/// functions 40..47 share their names; the last operand tells which is meant.
struct Instruction {
    name: &'static str,
    word: u32,
    operands: &'static [Operand],
    effect: &'static str,
}

const fn of_opcode(
    name: &'static str,
    opcode: u32,
    operands: &'static [Operand],
    effect: &'static str,
) -> Instruction {
    Instruction { name, word: opcode << 26, operands, effect }
}

const fn of_function(
    name: &'static str,
    function: u32,
    operands: &'static [Operand],
    effect: &'static str,
) -> Instruction {
    Instruction { name, word: function, operands, effect }
}

const TABLE: [Instruction; 45] = [
    of_opcode("lw", opcode::LW, IMMEDIATE, "RD = the word at RS1 + IMM"),
    of_opcode("lh", opcode::LH, IMMEDIATE, "RD = the half word there, extended by its sign"),
    of_opcode("lhu", opcode::LHU, IMMEDIATE, "RD = the half word there"),
    of_opcode("lb", opcode::LB, IMMEDIATE, "RD = the byte there, extended by its sign"),
    of_opcode("lbu", opcode::LBU, IMMEDIATE, "RD = the byte there"),
    of_opcode("sw", opcode::SW, IMMEDIATE, "the word at RS1 + IMM = RD"),
    of_opcode("sh", opcode::SH, IMMEDIATE, "the half word there = the low half of RD"),
    of_opcode("sb", opcode::SB, IMMEDIATE, "the byte there = the low byte of RD"),
    of_opcode("addi", opcode::ADDI, IMMEDIATE, "RD = RS1 + IMM"),
    of_opcode("subi", opcode::SUBI, IMMEDIATE, "RD = RS1 - IMM"),
    of_opcode("andi", opcode::ANDI, IMMEDIATE, "RD = RS1 and IMM"),
    of_opcode("ori", opcode::ORI, IMMEDIATE, "RD = RS1 or IMM"),
    of_opcode("xori", opcode::XORI, IMMEDIATE, "RD = RS1 xor IMM"),
    of_opcode("lhgi", opcode::LHGI, &[RD, High], "RD = IMM times 65,536"),
    of_opcode("clr", opcode::CLR, IMMEDIATE, "RD = 0"),
    of_opcode("sgr", opcode::CLR + 1, IMMEDIATE, "RD = 1 if RS1 > IMM, else 0"),
    of_opcode("seq", opcode::CLR + 2, IMMEDIATE, "RD = 1 if RS1 = IMM, else 0"),
    of_opcode("sge", opcode::CLR + 3, IMMEDIATE, "RD = 1 if RS1 >= IMM, else 0"),
    of_opcode("sls", opcode::CLR + 4, IMMEDIATE, "RD = 1 if RS1 < IMM, else 0"),
    of_opcode("sne", opcode::CLR + 5, IMMEDIATE, "RD = 1 if RS1 is not IMM, else 0"),
    of_opcode("sle", opcode::CLR + 6, IMMEDIATE, "RD = 1 if RS1 <= IMM, else 0"),
    of_opcode("set", opcode::CLR + 7, IMMEDIATE, "RD = 1"),
    of_function("add", function::ADD, REGISTERS, "RD = RS1 + RS2"),
    of_function("sub", function::SUB, REGISTERS, "RD = RS1 - RS2"),
    of_function("and", function::AND, REGISTERS, "RD = RS1 and RS2"),
    of_function("or", function::OR, REGISTERS, "RD = RS1 or RS2"),
    of_function("xor", function::XOR, REGISTERS, "RD = RS1 xor RS2"),
    of_function("clr", function::CLR, REGISTERS, "RD = 0"),
    of_function("sgr", function::CLR + 1, REGISTERS, "RD = 1 if RS1 > RS2, else 0"),
    of_function("seq", function::CLR + 2, REGISTERS, "RD = 1 if RS1 = RS2, else 0"),
    of_function("sge", function::CLR + 3, REGISTERS, "RD = 1 if RS1 >= RS2, else 0"),
    of_function("sls", function::CLR + 4, REGISTERS, "RD = 1 if RS1 < RS2, else 0"),
    of_function("sne", function::CLR + 5, REGISTERS, "RD = 1 if RS1 is not RS2, else 0"),
    of_function("sle", function::CLR + 6, REGISTERS, "RD = 1 if RS1 <= RS2, else 0"),
    of_function("set", function::CLR + 7, REGISTERS, "RD = 1"),
    of_opcode("beqz", opcode::BEQZ, BRANCH, "to IMM if RS1 is 0, after the next instruction"),
    of_opcode("bnez", opcode::BNEZ, BRANCH, "to IMM if RS1 is not 0, after the next instruction"),
    of_opcode("j", opcode::J, JUMP, "to IMM, after the next instruction"),
    of_opcode("jal", opcode::JAL, JUMP, "the same; r31 = where to come back to"),
    of_opcode("jr", opcode::JR, &[RS1], "to RS1, after the next instruction"),
    of_opcode("jalr", opcode::JALR, &[RS1], "the same; r31 = where to come back to"),
    of_opcode("trap", opcode::TRAP, &[Signed(26)], "call; 256 sends a ticket, 257 takes one"),
    of_opcode("rfe", opcode::RFE, &[], "return from an interrupt"),
    of_function("movs2i", function::MOVS2I, &[RD_R, Special], "RD = the special register"),
    of_function("movi2s", function::MOVI2S, &[Special, RS1], "the special register = RS1"),
];

impl Operand {
    fn name(self) -> &'static str {
        match self {
            Register(name, _) => name,
            Special => "SPECIAL",
            Signed(_) | Target(_) | High => "IMM",
        }
    }

    /// The lowest bit of its field, the field's bits, and the numbers that it takes.
    fn field(self) -> (u32, u32, i64, i64) {
        match self {
            Register(_, low) => (low, 5, 0, 31),
            Special => (6, 5, 0, 31),
            Signed(bits) | Target(bits) => (0, bits, -(1 << (bits - 1)), (1 << (bits - 1)) - 1),
            High => (0, 16, 0, 0xFFFF),
        }
    }

    /// Its bits in the word, of what stands in a source.
    fn bits(self, text: &str) -> Result<u32, String> {
        let (low, bits, least, most) = self.field();
        let wrong = || match self {
            Register(name, _) => format!("{name} is r0 to r31"),
            Special => format!("SPECIAL is a special register's name, or {least} to {most}"),
            _ => format!("{} is {least} to {most}", self.name()),
        };
        if self == Special {
            if let Some(number) = special::NAMES.iter().position(|&name| name == text) {
                return Ok((number as u32) << low);
            }
        }
        let digits = match self {
            Register(..) => text.strip_prefix('r').ok_or_else(wrong)?,
            _ => text,
        };
        let value = match digits.strip_prefix('-') {
            Some(digits) => crate::source::number(digits).map(|value| -i64::from(value)),
            None => crate::source::number(digits).map(i64::from),
        };
        let value = value.map_err(|_| wrong())?;
        if value < least || value > most {
            return Err(wrong());
        }
        Ok((value as u32 & ((1 << bits) - 1)) << low)
    }

    /// Its bits in a word.
    fn mask(self) -> u32 {
        let (low, bits, ..) = self.field();
        ((1 << bits) - 1) << low
    }

    /// Its number in a word.
    fn value(self, word: u32) -> i64 {
        let (low, _, least, _) = self.field();
        let value = i64::from((word & self.mask()) >> low);
        if least < 0 && value >= -least {
            value + 2 * least
        } else {
            value
        }
    }

    /// A special register that is not there makes a word ill.
    fn is_legal(self, word: u32) -> bool {
        self != Special || self.value(word) < special::COUNT as i64
    }

    fn put(self, word: u32, text: &mut String) {
        let sign = if matches!(self, Register(..)) { "r" } else { "" };
        write!(text, " {sign}{}", self.value(word)).expect("writing to a string");
    }
}

impl Instruction {
    /// Whether a word has its opcode, and its function where it has one.
    fn is_of(&self, word: u32) -> bool {
        word >> 26 == self.word >> 26 && (word >> 26 != 0 || word & 63 == self.word)
    }

    /// How it is written.
    fn shape(&self) -> String {
        let names = self.operands.iter().map(|operand| operand.name());
        [self.name].into_iter().chain(names).collect::<Vec<_>>().join(" ")
    }

    fn assembled(&self, operands: &[&str]) -> Result<u32, String> {
        let told = |why: String| {
            let given = [&[self.name], operands].concat().join(" ");
            format!("expected `{}`, was given `{given}`{why}", self.shape())
        };
        if operands.len() != self.operands.len() {
            return Err(told(String::new()));
        }
        let mut word = self.word;
        for (operand, text) in self.operands.iter().zip(operands) {
            word |= operand.bits(text).map_err(|why| told(format!(": {why}")))?;
        }
        Ok(word)
    }

    /// Whether a word of its own is legal, and 0 where no operand stands.
    fn uses_all_of(&self, word: u32) -> bool {
        let used = self.operands.iter().fold(0, |used, operand| used | operand.mask());
        word & !used == self.word && self.operands.iter().all(|operand| operand.is_legal(word))
    }

    fn put(&self, word: u32, text: &mut String) {
        text.push_str(self.name);
        self.operands.iter().for_each(|operand| operand.put(word, text));
    }
}

/// The instruction of this name; where two have it, the second is the one with registers alone.
fn named(name: &str, operands: &[&str]) -> Option<&'static Instruction> {
    let mut forms = TABLE.iter().filter(|instruction| instruction.name == name);
    let (first, second) = (forms.next(), forms.next());
    let register = operands.last().is_some_and(|last| last.starts_with('r'));
    second.filter(|_| register).or(first)
}

/// The word of an instruction; what is wrong with it names its shape.
pub fn word(name: &str, operands: &[&str]) -> Result<u32, String> {
    let instruction = named(name, operands).ok_or_else(|| {
        format!("expected an instruction, was given `{name}`; `emulator form` lists them")
    })?;
    instruction.assembled(operands)
}

/// The bits of the immediate of a branch or jump, whose last operand may be a label.
pub fn target_bits(name: &str) -> Option<u32> {
    match named(name, &[])?.operands.last()? {
        Target(bits) => Some(*bits),
        _ => None,
    }
}

/// Writes the instruction of a word, if it is legal and its ignored fields are 0; tells whether.
pub fn put(word: u32, text: &mut String) -> bool {
    let found = TABLE.iter().find(|instruction| instruction.is_of(word));
    match found.filter(|instruction| instruction.uses_all_of(word)) {
        Some(instruction) => instruction.put(word, text),
        None => return false,
    }
    true
}

/// The name of the special register that a word of movs2i or movi2s names.
pub fn special_of(word: u32) -> Option<&'static str> {
    let found = TABLE.iter().find(|instruction| instruction.is_of(word))?;
    let number = Special.value(word) as usize;
    special::NAMES.get(number).copied().filter(|_| found.operands.contains(&Special))
}

/// How many instructions there are.
pub const COUNT: usize = TABLE.len();

/// The word of an instruction by its place, each operand being chosen between its least and its most.
pub fn filled(place: usize, choose: &mut dyn FnMut(i64, i64) -> i64) -> u32 {
    TABLE[place].operands.iter().fold(TABLE[place].word, |word, operand| {
        let (low, _, least, most) = operand.field();
        word | (choose(least, most) as u32) << low & operand.mask()
    })
}

/// The least and the most that each operand of a listed word may be.
pub fn limits(word: u32) -> Vec<(i64, i64)> {
    let found = TABLE.iter().find(|instruction| instruction.is_of(word));
    let limits = |operand: &Operand| match (operand, operand.field()) {
        (Special, _) => (0, special::COUNT as i64 - 1),
        (_, (_, _, least, most)) => (least, most),
    };
    match found.filter(|instruction| instruction.uses_all_of(word)) {
        Some(instruction) => instruction.operands.iter().map(limits).collect(),
        None => vec![(0, u32::MAX.into())],
    }
}

/// The special registers, each by number and name.
pub fn specials() -> String {
    let one = |(number, name): (usize, &&str)| format!("{number} {name}");
    special::NAMES.iter().enumerate().map(one).collect::<Vec<_>>().join(", ")
}

/// Every instruction, a line each.
pub fn list() -> String {
    let line = |one: &Instruction| format!("    {:<20}{}\n", one.shape(), one.effect);
    TABLE.iter().map(line).collect()
}

#[cfg(test)]
mod tests {
    use super::*;
    use crate::dlx::decode;

    /// Every word of a table entry's opcode or function, with some operands.
    fn some_words() -> impl Iterator<Item = u32> {
        let fields = [0, 1 << 21, 31 << 16, 9 << 6, 10 << 6, 1 << 11, 0x8000, 0x7FFF, 0x03FF_FFFF];
        (0..64u32).flat_map(move |code| {
            fields.into_iter().flat_map(move |field| [code << 26 | field, field << 6 | code])
        })
    }

    fn text(word: u32) -> Option<String> {
        let mut text = String::new();
        put(word, &mut text).then_some(text)
    }

    #[test]
    fn a_word_is_shown_as_what_makes_it() {
        let mut shown = 0;
        for word in some_words() {
            let Some(text) = text(word) else { continue };
            let items: Vec<&str> = text.split(' ').collect();
            assert_eq!(super::word(items[0], &items[1..]), Ok(word), "{text}");
            assert!(decode(word).is_some(), "{text} is ill");
            shown += 1;
        }
        assert!(shown > 300, "{shown}");
    }

    #[test]
    fn every_instruction_of_the_machine_has_a_name() {
        for code in 0..64u32 {
            for word in [code << 26, code] {
                assert_eq!(decode(word).is_some(), text(word).is_some(), "{word:#x}");
            }
        }
    }

    #[test]
    fn words_of_instructions() {
        let word = |line: &str| {
            let items: Vec<&str> = line.split_whitespace().collect();
            word(items[0], &items[1..])
        };
        assert_eq!(word("add r3 r1 r2"), Ok(0x0022_1820));
        assert_eq!(word("beqz r0 -4"), Ok(0x1000_FFFC));
        assert_eq!(word("trap 7"), Ok(0xF800_0007));
        assert_eq!(word("trap -1"), Ok(0xFBFF_FFFF));
        assert_eq!(word("rfe"), Ok(0xFC00_0000));
        assert_eq!(word("lhgi r1 0xFFFF"), Ok(0x3C01_FFFF));
        assert_eq!(word("movi2s 7 r1"), Ok(0x0020_01D1));
        assert_eq!(word("movs2i r1 2"), Ok(0x0000_0890));
        assert_eq!(word("movi2s pto r1"), word("movi2s 7 r1"));
        assert_eq!(word("movs2i r1 31"), Ok(1 << 11 | 31 << 6 | 16));
        assert_eq!(word("jalr r2"), Ok(23 << 26 | 2 << 21));
        assert_eq!(word("lb r1 r2 3"), Ok(0x8041_0003));
        assert_eq!(word("lh r1 r2 2"), Ok(0x8441_0002));
        assert_eq!(word("lbu r1 r2 -1"), Ok(0x9041_FFFF));
        assert_eq!(word("lhu r1 r2 2"), Ok(0x9441_0002));
        assert_eq!(word("sb r1 r2 3"), Ok(0xA041_0003));
        assert_eq!(word("sh r1 r2 2"), Ok(0xA441_0002));
        assert_eq!(word("sls r1 r2 -1"), Ok(28 << 26 | 2 << 21 | 1 << 16 | 0xFFFF));
        assert_eq!(word("sls r1 r2 r3"), Ok(2 << 21 | 3 << 16 | 1 << 11 | 44));
    }

    #[test]
    fn what_does_not_fit_is_told_with_the_shape() {
        let told = |line: &str| {
            let items: Vec<&str> = line.split_whitespace().collect();
            word(items[0], &items[1..]).unwrap_err()
        };
        for (line, expected) in [
            ("lw r1 8(r2)", "expected `lw RD RS1 IMM`, was given `lw r1 8(r2)`"),
            ("lw r1 r2", "expected `lw RD RS1 IMM`, was given `lw r1 r2`"),
            (
                "addi r1 r32 5",
                "expected `addi RD RS1 IMM`, was given `addi r1 r32 5`: RS1 is r0 to r31",
            ),
            (
                "addi r1 r0 32768",
                "expected `addi RD RS1 IMM`, was given `addi r1 r0 32768`: IMM is -32768 to 32767",
            ),
            (
                "addi r1 r0 -32769",
                "expected `addi RD RS1 IMM`, was given `addi r1 r0 -32769`: IMM is -32768 to 32767",
            ),
            (
                "lhgi r1 65536",
                "expected `lhgi RD IMM`, was given `lhgi r1 65536`: IMM is 0 to 65535",
            ),
            (
                "trap 33554432",
                "expected `trap IMM`, was given `trap 33554432`: IMM is -33554432 to 33554431",
            ),
            (
                "movs2i r1 32",
                "expected `movs2i RD SPECIAL`, was given `movs2i r1 32`: SPECIAL is a special register's name, or 0 to 31",
            ),
            ("add r1 r2 3", "expected `add RD RS1 RS2`, was given `add r1 r2 3`: RS2 is r0 to r31"),
            ("sls r1 r2", "expected `sls RD RS1 RS2`, was given `sls r1 r2`"),
            ("sls r1 r2 x", "expected `sls RD RS1 IMM`, was given `sls r1 r2 x`: IMM is -32768 to 32767"),
            ("slsi r1 r2 1", "expected an instruction, was given `slsi`; `emulator form` lists them"),
            ("rfe 1", "expected `rfe`, was given `rfe 1`"),
            ("halt", "expected an instruction, was given `halt`; `emulator form` lists them"),
        ] {
            assert_eq!(told(line), expected);
        }
    }
}
