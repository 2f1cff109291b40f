//! Loads and stores of bytes and half words (request 1 of 02).

use super::{Group, Story, MEMORY, PAGE_0, PAGE_1, PAGE_2, TABLE};
use crate::assemble::{addi, i_type, j_type, lb, lbu, lh, lhu, lw, nop, opcode, sb, sh, sw};
use crate::dlx::special::{EDATA, MODE};
use crate::memory::PROTECTED;

/// The word at byte 64 that is loaded: its bytes are 01, 7F, FF, 80 from the lowest on.
const LOADED: u32 = 0x80FF_7F01;
/// The word at byte 64 that is stored into, with this word on both of its sides.
const STORED: u32 = 0x1122_3344;
/// What is stored.
const VALUE: u32 = 0xAABB_CCDD;

/// One partition of one page with a word at byte 64 and the same beside it.
fn beside(word: u32) -> Story {
    Story::house(&[1], 1_000).words(15, &[STORED, word, STORED])
}

/// One run for each byte of the word at byte 64, or for each of the given ones.
fn at_bytes(story: Story, bytes: &[u32], word: u32) -> Story {
    bytes.iter().fold(story, |story, &byte| story.step(word, 64 + byte, VALUE))
}

/// All scripts about bytes and half words.
pub fn group() -> Group {
    [loads(), stores(), misaligned(), faults(), translated(), emptied()]
        .into_iter()
        .flatten()
        .collect()
}

fn loads() -> Group {
    let all = [0, 1, 2, 3];
    let load = |word, bytes: &[u32]| at_bytes(beside(LOADED), bytes, word);
    vec![
        ("lb of each byte", load(lb(3, 1, 0), &all)),
        ("lbu of each byte", load(lbu(3, 1, 0), &all)),
        ("lh of each half word", load(lh(3, 1, 0), &[0, 2])),
        ("lhu of each half word", load(lhu(3, 1, 0), &[0, 2])),
        ("lh and lhu of a positive half word", {
            let story = beside(0x7FFF_8000);
            let story = at_bytes(story, &[0, 2], lh(3, 1, 0));
            at_bytes(story, &[0, 2], lhu(3, 1, 0))
        }),
        ("a load of a part into register 0", {
            [lb(0, 1, 3), lbu(0, 1, 3), lh(0, 1, 2), lhu(0, 1, 2)]
                .into_iter()
                .fold(beside(LOADED), |story, word| story.step(word, 64, 0))
        }),
        ("a load of a part into its own address register", {
            let story = beside(LOADED).step(lb(1, 1, 3), 64, 0);
            story.step(lhu(1, 1, 2), 64, 0)
        }),
        ("immediates of a byte's load are sign-extended", {
            let story = beside(LOADED).step(lbu(3, 1, 0xFFFF), 64, 0);
            story.step(lb(3, 1, 0x8000), 64 + 0x8000 + 2, 0)
        }),
        ("the address of a byte wraps", {
            let story = beside(LOADED).words(0, &[0x4433_2211]).step(lbu(3, 1, 3), 0xFFFF_FFFE, 0);
            story.step(sh(2, 1, 0x7FFC), 0xFFFF_8044, VALUE)
        }),
    ]
}

fn stores() -> Group {
    let store = |word, byte: u32| beside(STORED).step(word, 64 + byte, VALUE);
    vec![
        ("sb into byte 0", store(sb(2, 1, 0), 0)),
        ("sb into byte 1", store(sb(2, 1, 0), 1)),
        ("sb into byte 2", store(sb(2, 1, 0), 2)),
        ("sb into byte 3", store(sb(2, 1, 0), 3)),
        ("sh into the low half", store(sh(2, 1, 0), 0)),
        ("sh into the high half", store(sh(2, 1, 0), 2)),
        ("sb and sh of register 0", {
            beside(STORED).step(sb(0, 1, 1), 64, 0).step(sh(0, 1, 2), 64, 0)
        }),
        ("four bytes make a word", {
            let story = beside(STORED);
            (0..4).fold(story, |story, byte| story.step(sb(2, 1, 0), 64 + byte, 0x50 + byte))
        }),
        ("what a byte's store leaves is loaded", {
            let story = beside(STORED).step(sb(2, 1, 0), 67, 0xFFFF_FF80).step(lw(3, 1, 0), 64, 0);
            story.step(lh(3, 1, 2), 64, 0).step(lbu(3, 1, 3), 64, 0)
        }),
        // The highest byte has the opcode: addi becomes subi.
        ("a byte's store changes the next instruction", {
            let story = Story::house(&[1], 9).words(3, &[addi(3, 0, 9)]);
            story.step(sb(2, 1, 3), 12, opcode::SUBI << 2).run(1)
        }),
        ("the last byte and the last half word of a page", {
            let story = Story::house(&[2], 100).words(1_023, &[STORED, STORED]);
            let story = story.step(sb(2, 1, 0), 4_095, VALUE).step(sb(2, 1, 0), 4_096, VALUE);
            story.step(sh(2, 1, 0), 4_094, 0x5566).step(lhu(3, 1, 0), 4_094, 0)
        }),
    ]
}

/// A half word at an odd address is mal, a byte nowhere.
fn misaligned() -> Group {
    let odd = |word| at_bytes(beside(STORED).special(EDATA, 77), &[1, 3], word);
    vec![
        ("lh at odd addresses", odd(lh(3, 1, 0))),
        ("lhu at odd addresses", odd(lhu(3, 1, 0))),
        ("sh at odd addresses", odd(sh(2, 1, 0))),
        ("lw and sw where a half word may be", {
            let story = beside(STORED).special(EDATA, 77);
            at_bytes(at_bytes(story, &[1, 2, 3], lw(3, 1, 0)), &[1, 2, 3], sw(2, 1, 0))
        }),
        // No address is there, so a fault would come if the alignment did not come before it.
        ("an odd half word that is not there", {
            let far = |story: Story, word| story.step(word, 8_193, 0).step(word, u32::MAX, 0);
            let story = Story::house(&[2], 100).special(EDATA, 77);
            [lh(3, 1, 0), lhu(3, 1, 0), sh(3, 1, 0)].into_iter().fold(story, far)
        }),
        ("an odd half word in the slot of j", {
            let story = Story::house(&[1], 100).special(EDATA, 77).register(1, 65);
            story.words(0, &[j_type(opcode::J, 32), lhu(3, 1, 0)]).run(1).run(1)
        }),
        ("an odd half word does not fill", {
            let story = Story::user(3, 3, &[(0, PAGE_0), (1, PAGE_1), (2, PAGE_2)]);
            story.step(lh(3, 1, 0), 8_193, 0).user_mode(1, 3).step(sh(3, 1, 1), 8_192, 0)
        }),
    ]
}

/// A data fault's EDATA is the byte address.
fn faults() -> Group {
    let ops = [opcode::LB, opcode::LBU, opcode::SB, opcode::LH, opcode::LHU, opcode::SH];
    let each = |story: Story, address: u32| {
        ops.into_iter().fold(story, |story, op| story.step(i_type(op, 3, 1, 0), address, 0))
    };
    vec![
        ("parts at the end of memory", {
            let story = Story::house(&[2], 1_000).words(2_047, &[LOADED]);
            let story = story.step(lb(3, 1, 0), 8_191, 0).step(lh(3, 1, 0), 8_190, 0);
            story.step(lbu(3, 1, 0), 8_188, 0).step(sb(2, 1, 0), 8_191, VALUE)
        }),
        ("parts behind the end of memory", each(Story::house(&[2], 1_000), 8_192)),
        ("bytes at odd addresses behind the end", {
            let story = Story::house(&[2], 1_000);
            let bytes = [lb(3, 1, 0), lbu(3, 1, 0), sb(3, 1, 0)];
            let at = |address| bytes.into_iter().map(move |word| (word, address));
            [8_193, 8_195, u32::MAX, MEMORY * 4 - 1]
                .into_iter()
                .flat_map(at)
                .fold(story, |story, (word, address)| story.step(word, address, 0))
        }),
        ("a load of a part into register 0 can fault", {
            Story::house(&[1], 100).step(lb(0, 1, 0), 4_097, 0).step(lhu(0, 1, 0), 4_098, 0)
        }),
    ]
}

/// Through the guest's table.
fn translated() -> Group {
    let map = [(0, PAGE_0), (1, PAGE_1), (2, PAGE_2)];
    let user = || Story::user(3, 3, &map).words(2 * TABLE, &[LOADED, STORED]);
    vec![
        ("parts through the table", {
            let story = user().step(lb(3, 1, 3), 8_192, 0).step(lhu(3, 1, 2), 8_192, 0);
            story.step(sb(2, 1, 5), 8_192, VALUE).step(sh(2, 1, 6), 8_192, VALUE)
        }),
        ("a byte's page is that of its address", {
            let story = user().words(1_023, &[LOADED]).step(lb(3, 1, 0), 4_095, 0);
            story.step(lbu(3, 1, 0), 8_191, 0).step(lbu(3, 1, 0), 8_192, 0)
        }),
        ("a byte of a protected page", {
            let story = user().words(TABLE + 2, &[PAGE_2 | PROTECTED]);
            let story = story.step(lbu(3, 1, 1), 8_192, 0).empty(0).step(sb(2, 1, 1), 8_192, VALUE);
            story.user_mode(1, 3).step(sh(2, 1, 2), 8_192, VALUE)
        }),
        ("a byte of a page that is not there", {
            let story = user().step(lb(3, 1, 1), 12_288, 0);
            story.user_mode(1, 3).step(sb(3, 1, 3), 12_288, 0)
        }),
        ("a byte through a wrong shadow", {
            user().shadow(2, PAGE_0).step(sb(2, 1, 257), 8_192, VALUE)
        }),
    ]
}

/// A store that touches any byte of a table word empties that entry, and no other.
fn emptied() -> Group {
    let map = [(0, PAGE_0), (1, PAGE_1), (2, PAGE_2)];
    // The entries 0 to 3 and 1,023 are valid in the shadow; the table starts at 4,096.
    let full = |ptl| {
        let story = Story::user(3, ptl, &map).special(MODE, 0);
        let story = story.shadow(0, PAGE_0).shadow(1, PAGE_1).shadow(2, PAGE_2);
        story.shadow(3, PAGE_2).shadow(1_023, PAGE_2)
    };
    let store = |word, address| full(1_024).step(word, address, VALUE);
    let user = |word, address| full(1_024).special(MODE, 1).step(word, address, PAGE_2);
    let second = 4_096 + 4 * 2;
    vec![
        ("sb into byte 0 of an entry", store(sb(2, 1, 0), second)),
        ("sb into byte 1 of an entry", store(sb(2, 1, 0), second + 1)),
        ("sb into byte 2 of an entry", store(sb(2, 1, 0), second + 2)),
        ("sb into byte 3 of an entry", store(sb(2, 1, 0), second + 3)),
        ("sh into the low half of an entry", store(sh(2, 1, 0), second)),
        ("sh into the high half of an entry", store(sh(2, 1, 0), second + 2)),
        ("sb into the last byte of entry 1,023", store(sb(2, 1, 0), 8_191)),
        ("sb right before the table", store(sb(2, 1, 0), 4_095)),
        ("sb right behind the table", store(sb(2, 1, 0), 8_192)),
        ("sb into an entry beyond PTL", full(2).step(sb(2, 1, 1), second, VALUE)),
        ("sb into an entry by its user", user(sb(2, 1, 1), second)),
        ("sh into an entry by its user", user(sh(2, 1, 2), second)),
        ("sb of an equal value empties", {
            full(1_024).step(sb(2, 1, 1), second, PAGE_2 >> 8).step(nop(), 0, 0)
        }),
        ("an odd sh into an entry empties nothing", store(sh(2, 1, 0), second + 1)),
        ("a sb that faults empties nothing", {
            let story = full(1_024).special(MODE, 1).shadow(1, PAGE_1 | PROTECTED);
            story.step(sb(2, 1, 1), second, VALUE)
        }),
        ("a byte of an entry changes between two loads", {
            let story = Story::user(3, 3, &map).words(2 * TABLE + 16, &[77]);
            let story = story.step(lw(3, 1, 64), 8_192, 0);
            story.step(sb(2, 1, 1), second, PAGE_0 >> 8).step(lw(3, 1, 64), 8_192, 0)
        }),
        ("a byte of an entry makes it valid", {
            let story = Story::user(3, 3, &[(0, PAGE_0), (1, PAGE_1), (2, 0)]);
            let story = story.step(lb(3, 1, 0), 8_192, 0).user_mode(1, 3);
            story.step(sb(2, 1, 1), second, PAGE_2 >> 8).step(lb(3, 1, 0), 8_192, 0)
        }),
    ]
}
