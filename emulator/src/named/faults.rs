//! Which of the faults applied, and what the latest is (request 2 of 02).

use super::{end, list, load, turn, Group, Story, PAGE_0, PAGE_1, PAGE_2, TABLE};
use crate::assemble::{
    addi, i_type, lb, lhu, lw, movi2s, nop, opcode, rfe, sb, send, sh, sw, take, trap, Code,
};
use crate::dlx::special::{EDPC, EMODE, EPC, ESR, MODE, PTL, PTO, SR};
use crate::fields::{self, LATEST_FAULT};
use crate::memory::{PROTECTED, VALID};

/// The page that the accesses of most scripts are to.
const PX: u32 = 2;

/// Three guest pages: page 0 has the code, page 1 the table, page 2 data. Page 2 of user addresses
/// has the given entry. The fetch of the code is a hit, so that PTO and PTL decide on data alone.
fn table(pto: u32, ptl: u32, entry: u32) -> Story {
    let story = Story::user(3, ptl, &[(0, PAGE_0), (1, PAGE_1), (PX, entry)]);
    story.special(PTO, pto).shadow(0, PAGE_0)
}

/// A load, a store and a fetch at a page, each from user mode, a run each.
fn three(story: Story, px: u32) -> Story {
    let at = px << 12;
    let story = story.step(lw(3, 1, 4), at, 9).special(MODE, 1).step(sw(2, 1, 4), at, 9);
    story.special(MODE, 1).at(at + 16).run(1)
}

/// The same in system mode.
fn three_in_system_mode(story: Story, address: u32) -> Story {
    let story = story.special(MODE, 0).step(lw(3, 1, 0), address, 9).step(sw(2, 1, 0), address, 9);
    story.pair(address, address.wrapping_add(4)).run(1)
}

fn latest(story: Story, partition: u32, fault: u32) -> Story {
    story.field(fields::scalar(partition, LATEST_FAULT), fault)
}

/// All scripts about faults.
pub fn group() -> Group {
    [numbers(), order(), hits(), kept(), changed(), calls()].into_iter().flatten().collect()
}

fn numbers() -> Group {
    let beyond = 12_288;
    vec![
        ("no fault", three(table(1, 3, PAGE_2), PX)),
        ("fault 1", three(table(1, PX, PAGE_2), PX)),
        ("fault 1 with no table at all", three(table(1, 0, PAGE_2), PX)),
        ("fault 2", three(table(1, 1_025, PAGE_2), 1_024)),
        ("fault 2 at the last page", three(table(1, u32::MAX, PAGE_2), 0xF_FFFF)),
        ("fault 3", three(table(3, 3, PAGE_2), PX)),
        ("fault 3, unwrapped", three(table(0x10_0001, 3, PAGE_2), PX)),
        ("fault 4", three(table(1, 3, PAGE_2 & !VALID), PX)),
        ("fault 4 of an entry of 0", three(table(1, 3, 0), PX)),
        ("fault 5", three(table(1, 3, 3 << 12 | VALID), PX)),
        ("fault 5 of the last page number", three(table(1, 3, 0xF_FFFF << 12 | VALID), PX)),
        ("fault 6", three(table(1, 3, PAGE_2 | PROTECTED), PX)),
        ("fault 7", three_in_system_mode(table(1, 3, PAGE_2), beyond)),
        ("fault 7 at the last word", three_in_system_mode(table(1, 3, PAGE_2), 0xFFFF_FFFC)),
        // In system mode the table does not matter.
        ("fault 7 without a table", three_in_system_mode(table(u32::MAX, 0, 0), beyond)),
        ("parts fault by number, too", {
            let protected = table(1, 3, PAGE_2 | PROTECTED);
            let story = protected.step(sb(2, 1, 1), PX << 12, 9).special(MODE, 1);
            let story = story.step(lb(3, 1, 3), 3 << 12, 9).special(MODE, 1);
            let story = story.step(sh(2, 1, 2), PX << 12, 9).step(lhu(3, 1, 2), beyond, 9);
            story.step(sb(2, 1, 3), beyond, 9)
        }),
        ("a load into register 0 has its fault", {
            table(1, 3, 0).step(lw(0, 1, 0), PX << 12, 0).step(lw(0, 1, 0), beyond, 0)
        }),
    ]
}

/// Two or more apply; the first counts.
fn order() -> Group {
    let far = 0xF_FFFF << 12;
    vec![
        ("1 before 2", three(table(1, 1_024, PAGE_2), 1_024)),
        ("1 before 3", three(table(3, PX, PAGE_2), PX)),
        ("1 before 4", three(table(1, PX, 0), PX)),
        ("1 before 5", three(table(1, PX, far | VALID), PX)),
        ("1 before 6", three(table(1, PX, PAGE_2 | PROTECTED), PX)),
        ("2 before 3", three(table(3, u32::MAX, PAGE_2), 1_024)),
        // What would be entry 1,024 stands in the first word of page 2.
        ("2 before 4", three(table(1, u32::MAX, PAGE_2).words(2 * TABLE, &[0]), 1_024)),
        ("2 before 5", three(table(1, u32::MAX, PAGE_2).words(2 * TABLE, &[far | VALID]), 1_024)),
        ("4 before 5", three(table(1, 3, far), PX)),
        ("4 before 6", three(table(1, 3, PAGE_2 & !VALID | PROTECTED), PX)),
        ("5 before 6", three(table(1, 3, far | VALID | PROTECTED), PX)),
    ]
}

/// A valid shadow entry leaves nothing to fault on but protection.
fn hits() -> Group {
    let hit = |story: Story| three(story.shadow(PX, PAGE_2 | PROTECTED), PX);
    vec![
        ("a hit where 1 would apply", hit(table(1, PX, PAGE_2))),
        ("a hit where 3 would apply", hit(table(3, 3, PAGE_2))),
        ("a hit where 4 would apply", hit(table(1, 3, 0))),
        ("a hit where 5 would apply", hit(table(1, 3, 9 << 12 | VALID))),
        ("a hit without protection", {
            three(table(1, 3, PAGE_2 | PROTECTED).shadow(PX, PAGE_2), PX)
        }),
        ("a fill and a hit both fault by 6", {
            let story = table(1, 3, PAGE_2 | PROTECTED).step(sw(2, 1, 0), PX << 12, 9);
            latest(story, 0, 0).special(MODE, 1).step(sw(2, 1, 0), PX << 12, 9)
        }),
    ]
}

/// The latest fault stays whatever comes that is no fault.
fn kept() -> Group {
    let user = || latest(table(1, 3, PAGE_2), 0, 4);
    let system = || user().special(MODE, 0);
    vec![
        ("plain steps keep the latest fault", {
            let story = system().step(nop(), 0, 0).step(lw(3, 1, 0), 64, 0);
            let story = story.step(sw(2, 1, 0), 64, 1).step(i_type(opcode::JALR, 0, 1, 0), 64, 0);
            story.step(send(), 7, 0).step(take(), 0, 0)
        }),
        ("translated steps keep the latest fault", {
            let story = user().step(nop(), 0, 0).step(lw(3, 1, 0), PX << 12, 0);
            story.step(sw(2, 1, 0), PX << 12, 1)
        }),
        ("other causes keep the latest fault", {
            let story = system().special(SR, 64).step(0, 0, 0).step(trap(7), 0, 0);
            let story = story.special(SR, 64).step(addi(3, 1, 1), 0x7FFF_FFFF, 0);
            let story = story.step(lw(3, 1, 0), 6, 0).step(lhu(3, 1, 0), 5, 0);
            story.step(sw(3, 1, 0), 12_290, 0).pair(10, 14).run(1)
        }),
        ("other causes of user mode keep the latest fault", {
            let story = user().step(rfe(), 0, 0).special(MODE, 1).step(trap(257), 0, 0);
            let story = story.special(MODE, 1).step(sh(3, 1, 0), (PX << 12) + 1, 0);
            story.special(MODE, 1).pair((9 << 12) + 2, 14).run(1)
        }),
        ("special registers keep the latest fault", {
            let story = [SR, ESR, PTO, PTL, EPC, EDPC, EMODE]
                .into_iter()
                .fold(system(), |story, number| story.step(movi2s(number, 1), 1, 0));
            story.step(rfe(), 0, 0)
        }),
    ]
}

/// A later fault takes its place.
fn changed() -> Group {
    let beyond = 12_288;
    vec![
        ("the latest fault is the last one", {
            let story = table(1, 4, PAGE_2 | PROTECTED).words(TABLE + 3, &[9 << 12 | VALID]);
            let story = story.step(sw(2, 1, 0), PX << 12, 9).step(lw(3, 1, 0), beyond, 9);
            let story = story.special(MODE, 1).step(lw(3, 1, 0), 3 << 12, 9);
            let story = story.special(MODE, 1).step(lw(3, 1, 0), 4 << 12, 9);
            story.special(MODE, 1).step(sw(2, 1, 0), PX << 12, 9)
        }),
        ("a fault in the handler of a fault", {
            table(1, 3, 0).words(0, &[lw(3, 0, beyond)]).step(lw(3, 1, 0), PX << 12, 0).run(1)
        }),
        ("a fetch's fault and a load's", {
            let story = table(1, 3, 0).at(9 << 12).run(1);
            story.special(MODE, 1).step(lw(3, 1, 0), PX << 12, 0)
        }),
        ("each partition has its own", {
            // Partition 0 loads beyond its page, partition 1 fetches in user mode with no table.
            let story = Story::house(&[1, 1, 1], 1).words(0, &[lw(3, 0, 4_096)]);
            let story = story.field(fields::special(1, MODE), 1).words(2 * TABLE, &[nop()]);
            story.run(1).run(1).run(1)
        }),
    ]
}

fn calls() -> Group {
    let faulted = || {
        let story = Story::house(&[1, 1], 5).words(0, &[lw(3, 0, 4_096)]).run(1);
        latest(story, 1, 5)
    };
    vec![
        ("calls keep the latest fault", {
            let story = faulted().run(0).stop(0).stop(1).start(1).start(0).empty(0).empty(1);
            story.read(0, 0, 1, 1).run(1_000_001).empty(2).read(1, 3, 0, 0).length(0).run(1)
        }),
        ("boot forgets the latest fault", { faulted().boot(&[1, 1], 5, &[1, 2]).run(0) }),
        ("a refused boot has no fault", faulted().boot(&[1, 1], 0, &[1, 2]).run(0)),
        ("the numbers of a latest fault", {
            let values = [0, 1, 2, 3, 4, 5, 6, 7, 8, 9, 255, 256, 1 << 31, u32::MAX];
            let look = |story: Story, &fault: &u32| latest(story, 1, fault).run(0);
            values.iter().fold(Story::house(&[1, 1], 5), look)
        }),
        ("the latest fault of an unused partition", {
            let look = |story: Story, (partition, fault): (u32, u32)| {
                latest(latest(story, partition, fault).run(0), partition, 0).run(0)
            };
            [(2, 1), (2, 8), (7, 7), (7, u32::MAX)].into_iter().fold(faulted(), look)
        }),
    ]
}

/// A house file whose only partition goes to user mode, where it does these words at byte 128; each
/// interrupt begins again. Its table, in page 1, has this entry for page 1 of user addresses.
fn file(pto: u32, ptl: u32, entry: u32, words: &[u32]) -> Vec<u8> {
    let mut code = Code::default();
    for (number, value) in [(PTO, pto), (PTL, ptl), (EDPC, 128), (EPC, 132), (EMODE, 1)] {
        code.special(number, 1, value);
    }
    code.push(&[rfe()]);
    code.words.resize(32, nop());
    code.push(words);
    let table = load(2, &[PAGE_0, entry]);
    [turn(100, 40), list(&[1, 2]), load(1, &code.words), table, end()].concat()
}

/// House files about faults.
pub fn files() -> Vec<(&'static str, Vec<u8>)> {
    let (load_1, store_1) = (lw(2, 0, 4_096), sw(2, 0, 4_096));
    // 64 times 65,536 is the address of page 1,024.
    let far = [i_type(opcode::LHGI, 3, 0, 64), lw(2, 3, 0)];
    vec![
        ("report of fault 1", file(1, 1, PAGE_0, &[load_1])),
        ("report of fault 2", file(1, 2_000, PAGE_0, &far)),
        ("report of fault 3", file(2, 2, PAGE_0, &[load_1])),
        ("report of fault 4", file(1, 2, 0, &[load_1])),
        ("report of fault 5", file(1, 2, PAGE_2, &[load_1])),
        ("report of fault 6", file(1, 2, PAGE_0 | PROTECTED, &[store_1])),
        ("report of no fault", file(1, 2, PAGE_0 | PROTECTED, &[load_1, trap(1)])),
        ("report of fault 7 and of none", {
            let far = load(1, &[lw(2, 0, 4_096)]);
            [turn(3, 9), list(&[1]), list(&[2]), far, load(2, &[nop(); 9]), end()].concat()
        }),
    ]
}
