//! A partition's timer: how TCOUNT falls, and what an interrupt by it can follow.

use crate::dlx::special::{ECA, EDATA, EDPC, EMODE, EPC, ESR, MODE, PTL, PTO, SR, TCOUNT, TLOAD};

/// TCOUNT after a step's fall and reload, and whether it reached zero.
pub fn fall(count: u32, load: u32) -> (u32, bool) {
    match count {
        0 => (0, false),
        1 => (load, true),
        _ => (count - 1, false),
    }
}

/// What an instruction that takes effect has done: the kinds that an interrupt by the timer can
/// follow.
#[derive(Clone, Copy, Debug, PartialEq, Eq)]
#[allow(missing_docs)]
pub enum Kind {
    Load,
    Store,
    Compute,
    MaskedOvf,
    Taken,
    NotTaken,
    Jump,
    Link,
    Sent,
    SendRefused,
    Took,
    TakeRefused,
    Rfe,
    ReadTimer,
    ReadOther,
    /// SR itself.
    WroteSr,
    /// ESR, ECA, EPC, EDPC or EMODE, which the entry then saves over.
    WroteSaved,
    WroteEdata,
    WroteMode,
    /// PTO or PTL.
    WroteTable,
    WroteTcount,
    WroteTload,
}

impl Kind {
    /// How many there are.
    pub const COUNT: usize = 22;
    /// Their names, in order.
    pub const NAMES: [&'static str; Kind::COUNT] = [
        "load",
        "store",
        "compute",
        "masked ovf",
        "branch taken",
        "branch not taken",
        "jump",
        "jump and link",
        "send",
        "refused send",
        "take",
        "refused take",
        "rfe",
        "movs2i of TCOUNT",
        "movs2i",
        "movi2s to SR",
        "movi2s to ESR, ECA, EPC, EDPC or EMODE",
        "movi2s to EDATA",
        "movi2s to MODE",
        "movi2s to PTO or PTL",
        "movi2s to TCOUNT",
        "movi2s to TLOAD",
    ];

    /// A movs2i.
    pub fn read(special: usize) -> Kind {
        match special {
            TCOUNT => Kind::ReadTimer,
            _ => Kind::ReadOther,
        }
    }

    /// A movi2s.
    pub fn wrote(special: usize) -> Kind {
        match special {
            SR => Kind::WroteSr,
            ESR | ECA | EPC | EDPC | EMODE => Kind::WroteSaved,
            EDATA => Kind::WroteEdata,
            MODE => Kind::WroteMode,
            PTO | PTL => Kind::WroteTable,
            TCOUNT => Kind::WroteTcount,
            TLOAD => Kind::WroteTload,
            _ => unreachable!("no such special register"),
        }
    }
}
