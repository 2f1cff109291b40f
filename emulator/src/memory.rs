//! Addresses and shadows: how a guest byte address becomes one word of the lent host memory, and its
//! bytes there.

use std::ops::Range;

use crate::counts::{Counts, Entries};

/// Words of a frame.
pub const FRAME_WORDS: usize = 1_024;
/// Bytes of a page.
pub const PAGE_BYTES: u64 = 4_096;
/// Places of a frame list.
pub const LIST_PLACES: usize = 256;
/// Entries of a shadow table: one for each virtual page that can be mapped.
pub const ENTRIES: usize = 1_024;
/// Bit 11 of an entry: valid.
pub const VALID: u32 = 1 << 11;
/// Bit 10 of an entry: protected.
pub const PROTECTED: u32 = 1 << 10;
/// The answer of address composition for a fault.
pub const FAULT: u32 = u32::MAX;

/// Why an access faults, by its number: the first that applies.
#[derive(Clone, Copy, Debug, PartialEq, Eq)]
pub enum Fault {
    /// px is not below PTL.
    Length = 1,
    /// px is above 1,023.
    Limit = 2,
    /// The entry lies outside guest memory.
    Outside = 3,
    /// The entry is not valid.
    Invalid = 4,
    /// The entry's page number is not below the page count.
    Page = 5,
    /// A store, and the page is protected.
    Protected = 6,
    /// In system mode: the address is beyond the pages.
    System = 7,
}

impl Fault {
    /// The highest number.
    pub const LAST: u32 = Fault::System as u32;
}

/// The guest page of a table entry, or the first of its faults.
fn entry_page(entry: u32, pages: u32, access: Access) -> Result<u32, Fault> {
    if entry & VALID == 0 {
        return Err(Fault::Invalid);
    }
    let page = entry >> 12;
    if page >= pages {
        return Err(Fault::Page);
    }
    check_protection(entry, access)?;
    Ok(page)
}

/// No store where bit 10 is 1.
fn check_protection(entry: u32, access: Access) -> Result<(), Fault> {
    if access == Access::Store && entry & PROTECTED != 0 {
        return Err(Fault::Protected);
    }
    Ok(())
}

/// Address composition: the guest page of a table entry, or [`FAULT`]. `store` 0 is a load, all
/// else a store.
pub fn compose(entry: u32, pages: u32, store: u32) -> u32 {
    let access = if store == 0 { Access::Load } else { Access::Store };
    entry_page(entry, pages, access).unwrap_or(FAULT)
}

/// The shadow entry for a host frame, with the protection of the guest's own entry.
pub fn shadow_entry(frame: u32, guest_entry: u32) -> u32 {
    frame << 12 | VALID | guest_entry & PROTECTED
}

/// What an access does with its bytes; a fetch loads.
#[derive(Clone, Copy, Debug, PartialEq, Eq)]
pub enum Access {
    /// They are read.
    Load,
    /// They are written.
    Store,
}

/// How an access of user mode is translated.
#[derive(Clone, Copy, Debug, PartialEq, Eq)]
pub enum Engine {
    /// A valid shadow entry decides; otherwise the guest's table, and the shadow is filled.
    Shadowed,
    /// The guest's table decides; no shadow is looked at or filled.
    Walking,
}

/// How many bytes an access has; they never span two words.
#[derive(Clone, Copy, Debug, PartialEq, Eq)]
pub enum Width {
    /// One byte, at any address.
    Byte = 1,
    /// Two bytes, at an even address.
    Half = 2,
    /// Four bytes, at a multiple of 4.
    Word = 4,
}

impl Width {
    /// The bytes.
    pub fn bytes(self) -> u32 {
        self as u32
    }
}

/// The guest's page table: its origin in pages and its length in entries.
#[derive(Clone, Copy, Debug, PartialEq, Eq)]
pub struct Table {
    /// Page table origin.
    pub pto: u32,
    /// Page table length, a count.
    pub ptl: u32,
}

/// A byte of guest memory, and the word that it stands in.
#[derive(Clone, Copy, Debug, PartialEq, Eq)]
pub struct Place {
    /// The guest page.
    pub page: u32,
    /// The word inside the page.
    pub word: u32,
    /// The byte inside the word.
    pub byte: u32,
}

impl Place {
    /// The place of a guest byte address that is not translated.
    pub fn of(address: u32) -> Self {
        Place { page: address >> 12, word: (address & 0xFFF) / 4, byte: address % 4 }
    }

    /// The guest byte address of the word.
    fn word_address(self) -> u64 {
        PAGE_BYTES * u64::from(self.page) + 4 * u64::from(self.word)
    }

    /// The bytes of an access in the word, the lowest first.
    fn bytes(self, width: Width) -> Range<usize> {
        self.byte as usize..(self.byte + width.bytes()) as usize
    }
}

/// A partition's pages and its shadow table.
#[derive(Clone, Debug, PartialEq, Eq)]
pub struct Space {
    /// The page count.
    pub pages: u32,
    /// The frame list: guest page k is its k-th frame.
    pub frames: [u32; LIST_PLACES],
    /// The shadow table: frame in bits 31..12, bit 11 valid, bit 10 protected; 0 is empty.
    pub shadow: [u32; ENTRIES],
}

impl Space {
    /// The space of no pages.
    pub const ZERO: Space = Space { pages: 0, frames: [0; LIST_PLACES], shadow: [0; ENTRIES] };

    /// The frame list without its unused places.
    pub fn list(&self) -> &[u32] {
        &self.frames[..self.pages as usize]
    }

    /// The place of an access, or its fault. Only an access in user mode, which has a table, is
    /// translated.
    pub fn locate(
        &mut self,
        memory: &[u32],
        table: Option<Table>,
        address: u32,
        access: Access,
        engine: Engine,
        counts: &mut Counts,
    ) -> Result<Place, Fault> {
        let Some(table) = table else {
            return self.untranslated(address);
        };
        let px = address >> 12;
        let page = match engine {
            Engine::Shadowed => self.translated(memory, table, px, access, counts)?,
            Engine::Walking => self.walked(memory, table, px, access)?,
        };
        Ok(Place { page, ..Place::of(address) })
    }

    /// User mode without shadows: the guest's table decides, protection last.
    fn walked(&self, memory: &[u32], table: Table, px: u32, access: Access) -> Result<u32, Fault> {
        let (page, entry) = self.walk(memory, table, px)?;
        check_protection(entry, access)?;
        Ok(page)
    }

    /// System mode: the address must be below 4,096 times the page count.
    fn untranslated(&self, address: u32) -> Result<Place, Fault> {
        let inside = u64::from(address) < PAGE_BYTES * u64::from(self.pages);
        inside.then(|| Place::of(address)).ok_or(Fault::System)
    }

    /// User mode: a valid shadow entry alone decides, otherwise the guest's table does.
    fn translated(
        &mut self,
        memory: &[u32],
        table: Table,
        px: u32,
        access: Access,
        counts: &mut Counts,
    ) -> Result<u32, Fault> {
        let (page, protection) = match self.shadow.get(px as usize) {
            Some(&shadow) if shadow & VALID != 0 => (self.page_of(shadow >> 12), shadow),
            _ => self.fill(memory, table, px, counts)?,
        };
        check_protection(protection, access)?;
        Ok(page)
    }

    /// Fills shadow `px` from the guest's table if all tests but protection pass.
    fn fill(
        &mut self,
        memory: &[u32],
        table: Table,
        px: u32,
        counts: &mut Counts,
    ) -> Result<(u32, u32), Fault> {
        let (page, entry) = self.walk(memory, table, px)?;
        self.shadow[px as usize] = shadow_entry(self.frames[page as usize], entry);
        counts.fills.add(px as usize);
        Ok((page, entry))
    }

    /// What shadow `px` would be filled with now, whatever it holds, or why it would not be filled.
    pub fn filling(&self, memory: &[u32], table: Table, px: u32) -> Result<u32, Fault> {
        let (page, entry) = self.walk(memory, table, px)?;
        Ok(shadow_entry(self.frames[page as usize], entry))
    }

    /// The guest page and the entry that the guest's table has for a page; all tests but protection.
    fn walk(&self, memory: &[u32], table: Table, px: u32) -> Result<(u32, u32), Fault> {
        let entry = self.entry(memory, table, px)?;
        let page = entry_page(entry, self.pages, Access::Load)?;
        Ok((page, entry))
    }

    /// The word at 4,096 PTO + 4 px, worked out without wrapping.
    fn entry(&self, memory: &[u32], table: Table, px: u32) -> Result<u32, Fault> {
        if px >= table.ptl {
            return Err(Fault::Length);
        }
        if px as usize >= ENTRIES {
            return Err(Fault::Limit);
        }
        let address = PAGE_BYTES * u64::from(table.pto) + 4 * u64::from(px);
        let inside = address < PAGE_BYTES * u64::from(self.pages);
        inside.then(|| self.word(memory, Place::of(address as u32))).ok_or(Fault::Outside)
    }

    /// The guest page of a frame is the frame's place in the list.
    fn page_of(&self, frame: u32) -> u32 {
        let place = self.list().iter().position(|&own| own == frame);
        place.expect("a valid shadow entry of an undamaged house has an own frame") as u32
    }

    /// The whole word of a place.
    pub fn word(&self, memory: &[u32], place: Place) -> u32 {
        memory[self.host_word(place)]
    }

    /// The bytes at a place, little-endian, with zeros above them.
    pub fn load(&self, memory: &[u32], place: Place, width: Width) -> u32 {
        let word = self.word(memory, place).to_le_bytes();
        let mut value = [0; 4];
        value[..width.bytes() as usize].copy_from_slice(&word[place.bytes(width)]);
        u32::from_le_bytes(value)
    }

    /// Writes the lowest bytes of a value at a place and leaves the word's others alone; a store
    /// into entry px of the table, into any byte of it, empties shadow px.
    pub fn store(
        &mut self,
        memory: &mut [u32],
        table: Table,
        place: Place,
        width: Width,
        value: u32,
        counts: &mut Counts,
    ) {
        let host = &mut memory[self.host_word(place)];
        let mut word = host.to_le_bytes();
        let lowest = &value.to_le_bytes()[..width.bytes() as usize];
        word[place.bytes(width)].copy_from_slice(lowest);
        *host = u32::from_le_bytes(word);
        if let Some(px) = entry_at(table, place) {
            if self.shadow[px] != 0 {
                counts.emptied_by_store.add(px);
                counts.emptied_by_part += u64::from(width != Width::Word);
            }
            self.shadow[px] = 0;
        }
    }

    /// Empties all entries; tells how many were valid.
    pub fn empty(&mut self) -> Entries {
        let mut valid = Entries::default();
        let used = self.shadow.iter().enumerate().filter(|(_, &entry)| entry != 0);
        used.for_each(|(px, _)| valid.add(px));
        self.shadow = [0; ENTRIES];
        valid
    }

    fn host_word(&self, place: Place) -> usize {
        self.frames[place.page as usize] as usize * FRAME_WORDS + place.word as usize
    }
}

/// The px whose table entry stands at a place, px below PTL and 1,024.
fn entry_at(table: Table, place: Place) -> Option<usize> {
    let offset = place.word_address().checked_sub(PAGE_BYTES * u64::from(table.pto))?;
    let px = offset / 4;
    let inside = px < u64::from(table.ptl) && px < ENTRIES as u64;
    inside.then_some(px as usize)
}
