//! Which places a slot reads and stores, by the state before its line. `reads` and `stores` ask the
//! condition; all that they call takes the slot as live.

use super::condition::When;
use super::image::Line;
use super::machine::{PlaceFile, Places, State};
use super::slot::{
    Access, Action, Addressing, BufferRegister, DabLoad, Despread, Despreading, Direction, File,
    Operand, Route, Select, Slot, Transfer,
};

/// The places from whose contents a slot's result, address or refusal is made. Where its condition
/// fails, they are the condition's flags alone.
pub fn reads(slot: &Slot, line: &Line, state: &State) -> Places {
    let mut places = if slot.is_live(state) {
        live_reads(slot, line, state)
    } else {
        Places::default()
    };
    add_condition(&mut places, slot.when);
    places
}

/// The places that a slot stores: none where its condition fails.
pub fn stores(slot: &Slot, line: &Line, state: &State) -> Places {
    if slot.is_live(state) {
        live_stores(slot, line, state)
    } else {
        Places::default()
    }
}

/// What a slot reads beside its condition where it is live.
pub fn live_reads(slot: &Slot, line: &Line, state: &State) -> Places {
    let mut places = Places::default();
    match &slot.action {
        Action::Alu(alu) => add_operands(&mut places, alu.side, alu.first, alu.second),
        Action::Shift(shift) => add_operands(&mut places, shift.side, shift.first, shift.second),
        Action::TestBit(test) => {
            add_operands(&mut places, test.side, test.first, Some(test.second))
        }
        Action::Select(select) => add_select_reads(&mut places, select),
        Action::Tmax(tmax) => {
            places.add(PlaceFile::Tr, tmax.side, tmax.first, 1);
            places.add(PlaceFile::Tr, tmax.side, tmax.second, 1);
        }
        Action::Despread(despread) => {
            add_despread_reads(&mut places, despread, shifts_codes(slot, line, state));
            // The condition of a load tells whether the shift is stored.
            if let Some(load) = thr_load(slot, line) {
                add_condition(&mut places, load.when);
            }
        }
        Action::Transfer(transfer) => add_transfer_reads(&mut places, transfer),
        Action::Ialu(ialu) => add_index(&mut places, ialu.side, ialu.first, ialu.second),
        Action::CircularAdd(add) => {
            add_index(&mut places, add.side, add.index, add.modifier);
            add_buffer(&mut places, add.side, add.index, state);
        }
        Action::SetBuffer(set) => {
            places.add_ialu(set.side, set.first);
        }
        Action::Access(access) => add_access_reads(&mut places, access, state),
        Action::DabLoad(load) => add_dab_reads(&mut places, load, state),
    }
    // TRSOV stays set, so every CLU op makes its flags from the old ones.
    if matches!(slot.unit, 5 | 6) {
        places.add_flags(slot.unit);
    }
    places
}

/// What a slot stores where it is live.
pub fn live_stores(slot: &Slot, line: &Line, state: &State) -> Places {
    let mut places = Places::default();
    add_stored_registers(&mut places, slot, shifts_codes(slot, line, state));
    if let Some(words) = slot.action.stored_words(state) {
        places.add_memory(words);
    }
    places
}

/// Adds the registers and flag groups that a slot stores; answers whether all of them were new. A
/// DESPREAD stores its codes where it `shifts` them.
pub fn add_stored_registers(places: &mut Places, slot: &Slot, shifts: bool) -> bool {
    match &slot.action {
        Action::Alu(alu) => {
            places.add(PlaceFile::R, alu.side, alu.target, 1) & places.add_flags(slot.unit)
        }
        Action::Shift(shift) => {
            places.add(PlaceFile::R, shift.side, shift.target, 1) & places.add_flags(slot.unit)
        }
        Action::TestBit(_) => places.add_flags(slot.unit),
        Action::Select(select) => {
            places.add(PlaceFile::Tr, select.side, select.target, 2) & places.add_flags(slot.unit)
        }
        Action::Tmax(tmax) => {
            places.add(PlaceFile::R, tmax.side, tmax.target, 1) & places.add_flags(slot.unit)
        }
        Action::Despread(despread) => {
            add_despread_stores(places, despread, shifts) & places.add_flags(slot.unit)
        }
        Action::Transfer(transfer) => add_transfer_stores(places, transfer),
        Action::Ialu(ialu) => places.add_ialu(ialu.side, ialu.target) & places.add_flags(slot.unit),
        Action::CircularAdd(add) => {
            places.add_ialu(add.side, add.target) & places.add_flags(slot.unit)
        }
        Action::SetBuffer(set) => {
            let file = match set.register {
                BufferRegister::Base => PlaceFile::Base,
                BufferRegister::Length => PlaceFile::Length,
            };
            places.add(file, set.side, set.target, 1)
        }
        Action::Access(access) => add_access_stores(places, access),
        Action::DabLoad(load) => add_dab_stores(places, load),
    }
}

/// The slot of a line that loads the THR pair of a DESPREAD, live or not. By rule 5 there
/// is at most one.
pub fn thr_load<'a>(slot: &Slot, line: &'a Line) -> Option<&'a Slot> {
    let Action::Despread(despread) = &slot.action else {
        return None;
    };
    line.slots().iter().find(|other| match &other.action {
        Action::Transfer(transfer) => {
            transfer.route == Route::ToThrPair
                && transfer.side == despread.side
                && transfer.target == despread.codes
        }
        _ => false,
    })
}

/// Whether a DESPREAD stores its shifted codes: not where a live slot of its line loads their pair.
pub fn shifts_codes(slot: &Slot, line: &Line, state: &State) -> bool {
    !thr_load(slot, line).is_some_and(|load| load.is_live(state))
}

/// The flag group of a condition.
fn add_condition(places: &mut Places, when: When) {
    if let When::If(condition) = when {
        places.add_flags(7 + condition.side());
    }
}

fn add_operands(places: &mut Places, side: u8, first: u8, second: Option<u8>) {
    places.add(PlaceFile::R, side, first, 1);
    if let Some(second) = second {
        places.add(PlaceFile::R, side, second, 1);
    }
}

fn add_select_reads(places: &mut Places, select: &Select) {
    places.add(PlaceFile::Tr, select.side, select.first, 2);
    places.add(PlaceFile::Tr, select.side, select.second, 2);
    places.add(PlaceFile::R, select.side, select.quad, 4);
}

/// The codes in use are in the pair's low register; the high one matters only to a stored shift.
fn add_despread_reads(places: &mut Places, despread: &Despread, shifts: bool) {
    let codes = if shifts { 2 } else { 1 };
    places.add(PlaceFile::R, despread.side, despread.data, 4);
    places.add(PlaceFile::Thr, despread.side, despread.codes, codes);
    places.add(
        PlaceFile::Tr,
        despread.side,
        despread.target,
        despread.width(),
    );
}

fn add_despread_stores(places: &mut Places, despread: &Despread, shifts: bool) -> bool {
    let side = despread.side;
    let width = despread.width();
    let mut new = places.add(PlaceFile::Tr, side, despread.target, width);
    if let Despreading::Replace { old } | Despreading::ReplacePair { old } = despread.form {
        new &= places.add(PlaceFile::R, side, old, width);
    }
    if shifts {
        new &= places.add(PlaceFile::Thr, side, despread.codes, 2);
    }
    new
}

fn add_transfer_reads(places: &mut Places, transfer: &Transfer) {
    let (file, count) = match transfer.route {
        Route::ToTr => (PlaceFile::R, 1),
        Route::ToThrPair => (PlaceFile::R, 2),
        Route::FromTr => (PlaceFile::Tr, 1),
    };
    places.add(file, transfer.side, transfer.first, count);
}

fn add_transfer_stores(places: &mut Places, transfer: &Transfer) -> bool {
    let (file, count) = match transfer.route {
        Route::ToTr => (PlaceFile::Tr, 1),
        Route::ToThrPair => (PlaceFile::Thr, 2),
        Route::FromTr => (PlaceFile::R, 1),
    };
    places.add(file, transfer.side, transfer.target, count)
}

fn add_index(places: &mut Places, side: u8, index: u8, modifier: Operand) {
    places.add_ialu(side, index);
    if let Operand::Register(number) = modifier {
        places.add_ialu(side, number);
    }
}

/// A length of 0 leaves the base without a part in the address.
fn add_buffer(places: &mut Places, side: u8, index: u8, state: &State) {
    places.add(PlaceFile::Length, side, index, 1);
    if state.buffer(side, index).length > 0 {
        places.add(PlaceFile::Base, side, index, 1);
    }
}

fn add_access_reads(places: &mut Places, access: &Access, state: &State) {
    add_index(places, access.side, access.index, access.modifier);
    if access.addressing == Addressing::Circular {
        add_buffer(places, access.side, access.index, state);
    }
    match access.direction {
        Direction::Load => places.add_memory(access.words(state)),
        Direction::Store => {
            add_file(places, access);
        }
    }
}

fn add_access_stores(places: &mut Places, access: &Access) -> bool {
    let mut new = access.direction == Direction::Store || add_file(places, access);
    if access.updates_index() {
        new &= places.add_ialu(access.side, access.index);
    }
    new
}

/// All four words are kept, so all are read, whatever the position of the index.
fn add_dab_reads(places: &mut Places, load: &DabLoad, state: &State) {
    places.add_ialu(load.side, load.index);
    add_buffer(places, load.side, load.index, state);
    places.add_dab(load.block);
    places.add_memory(load.words(state));
}

fn add_dab_stores(places: &mut Places, load: &DabLoad) -> bool {
    places.add(PlaceFile::R, load.block, load.target, 4)
        & places.add_dab(load.block)
        & places.add_ialu(load.side, load.index)
}

fn add_file(places: &mut Places, access: &Access) -> bool {
    let (file, side) = match access.file {
        File::Block(side) => (PlaceFile::R, side),
        File::Ialu(side) => (PlaceFile::Ialu, side),
    };
    places.add(file, side, access.number, access.width)
}
