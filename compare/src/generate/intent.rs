//! What a case is made for: to run, or to be refused for one reason.

use crate::emulator::Code;
use crate::prng::Rng;

/// How a directory lies.
#[derive(Clone, Copy, PartialEq, Eq, Debug)]
pub enum DirectoryFault {
    Empty,
    HugeCount,
    CountPastEnd,
    InDirectory,
    Overlap,
    Unsorted,
    PastEnd,
    Wrapping,
    Length,
}

pub const DIRECTORY_FAULTS: [DirectoryFault; 9] = [
    DirectoryFault::Empty,
    DirectoryFault::HugeCount,
    DirectoryFault::CountPastEnd,
    DirectoryFault::InDirectory,
    DirectoryFault::Overlap,
    DirectoryFault::Unsorted,
    DirectoryFault::PastEnd,
    DirectoryFault::Wrapping,
    DirectoryFault::Length,
];

/// Why a circular op is refused.
#[derive(Clone, Copy, PartialEq, Eq, Debug)]
pub enum BufferFault {
    BelowBase,
    PastBuffer,
    Modifier,
    PastMemory,
    Base,
    Length,
}

pub const BUFFER_FAULTS: [BufferFault; 6] = [
    BufferFault::BelowBase,
    BufferFault::PastBuffer,
    BufferFault::Modifier,
    BufferFault::PastMemory,
    BufferFault::Base,
    BufferFault::Length,
];

/// Why an order of the right length is not admissible.
#[derive(Clone, Copy, PartialEq, Eq, Debug)]
pub enum OrderFault {
    Repeated,
    Unknown,
    Tail,
    StoreFirst,
    Conflict,
}

/// What a case is made for.
#[derive(Clone, Copy, PartialEq, Eq, Debug)]
pub enum Intent {
    /// Every line runs.
    Run,
    /// Nothing is sought or avoided: lines may break several rules at once.
    Wild,
    ImageTooLong,
    MemoryTooLong,
    Directory(DirectoryFault),
    Field,
    SlotCondition,
    Modifier,
    Positions,
    Unit,
    Block,
    StoredTwice {
        by_one: bool,
    },
    QuadStart,
    Access,
    Buffer(BufferFault),
    StoreClash,
    OrderLength,
    Order(OrderFault),
}

impl Intent {
    pub fn draw(rng: &mut Rng) -> Intent {
        let weights = [
            480, 100, 4, 4, 40, 150, 20, 20, 20, 40, 30, 80, 20, 10, 80, 40, 30, 30,
        ];
        match rng.weighted(&weights) {
            0 => Intent::Run,
            1 => Intent::Wild,
            2 => Intent::ImageTooLong,
            3 => Intent::MemoryTooLong,
            4 => Intent::Directory(rng.pick(&DIRECTORY_FAULTS)),
            5 => Intent::Field,
            6 => Intent::Positions,
            7 => Intent::Unit,
            8 => Intent::Block,
            9 => Intent::StoredTwice {
                by_one: rng.chance(40),
            },
            10 => Intent::Access,
            11 => Intent::Buffer(rng.pick(&BUFFER_FAULTS)),
            12 => Intent::StoreClash,
            13 => Intent::OrderLength,
            14 => Intent::Order(rng.pick(&[
                OrderFault::Repeated,
                OrderFault::Unknown,
                OrderFault::Tail,
                OrderFault::StoreFirst,
                OrderFault::Conflict,
                OrderFault::Conflict,
                OrderFault::Conflict,
                OrderFault::Conflict,
            ])),
            15 => Intent::SlotCondition,
            16 => Intent::Modifier,
            _ => Intent::QuadStart,
        }
    }

    /// The code that it is to be refused with.
    pub fn code(self) -> Option<Code> {
        match self {
            Intent::Run | Intent::Wild => None,
            Intent::ImageTooLong | Intent::MemoryTooLong => Some(Code::TooLong),
            Intent::Directory(_) => Some(Code::Directory),
            Intent::Field => Some(Code::Field),
            Intent::SlotCondition => Some(Code::SlotCondition),
            Intent::Modifier => Some(Code::Modifier),
            Intent::Positions => Some(Code::Positions),
            Intent::Unit => Some(Code::Unit),
            Intent::Block => Some(Code::Block),
            Intent::StoredTwice { .. } => Some(Code::StoredTwice),
            Intent::QuadStart => Some(Code::QuadStart),
            Intent::Access => Some(Code::Access),
            Intent::Buffer(_) => Some(Code::Buffer),
            Intent::StoreClash => Some(Code::StoreClash),
            Intent::OrderLength | Intent::Order(_) => Some(Code::Order),
        }
    }
}
