//! The calls of include/dockplan.h as they are. The structs are laid out as there, which tests/layout.rs compares.
//! The default of an answer is all zeros, as beside a refusal.

/// The version of the header that this file repeats.
pub const VERSION: u32 = 107;

/// The largest pool of a ticket and of a saver, whose record has so many places in each of its tables.
pub const MAX_POOL: usize = 192;

/// A cycle, counted from 1.
#[repr(C)]
#[derive(Clone, Copy, Debug, Default, PartialEq, Eq)]
pub struct Cycle(pub u16);

/// A frame's position in the list, counted from 0.
#[repr(C)]
#[derive(Clone, Copy, Debug, Default, PartialEq, Eq)]
pub struct Position(pub u16);

#[repr(C)]
#[derive(Clone, Copy, Debug, Default, PartialEq, Eq)]
pub struct TicketAnswer {
    pub refusal: u8,
    pub edition: u8,
    pub mode: u8,
    pub cards: u8,
    pub pool: u16,
    pub frames: u16,
}

#[repr(C)]
#[derive(Clone, Copy, Debug, Default, PartialEq, Eq)]
pub struct Part {
    pub offset: usize,
    pub length: usize,
}

#[repr(C)]
#[derive(Clone, Copy, Debug, Default, PartialEq, Eq)]
pub struct CountsAnswer {
    pub refusal: u8,
    pub frames: [u16; 32],
}

#[repr(C)]
#[derive(Clone, Copy, Debug, Default, PartialEq, Eq)]
pub struct PlanAnswer {
    pub refusal: u8,
    pub cycles: Cycle,
}

#[repr(C)]
#[derive(Clone, Copy, Debug, Default, PartialEq, Eq)]
pub struct JoinAnswer {
    pub refusal: u8,
    pub bytes: usize,
}

#[repr(C)]
#[derive(Clone, Copy, Debug, Default, PartialEq, Eq)]
pub struct HubAnswer {
    pub refusal: u8,
    pub frames: u16,
}

pub const NO_VERDICT: u8 = 0;
pub const VALID: u8 = 1;
pub const NO_CYCLE: u8 = 2;
pub const SHARED_CARD: u8 = 3;
pub const OVERFULL: u8 = 4;

#[repr(C)]
#[derive(Clone, Copy, Debug, Default, PartialEq, Eq)]
pub struct CheckAnswer {
    pub refusal: u8,
    pub verdict: u8,
    pub position: Position,
    pub cycles: Cycle,
    pub peak: u16,
}

#[repr(C)]
#[derive(Clone, Copy, Debug, Default, PartialEq, Eq)]
pub struct RunAnswer {
    pub refusal: u8,
    pub broken: bool,
    pub complete: bool,
    pub delivered: u16,
    pub ended: Cycle,
    pub needed: Cycle,
    pub peak: u16,
}

#[repr(C)]
#[derive(Clone, Copy, Debug, PartialEq, Eq)]
pub struct Saver {
    pub cards: u8,
    pub pool: u16,
    pub taken: u16,
    pub made: Cycle,
    pub waiting: u16,
    pub closing: bool,
    pub card: [u8; MAX_POOL],
    pub position: [Position; MAX_POOL],
}

/// The entry of a card that writes nothing.
pub const NONE: u16 = 65535;

#[repr(C)]
#[derive(Clone, Copy, Debug, PartialEq, Eq)]
pub struct SaverAnswer {
    pub refusal: u8,
    pub cycle: Cycle,
    pub written: [Position; 32],
    pub saver: Saver,
}

extern "C" {
    pub fn dockplan_version() -> u32;
    pub fn dockplan_parse(ticket: *const u8, bytes: usize) -> TicketAnswer;
    pub fn dockplan_line(ticket: *const u8, bytes: usize, position: Position) -> Part;
    pub fn dockplan_line_refusal(ticket: *const u8, bytes: usize, position: Position) -> u8;
    pub fn dockplan_counts(ticket: *const u8, bytes: usize) -> CountsAnswer;
    pub fn dockplan_plan(ticket: *const u8, bytes: usize, plan: *mut u16, places: usize) -> PlanAnswer;
    pub fn dockplan_print(ticket: *const u8, bytes: usize, text: *mut u8, places: usize) -> usize;
    pub fn dockplan_join(
        first: *const u8,
        first_bytes: usize,
        second: *const u8,
        second_bytes: usize,
        ticket: *mut u8,
        places: usize,
    ) -> JoinAnswer;
    pub fn dockplan_hub(
        patterns: *const u8,
        cameras: usize,
        list: *const u8,
        frames: usize,
        cards: *mut u8,
        places: usize,
    ) -> HubAnswer;
    pub fn dockplan_check(ticket: *const u8, bytes: usize, plan: *const u16, places: usize) -> CheckAnswer;
    pub fn dockplan_run_plan(ticket: *const u8, bytes: usize, plan: *const u16, places: usize) -> RunAnswer;
    pub fn dockplan_saver_new(cards: u8, pool: u16) -> SaverAnswer;
    pub fn dockplan_saver_save(saver: Saver, card: u8) -> SaverAnswer;
    pub fn dockplan_saver_close(saver: Saver) -> SaverAnswer;
}
