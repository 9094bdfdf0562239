//! Who is measured: the library, plain C by each compiler, and the simple Rust reference.
//! All are called through pointers of one type, so that none is inlined into the measure.

use dockplan::raw::{self, CheckAnswer, HubAnswer, JoinAnswer, PlanAnswer, TicketAnswer};
use dockplan::reference;
use std::slice::{from_raw_parts, from_raw_parts_mut};

type Parse = unsafe extern "C" fn(*const u8, usize) -> TicketAnswer;
type Plan = unsafe extern "C" fn(*const u8, usize, *mut u16, usize) -> PlanAnswer;
type Check = unsafe extern "C" fn(*const u8, usize, *const u16, usize) -> CheckAnswer;
type Print = unsafe extern "C" fn(*const u8, usize, *mut u8, usize) -> usize;
type Join = unsafe extern "C" fn(*const u8, usize, *const u8, usize, *mut u8, usize) -> JoinAnswer;
type Gather = unsafe extern "C" fn(*const u8, usize, *const u8, usize, *mut u8, usize) -> HubAnswer;

pub struct Implementation {
    pub name: &'static str,
    parse: Parse,
    plan: Plan,
    check: Check,
    print: Print,
    join: Join,
    hub: Gather,
}

// SAFETY of these calls: each pointer and count are those of one slice, and what is written is borrowed alone.
impl Implementation {
    pub fn parse(&self, ticket: &[u8]) -> TicketAnswer {
        unsafe { (self.parse)(ticket.as_ptr(), ticket.len()) }
    }

    pub fn plan(&self, ticket: &[u8], plan: &mut [u16]) -> PlanAnswer {
        unsafe { (self.plan)(ticket.as_ptr(), ticket.len(), plan.as_mut_ptr(), plan.len()) }
    }

    pub fn check(&self, ticket: &[u8], plan: &[u16]) -> CheckAnswer {
        unsafe { (self.check)(ticket.as_ptr(), ticket.len(), plan.as_ptr(), plan.len()) }
    }

    pub fn print(&self, ticket: &[u8], text: &mut [u8]) -> usize {
        unsafe { (self.print)(ticket.as_ptr(), ticket.len(), text.as_mut_ptr(), text.len()) }
    }

    pub fn join(&self, first: &[u8], second: &[u8], out: &mut [u8]) -> JoinAnswer {
        let (one, other, ticket) = (first.as_ptr(), second.as_ptr(), out.as_mut_ptr());
        unsafe { (self.join)(one, first.len(), other, second.len(), ticket, out.len()) }
    }

    pub fn hub(&self, patterns: &[u8], cameras: &[u8], out: &mut [u8]) -> HubAnswer {
        let (pattern, list, cards) = (patterns.as_ptr(), cameras.as_ptr(), out.as_mut_ptr());
        unsafe { (self.hub)(pattern, patterns.len(), list, cameras.len(), cards, out.len()) }
    }
}

pub const LIBRARY: Implementation = Implementation {
    name: "library",
    parse: raw::dockplan_parse,
    plan: raw::dockplan_plan,
    check: raw::dockplan_check,
    print: raw::dockplan_print,
    join: raw::dockplan_join,
    hub: raw::dockplan_hub,
};

/// c/plain.c by each compiler that is there.
pub const C: &[Implementation] = &[
    Implementation {
        name: "gcc",
        parse: gcc_parse,
        plan: gcc_plan,
        check: gcc_check,
        print: gcc_print,
        join: gcc_join,
        hub: gcc_hub,
    },
    #[cfg(clang)]
    Implementation {
        name: "clang",
        parse: clang_parse,
        plan: clang_plan,
        check: clang_check,
        print: clang_print,
        join: clang_join,
        hub: clang_hub,
    },
];

/// src/reference: written close to the paper's words, and not for speed.
pub const RUST: Implementation = Implementation {
    name: "Rust",
    parse: rust_parse,
    plan: rust_plan,
    check: rust_check,
    print: rust_print,
    join: rust_join,
    hub: rust_hub,
};

extern "C" {
    fn gcc_parse(ticket: *const u8, bytes: usize) -> TicketAnswer;
    fn gcc_plan(ticket: *const u8, bytes: usize, plan: *mut u16, places: usize) -> PlanAnswer;
    fn gcc_check(ticket: *const u8, bytes: usize, plan: *const u16, places: usize) -> CheckAnswer;
    fn gcc_print(ticket: *const u8, bytes: usize, text: *mut u8, places: usize) -> usize;
    fn gcc_join(
        first: *const u8,
        first_bytes: usize,
        second: *const u8,
        second_bytes: usize,
        ticket: *mut u8,
        places: usize,
    ) -> JoinAnswer;
    fn gcc_hub(
        patterns: *const u8,
        cameras: usize,
        list: *const u8,
        frames: usize,
        cards: *mut u8,
        places: usize,
    ) -> HubAnswer;
}

#[cfg(clang)]
extern "C" {
    fn clang_parse(ticket: *const u8, bytes: usize) -> TicketAnswer;
    fn clang_plan(ticket: *const u8, bytes: usize, plan: *mut u16, places: usize) -> PlanAnswer;
    fn clang_check(ticket: *const u8, bytes: usize, plan: *const u16, places: usize) -> CheckAnswer;
    fn clang_print(ticket: *const u8, bytes: usize, text: *mut u8, places: usize) -> usize;
    fn clang_join(
        first: *const u8,
        first_bytes: usize,
        second: *const u8,
        second_bytes: usize,
        ticket: *mut u8,
        places: usize,
    ) -> JoinAnswer;
    fn clang_hub(
        patterns: *const u8,
        cameras: usize,
        list: *const u8,
        frames: usize,
        cards: *mut u8,
        places: usize,
    ) -> HubAnswer;
}

unsafe extern "C" fn rust_parse(ticket: *const u8, bytes: usize) -> TicketAnswer {
    reference::parse(from_raw_parts(ticket, bytes))
}

unsafe extern "C" fn rust_plan(ticket: *const u8, bytes: usize, plan: *mut u16, places: usize) -> PlanAnswer {
    reference::plan(from_raw_parts(ticket, bytes), from_raw_parts_mut(plan, places))
}

unsafe extern "C" fn rust_check(ticket: *const u8, bytes: usize, plan: *const u16, places: usize) -> CheckAnswer {
    reference::check(from_raw_parts(ticket, bytes), from_raw_parts(plan, places))
}

unsafe extern "C" fn rust_print(ticket: *const u8, bytes: usize, text: *mut u8, places: usize) -> usize {
    reference::print(from_raw_parts(ticket, bytes), from_raw_parts_mut(text, places))
}

unsafe extern "C" fn rust_join(
    first: *const u8,
    first_bytes: usize,
    second: *const u8,
    second_bytes: usize,
    ticket: *mut u8,
    places: usize,
) -> JoinAnswer {
    let (first, second) = (from_raw_parts(first, first_bytes), from_raw_parts(second, second_bytes));
    reference::join(first, second, from_raw_parts_mut(ticket, places))
}

unsafe extern "C" fn rust_hub(
    patterns: *const u8,
    cameras: usize,
    list: *const u8,
    frames: usize,
    cards: *mut u8,
    places: usize,
) -> HubAnswer {
    let (patterns, list) = (from_raw_parts(patterns, cameras), from_raw_parts(list, frames));
    reference::hub(patterns, list, from_raw_parts_mut(cards, places))
}
