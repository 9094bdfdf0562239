//! Who is measured as a saver: the library, and plain C by each compiler, with the record by value and with a lent one.
//! All are called through pointers, so that none is inlined into the measure.

use crate::inputs::{MAX_CARDS, POOL};
use dockplan::raw::{self, Cycle, Position, Saver, SaverAnswer};
use std::hint::black_box;
use std::mem::MaybeUninit;

/// What a call with a lent record answers: all of the answer but for the record.
#[repr(C)]
#[derive(Clone, Copy)]
struct Made {
    refusal: u8,
    cycle: Cycle,
    written: [Position; MAX_CARDS],
}

/// What stands there before a call, which writes all of it.
const UNSET: Made = Made {
    refusal: 0xA5,
    cycle: Cycle(0xA5A5),
    written: [Position(0xA5A5); MAX_CARDS],
};

type New = unsafe extern "C" fn(u8, u16) -> SaverAnswer;
type Save = unsafe extern "C" fn(Saver, u8) -> SaverAnswer;
type Close = unsafe extern "C" fn(Saver) -> SaverAnswer;
type LentNew = unsafe extern "C" fn(*mut Saver, u8, u16, *mut Made);
type LentSave = unsafe extern "C" fn(*mut Saver, u8, *mut Made);
type LentClose = unsafe extern "C" fn(*mut Saver, *mut Made);

#[derive(Clone, Copy)]
enum Calls {
    ByValue {
        new: New,
        save: Save,
        close: Close,
    },
    Lent {
        new: LentNew,
        save: LentSave,
        close: LentClose,
    },
}

use Calls::{ByValue, Lent};

pub struct Implementation {
    pub name: &'static str,
    calls: Calls,
}

/// The answer of a call that is lent this record, and the record that it leaves.
fn lent(mut record: MaybeUninit<Saver>, call: impl FnOnce(*mut Saver, *mut Made)) -> SaverAnswer {
    let mut made = UNSET;
    call(record.as_mut_ptr(), &mut made);
    SaverAnswer {
        refusal: made.refusal,
        cycle: made.cycle,
        written: made.written,
        // SAFETY: it was a record before the call, or the call made one of it.
        saver: unsafe { record.assume_init() },
    }
}

// SAFETY of these calls: a record is one that a call gave, and what is lent is borrowed alone.
impl Implementation {
    pub fn start(&self, cards: u8, pool: u16) -> SaverAnswer {
        match self.calls {
            ByValue { new, .. } => unsafe { new(cards, pool) },
            Lent { new, .. } => lent(MaybeUninit::uninit(), |saver, made| unsafe {
                new(saver, cards, pool, made)
            }),
        }
    }

    pub fn save(&self, record: &Saver, card: u8) -> SaverAnswer {
        match self.calls {
            ByValue { save, .. } => unsafe { save(*record, card) },
            Lent { save, .. } => lent(MaybeUninit::new(*record), |saver, made| unsafe {
                save(saver, card, made)
            }),
        }
    }

    pub fn close(&self, record: &Saver) -> SaverAnswer {
        match self.calls {
            ByValue { close, .. } => unsafe { close(*record) },
            Lent { close, .. } => lent(MaybeUninit::new(*record), |saver, made| unsafe { close(saver, made) }),
        }
    }

    /// Measured: a new saver, and one save after the other into it.
    pub fn fill(&self, cards: &[u8]) {
        let (all_cards, pool) = (MAX_CARDS as u8, POOL as u16);
        match self.calls {
            ByValue { new, save, .. } => save_by_value(save, &unsafe { new(all_cards, pool) }, cards),
            Lent { new, save, .. } => {
                let (mut record, mut made) = (MaybeUninit::uninit(), UNSET);
                unsafe { new(record.as_mut_ptr(), all_cards, pool, &mut made) };
                save_lent(save, unsafe { record.assume_init_mut() }, cards);
            }
        }
    }

    /// Measured: one save after the other, the first of them into a copy of this answer's record.
    pub fn save_all(&self, first: &SaverAnswer, cards: &[u8]) {
        match self.calls {
            ByValue { save, .. } => save_by_value(save, first, cards),
            Lent { save, .. } => {
                let mut record = first.saver;
                save_lent(save, &mut record, cards);
            }
        }
    }

    /// Measured: one save into each of these records. A lent one is copied before, as it is needed again.
    pub fn save_once_in_each(&self, records: &[Saver], card: u8) {
        match self.calls {
            ByValue { save, .. } => {
                for record in records {
                    black_box(&unsafe { save(*record, card) });
                }
            }
            Lent { save, .. } => {
                let mut made = UNSET;
                for record in records {
                    let mut copy = *record;
                    unsafe { save(&mut copy, card, &mut made) };
                    black_box((&copy, &made));
                }
            }
        }
    }
}

/// The new record of each save goes into the next. Two answers take turns, so that none is copied; the cards are an even
/// number.
fn save_by_value(save: Save, first: &SaverAnswer, cards: &[u8]) {
    let (mut answer, mut other) = (*first, *first);
    for two in cards.chunks_exact(2) {
        other = unsafe { save(answer.saver, two[0]) };
        answer = unsafe { save(other.saver, two[1]) };
    }
    black_box((&answer, &other));
}

fn save_lent(save: LentSave, record: &mut Saver, cards: &[u8]) {
    let mut made = UNSET;
    for &card in cards {
        unsafe { save(record, card, &mut made) };
    }
    black_box((record, &made));
}

pub const LIBRARY: Implementation = Implementation {
    name: "library",
    calls: ByValue {
        new: raw::dockplan_saver_new,
        save: raw::dockplan_saver_save,
        close: raw::dockplan_saver_close,
    },
};

/// c/saver.c by each compiler that is there, with the record by value.
pub const C_BY_VALUE: &[Implementation] = &[
    Implementation {
        name: "gcc",
        calls: ByValue {
            new: gcc_saver_new,
            save: gcc_saver_save,
            close: gcc_saver_close,
        },
    },
    #[cfg(clang)]
    Implementation {
        name: "clang",
        calls: ByValue {
            new: clang_saver_new,
            save: clang_saver_save,
            close: clang_saver_close,
        },
    },
];

/// The same with a lent record.
pub const C_LENT: &[Implementation] = &[
    Implementation {
        name: "gcc lent",
        calls: Lent {
            new: gcc_lent_new,
            save: gcc_lent_save,
            close: gcc_lent_close,
        },
    },
    #[cfg(clang)]
    Implementation {
        name: "clang lent",
        calls: Lent {
            new: clang_lent_new,
            save: clang_lent_save,
            close: clang_lent_close,
        },
    },
];

extern "C" {
    fn gcc_saver_new(cards: u8, pool: u16) -> SaverAnswer;
    fn gcc_saver_save(saver: Saver, card: u8) -> SaverAnswer;
    fn gcc_saver_close(saver: Saver) -> SaverAnswer;
    fn gcc_lent_new(saver: *mut Saver, cards: u8, pool: u16, answer: *mut Made);
    fn gcc_lent_save(saver: *mut Saver, card: u8, answer: *mut Made);
    fn gcc_lent_close(saver: *mut Saver, answer: *mut Made);
}

#[cfg(clang)]
extern "C" {
    fn clang_saver_new(cards: u8, pool: u16) -> SaverAnswer;
    fn clang_saver_save(saver: Saver, card: u8) -> SaverAnswer;
    fn clang_saver_close(saver: Saver) -> SaverAnswer;
    fn clang_lent_new(saver: *mut Saver, cards: u8, pool: u16, answer: *mut Made);
    fn clang_lent_save(saver: *mut Saver, card: u8, answer: *mut Made);
    fn clang_lent_close(saver: *mut Saver, answer: *mut Made);
}
