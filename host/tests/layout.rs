//! The structs of `raw` beside the header: their layout by hand from the C ABI of x86-64, and as the C compiler says; and
//! what each call takes and answers. A declaration that differs from the header fails here.

use dockplan::raw::*;
use std::io::Write;
use std::mem::{offset_of, size_of};
use std::process::{Command, Stdio};

/// Each 16-bit number stands at an even offset, each size_t at a multiple of 8.
const _: () = {
    assert!(size_of::<Cycle>() == 2 && size_of::<Position>() == 2);
    assert!(size_of::<TicketAnswer>() == 8);
    assert!(size_of::<Part>() == 16);
    assert!(size_of::<CountsAnswer>() == 66 && offset_of!(CountsAnswer, frames) == 2);
    assert!(size_of::<PlanAnswer>() == 4 && offset_of!(PlanAnswer, cycles) == 2);
    assert!(size_of::<JoinAnswer>() == 16 && offset_of!(JoinAnswer, bytes) == 8);
    assert!(size_of::<HubAnswer>() == 4 && offset_of!(HubAnswer, frames) == 2);
    assert!(size_of::<CheckAnswer>() == 8 && offset_of!(CheckAnswer, position) == 2);
    assert!(size_of::<RunAnswer>() == 12 && offset_of!(RunAnswer, delivered) == 4);
    assert!(size_of::<Saver>() == 588 && offset_of!(Saver, card) == 11 && offset_of!(Saver, position) == 204);
    assert!(size_of::<SaverAnswer>() == 656 && offset_of!(SaverAnswer, saver) == 68);
};

/// C assertions that a struct of the header has the size of ours, and each field the place and size of ours.
macro_rules! same_layout {
    ($c:ident is $rust:ident $(with $($field:ident)*)?) => {
        [
            format!("_Static_assert(sizeof({0}) == {1}, \"{0}\");\n", stringify!($c), size_of::<$rust>()),
            $($(same_field(
                stringify!($c),
                stringify!($field),
                offset_of!($rust, $field),
                field_size(|answer: &$rust| &answer.$field),
            )),*)?
        ]
        .concat()
    };
}

fn same_field(c: &str, field: &str, offset: usize, size: usize) -> String {
    let place = format!("_Static_assert(offsetof({c}, {field}) == {offset}, \"{c}.{field}\");\n");
    let extent = format!("_Static_assert(sizeof((({c} *)0)->{field}) == {size}, \"{c}.{field}\");\n");
    place + &extent
}

/// The size of the field that `_get` gives.
fn field_size<S, F>(_get: fn(&S) -> &F) -> usize {
    size_of::<F>()
}

#[test]
fn structs_are_those_of_the_header() {
    compile(&[
        same_layout!(dockplan_cycle is Cycle),
        same_layout!(dockplan_position is Position),
        same_layout!(dockplan_ticket_answer is TicketAnswer with refusal edition mode cards pool frames),
        same_layout!(dockplan_part is Part with offset length),
        same_layout!(dockplan_counts_answer is CountsAnswer with refusal frames),
        same_layout!(dockplan_plan_answer is PlanAnswer with refusal cycles),
        same_layout!(dockplan_join_answer is JoinAnswer with refusal bytes),
        same_layout!(dockplan_hub_answer is HubAnswer with refusal frames),
        same_layout!(dockplan_check_answer is CheckAnswer with refusal verdict position cycles peak),
        same_layout!(dockplan_run_answer is RunAnswer with refusal broken complete delivered ended needed peak),
        same_layout!(dockplan_saver is Saver with cards pool taken made waiting closing card position),
        same_layout!(dockplan_saver_answer is SaverAnswer with refusal cycle written saver),
    ]);
}

/// The name that a type of `raw` has in the header.
trait InHeader {
    const NAME: &'static str;
}

macro_rules! in_header {
    ($($rust:ty as $c:literal)*) => {
        $(impl InHeader for $rust {
            const NAME: &'static str = $c;
        })*
    };
}

in_header! {
    u8 as "uint8_t"
    u16 as "uint16_t"
    u32 as "uint32_t"
    usize as "size_t"
    *const u8 as "const uint8_t *"
    *const u16 as "const uint16_t *"
    *mut u8 as "uint8_t *"
    *mut u16 as "uint16_t *"
    Position as "dockplan_position"
    TicketAnswer as "dockplan_ticket_answer"
    Part as "dockplan_part"
    CountsAnswer as "dockplan_counts_answer"
    PlanAnswer as "dockplan_plan_answer"
    JoinAnswer as "dockplan_join_answer"
    HubAnswer as "dockplan_hub_answer"
    CheckAnswer as "dockplan_check_answer"
    RunAnswer as "dockplan_run_answer"
    Saver as "dockplan_saver"
    SaverAnswer as "dockplan_saver_answer"
}

/// A C assertion that a call of the header takes and answers these types. That ours does is asked of the Rust compiler.
macro_rules! same_call {
    ($call:ident($($argument:ty),*) -> $answer:ty) => {{
        let _: unsafe extern "C" fn($($argument),*) -> $answer = $call;
        let arguments: &[&str] = &[$(<$argument>::NAME),*];
        let arguments = if arguments.is_empty() { "void".into() } else { arguments.join(", ") };
        let (call, answer) = (stringify!($call), <$answer>::NAME);
        format!("_Static_assert(_Generic(&{call}, {answer} (*)({arguments}): 1, default: 0), \"{call}\");\n")
    }};
}

#[test]
fn calls_are_those_of_the_header() {
    compile(&[
        same_call!(dockplan_version() -> u32),
        same_call!(dockplan_parse(*const u8, usize) -> TicketAnswer),
        same_call!(dockplan_line(*const u8, usize, Position) -> Part),
        same_call!(dockplan_line_refusal(*const u8, usize, Position) -> u8),
        same_call!(dockplan_counts(*const u8, usize) -> CountsAnswer),
        same_call!(dockplan_plan(*const u8, usize, *mut u16, usize) -> PlanAnswer),
        same_call!(dockplan_print(*const u8, usize, *mut u8, usize) -> usize),
        same_call!(dockplan_join(*const u8, usize, *const u8, usize, *mut u8, usize) -> JoinAnswer),
        same_call!(dockplan_hub(*const u8, usize, *const u8, usize, *mut u8, usize) -> HubAnswer),
        same_call!(dockplan_check(*const u8, usize, *const u16, usize) -> CheckAnswer),
        same_call!(dockplan_run_plan(*const u8, usize, *const u16, usize) -> RunAnswer),
        same_call!(dockplan_saver_new(u8, u16) -> SaverAnswer),
        same_call!(dockplan_saver_save(Saver, u8) -> SaverAnswer),
        same_call!(dockplan_saver_close(Saver) -> SaverAnswer),
    ]);
}

/// Wherever the header has a cycle or a position, it has the type of its own.
#[test]
fn cycles_and_positions_are_not_plain_numbers() {
    let fields = [
        ("dockplan_plan_answer", "cycles", "dockplan_cycle"),
        ("dockplan_check_answer", "position", "dockplan_position"),
        ("dockplan_check_answer", "cycles", "dockplan_cycle"),
        ("dockplan_run_answer", "ended", "dockplan_cycle"),
        ("dockplan_run_answer", "needed", "dockplan_cycle"),
        ("dockplan_saver", "made", "dockplan_cycle"),
        ("dockplan_saver", "position[0]", "dockplan_position"),
        ("dockplan_saver_answer", "cycle", "dockplan_cycle"),
        ("dockplan_saver_answer", "written[0]", "dockplan_position"),
    ];
    compile(&fields.map(|(c, field, own)| {
        format!("_Static_assert(_Generic((({c} *)0)->{field}, {own}: 1, default: 0), \"{c}.{field}\");\n")
    }));
}

#[test]
fn constants_are_those_of_the_header() {
    let constants = [
        ("VERSION", VERSION as usize),
        ("NO_VERDICT", usize::from(NO_VERDICT)),
        ("VALID", usize::from(VALID)),
        ("NO_CYCLE", usize::from(NO_CYCLE)),
        ("SHARED_CARD", usize::from(SHARED_CARD)),
        ("OVERFULL", usize::from(OVERFULL)),
        ("NONE", usize::from(NONE)),
        ("MAX_CARDS", 32),
        ("MAX_POOL", MAX_POOL),
        ("MAX_FRAMES", 4096),
        ("MAX_TICKET_BYTES", 15 + 11 * 4096),
        ("MAX_PRINTED_BYTES", 5 + 11 * 4096),
        ("HUB_CAMERAS", 6),
        ("HUB_CARDS", 8),
        ("READ", 0),
        ("SAVE", 1),
        ("SAVE_AND_KEEP", 2),
    ];
    compile(&constants.map(|(name, value)| format!("_Static_assert(DOCKPLAN_{name} == {value}, \"{name}\");\n")));
}

/// The version that the header states is the one that the archive answers.
#[test]
fn header_and_archive_belong_together() {
    assert!(dockplan::belongs_together());
}

#[test]
fn the_header_is_for_c_and_cpp() {
    for language in ["-std=c99 -x c", "-std=c11 -x c", "-std=c++11 -x c++"] {
        compile_as(language, &[]);
    }
}

/// The C compiler accepts the assertions.
fn compile(assertions: &[String]) {
    compile_as("-std=c11 -x c", assertions);
}

fn compile_as(language: &str, assertions: &[String]) {
    let text = format!("#include \"dockplan.h\"\n{}", assertions.concat());
    let mut compiler = Command::new("gcc")
        .arg(concat!("-I", env!("CARGO_MANIFEST_DIR"), "/../include"))
        .args("-Wall -Wextra -Wpedantic -Werror -fsyntax-only".split(' '))
        .args(language.split(' '))
        .arg("-")
        .stdin(Stdio::piped())
        .spawn()
        .unwrap();
    compiler.stdin.take().unwrap().write_all(text.as_bytes()).unwrap();
    assert!(compiler.wait().unwrap().success(), "the header differs");
}
