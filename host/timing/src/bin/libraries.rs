//! Compares runs of two builds of libtavvinur.a, given as shared objects at several places of linking. `host/timing/libraries` makes those and runs it.

// what the modules have for the other program
#![allow(dead_code)]

#[path = "../clock.rs"]
mod clock;
#[path = "../label.rs"]
mod label;
#[path = "../mixed.rs"]
mod mixed;
#[path = "../pairs.rs"]
mod pairs;
#[path = "../plain.rs"]
mod plain;
#[path = "../straight.rs"]
mod straight;
#[path = "../../../rust/tavvinur.rs"]
mod tavvinur;

use pairs::Pairs;
use std::{ffi::c_void, ffi::CString, os::raw::c_char, time::Duration};
use tavvinur::{row_marks, row_words, Answer, Printed};

type NewExecutor = unsafe extern "C" fn(
    *mut u64,
    usize,
    *mut u8,
    usize,
    u64,
    u64,
    u64,
    *const u8,
    usize,
    u64,
    *const u8,
    usize,
) -> u64;

type Run = unsafe extern "C" fn(
    *mut u64,
    usize,
    *mut u8,
    usize,
    u64,
    u64,
    u32,
    *const u64,
    usize,
) -> Answer;

type RunProgram = unsafe extern "C" fn(
    *mut u64,
    usize,
    *mut u8,
    usize,
    u64,
    u64,
    u32,
    u64,
    *const u8,
    usize,
    u64,
    *const u8,
    usize,
    *const u64,
    usize,
    *mut u8,
    usize,
) -> Printed;

extern "C" {
    fn dlopen(name: *const c_char, flags: i32) -> *mut c_void;
    fn dlsym(library: *mut c_void, name: *const c_char) -> *mut c_void;
}

const RTLD_NOW: i32 = 2;

const MEMORY: u64 = 65_536;
const LOG: u64 = 0;
const CODE_ADDRESS: u64 = 0;
const DATA_ADDRESS: u64 = 0x200;

struct Library {
    new_executor: NewExecutor,
    run: Run,
    run_program: RunProgram,
}

fn c_string(text: &str) -> CString {
    CString::new(text).expect("no zero byte")
}

impl Library {
    fn open(path: &str) -> Library {
        // the object stays loaded, and the symbols have the types that host/tavvinur.h gives them
        unsafe {
            let library = dlopen(c_string(path).as_ptr(), RTLD_NOW);
            assert!(!library.is_null(), "{} cannot be loaded", path);
            let symbol = |name| {
                let symbol = dlsym(library, c_string(name).as_ptr());
                assert!(!symbol.is_null(), "{} has no {}", path, name);
                symbol
            };
            Library {
                new_executor: std::mem::transmute(symbol("tavvinur_new_executor")),
                run: std::mem::transmute(symbol("tavvinur_run")),
                run_program: std::mem::transmute(symbol("tavvinur_run_program")),
            }
        }
    }

    /// An executor of a program, which each call runs on.
    fn runs(&self, code: &[u8]) -> impl FnMut(u32) -> Duration {
        let (mut words, mut marks) = (vec![0; row_words(MEMORY, LOG)], vec![0; row_marks(MEMORY)]);
        // pointers and lengths are of the vectors and of the code
        let refused = unsafe {
            (self.new_executor)(
                words.as_mut_ptr(),
                words.len(),
                marks.as_mut_ptr(),
                marks.len(),
                MEMORY,
                LOG,
                CODE_ADDRESS,
                code.as_ptr(),
                code.len(),
                DATA_ADDRESS,
                code.as_ptr(),
                0,
            )
        };
        assert_eq!(refused, 0, "the program is accepted");
        let run = self.run;
        move |instructions| {
            let started = clock::now();
            let answer = unsafe {
                run(
                    words.as_mut_ptr(),
                    words.len(),
                    marks.as_mut_ptr(),
                    marks.len(),
                    MEMORY,
                    LOG,
                    instructions,
                    words.as_ptr(),
                    0,
                )
            };
            let time = clock::now() - started;
            assert_eq!(answer.number, 22);
            time
        }
    }

    /// A program at the counter, which each call loads and runs; it writes at most one byte in ten instructions.
    fn prints(&self, code: &'static [u8]) -> impl FnMut(u32) -> Duration {
        let (mut words, mut marks) = (vec![0; row_words(MEMORY, LOG)], vec![0; row_marks(MEMORY)]);
        let mut output = vec![1; pairs::RUN_INSTRUCTIONS as usize / 10];
        let run_program = self.run_program;
        move |instructions| {
            let started = clock::now();
            // as in `runs`
            let printed = unsafe {
                run_program(
                    words.as_mut_ptr(),
                    words.len(),
                    marks.as_mut_ptr(),
                    marks.len(),
                    MEMORY,
                    LOG,
                    instructions,
                    CODE_ADDRESS,
                    code.as_ptr(),
                    code.len(),
                    DATA_ADDRESS,
                    code.as_ptr(),
                    0,
                    [0].as_ptr(),
                    0,
                    output.as_mut_ptr(),
                    output.len(),
                )
            };
            let time = clock::now() - started;
            assert_eq!(printed.number, 22);
            assert!(printed.written > 0);
            time
        }
    }
}

/// A line of the table: what it compares, told how to take each library's times.
fn line<F: FnMut(u32) -> Duration>(
    name: &str,
    places: &[[Library; 2]],
    times: impl Fn(&Library) -> F,
) {
    let ratios: Vec<f64> = (places.iter())
        .map(|[first, second]| Pairs::taken(times(first), times(second)).ratios()[1])
        .collect();
    let each: Vec<String> = ratios.iter().map(|ratio| format!("{:.2}", ratio)).collect();
    let mean = ratios.iter().sum::<f64>() / ratios.len() as f64;
    println!("| {} | {} | {:.2} |", name, each.join(", "), mean);
}

fn main() {
    let paths: Vec<String> = std::env::args().skip(1).collect();
    let places: Vec<[Library; 2]> = (paths.chunks(2))
        .map(|pair| [Library::open(&pair[0]), Library::open(&pair[1])])
        .collect();
    println!("| loop | the second's speed over the first's, at each place | mean |");
    println!("|---|---|---|");
    for (name, code) in [
        ("mixed", &mixed::MIXED_CODE[..]),
        ("plain", &plain::PLAIN_CODE),
        ("label", &label::LABEL_CODE),
        ("straight", &straight::STRAIGHT_CODE),
    ] {
        line(name, &places, |library| library.runs(code));
    }
    for (name, code) in [
        ("label, printed at the counter", &label::LABEL_CODE[..]),
        ("straight, printed at the counter", &straight::STRAIGHT_CODE),
    ] {
        line(name, &places, |library| library.prints(code));
    }
}
