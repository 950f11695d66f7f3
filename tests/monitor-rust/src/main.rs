//! A monitor without a standard library: it loads the sample into a window through the crate loadplan and looks at every
//! byte. It ends with 0 if all is as it should be, else with the number of the first thing that is not.
#![no_std]
#![no_main]

use core::arch::asm;
use core::panic::PanicInfo;

use loadplan::endian::AnyEndian;
use loadplan::plan::{load, Refusal, Window, RECORD_SIZE};
use loadplan::ElfBytes;

const SAMPLE: &[u8] = include_bytes!("../../corpus/made/sample");
const WINDOW: Window = Window { start: 0x40_0000, length: 0x2000 };
const CODE: usize = 0xb8;
const DATA_AT: usize = 0x10b8;
const FILL: u8 = 0xaa;

/// Bytes on which the compiler may not see a pattern that it would write with the function that is being written.
mod bytes {
    /// # Safety
    /// `to` points to `length` bytes that may be written.
    #[no_mangle]
    pub unsafe extern "C" fn memset(to: *mut u8, value: i32, length: usize) -> *mut u8 {
        for i in 0..length {
            to.add(i).write_volatile(value as u8);
        }
        to
    }

    /// # Safety
    /// Both point to `length` bytes, which do not overlap; those of `to` may be written.
    #[no_mangle]
    pub unsafe extern "C" fn memcpy(to: *mut u8, from: *const u8, length: usize) -> *mut u8 {
        for i in 0..length {
            to.add(i).write_volatile(from.add(i).read());
        }
        to
    }

    /// # Safety
    /// Both point to `length` bytes; those of `to` may be written.
    #[no_mangle]
    pub unsafe extern "C" fn memmove(to: *mut u8, from: *const u8, length: usize) -> *mut u8 {
        if to as usize <= from as usize {
            return memcpy(to, from, length);
        }
        for i in (0..length).rev() {
            to.add(i).write_volatile(from.add(i).read());
        }
        to
    }

    /// # Safety
    /// Both point to `length` bytes.
    #[no_mangle]
    pub unsafe extern "C" fn memcmp(one: *const u8, other: *const u8, length: usize) -> i32 {
        for i in 0..length {
            let (a, b) = (one.add(i).read_volatile(), other.add(i).read_volatile());
            if a != b {
                return i32::from(a) - i32::from(b);
            }
        }
        0
    }
}

#[panic_handler]
fn panic(_: &PanicInfo<'_>) -> ! {
    end(99)
}

fn end(status: i32) -> ! {
    // SAFETY: the call exit does not return.
    unsafe { asm!("syscall", in("rax") 60, in("rdi") status, options(noreturn)) }
}

/// What the memory must hold at an offset after loading.
fn expected(at: usize) -> u8 {
    match at {
        _ if at < CODE => SAMPLE[at],
        _ if (DATA_AT..DATA_AT + 8).contains(&at) => SAMPLE[CODE + at - DATA_AT],
        _ => 0,
    }
}

fn refuses(table: &mut [u8], memory: &mut [u8]) -> Result<(), i32> {
    for length in 0..SAMPLE.len() {
        if load(&SAMPLE[..length], WINDOW, table, memory).is_ok() {
            return Err(1);
        }
    }
    let outside = Window { length: 0x1000, ..WINDOW };
    match load(SAMPLE, outside, table, &mut memory[..0x1000]) {
        Err(Refusal::OutsideWindow) => {}
        _ => return Err(2),
    }
    let untouched = memory.iter().chain(table.iter()).all(|&byte| byte == FILL);
    if untouched {
        Ok(())
    } else {
        Err(3)
    }
}

fn loads(table: &mut [u8], memory: &mut [u8]) -> Result<(), i32> {
    let plan = load(SAMPLE, WINDOW, table, memory).map_err(|_| 4)?;
    let flags = plan.records().map(|record| record.flags);
    if !flags.eq([5, 6]) {
        return Err(5);
    }
    if (0..memory.len()).any(|at| memory[at] != expected(at)) {
        return Err(6);
    }
    let elf = ElfBytes::<AnyEndian>::minimal_parse(SAMPLE).map_err(|_| 7)?;
    let segments = elf.segments().ok_or(8)?;
    if elf.ehdr.e_entry == 0x40_00b0 && segments.len() == 2 {
        Ok(())
    } else {
        Err(9)
    }
}

fn monitor() -> i32 {
    let mut memory = [FILL; WINDOW.length as usize];
    let mut table = [FILL; 2 * RECORD_SIZE];
    let ended = refuses(&mut table, &mut memory).and_then(|()| loads(&mut table, &mut memory));
    ended.err().unwrap_or(0)
}

extern "C" fn started() -> ! {
    end(monitor())
}

// Where the system starts a program: the stack pointer is as a function's caller has it, so a call makes it right.
core::arch::global_asm!(".globl _start", "_start:", "call {}", sym started);

/// The compiled core library names it where it was built to unwind; a program that aborts never calls it.
#[no_mangle]
pub extern "C" fn rust_eh_personality() {}
