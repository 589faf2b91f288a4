//! A program without the standard library, over the crate `denial` without features. Its status is 0
//! if an answer is right. tests/packages builds and runs it.
#![no_std]
#![no_main]

#[link(name = "c")]
extern "C" {
    fn abort() -> !;
}

#[panic_handler]
fn panic(_: &core::panic::PanicInfo<'_>) -> ! {
    // SAFETY: the function takes nothing and does not return.
    unsafe { abort() }
}

/// The core library names this function for unwinding. It is never called, since a panic aborts.
#[no_mangle]
pub extern "C" fn rust_eh_personality() {}

#[no_mangle]
pub extern "C" fn main() -> i32 {
    match denial::judge_nsec(b"\x01a\0", b"\x01b\0", 1, 1, &[]) {
        Ok(denial::Judgement::OutsideZone) => 0,
        _ => 1,
    }
}
