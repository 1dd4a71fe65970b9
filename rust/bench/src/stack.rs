//! How much stack a call takes: it runs on a stack that was painted, and the paint that is left is counted.

use std::arch::asm;
use std::ffi::c_void;

const PAINT: u8 = 0xa5;
const SIZE: usize = 1 << 20;

/// Runs the closure that the pointer names.
extern "C" fn run(closure: *mut c_void) {
    // Sound: `used` alone calls this, with a pointer to a closure that outlives the call.
    let closure = unsafe { &mut *closure.cast::<&mut dyn FnMut()>() };
    closure();
}

/// Bytes of stack below the closure's caller that a run of it touches.
pub fn used(mut closure: &mut dyn FnMut()) -> usize {
    let mut stack = vec![PAINT; SIZE];
    let end = stack.as_mut_ptr_range().end;
    let top = end.wrapping_sub(end as usize % 16);
    let closure: *mut &mut dyn FnMut() = &mut closure;
    // Sound: the painted bytes serve as the stack of one call that ends before they are read, their end is aligned as a call
    // needs it, and the stack pointer is put back from a register that calls keep.
    unsafe {
        asm!(
            "mov r12, rsp",
            "mov rsp, {top}",
            "call {run}",
            "mov rsp, r12",
            top = in(reg) top,
            run = sym run,
            in("rdi") closure.cast::<c_void>(),
            out("r12") _,
            clobber_abi("C"),
        );
    }
    SIZE - stack.iter().take_while(|&&byte| byte == PAINT).count()
}
