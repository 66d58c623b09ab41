//! One call of a function, instruction by instruction, on a painted stack of its own. The processor's trap flag raises a
//! signal after each instruction; the handler counts and looks at the stack pointer. For Linux on x86-64.

use std::arch::asm;
use std::ffi::{c_int, c_void};
use std::ptr::null_mut;
use std::sync::atomic::{AtomicU64, Ordering::Relaxed};

/// What a call took.
#[derive(Clone, Copy, Default, PartialEq, Eq)]
pub struct Taken {
    /// Instructions of this program, which holds the function and what it calls in its own library.
    pub own: u64,
    /// Instructions elsewhere: in C's library.
    pub elsewhere: u64,
    /// Octets of stack from the return address down to the lowest that was written or pointed at.
    pub stack: u64,
}

impl Taken {
    pub fn instructions(&self) -> u64 {
        self.own + self.elsewhere
    }
}

const STACK: usize = 1 << 16;
const PAINT: u8 = 0xA5;

const SIGTRAP: c_int = 5;
const SA_SIGINFO: c_int = 4;
const SA_ONSTACK: c_int = 0x0800_0000;
/// Where the registers stand in a handler's context, in words of 64 bits.
const CONTEXT_POINTER: usize = 20;
const CONTEXT_INSTRUCTION: usize = 21;
const CONTEXT_FLAGS: usize = 22;
const TRAP_FLAG: u64 = 0x100;

#[repr(C)]
struct SignalAction {
    handler: extern "C" fn(c_int, *mut c_void, *mut u64),
    mask: [u64; 16],
    flags: c_int,
    restorer: usize,
}

#[repr(C)]
struct SignalStack {
    start: *mut u8,
    flags: c_int,
    octets: usize,
}

extern "C" {
    fn sigaction(signal: c_int, action: *const SignalAction, old: *mut c_void) -> c_int;
    fn sigaltstack(stack: *const SignalStack, old: *mut c_void) -> c_int;
    // Where this program's instructions start and end, by the linker.
    static __executable_start: u8;
    static etext: u8;
}

static FUNCTION: AtomicU64 = AtomicU64::new(0);
/// The stack pointer at the function's first instruction; 0 before it.
static ENTRY: AtomicU64 = AtomicU64::new(0);
static LOWEST: AtomicU64 = AtomicU64::new(0);
static LAST: AtomicU64 = AtomicU64::new(0);
static OWN: AtomicU64 = AtomicU64::new(0);
static ELSEWHERE: AtomicU64 = AtomicU64::new(0);

fn in_program(address: u64) -> bool {
    let (start, end) = (&raw const __executable_start, &raw const etext);
    (start as u64..end as u64).contains(&address)
}

/// Comes before each instruction while the trap flag is set.
extern "C" fn step(_: c_int, _: *mut c_void, context: *mut u64) {
    // SAFETY: the system hands the context of this processor and system, and nobody else looks at it meanwhile.
    let register = |at: usize| unsafe { *context.add(at) };
    let (pointer, instruction) = (register(CONTEXT_POINTER), register(CONTEXT_INSTRUCTION));
    let entry = ENTRY.load(Relaxed);
    if entry == 0 && instruction == FUNCTION.load(Relaxed) {
        ENTRY.store(pointer, Relaxed);
        LOWEST.store(pointer, Relaxed);
    } else if entry == 0 {
        return;
    } else if pointer == entry + 8 {
        // The function has returned.
        // SAFETY: as above; the flags are restored from here.
        unsafe { *context.add(CONTEXT_FLAGS) &= !TRAP_FLAG };
        return;
    }
    LOWEST.fetch_min(pointer, Relaxed);
    // A repeated string instruction traps after each turn, and is one.
    if LAST.swap(instruction, Relaxed) != instruction {
        let counter = if in_program(instruction) {
            &OWN
        } else {
            &ELSEWHERE
        };
        counter.fetch_add(1, Relaxed);
    }
}

/// Sets the handler up, with a stack of its own.
pub fn prepare() {
    let stack = SignalStack {
        start: Box::leak(vec![0; STACK].into_boxed_slice()).as_mut_ptr(),
        flags: 0,
        octets: STACK,
    };
    let action = SignalAction {
        handler: step,
        mask: [0; 16],
        flags: SA_SIGINFO | SA_ONSTACK,
        restorer: 0,
    };
    // SAFETY: both are laid out as the system's C library has them, and the stack is never given back.
    let set = unsafe {
        sigaltstack(&stack, null_mut()) == 0 && sigaction(SIGTRAP, &action, null_mut()) == 0
    };
    assert!(set, "no handler for single steps");
}

/// The call on the other stack, with the trap flag set just before it.
extern "C" fn traced(call: *mut &mut dyn FnMut()) {
    // SAFETY: the caller's reference, which nobody else has; the flag is cleared by the handler.
    unsafe {
        asm!("pushfq", "or qword ptr [rsp], 0x100", "popfq");
        (*call)();
    }
}

/// Makes a call that calls the function at this address once, and says what the function took.
pub fn taken(function: u64, mut call: &mut dyn FnMut()) -> Taken {
    FUNCTION.store(function, Relaxed);
    for counter in [&ENTRY, &LOWEST, &LAST, &OWN, &ELSEWHERE] {
        counter.store(0, Relaxed);
    }
    let mut stack = vec![PAINT; STACK];
    let top = (stack.as_mut_ptr() as u64 + STACK as u64) & !15;
    // SAFETY: the stack is large enough for any call here, and `traced` returns.
    unsafe {
        asm!(
            "mov r12, rsp",
            "mov rsp, {top}",
            "call {traced}",
            "mov rsp, r12",
            top = in(reg) top,
            traced = sym traced,
            in("rdi") &raw mut call,
            out("r12") _,
            clobber_abi("C"),
        );
    }
    let entry = ENTRY.load(Relaxed);
    assert!(entry != 0, "the function was not called");
    let painted =
        stack.iter().take_while(|octet| **octet == PAINT).count() as u64 + stack.as_ptr() as u64;
    Taken {
        own: OWN.load(Relaxed),
        elsewhere: ELSEWHERE.load(Relaxed),
        stack: entry + 8 - LOWEST.load(Relaxed).min(painted),
    }
}
