//! How deep into the stack a call goes. It is made on a stack of our own, all of whose bytes are alike
//! before, and afterwards the lowest one that is not is looked for. Room that a call takes and neither
//! writes to nor calls anything below is not seen.

use std::ffi::c_void;
use std::ptr;

const SIZE: usize = 16 * 1_048_576;
const PAGE: usize = 4_096;
const UNTOUCHED: u8 = 0xA5;

/// What POSIX calls `pthread_attr_t`: 56 bytes on x86-64.
#[repr(C, align(16))]
struct Attributes([u8; 64]);

type Start = extern "C" fn(*mut c_void) -> *mut c_void;

unsafe extern "C" {
    fn pthread_attr_init(attributes: *mut Attributes) -> i32;
    fn pthread_attr_setstack(attributes: *mut Attributes, stack: *mut c_void, size: usize) -> i32;
    fn pthread_create(
        thread: *mut usize,
        attributes: *const Attributes,
        start: Start,
        argument: *mut c_void,
    ) -> i32;
    fn pthread_join(thread: usize, result: *mut *mut c_void) -> i32;
}

/// What a thread does, and where its stack stands when it begins to.
struct Task<'a> {
    call: &'a mut dyn FnMut(),
    top: usize,
}

extern "C" fn start(argument: *mut c_void) -> *mut c_void {
    // Whoever made the thread handed a task over, and leaves it alone until the thread has ended.
    let task = unsafe { &mut *argument.cast::<Task>() };
    let here = 0_u8;
    task.top = ptr::from_ref(&here) as usize;
    (task.call)();
    ptr::null_mut()
}

/// The bytes from where a thread calls down to the lowest that is written; none where no thread could
/// be made.
pub fn depth(call: &mut dyn FnMut()) -> Option<usize> {
    let mut memory = vec![UNTOUCHED; SIZE + PAGE];
    let skipped = memory.as_ptr().align_offset(PAGE);
    let stack = &mut memory[skipped..skipped + SIZE];
    let mut task = Task { call, top: 0 };
    if !run(stack, ptr::from_mut(&mut task).cast()) {
        return None;
    }
    let lowest = stack.iter().position(|&byte| byte != UNTOUCHED)?;
    Some(task.top - (stack.as_ptr() as usize + lowest))
}

/// Runs a task on the stack, and waits until it has ended.
fn run(stack: &mut [u8], task: *mut c_void) -> bool {
    let mut attributes = Attributes([0; 64]);
    let mut thread = 0;
    // The stack is ours until the thread has ended.
    unsafe {
        pthread_attr_init(&mut attributes) == 0
            && pthread_attr_setstack(&mut attributes, stack.as_mut_ptr().cast(), stack.len()) == 0
            && pthread_create(&mut thread, &attributes, start, task) == 0
            && pthread_join(thread, ptr::null_mut()) == 0
    }
}
