//! How much stack a piece of work uses. It runs in a thread whose stack was painted: the
//! lowest byte that lost its paint is how far down it went.
use std::{
    alloc::{Layout, alloc, dealloc, handle_alloc_error},
    ffi::c_void,
    ptr, slice,
};

const PAINT: u8 = 0xA5;
/// Far more than an entry needs.
const LAYOUT: Layout = match Layout::from_size_align(8 << 20, 4096) {
    Ok(layout) => layout,
    Err(_) => panic!("a power of two"),
};

/// `pthread_attr_t` of Linux on x86-64, the only target of libentries.a.
#[repr(C, align(8))]
struct Attributes([u8; 56]);

type Start = extern "C" fn(*mut c_void) -> *mut c_void;

unsafe extern "C" {
    fn pthread_attr_init(attributes: *mut Attributes) -> i32;
    fn pthread_attr_destroy(attributes: *mut Attributes) -> i32;
    fn pthread_attr_setstack(attributes: *mut Attributes, at: *mut c_void, size: usize) -> i32;
    fn pthread_create(
        thread: *mut usize,
        attributes: *const Attributes,
        start: Start,
        argument: *mut c_void,
    ) -> i32;
    fn pthread_join(thread: usize, value: *mut *mut c_void) -> i32;
}

/// The most bytes of stack that `work` uses, above what a thread needs that does nothing.
pub fn most(work: &mut dyn FnMut()) -> usize {
    painted(work) - painted(&mut || ())
}

/// How many bytes of a painted stack are used by a thread that does the work.
fn painted(work: &mut dyn FnMut()) -> usize {
    // SAFETY: the layout has a size; all of its bytes are painted before they are read; the
    // thread has ended when they are, and when they are given back.
    unsafe {
        let stack = alloc(LAYOUT);
        if stack.is_null() {
            handle_alloc_error(LAYOUT);
        }
        ptr::write_bytes(stack, PAINT, LAYOUT.size());
        on_stack(stack, work);
        let bytes = slice::from_raw_parts(stack, LAYOUT.size());
        let whole = bytes.iter().take_while(|byte| **byte == PAINT).count();
        dealloc(stack, LAYOUT);
        LAYOUT.size() - whole
    }
}

/// Does the work in a thread on the stack, and waits for its end.
///
/// # Safety
/// The stack has `LAYOUT`, and nothing else uses it.
unsafe fn on_stack(stack: *mut u8, work: &mut dyn FnMut()) {
    let mut work = work;
    let argument: *mut &mut dyn FnMut() = &mut work;
    let mut attributes = Attributes([0; 56]);
    let (mut thread, mut value) = (0, ptr::null_mut());
    let done = |result: i32| assert_eq!(result, 0, "a thread on the painted stack");
    // SAFETY: the work outlives the thread, which is waited for here.
    unsafe {
        done(pthread_attr_init(&mut attributes));
        done(pthread_attr_setstack(&mut attributes, stack.cast(), LAYOUT.size()));
        done(pthread_create(&mut thread, &attributes, start, argument.cast()));
        done(pthread_join(thread, &mut value));
        done(pthread_attr_destroy(&mut attributes));
    }
}

extern "C" fn start(argument: *mut c_void) -> *mut c_void {
    // SAFETY: `on_stack` gives what it waits for.
    let work = unsafe { &mut *argument.cast::<&mut dyn FnMut()>() };
    work();
    ptr::null_mut()
}
