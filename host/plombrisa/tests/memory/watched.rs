//! An allocator that counts what a thread asks of it while it is watched, and that grants only so many requests.
use std::alloc::{GlobalAlloc, Layout, System};
use std::cell::Cell;
use std::ptr::null_mut;

/// What granted memory holds until somebody writes to it.
const MARK: u8 = 0xA5;

/// What was asked for while a thread was watched.
#[derive(Debug, Clone, Copy, Default, PartialEq, Eq)]
pub struct Asked {
    /// How many requests there were, granted or not.
    pub requests: usize,
    /// The bytes of all of them.
    pub bytes: u64,
    /// How many of them were given back.
    pub given_back: usize,
    /// How many bytes of those that were given back had been written to.
    pub written: usize,
}

/// What was asked for so far, and how many requests are granted.
#[derive(Clone, Copy)]
struct Watch {
    asked: Asked,
    granted: usize,
}

thread_local! {
    static WATCH: Cell<Option<Watch>> = const { Cell::new(None) };
}

struct Watched;

#[global_allocator]
static ALLOCATOR: Watched = Watched;

// Safety: all memory is the system's; the other functions of the trait are made of these two.
unsafe impl GlobalAlloc for Watched {
    unsafe fn alloc(&self, layout: Layout) -> *mut u8 {
        let Some(mut watch) = WATCH.get() else { return unsafe { System.alloc(layout) } };
        watch.asked.requests += 1;
        watch.asked.bytes += layout.size() as u64;
        WATCH.set(Some(watch));
        if watch.asked.requests > watch.granted {
            return null_mut();
        }
        let memory = unsafe { System.alloc(layout) };
        if !memory.is_null() {
            unsafe { memory.write_bytes(MARK, layout.size()) };
        }
        memory
    }

    unsafe fn dealloc(&self, memory: *mut u8, layout: Layout) {
        if let Some(mut watch) = WATCH.get() {
            let bytes = unsafe { std::slice::from_raw_parts(memory, layout.size()) };
            watch.asked.given_back += 1;
            watch.asked.written += bytes.iter().filter(|&&byte| byte != MARK).count();
            WATCH.set(Some(watch));
        }
        unsafe { System.dealloc(memory, layout) };
    }
}

/// What a call answers that is granted so many requests for memory and no more, and what it asked for.
pub fn granted<T>(requests: usize, call: impl FnOnce() -> T) -> (T, Asked) {
    WATCH.set(Some(Watch { asked: Asked::default(), granted: requests }));
    let answer = call();
    let watch = WATCH.replace(None).expect("the call was watched");
    (answer, watch.asked)
}
