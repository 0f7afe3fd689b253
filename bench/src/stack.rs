//! How much stack a call takes: the stack below is painted, the call made, and the lowest byte that changed is looked for.

const PAINT: u8 = 0xa5;
const REACH: usize = 1 << 20;
/// What the painting and the looking themselves may use.
const MARGIN: usize = 512;

/// Bytes of stack below this frame that a call writes to.
pub fn used(call: impl FnOnce() + Send) -> usize {
    std::thread::scope(|scope| {
        let thread = std::thread::Builder::new().stack_size(4 * REACH);
        thread.spawn_scoped(scope, || measured(call)).unwrap().join().unwrap()
    })
}

#[inline(never)]
fn measured(call: impl FnOnce()) -> usize {
    let here = 0u8;
    let top = std::hint::black_box(&here) as *const u8 as usize;
    paint(top);
    call();
    top - lowest(top)
}

#[inline(never)]
fn paint(top: usize) {
    for at in top - REACH..top - MARGIN {
        // Below every live frame, inside this thread's stack.
        unsafe { std::ptr::write_volatile(at as *mut u8, PAINT) };
    }
}

#[inline(never)]
fn lowest(top: usize) -> usize {
    let changed = |at: &usize| unsafe { std::ptr::read_volatile(*at as *const u8) } != PAINT;
    (top - REACH..top - MARGIN).find(changed).unwrap_or(top - MARGIN)
}
