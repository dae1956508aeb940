//! A run that a fault or a panic ends says in which case it was.

use std::sync::Mutex;

const FAULTS: [i32; 4] = [4, 7, 8, 11];

extern "C" {
    fn signal(number: i32, handler: extern "C" fn(i32)) -> usize;
    fn write(file: i32, bytes: *const u8, size: usize) -> isize;
    fn _exit(status: i32) -> !;
}

/// The case that is under way.
static CASE: Mutex<String> = Mutex::new(String::new());

/// Notes the case that comes next.
pub fn at(name: &str) {
    let mut case = CASE.lock().expect("one thread");
    case.clear();
    case.push_str(name);
}

extern "C" fn say(number: i32) {
    // The fault is the product's, which holds no lock and allocates nothing.
    if let Ok(case) = CASE.try_lock() {
        for part in ["a fault of memory or of arithmetic in ", &case, "\n"] {
            // SAFETY: the bytes are there.
            unsafe { write(2, part.as_ptr(), part.len()) };
        }
    }
    // SAFETY: it does not return.
    unsafe { _exit(128 + number) }
}

/// From now on faults are told, and panics with their case too.
pub fn tell() {
    std::panic::set_hook(Box::new(|panic| {
        let case = CASE.lock().map(|case| case.clone());
        eprintln!("{panic}\nin {}", case.unwrap_or_default());
    }));
    for number in FAULTS {
        // SAFETY: the handler calls nothing but what may be called there.
        unsafe { signal(number, say) };
    }
}
