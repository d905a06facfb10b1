//! Accesses by an integer or a truth value allocate nothing in this crate: neither text nor box goes to the library.

use argus_guardian::{Access, Change, Error, Guardian, Shared, Value};
use std::alloc::{GlobalAlloc, Layout, System};
use std::cell::Cell;

struct Counter;

thread_local! {
    static ALLOCATIONS: Cell<u64> = const { Cell::new(0) };
}

// SAFETY: it is the system's allocator; to count allocates nothing.
unsafe impl GlobalAlloc for Counter {
    unsafe fn alloc(&self, layout: Layout) -> *mut u8 {
        ALLOCATIONS.set(ALLOCATIONS.get() + 1);
        // SAFETY: as the caller says.
        unsafe { System.alloc(layout) }
    }

    unsafe fn dealloc(&self, at: *mut u8, layout: Layout) {
        // SAFETY: as the caller says.
        unsafe { System.dealloc(at, layout) }
    }
}

#[global_allocator]
static COUNTER: Counter = Counter;

// How often this allocates.
fn allocations_of(work: impl FnOnce() -> Result<(), Error>) -> Result<u64, Error> {
    let before = ALLOCATIONS.get();
    work()?;
    Ok(ALLOCATIONS.get() - before)
}

#[test]
fn integers_and_truth_values() -> Result<(), Error> {
    let shared = Shared::from(Guardian::new()?);
    let record = shared.named("record", "atomic_record[n:int,is:bool]")?;
    let numbers = shared.named("numbers", "atomic_array[int]")?;
    let flags = shared.named("flags", "atomic_array[bool]")?;
    let top = shared.topaction()?;
    top.create(&record, (5, false))?;
    top.create(&numbers, vec![0; 2])?;
    top.create(&flags, vec![false; 2])?;
    let count = allocations_of(|| {
        top.set(&record, "n", 7)?;
        top.set(&record, 1, true)?;
        assert_eq!(top.get::<i64>(&record, 0)?, 7);
        assert!(top.get::<bool>(&record, "is")?);
        top.update(&record, "n", |it: i64| it + 1)?;
        for (array, value) in [(&numbers, Value::Int(7)), (&flags, Value::Bool(true))] {
            top.alter(array, Change::Addh(value.clone()))?.done()?;
            top.alter(array, Change::Addl(value.clone()))?.done()?;
            top.alter(array, Change::Store(0, value))?.done()?;
        }
        Ok(())
    })?;
    assert_eq!(count, 0);
    // A text does.
    let names = shared.named("names", "atomic_array[text]")?;
    top.create(&names, Vec::<String>::new())?;
    assert_ne!(allocations_of(|| top.array(&names).push("ann"))?, 0);
    Ok(())
}
