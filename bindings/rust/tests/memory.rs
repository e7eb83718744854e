//! A push needs memory for the items that it gives, and not for those that might come.

use std::alloc::{GlobalAlloc, Layout, System};
use std::sync::atomic::{AtomicUsize, Ordering::Relaxed};

struct Counting;

static HELD: AtomicUsize = AtomicUsize::new(0);
static MOST: AtomicUsize = AtomicUsize::new(0);

// SAFETY: the system's allocator does all of it.
unsafe impl GlobalAlloc for Counting {
    unsafe fn alloc(&self, layout: Layout) -> *mut u8 {
        MOST.fetch_max(HELD.fetch_add(layout.size(), Relaxed) + layout.size(), Relaxed);
        System.alloc(layout)
    }

    unsafe fn dealloc(&self, at: *mut u8, layout: Layout) {
        HELD.fetch_sub(layout.size(), Relaxed);
        System.dealloc(at, layout);
    }
}

#[global_allocator]
static COUNTING: Counting = Counting;

#[test]
fn a_push_of_zeros_takes_little() {
    let bytes = vec![0; 50 << 20];
    let before = HELD.load(Relaxed);
    MOST.store(before, Relaxed);
    let mut follower = rds::Follower::new(&rds::Rules::default(), &[]).unwrap();
    assert_eq!(follower.push(&bytes).unwrap().len(), 0);
    assert!(MOST.load(Relaxed) - before < 1 << 20, "{} bytes", MOST.load(Relaxed) - before);
}
