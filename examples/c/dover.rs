//! The engine for Rust: a wrapper whose calls are safe, since each meets what the library asks of a caller. The place
//! is on the heap and in nobody else's hands; it holds an engine from `new` to `drop`; and `&mut self` gives it to one
//! call at a time.
use std::mem::MaybeUninit;

/// The status of a place with an engine.
const MADE: u32 = 5;

#[repr(C, align(8))]
struct Place([u64; 90]);

/// The answer to a job: status 0 and its number, or why it wasn't admitted, with the job that breaks the ratio.
#[repr(C)]
#[derive(Clone, Copy, Debug, PartialEq, Eq)]
pub struct Admitted {
    pub number: u64,
    pub status: u32,
}

/// A decision, or by its kind why there is none.
#[repr(C)]
#[derive(Clone, Copy, Debug, PartialEq, Eq)]
pub struct Decision {
    pub tick: u64,
    pub job: u64,
    pub other: u64,
    pub kind: u32,
}

/// The job that would be next, with status 0, or by its status why there is none.
#[repr(C)]
#[derive(Clone, Copy, Debug, PartialEq, Eq)]
pub struct Named {
    pub job: u64,
    pub status: u32,
}

/// The tick for which to call next, with status 0, or by its status why there is none.
#[repr(C)]
#[derive(Clone, Copy, Debug, PartialEq, Eq)]
pub struct Due {
    pub tick: u64,
    pub status: u32,
}

/// The tick that a restart took off the clock, with status 0, or by its status why there was none.
#[repr(C)]
#[derive(Clone, Copy, Debug, PartialEq, Eq)]
pub struct Restarted {
    pub tick: u64,
    pub status: u32,
}

const _: () = assert!(size_of::<Restarted>() == 16 && std::mem::offset_of!(Restarted, status) == 8);
const _: () = assert!(size_of::<Due>() == 16 && std::mem::offset_of!(Due, status) == 8);
const _: () = assert!(size_of::<Named>() == 16 && std::mem::offset_of!(Named, status) == 8);
const _: () = assert!(size_of::<Admitted>() == 16 && std::mem::offset_of!(Admitted, status) == 8);
const _: () = assert!(size_of::<Decision>() == 32 && std::mem::offset_of!(Decision, kind) == 24);

unsafe extern "C" {
    fn dover_size() -> usize;
    fn dover_init(place: *mut Place, p: u32, q: u32, version: u32, capacity: u32);
    fn dover_init_factor(place: *mut Place, p: u32, q: u32, version: u32, capacity: u32, b: u32, c: u32);
    fn dover_status(place: *mut Place) -> u32;
    fn dover_admit(place: *mut Place, release: u64, work: u64, deadline: u64, value: u64) -> Admitted;
    fn dover_done(place: *mut Place, tick: u64, job: u64) -> u32;
    fn dover_step(place: *mut Place, mark: u64) -> Decision;
    fn dover_finish(place: *mut Place) -> Decision;
    fn dover_restart(place: *mut Place) -> Restarted;
    fn dover_next(place: *mut Place) -> Due;
    fn dover_successor(place: *mut Place) -> Named;
    fn dover_value(place: *mut Place) -> u64;
    fn dover_value_high(place: *mut Place) -> u64;
    fn dover_spare(place: *mut Place) -> u32;
    fn dover_drop(place: *mut Place);
}

/// An engine. It isn't `Send`: one thread makes, uses and drops it.
pub struct Dover(*mut Place);

impl Dover {
    /// An engine, or the status that says why there is none.
    pub fn new(p: u32, q: u32, version: u32, capacity: u32) -> Result<Dover, u32> {
        Dover::made(|place| unsafe { dover_init(place, p, q, version, capacity) })
    }

    /// The same with a factor b/c of one's own.
    pub fn with_factor(p: u32, q: u32, version: u32, capacity: u32, b: u32, c: u32) -> Result<Dover, u32> {
        Dover::made(|place| unsafe { dover_init_factor(place, p, q, version, capacity, b, c) })
    }

    fn made(init: impl FnOnce(*mut Place)) -> Result<Dover, u32> {
        assert!(unsafe { dover_size() } <= size_of::<Place>(), "the place is too small");
        let place = Box::into_raw(Box::new(MaybeUninit::<Place>::uninit())).cast::<Place>();
        init(place);
        let engine = Dover(place);
        match unsafe { dover_status(place) } {
            MADE => Ok(engine),
            status => Err(status),
        }
    }

    pub fn admit(&mut self, release: u64, work: u64, deadline: u64, value: u64) -> Admitted {
        unsafe { dover_admit(self.0, release, work, deadline, value) }
    }

    /// 0 where the job is done at this tick, or the status that says why not.
    pub fn done(&mut self, tick: u64, job: u64) -> u32 {
        unsafe { dover_done(self.0, tick, job) }
    }

    pub fn step(&mut self, mark: u64) -> Decision {
        unsafe { dover_step(self.0, mark) }
    }

    pub fn finish(&mut self) -> Decision {
        unsafe { dover_finish(self.0) }
    }

    /// Begins anew at a moment of rest, with the clock at 0 again.
    pub fn restart(&mut self) -> Restarted {
        unsafe { dover_restart(self.0) }
    }

    pub fn next(&mut self) -> Due {
        unsafe { dover_next(self.0) }
    }

    /// The job that would be next if the one that has the processor were done.
    pub fn successor(&mut self) -> Named {
        unsafe { dover_successor(self.0) }
    }

    pub fn value(&mut self) -> u128 {
        unsafe { u128::from(dover_value_high(self.0)) << 64 | u128::from(dover_value(self.0)) }
    }

    pub fn spare(&mut self) -> u32 {
        unsafe { dover_spare(self.0) }
    }
}

impl Drop for Dover {
    fn drop(&mut self) {
        unsafe {
            dover_drop(self.0);
            drop(Box::from_raw(self.0.cast::<MaybeUninit<Place>>()));
        }
    }
}
