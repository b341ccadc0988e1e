//! The calls of the proved library, in safe Rust. Each `unsafe` of the crate stands here.

use core::mem::size_of;

/// What was found, in numbers: `npos_finding` of `npos.h`.
#[repr(C)]
#[derive(Clone, Copy, Debug, Default, PartialEq, Eq)]
pub(crate) struct Finding {
    pub kind: u32,
    pub number: u32,
    pub first: u64,
    pub second: u64,
    pub third_high: u64,
    pub third_low: u64,
}

/// What was mined, in numbers: `npos_mined` of `npos.h`.
#[repr(C)]
#[derive(Clone, Copy, Debug, Default, PartialEq, Eq)]
pub(crate) struct Mined {
    pub members: usize,
    pub bytes: usize,
    pub minimal: u64,
    pub sum: u64,
    pub squares_high: u64,
    pub squares_low: u64,
    pub finding: Finding,
}

/// Whom a committee denies a seat, in numbers: `npos_denied` of `npos.h`.
#[repr(C)]
#[derive(Clone, Copy, Debug, Default, PartialEq, Eq)]
pub(crate) struct Denied {
    pub voters: usize,
    pub members: usize,
    pub seats: u64,
    pub stake: u64,
    pub finding: Finding,
}

pub(crate) const DONE: u32 = 0;
pub(crate) const NO: u32 = 1;
pub(crate) const UNKNOWN: u32 = 2;
pub(crate) const BAD_INPUT: u32 = 3;
pub(crate) const NO_MEMORY: u32 = 6;
pub(crate) const SMALL: u32 = 8;

pub(crate) const JUDGED: u32 = 0;
pub(crate) const LOST: u32 = 1;
pub(crate) const REFUSED: u32 = 2;
pub(crate) const UNELECTABLE: u32 = 3;
pub(crate) const UNSOLVED: u32 = 4;
pub(crate) const LONG: u32 = 5;

// The signatures of crates/npos_c, in which a slice is a pointer and then a length, and the
// allocator takes no bytes. Nothing compares these declarations with those: whoever changes one
// changes the other, and `npos.h`.
extern "C" {
    fn npos_c_check(bundle: *const u8, bundle_size: usize, finding: *mut Finding) -> u32;

    fn npos_c_mine(
        miner: u32,
        rounds: u32,
        bundle: *const u8,
        bundle_size: usize,
        committee: *mut u16,
        committee_size: usize,
        solution: *mut u8,
        solution_size: usize,
        mined: *mut Mined,
    ) -> u32;

    fn npos_c_judge(
        bundle: *const u8,
        bundle_size: usize,
        group: *mut u32,
        group_size: usize,
        members: *mut u16,
        members_size: usize,
        denied: *mut Denied,
    ) -> u32;

    fn npos_c_report(
        task: u32,
        rounds: u32,
        bundle: *const u8,
        bundle_size: usize,
        text: *mut u8,
        text_size: usize,
        size: *mut usize,
    ) -> u32;

    fn npos_c_demo(
        seed: u64,
        voters: u32,
        seats: u32,
        text: *mut u8,
        text_size: usize,
        size: *mut usize,
    ) -> u32;
}

// What all calls below owe, and how it is met. The pointers of a slice, also of an empty one, are
// not null, are aligned, and lead to as many elements as its length says, whose bytes number less
// than 2^63: Rust promises that of every slice. A `&mut` is not aliased, so no two buffers of a
// call overlap. The library keeps no pointer. It asks for no `requires`: every number is tested
// there. It allocates by the `malloc` of the process, and has no state, so any thread may call it.

/// `npos_c_check`: the answer, and the finding, which is all 0 where memory was refused.
pub(crate) fn check(bundle: &[u8]) -> (u32, Finding) {
    let mut finding = Finding::default();
    // SAFETY: pointer and length are those of one slice that is borrowed for the call, and
    // `finding` is a `Finding`, which is laid out as in C, for which any bytes are a value.
    let answer = unsafe { npos_c_check(bundle.as_ptr(), bundle.len(), &mut finding) };
    (answer, finding)
}

/// `npos_c_mine`: the answer, and what was mined, which is all 0 where nothing is told.
pub(crate) fn mine(
    miner: u32,
    rounds: u32,
    bundle: &[u8],
    committee: &mut [u16],
    solution: &mut [u8],
) -> (u32, Mined) {
    let mut mined = Mined::default();
    // SAFETY: pointers and lengths are those of three slices that are borrowed for the call, two
    // of them alone, and `mined` is a `Mined`, which is laid out as in C, for which any bytes are a
    // value.
    let answer = unsafe {
        npos_c_mine(
            miner,
            rounds,
            bundle.as_ptr(),
            bundle.len(),
            committee.as_mut_ptr(),
            committee.len(),
            solution.as_mut_ptr(),
            solution.len(),
            &mut mined,
        )
    };
    (answer, mined)
}

/// `npos_c_judge`: the answer, and whom the committee denies a seat, which is all 0 where nothing is
/// told.
pub(crate) fn judge(bundle: &[u8], group: &mut [u32], members: &mut [u16]) -> (u32, Denied) {
    let mut denied = Denied::default();
    // SAFETY: pointers and lengths are those of three slices that are borrowed for the call, two
    // of them alone, and `denied` is a `Denied`, which is laid out as in C, for which any bytes are
    // a value.
    let answer = unsafe {
        npos_c_judge(
            bundle.as_ptr(),
            bundle.len(),
            group.as_mut_ptr(),
            group.len(),
            members.as_mut_ptr(),
            members.len(),
            &mut denied,
        )
    };
    (answer, denied)
}

/// `npos_c_report`: the answer, and the size that is told, 0 where none is.
pub(crate) fn report(task: u32, rounds: u32, bundle: &[u8], text: &mut [u8]) -> (u32, usize) {
    let mut size = 0;
    // SAFETY: pointers and lengths are those of two slices that are borrowed for the call, one of
    // them alone, and `size` is a `usize`, the `size_t` of C.
    let answer = unsafe {
        npos_c_report(
            task,
            rounds,
            bundle.as_ptr(),
            bundle.len(),
            text.as_mut_ptr(),
            text.len(),
            &mut size,
        )
    };
    (answer, size)
}

/// `npos_c_demo`: the answer, and the size that is told, 0 where none is.
pub(crate) fn demo(seed: u64, voters: u32, seats: u32, text: &mut [u8]) -> (u32, usize) {
    let mut size = 0;
    // SAFETY: pointer and length are those of one slice that is borrowed for the call alone, and
    // `size` is a `usize`, the `size_t` of C.
    let answer = unsafe {
        npos_c_demo(
            seed,
            voters,
            seats,
            text.as_mut_ptr(),
            text.len(),
            &mut size,
        )
    };
    (answer, size)
}

// The sizes that C gives the structs where a `size_t` has 8 bytes.
const _: () = assert!(
    size_of::<Finding>() == 40 && size_of::<Mined>() == 88 && size_of::<Denied>() == 72
);
