//! The declarations of include/tigbayon.h.

pub use crate::unit::Bank as TbBank;
use crate::{Controls, Decoded, End, Gathered, Packed, Refusal, Routed, Run};

/// The answer of gather, scatter and group.
#[repr(C)]
#[derive(Clone, Copy, Debug, PartialEq, Eq)]
pub struct TbGathered {
    /// The refusal's number, 0 where the call is carried out.
    pub refusal: u8,
    /// The count of marked bits; 0 where the call is refused.
    pub count: u32,
    /// The result; 0 where the call is refused.
    pub word: u64,
}

/// The answer of both networks, and of the calls on subwords.
#[repr(C)]
#[derive(Clone, Copy, Debug, PartialEq, Eq)]
pub struct TbCarried {
    /// The refusal's number, 0 where the call is carried out.
    pub refusal: u8,
    /// The result; 0 where the call is refused.
    pub word: u64,
}

/// The answer of preparing either network.
#[repr(C)]
#[derive(Clone, Copy, Debug, PartialEq, Eq)]
pub struct TbPrepared {
    /// The refusal's number, 0 where the call is carried out.
    pub refusal: u8,
    /// The swaps of its stages, the widest first; zeros where the call is
    /// refused.
    pub swaps: [u64; 6],
}

/// Controls for one network: the answer of its routing.
#[repr(C)]
#[derive(Clone, Copy, Debug, PartialEq, Eq)]
pub struct TbControls1 {
    /// The refusal's number, 0 where the call is carried out.
    pub refusal: u8,
    /// The network's stages; zeros where the call is refused.
    pub stages: [u32; 6],
}

/// Controls for both networks: the answer of the decoder and of the routing
/// through both.
#[repr(C)]
#[derive(Clone, Copy, Debug, PartialEq, Eq)]
pub struct TbControls2 {
    /// The refusal's number, 0 where the call is carried out.
    pub refusal: u8,
    /// The butterfly's stages; zeros where the call is refused.
    pub butterfly: [u32; 6],
    /// The inverse's stages; zeros where the call is refused.
    pub inverse: [u32; 6],
}

/// The answer of routing by groups.
#[repr(C)]
#[derive(Clone, Copy, Debug, PartialEq, Eq)]
pub struct TbMasks {
    /// The refusal's number, 0 where the call is carried out.
    pub refusal: u8,
    /// The masks of its steps, and zeros after them; zeros where the call is
    /// refused.
    pub masks: [u64; 6],
}

/// The answer of pack and unpack.
#[repr(C)]
#[derive(Clone, Copy, Debug, PartialEq, Eq)]
pub struct TbPacked {
    /// The refusal's number, 0 where the call is carried out.
    pub refusal: u8,
    /// The count of marked bits; 0 where the call is refused.
    pub count: u32,
    /// How many bits were packed or unpacked; 0 where the call is refused.
    pub bits: u64,
}

/// The answer of both calls on bit planes.
#[repr(C)]
#[derive(Clone, Copy, Debug, PartialEq, Eq)]
pub struct TbPlanes {
    /// The planes, or the words of bytes.
    pub words: [u64; 8],
}

/// The answer of one operation.
#[repr(C)]
#[derive(Clone, Copy, Debug, PartialEq, Eq)]
pub struct TbCycles {
    /// The refusal's number, 0 where the call is carried out.
    pub refusal: u8,
    /// The operation's cycles; 0 where the call is refused.
    pub cycles: u32,
}

/// The answer of a run, continued or not.
#[repr(C)]
#[derive(Clone, Copy, Debug, PartialEq, Eq)]
pub struct TbRun {
    /// The refusal's number, 0 where the call is carried out.
    pub refusal: u8,
    /// The number of its end; 0 where the call is refused.
    pub end: u8,
    /// The count of operations run; 0 where the call is refused.
    pub ran: u32,
    /// The cycles that these used; 0 where the call is refused.
    pub cycles: u32,
}

/// What a frame answers for one channel.
#[repr(C)]
#[derive(Clone, Copy, Debug, PartialEq, Eq)]
pub struct TbChannel {
    /// The number of its end; 0 where the frame is refused.
    pub end: u8,
    /// The count of operations run; 0 where the frame is refused.
    pub ran: u32,
    /// The cycles that these used; 0 where the frame is refused.
    pub cycles: u32,
}

/// The answer of a frame.
#[repr(C)]
#[derive(Clone, Copy, Debug, PartialEq, Eq)]
pub struct TbFrame {
    /// The refusal's number, 0 where the frame is carried out.
    pub refusal: u8,
    /// The channels' answers, by their numbers; zeros where the frame is refused.
    pub channels: [TbChannel; 4],
}

/// The answer of reading a register.
#[repr(C)]
#[derive(Clone, Copy, Debug, PartialEq, Eq)]
pub struct TbRegister {
    /// The refusal's number, 0 where the call is carried out.
    pub refusal: u8,
    /// The register's value; 0 where the call is refused.
    pub value: u64,
}

impl From<TbGathered> for Result<Gathered, Refusal> {
    fn from(answer: TbGathered) -> Self {
        Refusal::check(answer.refusal).map(|()| Gathered {
            count: answer.count,
            word: answer.word,
        })
    }
}

impl From<TbCarried> for Result<u64, Refusal> {
    fn from(answer: TbCarried) -> Self {
        Refusal::check(answer.refusal).map(|()| answer.word)
    }
}

impl From<TbPrepared> for Result<[u64; 6], Refusal> {
    fn from(answer: TbPrepared) -> Self {
        Refusal::check(answer.refusal).map(|()| answer.swaps)
    }
}

impl From<TbControls1> for Result<Controls, Refusal> {
    fn from(answer: TbControls1) -> Self {
        Refusal::check(answer.refusal).map(|()| Controls::from(answer.stages))
    }
}

impl From<TbControls2> for Result<Decoded, Refusal> {
    fn from(answer: TbControls2) -> Self {
        Refusal::check(answer.refusal).map(|()| Decoded {
            butterfly: Controls::from(answer.butterfly),
            inverse: Controls::from(answer.inverse),
        })
    }
}

impl From<TbControls2> for Result<Routed, Refusal> {
    fn from(answer: TbControls2) -> Self {
        Refusal::check(answer.refusal).map(|()| Routed {
            butterfly: Controls::from(answer.butterfly),
            inverse: Controls::from(answer.inverse),
        })
    }
}

impl From<TbMasks> for Result<[u64; 6], Refusal> {
    fn from(answer: TbMasks) -> Self {
        Refusal::check(answer.refusal).map(|()| answer.masks)
    }
}

impl From<TbPacked> for Result<Packed, Refusal> {
    fn from(answer: TbPacked) -> Self {
        Refusal::check(answer.refusal).map(|()| Packed {
            count: answer.count,
            bits: answer.bits,
        })
    }
}

impl From<TbCycles> for Result<u32, Refusal> {
    fn from(answer: TbCycles) -> Self {
        Refusal::check(answer.refusal).map(|()| answer.cycles)
    }
}

impl From<TbRun> for Result<Run, Refusal> {
    fn from(answer: TbRun) -> Self {
        Refusal::check(answer.refusal).map(|()| Run {
            end: End::of(answer.end),
            ran: answer.ran,
            cycles: answer.cycles,
        })
    }
}

impl From<TbFrame> for Result<[Run; 4], Refusal> {
    fn from(answer: TbFrame) -> Self {
        Refusal::check(answer.refusal).map(|()| {
            answer.channels.map(|channel| Run {
                end: End::of(channel.end),
                ran: channel.ran,
                cycles: channel.cycles,
            })
        })
    }
}

impl From<TbRegister> for Result<u64, Refusal> {
    fn from(answer: TbRegister) -> Self {
        Refusal::check(answer.refusal).map(|()| answer.value)
    }
}

// Safe: answered for every input, and a reference points to as many numbers as
// the header asks for; none is kept, and only a bank's `&mut` is written through.
#[allow(unsafe_code)]
unsafe extern "C" {
    /// See [`crate::gather()`].
    pub safe fn tb_gather(width: u32, mask: u64, word: u64) -> TbGathered;
    /// See [`crate::scatter()`].
    pub safe fn tb_scatter(width: u32, mask: u64, word: u64) -> TbGathered;
    /// See [`crate::group()`].
    pub safe fn tb_group(width: u32, mask: u64, word: u64) -> TbGathered;
    /// See [`crate::butterfly()`].
    pub safe fn tb_butterfly(width: u32, stages: &[u32; 6], word: u64) -> TbCarried;
    /// See [`crate::inverse()`].
    pub safe fn tb_inverse(width: u32, stages: &[u32; 6], word: u64) -> TbCarried;
    /// See [`crate::PreparedButterfly::new()`].
    pub safe fn tb_prepare_butterfly(width: u32, stages: &[u32; 6]) -> TbPrepared;
    /// See [`crate::PreparedInverse::new()`].
    pub safe fn tb_prepare_inverse(width: u32, stages: &[u32; 6]) -> TbPrepared;
    /// See [`crate::PreparedButterfly::carry()`].
    pub safe fn tb_butterfly_prepared(swaps: &[u64; 6], word: u64) -> u64;
    /// See [`crate::PreparedInverse::carry()`].
    pub safe fn tb_inverse_prepared(swaps: &[u64; 6], word: u64) -> u64;
    /// See [`crate::decode()`].
    pub safe fn tb_decode(width: u32, mask: u64) -> TbControls2;
    /// See [`crate::to_planes()`].
    pub safe fn tb_to_planes(words: &[u64; 8]) -> TbPlanes;
    /// See [`crate::from_planes()`].
    pub safe fn tb_from_planes(planes: &[u64; 8]) -> TbPlanes;
    /// See [`crate::tile_transpose()`].
    pub safe fn tb_tile_transpose(tile: u64) -> u64;
    /// See [`crate::tile_turn_left()`].
    pub safe fn tb_tile_turn_left(tile: u64) -> u64;
    /// See [`crate::tile_turn_right()`].
    pub safe fn tb_tile_turn_right(tile: u64) -> u64;
    /// See [`crate::tile_mirror_columns()`].
    pub safe fn tb_tile_mirror_columns(tile: u64) -> u64;
    /// See [`crate::tile_mirror_rows()`].
    pub safe fn tb_tile_mirror_rows(tile: u64) -> u64;
    /// See [`crate::check()`].
    pub safe fn tb_check(size: u32, first: u64, second: u64) -> TbCarried;
    /// See [`crate::excheck()`].
    pub safe fn tb_excheck(size: u32, first: u64, second: u64) -> TbCarried;
    /// See [`crate::mix_left()`].
    pub safe fn tb_mix_left(size: u32, first: u64, second: u64) -> TbCarried;
    /// See [`crate::mix_right()`].
    pub safe fn tb_mix_right(size: u32, first: u64, second: u64) -> TbCarried;
    /// See [`crate::exchange()`].
    pub safe fn tb_exchange(size: u32, word: u64) -> TbCarried;
    /// See [`crate::Bank::operate()`].
    pub safe fn tb_operate(bank: &mut TbBank, kind: u8, r1: u8, r2: u8, r3: u8) -> TbCycles;
    /// See [`crate::Bank::drop_run()`].
    pub safe fn tb_drop(bank: &mut TbBank);
    /// See [`crate::Bank::read()`].
    pub safe fn tb_read(bank: &TbBank, number: u8) -> TbRegister;
    /// See [`crate::Bank::write()`].
    pub safe fn tb_write(bank: &mut TbBank, number: u8, value: u64) -> u8;
    /// See [`crate::Bank::status()`].
    pub safe fn tb_status(bank: &TbBank) -> u8;
    /// See [`crate::Bank::enable()`].
    pub safe fn tb_enable(bank: &mut TbBank, byte: u8);
    /// See [`crate::Bank::acknowledge()`].
    pub safe fn tb_acknowledge(bank: &mut TbBank, byte: u8);
    /// See [`crate::Bank::interrupt()`].
    pub safe fn tb_interrupt(bank: &TbBank) -> u8;
}

/// The calls of a permutation, of lists of words or of operations, which cross as
/// pointers and lengths.
mod by_pointer {
    use super::{TbBank, TbControls1, TbControls2, TbFrame, TbMasks, TbPacked, TbRun};

    #[allow(unsafe_code)]
    unsafe extern "C" {
        pub fn tb_route(width: u32, permutation: *const u8, length: usize) -> TbControls2;
        pub fn tb_route_butterfly(width: u32, permutation: *const u8, length: usize)
            -> TbControls1;
        pub fn tb_route_inverse(width: u32, permutation: *const u8, length: usize) -> TbControls1;
        pub fn tb_route_groups(width: u32, permutation: *const u8, length: usize) -> TbMasks;
        pub fn tb_pack(
            mask: u64,
            words: *const u64,
            length: usize,
            a: usize,
            b: usize,
            out: *mut u64,
            out_length: usize,
        ) -> TbPacked;
        pub fn tb_unpack(
            mask: u64,
            packed: *const u64,
            length: usize,
            a: usize,
            b: usize,
            out: *mut u64,
            out_length: usize,
        ) -> TbPacked;
        pub fn tb_despeckle(
            plane: *const u64,
            length: usize,
            rows: usize,
            row_words: usize,
            out: *mut u64,
            out_length: usize,
        ) -> u8;
        pub fn tb_run(
            bank: &mut TbBank,
            operations: *const u8,
            length: usize,
            budget: u32,
        ) -> TbRun;
        pub fn tb_continue(
            bank: &mut TbBank,
            operations: *const u8,
            length: usize,
            budget: u32,
        ) -> TbRun;
        pub fn tb_frame(
            bank0: &mut TbBank,
            bank1: &mut TbBank,
            bank2: &mut TbBank,
            bank3: &mut TbBank,
            list0: *const u8,
            length0: usize,
            list1: *const u8,
            length1: usize,
            list2: *const u8,
            length2: usize,
            list3: *const u8,
            length3: usize,
            guarantees: &[u32; 4],
            cycles: u32,
        ) -> TbFrame;
    }
}

/// See [`crate::route()`].
#[allow(unsafe_code)]
pub fn tb_route(width: u32, permutation: &[u8]) -> TbControls2 {
    // Safe: answered for every slice, which is only read and not kept.
    unsafe { by_pointer::tb_route(width, permutation.as_ptr(), permutation.len()) }
}

/// See [`crate::route_butterfly()`].
#[allow(unsafe_code)]
pub fn tb_route_butterfly(width: u32, permutation: &[u8]) -> TbControls1 {
    // Safe, as in tb_route.
    unsafe { by_pointer::tb_route_butterfly(width, permutation.as_ptr(), permutation.len()) }
}

/// See [`crate::route_inverse()`].
#[allow(unsafe_code)]
pub fn tb_route_inverse(width: u32, permutation: &[u8]) -> TbControls1 {
    // Safe, as in tb_route.
    unsafe { by_pointer::tb_route_inverse(width, permutation.as_ptr(), permutation.len()) }
}

/// See [`crate::route_groups()`].
#[allow(unsafe_code)]
pub fn tb_route_groups(width: u32, permutation: &[u8]) -> TbMasks {
    // Safe, as in tb_route.
    unsafe { by_pointer::tb_route_groups(width, permutation.as_ptr(), permutation.len()) }
}

/// See [`crate::pack()`].
#[inline]
#[allow(unsafe_code)]
pub fn tb_pack(mask: u64, words: &[u64], a: usize, b: usize, out: &mut [u64]) -> TbPacked {
    let (length, out_length) = (words.len(), out.len());
    // Safe: answered for every two slices, which do not overlap; the first is
    // only read, neither is kept.
    unsafe {
        by_pointer::tb_pack(
            mask,
            words.as_ptr(),
            length,
            a,
            b,
            out.as_mut_ptr(),
            out_length,
        )
    }
}

/// See [`crate::unpack()`].
#[inline]
#[allow(unsafe_code)]
pub fn tb_unpack(mask: u64, packed: &[u64], a: usize, b: usize, out: &mut [u64]) -> TbPacked {
    let (length, out_length) = (packed.len(), out.len());
    // Safe, as in tb_pack.
    unsafe {
        by_pointer::tb_unpack(
            mask,
            packed.as_ptr(),
            length,
            a,
            b,
            out.as_mut_ptr(),
            out_length,
        )
    }
}

/// See [`crate::despeckle()`].
#[inline]
#[allow(unsafe_code)]
pub fn tb_despeckle(plane: &[u64], rows: usize, row_words: usize, out: &mut [u64]) -> u8 {
    let (length, out_length) = (plane.len(), out.len());
    // Safe, as in tb_pack.
    unsafe {
        by_pointer::tb_despeckle(
            plane.as_ptr(),
            length,
            rows,
            row_words,
            out.as_mut_ptr(),
            out_length,
        )
    }
}

/// See [`crate::Bank::run()`].
#[allow(unsafe_code)]
pub fn tb_run(bank: &mut TbBank, operations: &[u8], budget: u32) -> TbRun {
    // Safe: answered for every slice, which the bank does not overlap; it is
    // only read, neither is kept.
    unsafe { by_pointer::tb_run(bank, operations.as_ptr(), operations.len(), budget) }
}

/// See [`crate::Bank::continue_run()`].
#[allow(unsafe_code)]
pub fn tb_continue(bank: &mut TbBank, operations: &[u8], budget: u32) -> TbRun {
    // Safe, as in tb_run.
    unsafe { by_pointer::tb_continue(bank, operations.as_ptr(), operations.len(), budget) }
}

/// See [`crate::frame()`].
#[allow(unsafe_code)]
pub fn tb_frame(
    banks: [&mut TbBank; 4],
    lists: [&[u8]; 4],
    guarantees: &[u32; 4],
    cycles: u32,
) -> TbFrame {
    let [bank0, bank1, bank2, bank3] = banks;
    // Safe: answered for every four slices, which no bank overlaps; they and the
    // guarantees are only read. The banks are different ones. Nothing is kept.
    unsafe {
        by_pointer::tb_frame(
            bank0,
            bank1,
            bank2,
            bank3,
            lists[0].as_ptr(),
            lists[0].len(),
            lists[1].as_ptr(),
            lists[1].len(),
            lists[2].as_ptr(),
            lists[2].len(),
            lists[3].as_ptr(),
            lists[3].len(),
            guarantees,
            cycles,
        )
    }
}
