//! Safe calls over libtigbayon.a, a library proved in Rattle.
//!
//! A width is 8, 16, 32 or 64. A word or a mask of width w has zeros at bit w
//! and above, bits counted from 0 at the right; the ones of a mask mark bits, and
//! a [`Gathered`] or [`Packed`] has their count. A permutation of width w names
//! each bit below w once: entry p is the bit that place p takes. [`route`] finds the
//! controls of both networks that bring it about, [`route_groups`] the masks by which
//! [`group`] does, step by step. A [`PreparedButterfly`] or [`PreparedInverse`] is a
//! network prepared once for many words. Packing goes from one list of words of width
//! 64 into another, each of at most 2,048. Sixty-four bytes, in eight words, go to
//! eight bit planes by [`to_planes`], and back by [`from_planes`]. A tile is a word of
//! 8 by 8 bits, which [`tile_turn_left`] and its like move by row and column.
//! [`check`], [`excheck`], [`mix_left`], [`mix_right`] and [`exchange`] move subwords
//! of 1, 2, 4, 8, 16 or 32 bits. A plane of pixels is a list of words, a row after the
//! other from the top, and [`despeckle`] puts out its lone pixels. A [`Bank`] holds the
//! registers of a unit that performs lists of operations of width 64, two bytes by
//! which their ends are polled, and what is left of a list while it waits for a fresh
//! budget; [`frame()`] runs four of them on one count of cycles. Each function here is
//! answered for every input: with its result, or with the lowest [`Refusal`] that
//! applies.

mod ffi;
mod frame;
mod gather;
mod network;
mod packing;
mod pixels;
mod planes;
mod prepared;
mod refusal;
mod routing;
mod subwords;
mod tiles;
mod unit;

#[doc(hidden)]
pub use ffi::{
    tb_acknowledge, tb_butterfly, tb_butterfly_prepared, tb_check, tb_continue, tb_decode,
    tb_despeckle, tb_drop, tb_enable, tb_exchange, tb_excheck, tb_frame, tb_from_planes, tb_gather,
    tb_group, tb_interrupt, tb_inverse, tb_inverse_prepared, tb_mix_left, tb_mix_right, tb_operate,
    tb_pack, tb_prepare_butterfly, tb_prepare_inverse, tb_read, tb_route, tb_route_butterfly,
    tb_route_groups, tb_route_inverse, tb_run, tb_scatter, tb_status, tb_tile_mirror_columns,
    tb_tile_mirror_rows, tb_tile_transpose, tb_tile_turn_left, tb_tile_turn_right, tb_to_planes,
    tb_unpack, tb_write, TbBank, TbCarried, TbChannel, TbControls1, TbControls2, TbCycles, TbFrame,
    TbGathered, TbMasks, TbPacked, TbPlanes, TbPrepared, TbRegister, TbRun,
};
pub use frame::frame;
pub use gather::{gather, group, scatter, Gathered};
pub use network::{butterfly, decode, inverse, Controls, Decoded};
pub use packing::{pack, unpack, Packed};
pub use pixels::despeckle;
pub use planes::{from_planes, to_planes};
pub use prepared::{PreparedButterfly, PreparedInverse};
pub use refusal::Refusal;
pub use routing::{route, route_butterfly, route_groups, route_inverse, Routed};
pub use subwords::{check, exchange, excheck, mix_left, mix_right};
pub use tiles::{
    tile_mirror_columns, tile_mirror_rows, tile_transpose, tile_turn_left, tile_turn_right,
};
pub use unit::{Bank, End, Run};
