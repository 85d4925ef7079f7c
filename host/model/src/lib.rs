//! An independent model of Tigbayon, written from the papers alone, and for
//! prepared networks from the C header.
//!
//! Each definition goes bit by bit and follows the sentence that it quotes, of
//! paper 01 where no other is named. Nothing here is meant to be fast, and
//! nothing is shared with the library. The papers' "line" is a bit here, and so is
//! a tile's "dot", while a plane's is a pixel; their "column" is a stage where it is
//! not a tile's, their "settings" are controls, their "order" is a permutation, their
//! "strip" a list of words.

pub mod bits;
pub mod decoder;
pub mod frame;
pub mod gather;
pub mod groups;
pub mod network;
pub mod packing;
pub mod permutation;
pub mod pixels;
pub mod planes;
pub mod prepared;
pub mod refusal;
pub mod routing;
pub mod subwords;
pub mod tiles;
pub mod unit;
