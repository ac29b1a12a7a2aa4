//! The library's structs and functions as C has them. Nothing holds these declarations to the library but the layout below and
//! the tests, which call each function.
use crate::{Board, Books};
use std::mem::{offset_of, size_of};

#[repr(C)]
pub struct Reply {
    pub accepted: bool,
    pub number: u64,
}

#[repr(C)]
pub struct RowReply {
    pub accepted: bool,
    pub refusal: u32,
    pub mark: u8,
    pub earliest: i32,
    pub latest: i32,
    pub before: u64,
    pub after: u64,
}

#[repr(C)]
pub struct PairReply {
    pub accepted: bool,
    pub refusal: u32,
    pub arcs: u8,
    pub gap: i32,
}

#[repr(C)]
pub struct PlanReply {
    pub ending: u8,
    pub number: u32,
    pub placed: u64,
    pub starts: [i32; Board::JOBS],
}

unsafe extern "C" {
    pub safe fn bayboard_version() -> u32;
    pub safe fn bayboard_size() -> usize;

    // For every board: they ask nothing beyond what holds of a reference.
    pub safe fn bayboard_empty() -> Board;
    pub safe fn bayboard_passes(board: &Board) -> bool;
    pub safe fn bayboard_addition(
        board: &mut Board,
        length: i32,
        earliest: i32,
        latest: i32,
        mark: i32,
    ) -> Reply;
    pub safe fn bayboard_arc(board: &mut Board, from: i32, to: i32) -> Reply;
    pub safe fn bayboard_mark(board: &mut Board, job: i32, mark: i32) -> Reply;
    pub safe fn bayboard_cut(board: &mut Board, job: i32, earliest: i32, latest: i32) -> Reply;
    pub safe fn bayboard_row(board: &Board, job: i32) -> RowReply;
    pub safe fn bayboard_pair(board: &Board, a: i32, b: i32) -> PairReply;
    pub safe fn bayboard_plan(board: &Board, budget: i32) -> PlanReply;

    // Without check 0, which the board has to pass: on another they may read and write past it.
    pub unsafe fn bayboard_unchecked_addition(
        board: &mut Board,
        length: i32,
        earliest: i32,
        latest: i32,
        mark: i32,
    ) -> Reply;
    pub unsafe fn bayboard_unchecked_arc(board: &mut Board, from: i32, to: i32) -> Reply;
    pub unsafe fn bayboard_unchecked_mark(board: &mut Board, job: i32, mark: i32) -> Reply;
    pub unsafe fn bayboard_unchecked_cut(
        board: &mut Board,
        job: i32,
        earliest: i32,
        latest: i32,
    ) -> Reply;
    pub unsafe fn bayboard_unchecked_row(board: &Board, job: i32) -> RowReply;
    pub unsafe fn bayboard_unchecked_pair(board: &Board, a: i32, b: i32) -> PairReply;
    pub unsafe fn bayboard_unchecked_plan(board: &Board, budget: i32) -> PlanReply;
}

// The layout that the library has, as in hosts/c/bayboard.h.
macro_rules! layout {
    ($type:ty, $size:literal, $($field:ident $offset:literal),+) => {
        const _: () = assert!(size_of::<$type>() == $size $(&& offset_of!($type, $field) == $offset)+);
    };
}

layout!(Board, 1872, jobs 0, lengths 8, earliest 264, latest 520, marks 776, after 840, before 1352, books 1864);
layout!(Books, 4, tally 0);
layout!(Reply, 16, accepted 0, number 8);
layout!(RowReply, 40, accepted 0, refusal 4, mark 8, earliest 12, latest 16, before 24, after 32);
layout!(PairReply, 16, accepted 0, refusal 4, arcs 8, gap 12);
layout!(PlanReply, 272, ending 0, number 4, placed 8, starts 16);
