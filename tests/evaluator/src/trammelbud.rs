//! Trammelbud from Rust: safe calls over the C interface of `libtrammelbud.a`.
//!
//! This file needs nothing else and may be copied into a program of yours;
//! `build.rs` beside `src` shows how the archive's folder is named to the
//! linker. Each call takes files as slices and lends its buffers. What a call
//! reads, writes, needs and answers is told in `include/trammelbud.h`, call by
//! call under the same names.

/// What a call answers: `number` is 0 where it accepts, else the refusal, and
/// then `count` is 0 and every lent buffer is as it was.
#[repr(C)]
#[derive(Clone, Copy, PartialEq, Eq, Debug)]
pub struct Answer {
    pub number: u8,
    pub count: u32,
}

/// The pairs of kinds announced for one step: bit B of `pairs[A]` for (A, B).
#[repr(C)]
#[derive(Clone, Copy, PartialEq, Eq, Debug)]
pub struct Announced {
    pub pairs: [u32; 17],
}

/// What the check answers. Steps past the program's end announce nothing, and
/// neither does any step of a refused program.
#[repr(C)]
#[derive(Clone, Copy, PartialEq, Eq, Debug)]
pub struct Checked {
    pub number: u8,
    pub steps: [Announced; 24],
}

mod c {
    use super::{Answer, Checked};

    type In = *const u8;
    type Out = *mut u8;

    #[link(name = "trammelbud", kind = "static")]
    #[rustfmt::skip]
    extern "C" {
        pub fn tb_read_graph(gra: In, gra_len: usize) -> Answer;
        pub fn tb_read_document(gra: In, gra_len: usize, tre: In, tre_len: usize) -> Answer;
        pub fn tb_read_tables(gra: In, gra_len: usize, edg: In, edg_len: usize) -> Answer;
        pub fn tb_read_query(gra: In, gra_len: usize, qry: In, qry_len: usize) -> Answer;
        pub fn tb_read_program(gra: In, gra_len: usize, rel: In, rel_len: usize) -> Answer;
        pub fn tb_shred(gra: In, gra_len: usize, tre: In, tre_len: usize, out: Out, out_len: usize) -> Answer;
        pub fn tb_rebuild(gra: In, gra_len: usize, edg: In, edg_len: usize, out: Out, out_len: usize) -> Answer;
        pub fn tb_translate(gra: In, gra_len: usize, qry: In, qry_len: usize, out: Out, out_len: usize) -> Answer;
        pub fn tb_check(gra: In, gra_len: usize, rel: In, rel_len: usize) -> Checked;
        pub fn tb_run(
            gra: In, gra_len: usize, edg: In, edg_len: usize, rel: In, rel_len: usize,
            out: Out, out_len: usize, work: Out, work_len: usize,
        ) -> Answer;
        pub fn tb_select(
            gra: In, gra_len: usize, edg: In, edg_len: usize, qry: In, qry_len: usize,
            out: Out, out_len: usize, work: Out, work_len: usize,
        ) -> Answer;
        pub fn tb_list(
            gra: In, gra_len: usize, edg: In, edg_len: usize, qry: In, qry_len: usize,
            text: Out, text_len: usize, work: Out, work_len: usize,
        ) -> Answer;
    }
}

/// Calls into C with each slice as its pointer and length, in the order given:
/// files first, then lent buffers.
///
/// That is sound for every call here. A call reads no byte outside its files,
/// writes none outside its buffers and keeps no pointer, and the borrows keep
/// files and buffers apart.
macro_rules! call {
    ($name:ident($($file:ident),+ $(; $($lent:ident),+)?)) => {
        unsafe {
            c::$name(
                $($file.as_ptr(), $file.len(),)+
                $($($lent.as_mut_ptr(), $lent.len(),)+)?
            )
        }
    };
}

/// Reads a graph and answers its types, k.
pub fn read_graph(gra: &[u8]) -> Answer {
    call!(tb_read_graph(gra))
}

/// Reads a document and answers its elements, n.
pub fn read_document(gra: &[u8], tre: &[u8]) -> Answer {
    call!(tb_read_document(gra, tre))
}

/// Reads tables and answers their elements, n.
pub fn read_tables(gra: &[u8], edg: &[u8]) -> Answer {
    call!(tb_read_tables(gra, edg))
}

/// Reads a query and answers its nodes.
pub fn read_query(gra: &[u8], qry: &[u8]) -> Answer {
    call!(tb_read_query(gra, qry))
}

/// Reads a program and answers its steps.
pub fn read_program(gra: &[u8], rel: &[u8]) -> Answer {
    call!(tb_read_program(gra, rel))
}

/// Writes a document's tables to `out` and answers their length.
pub fn shred(gra: &[u8], tre: &[u8], out: &mut [u8]) -> Answer {
    call!(tb_shred(gra, tre; out))
}

/// Writes the document of tables to `out` and answers its length.
pub fn rebuild(gra: &[u8], edg: &[u8], out: &mut [u8]) -> Answer {
    call!(tb_rebuild(gra, edg; out))
}

/// Writes a query's program to `out` and answers its length.
pub fn translate(gra: &[u8], qry: &[u8], out: &mut [u8]) -> Answer {
    call!(tb_translate(gra, qry; out))
}

/// Answers which kinds each step of a program may join.
pub fn check(gra: &[u8], rel: &[u8]) -> Checked {
    call!(tb_check(gra, rel))
}

/// Runs a program: the nodes go to `out` and the rows of every step to `work`;
/// answers how many nodes there are.
pub fn run(gra: &[u8], edg: &[u8], rel: &[u8], out: &mut [u8], work: &mut [u8]) -> Answer {
    call!(tb_run(gra, edg, rel; out, work))
}

/// Translates a query and runs its program, in the room of `run`.
pub fn select(gra: &[u8], edg: &[u8], qry: &[u8], out: &mut [u8], work: &mut [u8]) -> Answer {
    call!(tb_select(gra, edg, qry; out, work))
}

/// Writes the listing of the nodes that a query selects to `text` and answers
/// its length.
pub fn list(gra: &[u8], edg: &[u8], qry: &[u8], text: &mut [u8], work: &mut [u8]) -> Answer {
    call!(tb_list(gra, edg, qry; text, work))
}
