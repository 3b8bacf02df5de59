// The calls of include/bisquecrow.h, each behind a safe function: the only unsafe code of the crate. Every slice goes over as its own pointer and
// length, and a call keeps none of them; what it may change is lent by `&mut`, so nothing overlaps.
use crate::Flags;

pub(crate) type Head = [u64; 13];
pub(crate) type Table = [u32; 1024];
pub(crate) type Trail = [u64; 4];

// A map and its loans, to look at.
#[derive(Clone, Copy)]
pub(crate) struct View<'a> {
    pub head: &'a Head,
    pub table: &'a Table,
    pub block: &'a [u8],
    pub store: &'a [u8],
}

// The same, to change.
pub(crate) struct Lent<'a> {
    pub head: &'a mut Head,
    pub table: &'a mut Table,
    pub block: &'a mut [u8],
    pub store: &'a mut [u8],
}

type H = *const u64;
type HM = *mut u64;
type T = *const u32;
type TM = *mut u32;
type B = *const u8;
type BM = *mut u8;
type N = usize;
type Num = *mut u64;

#[rustfmt::skip]
extern "C" {
    fn bisquecrow_begin(h: HM, hl: N, t: T, tl: N, limit: N, room: N, awaits: bool, quirks: bool, b: B, bl: N, s: B, sl: N) -> u32;
    fn bisquecrow_feed(h: HM, hl: N, t: TM, tl: N, b: BM, bl: N, s: BM, sl: N, p: B, pl: N, taken: Num) -> u32;
    fn bisquecrow_finish(h: HM, hl: N, t: TM, tl: N, b: B, bl: N, s: BM, sl: N) -> u32;
    fn bisquecrow_clear(h: HM, hl: N, t: T, tl: N, b: B, bl: N, s: B, sl: N) -> u32;
    fn bisquecrow_find(h: H, hl: N, t: T, tl: N, b: B, bl: N, s: B, sl: N, name: B, nl: N, from: N, number: Num, a: Num, e: Num) -> u32;
    fn bisquecrow_value(h: H, hl: N, t: T, tl: N, b: B, bl: N, s: B, sl: N, number: N, from: Num, to: Num) -> u32;
    fn bisquecrow_key(h: H, hl: N, t: T, tl: N, b: B, bl: N, s: B, sl: N, number: N, from: Num, to: Num) -> u32;
    fn bisquecrow_status(h: H, hl: N, t: T, tl: N, b: B, bl: N, s: B, sl: N, from: Num, to: Num) -> u32;
    fn bisquecrow_reason(h: H, hl: N, t: T, tl: N, b: B, bl: N, s: B, sl: N, from: Num, to: Num) -> u32;
    fn bisquecrow_fields(h: H, hl: N, t: T, tl: N, b: B, bl: N, s: B, sl: N, count: Num) -> u32;
    fn bisquecrow_set(h: HM, hl: N, t: TM, tl: N, b: B, bl: N, s: BM, sl: N, k: B, kl: N, v: B, vl: N) -> u32;
    fn bisquecrow_append(h: HM, hl: N, t: TM, tl: N, b: B, bl: N, s: BM, sl: N, k: B, kl: N, v: B, vl: N) -> u32;
    fn bisquecrow_remove(h: HM, hl: N, t: TM, tl: N, b: B, bl: N, s: B, sl: N, k: B, kl: N) -> u32;
    fn bisquecrow_set_status(h: HM, hl: N, t: T, tl: N, b: B, bl: N, s: BM, sl: N, x: B, xl: N) -> u32;
    fn bisquecrow_write(h: H, hl: N, t: T, tl: N, b: B, bl: N, s: B, sl: N, o: BM, ol: N, count: Num) -> u32;
    fn bisquecrow_rebuild(h: H, hl: N, t: T, tl: N, b: B, bl: N, s: B, sl: N, o: BM, ol: N, count: Num) -> u32;
    fn bisquecrow_status_code(h: H, hl: N, t: T, tl: N, b: B, bl: N, s: B, sl: N, code: Num) -> u32;
    fn bisquecrow_content_length(h: H, hl: N, t: T, tl: N, b: B, bl: N, s: B, sl: N, length: Num) -> u32;
    fn bisquecrow_record_type(h: H, hl: N, t: T, tl: N, b: B, bl: N, s: B, sl: N, code: Num) -> u32;
    fn bisquecrow_clean(h: H, hl: N, t: T, tl: N, b: B, bl: N, s: B, sl: N) -> u32;
    fn bisquecrow_equal(h: H, hl: N, t: T, tl: N, b: B, bl: N, s: B, sl: N, g: H, gl: N, u: T, ul: N, c: B, cl: N, z: B, zl: N) -> u32;
    fn bisquecrow_resume(h: H, hl: N, t: T, tl: N, b: B, bl: N, s: B, sl: N, g: H, gl: N, u: T, ul: N, c: B, cl: N, z: B, zl: N) -> u32;
    fn bisquecrow_tidy(o: B, ol: N, awaits: bool, quirks: bool, limit: N) -> u32;
    fn bisquecrow_grammatical(o: B, ol: N) -> u32;
    fn bisquecrow_walker(w: HM, wl: N, h: HM, hl: N, t: T, tl: N, room: N, position: u64, b: B, bl: N, s: B, sl: N) -> u32;
    fn bisquecrow_walk(w: HM, wl: N, h: HM, hl: N, t: TM, tl: N, b: BM, bl: N, s: BM, sl: N, p: B, pl: N, taken: Num, record: *mut [u64; 4]) -> u32;
    fn bisquecrow_end(w: HM, wl: N, h: HM, hl: N, t: T, tl: N, b: B, bl: N, s: B, sl: N) -> u32;
}

// A call over a map that is looked at; over one that may change.
macro_rules! look {
    ($call:ident, $m:expr $(, $more:expr)*) => {
        unsafe {
            $call(
                $m.head.as_ptr(), $m.head.len(), $m.table.as_ptr(), $m.table.len(), $m.block.as_ptr(), $m.block.len(), $m.store.as_ptr(),
                $m.store.len() $(, $more)*
            )
        }
    };
}

macro_rules! change {
    ($call:ident, $m:expr $(, $more:expr)*) => {
        unsafe {
            $call(
                $m.head.as_mut_ptr(), $m.head.len(), $m.table.as_mut_ptr(), $m.table.len(), $m.block.as_mut_ptr(), $m.block.len(),
                $m.store.as_mut_ptr(), $m.store.len() $(, $more)*
            )
        }
    };
}

pub(crate) fn begin(m: Lent<'_>, limit: usize, room: usize, flags: Flags) -> u32 {
    unsafe {
        bisquecrow_begin(
            m.head.as_mut_ptr(),
            m.head.len(),
            m.table.as_ptr(),
            m.table.len(),
            limit,
            room,
            flags.status,
            flags.quirks,
            m.block.as_ptr(),
            m.block.len(),
            m.store.as_ptr(),
            m.store.len(),
        )
    }
}

// The answer, and how many octets were taken.
pub(crate) fn feed(m: Lent<'_>, piece: &[u8]) -> (u32, usize) {
    let mut taken = 0;
    let answer = change!(bisquecrow_feed, m, piece.as_ptr(), piece.len(), &mut taken);
    (answer, taken as usize)
}

pub(crate) fn finish(m: Lent<'_>) -> u32 {
    change!(bisquecrow_finish, m)
}

pub(crate) fn clear(m: Lent<'_>) -> u32 {
    change!(bisquecrow_clear, m)
}

// The answer, the field's number and where its value lies.
pub(crate) fn find(m: View<'_>, name: &[u8], from: usize) -> (u32, usize, u64, u64) {
    let (mut number, mut a, mut e) = (0, 0, 0);
    let answer = look!(bisquecrow_find, m, name.as_ptr(), name.len(), from, &mut number, &mut a, &mut e);
    (answer, number as usize, a, e)
}

pub(crate) fn value(m: View<'_>, number: usize) -> (u32, u64, u64) {
    let (mut a, mut e) = (0, 0);
    (look!(bisquecrow_value, m, number, &mut a, &mut e), a, e)
}

pub(crate) fn key(m: View<'_>, number: usize) -> (u32, u64, u64) {
    let (mut a, mut e) = (0, 0);
    (look!(bisquecrow_key, m, number, &mut a, &mut e), a, e)
}

pub(crate) fn status(m: View<'_>) -> (u32, u64, u64) {
    let (mut a, mut e) = (0, 0);
    (look!(bisquecrow_status, m, &mut a, &mut e), a, e)
}

pub(crate) fn reason(m: View<'_>) -> (u32, u64, u64) {
    let (mut a, mut e) = (0, 0);
    (look!(bisquecrow_reason, m, &mut a, &mut e), a, e)
}

pub(crate) fn fields(m: View<'_>) -> (u32, usize) {
    let mut count = 0;
    let answer = look!(bisquecrow_fields, m, &mut count);
    (answer, count as usize)
}

pub(crate) fn set(m: Lent<'_>, key: &[u8], value: &[u8]) -> u32 {
    change!(bisquecrow_set, m, key.as_ptr(), key.len(), value.as_ptr(), value.len())
}

pub(crate) fn append(m: Lent<'_>, key: &[u8], value: &[u8]) -> u32 {
    change!(bisquecrow_append, m, key.as_ptr(), key.len(), value.as_ptr(), value.len())
}

pub(crate) fn remove(m: Lent<'_>, key: &[u8]) -> u32 {
    change!(bisquecrow_remove, m, key.as_ptr(), key.len())
}

pub(crate) fn set_status(m: Lent<'_>, text: &[u8]) -> u32 {
    change!(bisquecrow_set_status, m, text.as_ptr(), text.len())
}

pub(crate) fn write(m: View<'_>, out: &mut [u8]) -> (u32, usize) {
    let mut count = 0;
    let answer = look!(bisquecrow_write, m, out.as_mut_ptr(), out.len(), &mut count);
    (answer, count as usize)
}

pub(crate) fn rebuild(m: View<'_>, out: &mut [u8]) -> (u32, usize) {
    let mut count = 0;
    let answer = look!(bisquecrow_rebuild, m, out.as_mut_ptr(), out.len(), &mut count);
    (answer, count as usize)
}

pub(crate) fn status_code(m: View<'_>) -> (u32, u64) {
    let mut n = 0;
    (look!(bisquecrow_status_code, m, &mut n), n)
}

pub(crate) fn content_length(m: View<'_>) -> (u32, u64) {
    let mut n = 0;
    (look!(bisquecrow_content_length, m, &mut n), n)
}

pub(crate) fn record_type(m: View<'_>) -> (u32, u64) {
    let mut n = 0;
    (look!(bisquecrow_record_type, m, &mut n), n)
}

pub(crate) fn clean(m: View<'_>) -> u32 {
    look!(bisquecrow_clean, m)
}

pub(crate) fn equal(m: View<'_>, k: View<'_>) -> u32 {
    let (g, u, c, z) = (k.head, k.table, k.block, k.store);
    look!(bisquecrow_equal, m, g.as_ptr(), g.len(), u.as_ptr(), u.len(), c.as_ptr(), c.len(), z.as_ptr(), z.len())
}

pub(crate) fn resume(m: View<'_>, k: View<'_>) -> u32 {
    let (g, u, c, z) = (k.head, k.table, k.block, k.store);
    look!(bisquecrow_resume, m, g.as_ptr(), g.len(), u.as_ptr(), u.len(), c.as_ptr(), c.len(), z.as_ptr(), z.len())
}

pub(crate) fn tidy(octets: &[u8], flags: Flags, limit: usize) -> u32 {
    unsafe { bisquecrow_tidy(octets.as_ptr(), octets.len(), flags.status, flags.quirks, limit) }
}

pub(crate) fn grammatical(octets: &[u8]) -> u32 {
    unsafe { bisquecrow_grammatical(octets.as_ptr(), octets.len()) }
}

pub(crate) fn walker(trail: &mut Trail, m: Lent<'_>, room: usize, position: u64) -> u32 {
    unsafe {
        bisquecrow_walker(
            trail.as_mut_ptr(),
            trail.len(),
            m.head.as_mut_ptr(),
            m.head.len(),
            m.table.as_ptr(),
            m.table.len(),
            room,
            position,
            m.block.as_ptr(),
            m.block.len(),
            m.store.as_ptr(),
            m.store.len(),
        )
    }
}

// The answer, how many octets were taken, and a record's numbers.
pub(crate) fn walk(trail: &mut Trail, m: Lent<'_>, piece: &[u8]) -> (u32, usize, [u64; 4]) {
    let mut taken = 0;
    let mut record = [0; 4];
    let answer = unsafe {
        bisquecrow_walk(
            trail.as_mut_ptr(),
            trail.len(),
            m.head.as_mut_ptr(),
            m.head.len(),
            m.table.as_mut_ptr(),
            m.table.len(),
            m.block.as_mut_ptr(),
            m.block.len(),
            m.store.as_mut_ptr(),
            m.store.len(),
            piece.as_ptr(),
            piece.len(),
            &mut taken,
            &mut record,
        )
    };
    (answer, taken as usize, record)
}

pub(crate) fn end(trail: &mut Trail, m: Lent<'_>) -> u32 {
    unsafe {
        bisquecrow_end(
            trail.as_mut_ptr(),
            trail.len(),
            m.head.as_mut_ptr(),
            m.head.len(),
            m.table.as_ptr(),
            m.table.len(),
            m.block.as_ptr(),
            m.block.len(),
            m.store.as_ptr(),
            m.store.len(),
        )
    }
}
