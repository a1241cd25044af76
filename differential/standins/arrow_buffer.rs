//! Stands for the crate arrow-buffer: buffers, bitmaps and their builders. The meaning is that of document 01,
//! "Bits below the union": mask bit p is bit p mod 64 of word p div 64 (little-endian bytes), set means present;
//! chunk k, bit j, of a mask that starts at bit s is bit s + 64k + j; bits past the end read as 0; a null count is
//! the length less the set bits; a builder has a mask exactly if a null was put in it.
//!
//! With `--cfg watched` an unchecked read that leaves its mask panics with "undefined" instead, and `watch` notes
//! which function of the union computed a mask. Without it (for timing) both are left out.

use std::alloc::Layout;
use std::fmt;
use std::marker::PhantomData;
use std::ops::Deref;
use std::sync::Arc;

pub mod buffer {
    pub use crate::{BooleanBuffer, Buffer, MutableBuffer, NullBuffer, OffsetBuffer, ScalarBuffer};
}

/// Which function last computed a mask, by the type name of the closure or iterator that it handed down.
pub mod watch {
    use std::cell::Cell;
    thread_local! { static LAST: Cell<Option<&'static str>> = const { Cell::new(None) }; }

    #[inline(always)]
    pub(crate) fn note<T>() {
        #[cfg(watched)]
        LAST.set(Some(std::any::type_name::<T>()));
    }

    /// The last note, which is then forgotten.
    pub fn take() -> Option<&'static str> {
        LAST.take()
    }
}

// ---------------------------------------------------------------------------------------------------- native types

pub trait ArrowNativeType: fmt::Debug + Send + Sync + Copy + PartialOrd + Default + 'static {
    fn from_usize(number: usize) -> Option<Self>;
    fn as_usize(self) -> usize;
    fn usize_as(number: usize) -> Self;
}

macro_rules! native {
    ($($t:ty),*) => { $(impl ArrowNativeType for $t {
        fn from_usize(number: usize) -> Option<Self> { number.try_into().ok() }
        fn as_usize(self) -> usize { self as usize }
        fn usize_as(number: usize) -> Self { number as $t }
    })* };
}
native!(i8, i16, i32, i64, i128, u8, u16, u32, u64, u128, usize);

macro_rules! native_float {
    ($($t:ty),*) => { $(impl ArrowNativeType for $t {
        fn from_usize(number: usize) -> Option<Self> { Some(number as $t) }
        fn as_usize(self) -> usize { self as usize }
        fn usize_as(number: usize) -> Self { number as $t }
    })* };
}
native_float!(f32, f64);

macro_rules! native_unused {
    ($($t:ty),*) => { $(impl ArrowNativeType for $t {
        fn from_usize(_number: usize) -> Option<Self> { unimplemented!() }
        fn as_usize(self) -> usize { unimplemented!() }
        fn usize_as(_number: usize) -> Self { unimplemented!() }
    })* };
}
native_unused!(i256, IntervalDayTime, IntervalMonthDayNano, half::f16);

#[allow(non_camel_case_types)]
#[derive(Clone, Copy, Debug, Default, PartialEq, Eq, PartialOrd, Ord)]
pub struct i256 {
    high: i128,
    low: u128,
}

#[derive(Clone, Copy, Debug, Default, PartialEq, Eq, PartialOrd, Ord)]
pub struct IntervalDayTime {
    pub days: i32,
    pub milliseconds: i32,
}

#[derive(Clone, Copy, Debug, Default, PartialEq, Eq, PartialOrd, Ord)]
pub struct IntervalMonthDayNano {
    pub months: i32,
    pub days: i32,
    pub nanoseconds: i64,
}

// --------------------------------------------------------------------------------------------------------- buffers

struct Bytes {
    start: *mut u8,
    layout: Layout,
}

impl Drop for Bytes {
    fn drop(&mut self) {
        if self.layout.size() > 0 {
            // SAFETY: the memory came from a Vec of this layout.
            unsafe { std::alloc::dealloc(self.start, self.layout) }
        }
    }
}

/// Shared bytes, and the part of them that this buffer shows.
#[derive(Clone)]
pub struct Buffer {
    owner: Arc<Bytes>,
    start: *const u8,
    length: usize,
}

// SAFETY: the bytes are never written after a buffer was made.
unsafe impl Send for Buffer {}
unsafe impl Sync for Buffer {}

impl Buffer {
    pub fn from_vec<T: ArrowNativeType>(values: Vec<T>) -> Self {
        let mut values = std::mem::ManuallyDrop::new(values);
        let layout = Layout::array::<T>(values.capacity()).unwrap();
        let start = values.as_mut_ptr().cast::<u8>();
        let length = std::mem::size_of_val(values.as_slice());
        Buffer { owner: Arc::new(Bytes { start, layout }), start, length }
    }
    pub fn from_slice_ref<T: ArrowNativeType>(values: impl AsRef<[T]>) -> Self {
        Self::from_vec(values.as_ref().to_vec())
    }
    pub fn as_slice(&self) -> &[u8] {
        // SAFETY: start and length were checked when the part was taken.
        unsafe { std::slice::from_raw_parts(self.start, self.length) }
    }
    pub fn slice_with_length(&self, start: usize, length: usize) -> Self {
        assert!(
            start.saturating_add(length) <= self.length,
            "the part {start} + {length} is outside of {} bytes",
            self.length
        );
        // SAFETY: just checked.
        Buffer { owner: self.owner.clone(), start: unsafe { self.start.add(start) }, length }
    }
    pub fn capacity(&self) -> usize {
        self.owner.layout.size()
    }
    pub fn shrink_to_fit(&mut self) {}
}

impl Deref for Buffer {
    type Target = [u8];
    fn deref(&self) -> &[u8] {
        self.as_slice()
    }
}

impl PartialEq for Buffer {
    fn eq(&self, other: &Self) -> bool {
        self.as_slice() == other.as_slice()
    }
}

impl fmt::Debug for Buffer {
    fn fmt(&self, f: &mut fmt::Formatter<'_>) -> fmt::Result {
        write!(f, "Buffer({} bytes)", self.length)
    }
}

/// A buffer seen as values of one native type.
#[derive(Clone)]
pub struct ScalarBuffer<T: ArrowNativeType> {
    buffer: Buffer,
    of: PhantomData<T>,
}

impl<T: ArrowNativeType> ScalarBuffer<T> {
    pub fn new(buffer: Buffer, start: usize, length: usize) -> Self {
        let size = std::mem::size_of::<T>();
        let start = start.checked_mul(size).expect("the start overflows");
        let length = length.checked_mul(size).expect("the length overflows");
        Self::from(buffer.slice_with_length(start, length))
    }
    pub fn slice(&self, start: usize, length: usize) -> Self {
        Self::new(self.buffer.clone(), start, length)
    }
    pub fn inner(&self) -> &Buffer {
        &self.buffer
    }
    pub fn into_inner(self) -> Buffer {
        self.buffer
    }
    pub fn shrink_to_fit(&mut self) {}
}

impl<T: ArrowNativeType> Deref for ScalarBuffer<T> {
    type Target = [T];
    fn deref(&self) -> &[T] {
        // SAFETY: alignment was checked in `from`; every bit pattern is a value of a native type.
        unsafe {
            std::slice::from_raw_parts(self.buffer.start.cast::<T>(), self.buffer.length / std::mem::size_of::<T>())
        }
    }
}

impl<T: ArrowNativeType> From<Buffer> for ScalarBuffer<T> {
    fn from(buffer: Buffer) -> Self {
        assert!(buffer.length == 0 || buffer.start.cast::<T>().is_aligned(), "the buffer is not aligned");
        let buffer = if buffer.length == 0 { Buffer::from_vec(Vec::<T>::new()) } else { buffer };
        ScalarBuffer { buffer, of: PhantomData }
    }
}

impl<T: ArrowNativeType> From<Vec<T>> for ScalarBuffer<T> {
    fn from(values: Vec<T>) -> Self {
        Self::from(Buffer::from_vec(values))
    }
}

impl<T: ArrowNativeType> From<BufferBuilder<T>> for ScalarBuffer<T> {
    fn from(builder: BufferBuilder<T>) -> Self {
        Self::from(builder.values)
    }
}

impl<T: ArrowNativeType> FromIterator<T> for ScalarBuffer<T> {
    fn from_iter<I: IntoIterator<Item = T>>(values: I) -> Self {
        values.into_iter().collect::<Vec<T>>().into()
    }
}

impl<'a, T: ArrowNativeType> IntoIterator for &'a ScalarBuffer<T> {
    type Item = &'a T;
    type IntoIter = std::slice::Iter<'a, T>;
    fn into_iter(self) -> Self::IntoIter {
        self.iter()
    }
}

impl<T: ArrowNativeType> fmt::Debug for ScalarBuffer<T> {
    fn fmt(&self, f: &mut fmt::Formatter<'_>) -> fmt::Result {
        f.debug_list().entries(self.iter()).finish()
    }
}

/// Offsets of variable-length values; named by array/mod.rs and types.rs, used by no union call.
#[derive(Clone, Debug)]
pub struct OffsetBuffer<O: ArrowNativeType>(ScalarBuffer<O>);

impl<O: ArrowNativeType> OffsetBuffer<O> {
    pub fn new_empty() -> Self {
        OffsetBuffer(vec![O::usize_as(0)].into())
    }
    /// # Safety
    /// The values must be offsets: at least one, none below 0, none below the one before.
    pub unsafe fn new_unchecked(values: ScalarBuffer<O>) -> Self {
        OffsetBuffer(values)
    }
    pub fn first(&self) -> &O {
        &self.0[0]
    }
    pub fn last(&self) -> &O {
        &self.0[self.0.len() - 1]
    }
}

impl<O: ArrowNativeType> Deref for OffsetBuffer<O> {
    type Target = [O];
    fn deref(&self) -> &[O] {
        &self.0
    }
}

pub struct OffsetBufferBuilder<O>(PhantomData<O>);

/// A growing buffer; the union uses it for mask words.
#[derive(Debug, Default)]
pub struct MutableBuffer {
    words: Vec<u64>,
}

impl MutableBuffer {
    /// # Safety
    /// The iterator must tell its length rightly.
    pub unsafe fn from_trusted_len_iter<I: Iterator<Item = u64>>(words: I) -> Self {
        watch::note::<I>();
        MutableBuffer { words: words.collect() }
    }
    pub fn push(&mut self, word: u64) {
        self.words.push(word)
    }
}

impl From<MutableBuffer> for Buffer {
    fn from(buffer: MutableBuffer) -> Self {
        Buffer::from_vec(buffer.words)
    }
}

#[derive(Debug)]
pub struct BufferBuilder<T> {
    values: Vec<T>,
}

impl<T> Default for BufferBuilder<T> {
    fn default() -> Self {
        BufferBuilder { values: Vec::new() }
    }
}

impl<T: ArrowNativeType> BufferBuilder<T> {
    pub fn new(capacity: usize) -> Self {
        BufferBuilder { values: Vec::with_capacity(capacity) }
    }
    pub fn append(&mut self, value: T) {
        self.values.push(value)
    }
    pub fn as_slice(&self) -> &[T] {
        &self.values
    }
}

// --------------------------------------------------------------------------------------------------------- bitmaps

pub mod bit_util {
    pub fn get_bit(bytes: &[u8], bit: usize) -> bool {
        bytes[bit / 8] >> (bit % 8) & 1 != 0
    }
    pub fn set_bit(bytes: &mut [u8], bit: usize) {
        bytes[bit / 8] |= 1 << (bit % 8)
    }
    pub fn unset_bit(bytes: &mut [u8], bit: usize) {
        bytes[bit / 8] &= !(1 << (bit % 8))
    }
}

pub mod bit_chunk_iterator {
    /// A bitmap in whole chunks of 64 bits, and a remainder.
    #[derive(Debug)]
    pub struct BitChunks<'a> {
        bytes: &'a [u8],
        shift: usize,
        chunks: usize,
        remainder: usize,
    }

    impl<'a> BitChunks<'a> {
        pub fn new(bytes: &'a [u8], start: usize, length: usize) -> Self {
            assert!((start + length).div_ceil(8) <= bytes.len(), "the bitmap is outside of its bytes");
            BitChunks { bytes: &bytes[start / 8..], shift: start % 8, chunks: length / 64, remainder: length % 64 }
        }
        pub fn iter(&self) -> BitChunkIterator<'a> {
            BitChunkIterator { bytes: self.bytes, shift: self.shift, chunks: self.chunks, next: 0 }
        }
        pub fn remainder_len(&self) -> usize {
            self.remainder
        }
        /// The bits after the last whole chunk, zeros above them.
        pub fn remainder_bits(&self) -> u64 {
            let mut bits: u128 = 0;
            let bytes = &self.bytes[8 * self.chunks..];
            for (place, byte) in bytes[..(self.shift + self.remainder).div_ceil(8)].iter().enumerate() {
                bits |= u128::from(*byte) << (8 * place);
            }
            (bits >> self.shift) as u64 & ((1 << self.remainder) - 1)
        }
    }

    #[derive(Debug)]
    pub struct BitChunkIterator<'a> {
        bytes: &'a [u8],
        shift: usize,
        chunks: usize,
        next: usize,
    }

    impl Iterator for BitChunkIterator<'_> {
        type Item = u64;

        #[inline]
        fn next(&mut self) -> Option<u64> {
            if self.next == self.chunks {
                return None;
            }
            let at = 8 * self.next;
            self.next += 1;
            // SAFETY: `BitChunks::new` checked that all bits of a whole chunk are in the bytes.
            let low = u64::from_le(unsafe { self.bytes.as_ptr().add(at).cast::<u64>().read_unaligned() });
            if self.shift == 0 {
                return Some(low);
            }
            // SAFETY: a shifted chunk ends in the ninth byte.
            let high = unsafe { *self.bytes.as_ptr().add(at + 8) };
            Some(low >> self.shift | u64::from(high) << (64 - self.shift))
        }
    }
}

use bit_chunk_iterator::BitChunks;

/// `length` bits of a buffer from bit `start`.
#[derive(Clone)]
pub struct BooleanBuffer {
    buffer: Buffer,
    start: usize,
    length: usize,
}

impl BooleanBuffer {
    pub fn new(buffer: Buffer, start: usize, length: usize) -> Self {
        assert!(
            start.saturating_add(length) <= buffer.len().saturating_mul(8),
            "the bits {start} + {length} are outside of {} bytes",
            buffer.len()
        );
        BooleanBuffer { buffer, start, length }
    }
    fn filled(length: usize, byte: u8) -> Self {
        Self::new(Buffer::from_vec(vec![byte; length.div_ceil(8)]), 0, length)
    }
    pub fn collect_bool<F: FnMut(usize) -> bool>(length: usize, mut bit: F) -> Self {
        watch::note::<F>();
        let mut words = Vec::with_capacity(length.div_ceil(64));
        for chunk in 0..length / 64 {
            words.push((0..64).fold(0, |word, j| word | u64::from(bit(64 * chunk + j)) << j));
        }
        let from = 64 * words.len();
        if from < length {
            words.push((from..length).fold(0, |word, i| word | u64::from(bit(i)) << (i - from)));
        }
        Self::new(Buffer::from_vec(words), 0, length)
    }
    #[inline]
    pub fn value(&self, bit: usize) -> bool {
        assert!(bit < self.length);
        bit_util::get_bit(&self.buffer, self.start + bit)
    }
    /// # Safety
    /// The bit must be below the length.
    #[inline]
    pub unsafe fn value_unchecked(&self, bit: usize) -> bool {
        #[cfg(watched)]
        assert!(bit < self.length, "undefined: bit {bit} is read of a mask of {} bits", self.length);
        let bit = self.start + bit;
        // SAFETY: the caller's.
        unsafe { *self.buffer.start.add(bit / 8) >> (bit % 8) & 1 != 0 }
    }
    pub fn bit_chunks(&self) -> BitChunks<'_> {
        BitChunks::new(&self.buffer, self.start, self.length)
    }
    pub fn count_set_bits(&self) -> usize {
        let chunks = self.bit_chunks();
        let whole: u32 = chunks.iter().map(u64::count_ones).sum();
        (whole + chunks.remainder_bits().count_ones()) as usize
    }
    pub fn slice(&self, start: usize, length: usize) -> Self {
        assert!(
            start.saturating_add(length) <= self.length,
            "the part {start} + {length} is outside of {} bits",
            self.length
        );
        BooleanBuffer { buffer: self.buffer.clone(), start: self.start + start, length }
    }
    pub fn len(&self) -> usize {
        self.length
    }
    pub fn is_empty(&self) -> bool {
        self.length == 0
    }
    pub fn offset(&self) -> usize {
        self.start
    }
    pub fn inner(&self) -> &Buffer {
        &self.buffer
    }
    pub fn iter(&self) -> impl Iterator<Item = bool> + '_ {
        (0..self.length).map(|bit| self.value(bit))
    }
}

impl fmt::Debug for BooleanBuffer {
    fn fmt(&self, f: &mut fmt::Formatter<'_>) -> fmt::Result {
        f.debug_list().entries(self.iter()).finish()
    }
}

/// A validity mask and its null count.
#[derive(Clone, Debug)]
pub struct NullBuffer {
    bits: BooleanBuffer,
    null_count: usize,
}

impl NullBuffer {
    pub fn new(bits: BooleanBuffer) -> Self {
        let null_count = bits.len() - bits.count_set_bits();
        NullBuffer { bits, null_count }
    }
    pub fn new_null(length: usize) -> Self {
        NullBuffer { bits: BooleanBuffer::filled(length, 0), null_count: length }
    }
    pub fn new_valid(length: usize) -> Self {
        NullBuffer { bits: BooleanBuffer::filled(length, 0xff), null_count: 0 }
    }
    pub fn slice(&self, start: usize, length: usize) -> Self {
        Self::new(self.bits.slice(start, length))
    }
    pub fn len(&self) -> usize {
        self.bits.len()
    }
    pub fn is_empty(&self) -> bool {
        self.bits.is_empty()
    }
    pub fn null_count(&self) -> usize {
        self.null_count
    }
    pub fn is_valid(&self, bit: usize) -> bool {
        self.bits.value(bit)
    }
    pub fn is_null(&self, bit: usize) -> bool {
        !self.is_valid(bit)
    }
    pub fn inner(&self) -> &BooleanBuffer {
        &self.bits
    }
    pub fn valid_indices(&self) -> impl Iterator<Item = usize> + '_ {
        (0..self.len()).filter(|bit| self.is_valid(*bit))
    }
}

impl From<BooleanBuffer> for NullBuffer {
    fn from(bits: BooleanBuffer) -> Self {
        Self::new(bits)
    }
}

impl PartialEq for NullBuffer {
    fn eq(&self, other: &Self) -> bool {
        self.bits.iter().eq(other.bits.iter())
    }
}

/// A growing bitmap.
#[derive(Clone, Debug, Default)]
pub struct BooleanBufferBuilder {
    bytes: Vec<u8>,
    length: usize,
}

impl BooleanBufferBuilder {
    pub fn new(capacity: usize) -> Self {
        BooleanBufferBuilder { bytes: Vec::with_capacity(capacity.div_ceil(8)), length: 0 }
    }
    pub fn append(&mut self, bit: bool) {
        self.resize(self.length + 1);
        if bit {
            bit_util::set_bit(&mut self.bytes, self.length - 1)
        }
    }
    pub fn append_n(&mut self, times: usize, bit: bool) {
        for _ in 0..times {
            self.append(bit)
        }
    }
    pub fn append_buffer(&mut self, bits: &BooleanBuffer) {
        for bit in bits.iter() {
            self.append(bit)
        }
    }
    pub fn resize(&mut self, length: usize) {
        self.bytes.resize(length.div_ceil(8), 0);
        self.length = length
    }
    pub fn as_slice_mut(&mut self) -> &mut [u8] {
        &mut self.bytes
    }
    pub fn set_bit(&mut self, place: usize, bit: bool) {
        if bit { bit_util::set_bit(&mut self.bytes, place) } else { bit_util::unset_bit(&mut self.bytes, place) }
    }
    pub fn finish(&mut self) -> BooleanBuffer {
        let done = std::mem::take(self);
        BooleanBuffer::new(Buffer::from_vec(done.bytes), 0, done.length)
    }
    pub fn finish_cloned(&self) -> BooleanBuffer {
        self.clone().finish()
    }
}

/// A growing validity mask: no bitmap until the first null.
#[derive(Debug)]
pub struct NullBufferBuilder {
    bits: Option<BooleanBufferBuilder>,
    length: usize,
    capacity: usize,
}

impl NullBufferBuilder {
    pub fn new(capacity: usize) -> Self {
        NullBufferBuilder { bits: None, length: 0, capacity }
    }
    #[inline]
    pub fn append(&mut self, valid: bool) {
        if self.bits.is_none() && !valid {
            self.make_bits()
        }
        if let Some(bits) = &mut self.bits {
            bits.append(valid)
        }
        self.length += 1
    }
    #[cold]
    fn make_bits(&mut self) {
        let mut bits = BooleanBufferBuilder::new(self.length.max(self.capacity));
        bits.bytes.resize(self.length.div_ceil(8), 0xff);
        if self.length % 8 != 0 {
            *bits.bytes.last_mut().unwrap() = (1 << (self.length % 8)) - 1
        }
        bits.length = self.length;
        self.bits = Some(bits)
    }
    pub fn finish(&mut self) -> Option<NullBuffer> {
        self.length = 0;
        self.bits.take().map(|mut bits| NullBuffer::new(bits.finish()))
    }
    pub fn finish_cloned(&self) -> Option<NullBuffer> {
        self.bits.as_ref().map(|bits| NullBuffer::new(bits.finish_cloned()))
    }
}
