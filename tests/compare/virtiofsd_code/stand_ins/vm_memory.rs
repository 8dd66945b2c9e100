//! Stands for the crate `vm-memory`: guest memory is a list of regions of plain bytes, apart from each
//! other. Each segment of a request is a region of its own.
use std::marker::PhantomData;
use std::mem::{size_of, MaybeUninit};
use std::ops::Deref;

/// # Safety
/// Plain data without padding.
pub unsafe trait ByteValued: Copy + Send + Sync {
    fn as_slice(&self) -> &[u8] {
        unsafe { std::slice::from_raw_parts(self as *const Self as *const u8, size_of::<Self>()) }
    }
}
macro_rules! values { ($($t:ty)*) => { $( unsafe impl ByteValued for $t {} )* } }
values!(u8 u16 u32 u64 usize i8 i16 i32 i64);

// For virtiofsd's own tests alone.
macro_rules! le { ($($n:ident $t:ty)*) => { $(
    #[repr(transparent)]
    #[derive(Copy, Clone, Debug, Default, PartialEq, Eq)]
    pub struct $n($t);
    unsafe impl ByteValued for $n {}
    impl From<$t> for $n { fn from(v: $t) -> Self { Self(v.to_le()) } }
    impl $n { pub fn to_native(self) -> $t { <$t>::from_le(self.0) } }
)* } }
le!(Le16 u16 Le32 u32 Le64 u64);

pub mod bitmap {
    pub trait Bitmap {
        fn mark_dirty(&self, _offset: usize, _len: usize) {}
    }
    pub trait BitmapSlice: Bitmap + Clone {}
    impl Bitmap for () {}
    impl BitmapSlice for () {}
}
use bitmap::{Bitmap, BitmapSlice};

#[derive(Copy, Clone, Debug, PartialEq, Eq)]
pub struct GuestAddress(pub u64);

pub trait Address: Sized {
    fn raw_value(&self) -> u64;
    fn checked_add(&self, n: u64) -> Option<Self>;
    fn checked_sub(&self, n: u64) -> Option<Self>;
}
impl Address for GuestAddress {
    fn raw_value(&self) -> u64 {
        self.0
    }
    fn checked_add(&self, n: u64) -> Option<Self> {
        self.0.checked_add(n).map(GuestAddress)
    }
    fn checked_sub(&self, n: u64) -> Option<Self> {
        self.0.checked_sub(n).map(GuestAddress)
    }
}

#[derive(Debug)]
pub struct GuestMemoryError;
impl std::fmt::Display for GuestMemoryError {
    fn fmt(&self, f: &mut std::fmt::Formatter) -> std::fmt::Result {
        write!(f, "no such place")
    }
}
#[derive(Debug)]
pub struct VolatileMemoryError;
impl std::fmt::Display for VolatileMemoryError {
    fn fmt(&self, f: &mut std::fmt::Formatter) -> std::fmt::Result {
        write!(f, "out of bounds")
    }
}

pub struct PtrGuard(*mut u8);
impl PtrGuard {
    pub fn as_ptr(&self) -> *const u8 {
        self.0
    }
}
pub struct PtrGuardMut(*mut u8);
impl PtrGuardMut {
    pub fn as_ptr(&self) -> *mut u8 {
        self.0
    }
}

#[derive(Clone, Copy)]
pub struct VolatileSlice<'a, B = ()> {
    ptr: *mut u8,
    len: usize,
    bitmap: B,
    life: PhantomData<&'a u8>,
}
impl<'a, B: BitmapSlice> VolatileSlice<'a, B> {
    pub fn len(&self) -> usize {
        self.len
    }
    pub fn bitmap(&self) -> &B {
        &self.bitmap
    }
    pub fn ptr_guard(&self) -> PtrGuard {
        PtrGuard(self.ptr)
    }
    pub fn ptr_guard_mut(&self) -> PtrGuardMut {
        PtrGuardMut(self.ptr)
    }
    pub fn offset(&self, n: usize) -> Result<Self, VolatileMemoryError> {
        let len = self.len.checked_sub(n).ok_or(VolatileMemoryError)?;
        self.subslice(n, len)
    }
    pub fn subslice(&self, at: usize, len: usize) -> Result<Self, VolatileMemoryError> {
        let end = at.checked_add(len).ok_or(VolatileMemoryError)?;
        if end > self.len {
            return Err(VolatileMemoryError);
        }
        let ptr = self.ptr.wrapping_add(at);
        Ok(Self { ptr, len, bitmap: self.bitmap.clone(), life: PhantomData })
    }
}

pub trait VolatileMemory {
    type B;
    fn get_slice(
        &self,
        at: usize,
        n: usize,
    ) -> Result<VolatileSlice<'_, Self::B>, VolatileMemoryError>;
}

pub struct MmapRegion<B> {
    bytes: *mut [u8],
    bitmap: B,
}
impl<B> MmapRegion<B> {
    fn ptr(&self) -> *mut u8 {
        self.bytes as *mut u8
    }
    fn len(&self) -> usize {
        self.bytes.len()
    }
}
impl<B> Drop for MmapRegion<B> {
    fn drop(&mut self) {
        drop(unsafe { Box::from_raw(self.bytes) });
    }
}
impl<B: Bitmap + BitmapSlice> VolatileMemory for MmapRegion<B> {
    type B = B;
    fn get_slice(&self, at: usize, n: usize) -> Result<VolatileSlice<'_, B>, VolatileMemoryError> {
        let whole = VolatileSlice {
            ptr: self.ptr(),
            len: self.len(),
            bitmap: self.bitmap.clone(),
            life: PhantomData,
        };
        whole.subslice(at, n)
    }
}

pub struct GuestRegionMmap<B> {
    start: GuestAddress,
    region: MmapRegion<B>,
}
impl<B> Deref for GuestRegionMmap<B> {
    type Target = MmapRegion<B>;
    fn deref(&self) -> &MmapRegion<B> {
        &self.region
    }
}
pub trait GuestMemoryRegion {
    fn start_addr(&self) -> GuestAddress;
}
impl<B> GuestMemoryRegion for GuestRegionMmap<B> {
    fn start_addr(&self) -> GuestAddress {
        self.start
    }
}

pub struct GuestMemoryMmap<B = ()> {
    // In the order of their starts, as they are given.
    regions: Vec<GuestRegionMmap<B>>,
}
pub trait GuestMemory {
    type R: GuestMemoryRegion;
    fn find_region(&self, at: GuestAddress) -> Option<&Self::R>;
}
impl<B> GuestMemory for GuestMemoryMmap<B> {
    type R = GuestRegionMmap<B>;
    fn find_region(&self, at: GuestAddress) -> Option<&Self::R> {
        // A region's start is a place in it, so that an empty segment has one.
        let r = self.regions[..self.regions.partition_point(|r| r.start.0 <= at.0)].last()?;
        (at == r.start || at.0 - r.start.0 < r.region.len() as u64).then_some(r)
    }
}
impl<B: Default> GuestMemoryMmap<B> {
    pub fn from_ranges(ranges: &[(GuestAddress, usize)]) -> Result<Self, GuestMemoryError> {
        let regions = ranges
            .iter()
            .map(|&(start, len)| GuestRegionMmap {
                start,
                region: MmapRegion {
                    bytes: Box::into_raw(vec![0u8; len].into_boxed_slice()),
                    bitmap: B::default(),
                },
            })
            .collect();
        Ok(Self { regions })
    }
}
impl<B> GuestMemoryMmap<B> {
    fn place(&self, at: GuestAddress, n: usize) -> Result<*mut u8, GuestMemoryError> {
        let r = self.find_region(at).ok_or(GuestMemoryError)?;
        let from = (at.0 - r.start.0) as usize;
        if n > r.region.len() - from {
            return Err(GuestMemoryError);
        }
        Ok(r.region.ptr().wrapping_add(from))
    }
    /// Copies bytes in.
    pub fn put(&self, at: GuestAddress, b: &[u8]) {
        let p = self.place(at, b.len()).unwrap();
        unsafe { std::ptr::copy_nonoverlapping(b.as_ptr(), p, b.len()) }
    }
    /// Copies bytes out.
    pub fn get(&self, at: GuestAddress, n: usize) -> Vec<u8> {
        let p = self.place(at, n).unwrap();
        let mut v = vec![0; n];
        unsafe { std::ptr::copy_nonoverlapping(p, v.as_mut_ptr(), n) };
        v
    }
    pub fn object<T: ByteValued>(&self, at: GuestAddress) -> Result<T, GuestMemoryError> {
        let p = self.place(at, size_of::<T>())?;
        let mut t = MaybeUninit::<T>::uninit();
        unsafe {
            std::ptr::copy_nonoverlapping(p, t.as_mut_ptr() as *mut u8, size_of::<T>());
            Ok(t.assume_init())
        }
    }
}
// For virtiofsd's own tests alone.
pub trait Bytes {
    fn write_obj<T: ByteValued>(&self, v: T, at: GuestAddress) -> Result<(), GuestMemoryError>;
}
impl<B> Bytes for GuestMemoryMmap<B> {
    fn write_obj<T: ByteValued>(&self, v: T, at: GuestAddress) -> Result<(), GuestMemoryError> {
        self.place(at, size_of::<T>())?;
        self.put(at, v.as_slice());
        Ok(())
    }
}
