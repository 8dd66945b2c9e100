//! Stands for the crate `virtio-queue`: a chain is a list of descriptors. The queue, for virtiofsd's own
//! tests alone, reads one chain from a table in memory.
use std::marker::PhantomData;
use std::sync::Arc;
use vm_memory::{ByteValued, GuestAddress, GuestMemoryMmap};

#[derive(Clone, Copy, Debug)]
pub struct Descriptor {
    pub addr: GuestAddress,
    pub len: u32,
    pub writable: bool,
}
impl Descriptor {
    pub fn addr(&self) -> GuestAddress {
        self.addr
    }
    pub fn len(&self) -> u32 {
        self.len
    }
}

#[derive(Debug)]
pub struct DescriptorChain<M> {
    // Shared, so that a clone takes no memory, as a clone of the crate's takes none.
    descs: Arc<[Descriptor]>,
    mem: PhantomData<M>,
}
impl<M> Clone for DescriptorChain<M> {
    fn clone(&self) -> Self {
        Self { descs: self.descs.clone(), mem: PhantomData }
    }
}
impl<M> DescriptorChain<M> {
    pub fn new(descs: Vec<Descriptor>) -> Self {
        Self { descs: descs.into(), mem: PhantomData }
    }
    fn each(self, writable: bool) -> impl Iterator<Item = Descriptor> {
        (0..self.descs.len()).map(move |i| self.descs[i]).filter(move |d| d.writable == writable)
    }
    pub fn readable(self) -> impl Iterator<Item = Descriptor> {
        self.each(false)
    }
    pub fn writable(self) -> impl Iterator<Item = Descriptor> {
        self.each(true)
    }
}

#[derive(Clone, Copy, Default)]
#[repr(C)]
struct Raw {
    addr: u64,
    len: u32,
    flags: u16,
    next: u16,
}
unsafe impl ByteValued for Raw {}

#[derive(Debug)]
pub struct Error;
pub struct Queue {
    table: GuestAddress,
}
pub trait QueueT: Sized {
    fn new(max_size: u16) -> Result<Self, Error>;
    fn try_set_desc_table_address(&mut self, a: GuestAddress) -> Result<(), Error>;
    fn try_set_avail_ring_address(&mut self, a: GuestAddress) -> Result<(), Error>;
    fn set_ready(&mut self, ready: bool);
}
impl QueueT for Queue {
    fn new(_max_size: u16) -> Result<Self, Error> {
        Ok(Queue { table: GuestAddress(0) })
    }
    fn try_set_desc_table_address(&mut self, a: GuestAddress) -> Result<(), Error> {
        self.table = a;
        Ok(())
    }
    fn try_set_avail_ring_address(&mut self, _a: GuestAddress) -> Result<(), Error> {
        Ok(())
    }
    fn set_ready(&mut self, _ready: bool) {}
}
pub trait QueueOwnedT {
    fn iter<'a, B>(
        &mut self,
        mem: &'a GuestMemoryMmap<B>,
    ) -> Result<std::vec::IntoIter<DescriptorChain<&'a GuestMemoryMmap<B>>>, Error>;
}
impl QueueOwnedT for Queue {
    fn iter<'a, B>(
        &mut self,
        mem: &'a GuestMemoryMmap<B>,
    ) -> Result<std::vec::IntoIter<DescriptorChain<&'a GuestMemoryMmap<B>>>, Error> {
        let mut descs = Vec::new();
        let mut i = 0u64;
        loop {
            let d: Raw = mem.object(GuestAddress(self.table.0 + 16 * i)).map_err(|_| Error)?;
            descs.push(Descriptor {
                addr: GuestAddress(d.addr),
                len: d.len,
                writable: d.flags & 2 != 0,
            });
            if d.flags & 1 == 0 {
                break;
            }
            i = d.next as u64;
        }
        Ok(vec![DescriptorChain::new(descs)].into_iter())
    }
}
