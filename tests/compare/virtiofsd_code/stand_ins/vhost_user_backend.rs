//! Stands for the crate `vhost-user-backend`: a bitmap of written pages that notes none.
pub mod bitmap {
    #[derive(Clone, Copy, Debug, Default)]
    pub struct BitmapMmapRegion;
    impl vm_memory::bitmap::Bitmap for BitmapMmapRegion {}
    impl vm_memory::bitmap::BitmapSlice for BitmapMmapRegion {}
}
