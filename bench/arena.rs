//! Stand-in for the crate `purple_garden_allocators`: one block, handed out from its front and taken back as a whole.
//!
//! The list that grows is mostly the last thing handed out; it then grows in place, as the parser's comments ask of an arena.
#![feature(allocator_api)]

pub mod bump {
    use std::alloc::{AllocError, Allocator, Global, Layout};
    use std::cell::Cell;
    use std::ptr::NonNull;

    /// What the parser asks of an arena: memory that lives as long as the arena, and finished lists.
    pub trait Arena: Allocator {
        fn alloc_slice<T>(&self, items: impl IntoIterator<Item = T>) -> &[T];
    }

    pub struct Bump {
        block: NonNull<u8>,
        layout: Layout,
        /// how much is handed out
        used: Cell<usize>,
    }

    impl Bump {
        pub fn new(bytes: usize) -> Self {
            let layout = Layout::from_size_align(bytes, 4096).expect("a size");
            let block = Global.allocate(layout).expect("memory").cast();
            Bump { block, layout, used: Cell::new(0) }
        }

        /// All that was handed out is free again.
        pub fn reset(&mut self) {
            self.used.set(0);
        }

        #[inline]
        fn offset(&self, part: NonNull<u8>) -> usize {
            part.addr().get() - self.block.addr().get()
        }
    }

    // SAFETY: parts do not overlap, and lie in a block that stays where it is until the arena is dropped.
    unsafe impl Allocator for Bump {
        #[inline]
        fn allocate(&self, layout: Layout) -> Result<NonNull<[u8]>, AllocError> {
            let start = self.used.get().next_multiple_of(layout.align());
            let end = start + layout.size();
            if end > self.layout.size() {
                return Err(AllocError);
            }
            self.used.set(end);
            // SAFETY: `end` is within the block.
            Ok(NonNull::slice_from_raw_parts(unsafe { self.block.add(start) }, layout.size()))
        }

        #[inline]
        unsafe fn deallocate(&self, part: NonNull<u8>, layout: Layout) {
            if self.offset(part) + layout.size() == self.used.get() {
                self.used.set(self.offset(part));
            }
        }

        #[inline]
        unsafe fn grow(&self, part: NonNull<u8>, old: Layout, new: Layout) -> Result<NonNull<[u8]>, AllocError> {
            let start = self.offset(part);
            if start + old.size() == self.used.get() && start + new.size() <= self.layout.size() {
                self.used.set(start + new.size());
                return Ok(NonNull::slice_from_raw_parts(part, new.size()));
            }
            let moved = self.allocate(new)?;
            // SAFETY: both parts have at least the old size, and the new one is no part of the old.
            unsafe { moved.cast::<u8>().copy_from_nonoverlapping(part, old.size()) };
            Ok(moved)
        }
    }

    impl Arena for Bump {
        #[inline]
        fn alloc_slice<T>(&self, items: impl IntoIterator<Item = T>) -> &[T] {
            let items = items.into_iter();
            let mut list = Vec::with_capacity_in(items.size_hint().0, self);
            list.extend(items);
            list.leak()
        }
    }

    impl Drop for Bump {
        fn drop(&mut self) {
            // SAFETY: the block came from Global with this layout and is freed nowhere else.
            unsafe { Global.deallocate(self.block, self.layout) }
        }
    }
}
