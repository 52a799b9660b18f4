//! Stand-in for the crate `purple_garden_allocators`: an arena that frees all it gave out when it is dropped.
#![feature(allocator_api)]

pub mod bump {
    use std::alloc::{AllocError, Allocator, Global, Layout};
    use std::cell::RefCell;
    use std::ptr::NonNull;

    /// What the parser asks of an arena: memory that lives as long as the arena, and finished lists.
    pub trait Arena: Allocator {
        fn alloc_slice<T>(&self, items: impl IntoIterator<Item = T>) -> &[T];
    }

    #[derive(Default)]
    pub struct Bump {
        blocks: RefCell<Vec<(NonNull<u8>, Layout)>>,
    }

    // SAFETY: a block stays where it is until the arena is dropped.
    unsafe impl Allocator for Bump {
        fn allocate(&self, layout: Layout) -> Result<NonNull<[u8]>, AllocError> {
            let block = Global.allocate(layout)?;
            self.blocks.borrow_mut().push((block.cast(), layout));
            Ok(block)
        }

        unsafe fn deallocate(&self, _: NonNull<u8>, _: Layout) {}
    }

    impl Arena for Bump {
        fn alloc_slice<T>(&self, items: impl IntoIterator<Item = T>) -> &[T] {
            let items: Vec<T> = items.into_iter().collect();
            let mut list = Vec::with_capacity_in(items.len(), self);
            list.extend(items);
            list.leak()
        }
    }

    impl Drop for Bump {
        fn drop(&mut self) {
            for (block, layout) in self.blocks.get_mut().drain(..) {
                // SAFETY: each block came from Global with this layout and is freed nowhere else.
                unsafe { Global.deallocate(block, layout) }
            }
        }
    }
}
