//! Memory between two pages that may not be touched: an access beyond either end
//! of it stops the test. It stands at two addresses, where it may be written and
//! where it may only be read. Mapping takes long, so that a thread keeps what it
//! has mapped and uses it again. Follows document 01, section "Refusal numbers".

use std::cell::RefCell;
use std::ffi::{c_char, c_int, c_uint, c_void};
use std::ptr::null_mut;

extern "C" {
    fn memfd_create(name: *const c_char, flags: c_uint) -> c_int;
    fn ftruncate(file: c_int, length: i64) -> c_int;
    fn close(file: c_int) -> c_int;
    fn mmap(
        address: *mut c_void,
        length: usize,
        protection: c_int,
        flags: c_int,
        file: c_int,
        offset: i64,
    ) -> *mut c_void;
    fn munmap(address: *mut c_void, length: usize) -> c_int;
}

// Linux's numbers on x86-64.
const PAGE: usize = 4096;
const NO_ACCESS: c_int = 0;
const READ: c_int = 1;
const READ_AND_WRITE: c_int = 3;
const PRIVATE_AND_ANONYMOUS: c_int = 0x22;
const SHARED_AND_FIXED: c_int = 0x11;

/// The memory at one of its addresses, with its guard pages.
struct View {
    mapping: *mut c_void,
    mapped: usize,
}

impl View {
    fn new(file: c_int, bytes: usize, protection: c_int) -> View {
        let mapped = bytes + 2 * PAGE;
        // SAFETY: a new mapping that nothing else uses, and the file put in its
        // middle.
        unsafe {
            let mapping = mmap(null_mut(), mapped, NO_ACCESS, PRIVATE_AND_ANONYMOUS, -1, 0);
            assert_ne!(mapping as isize, -1, "{mapped} bytes of addresses");
            let view = View { mapping, mapped };
            let first = view.first().cast();
            let middle = mmap(first, bytes, protection, SHARED_AND_FIXED, file, 0);
            assert_eq!(middle, first, "{bytes} bytes of memory");
            view
        }
    }

    /// The first byte behind the first guard page.
    fn first(&self) -> *mut u8 {
        self.mapping.cast::<u8>().wrapping_add(PAGE)
    }
}

impl Drop for View {
    fn drop(&mut self) {
        // SAFETY: the mapping is this value's own, and nothing refers to it.
        let status = unsafe { munmap(self.mapping, self.mapped) };
        assert_eq!(status, 0);
    }
}

/// The memory at both addresses.
struct Views {
    pages: usize,
    written: View,
    read: View,
}

impl Views {
    fn new(pages: usize) -> Views {
        let bytes = pages * PAGE;
        // SAFETY: a new file without a name, which the mappings alone keep.
        unsafe {
            let file = memfd_create(c"lent".as_ptr(), 0);
            assert!(file >= 0, "a file in memory");
            assert_eq!(ftruncate(file, bytes as i64), 0, "{bytes} bytes");
            let views = Views {
                pages,
                written: View::new(file, bytes, READ_AND_WRITE),
                read: View::new(file, bytes, READ),
            };
            assert_eq!(close(file), 0);
            views
        }
    }
}

thread_local! {
    /// What this thread has mapped and doesn't use, by the number of pages.
    static KEPT: RefCell<Vec<Vec<Views>>> = const { RefCell::new(Vec::new()) };
}

/// Memory between two guard pages, kept for the next one when it is dropped.
pub struct Pages {
    views: Option<Views>,
}

impl Pages {
    /// At least so many bytes, with whatever stood in them.
    pub fn new(bytes: usize) -> Pages {
        let pages = bytes.div_ceil(PAGE).max(1);
        let kept = KEPT.with_borrow_mut(|kept| kept.get_mut(pages).and_then(Vec::pop));
        Pages {
            views: Some(kept.unwrap_or_else(|| Views::new(pages))),
        }
    }

    fn views(&self) -> &Views {
        self.views.as_ref().expect("given back by drop alone")
    }

    /// The number of bytes between the guard pages.
    pub fn bytes(&self) -> usize {
        self.views().pages * PAGE
    }

    /// The first byte, where it may be written.
    pub fn written(&self) -> *mut u8 {
        self.views().written.first()
    }

    /// The first byte, where it may only be read.
    pub fn read(&self) -> *mut u8 {
        self.views().read.first()
    }
}

impl Drop for Pages {
    fn drop(&mut self) {
        if let Some(views) = self.views.take() {
            KEPT.with_borrow_mut(|kept| {
                let lists = kept.len().max(views.pages + 1);
                kept.resize_with(lists, Vec::new);
                kept[views.pages].push(views);
            });
        }
    }
}
