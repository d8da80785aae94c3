//! For the tests: where a field of a record lies.

/// Bytes of the record before the field.
macro_rules! offset_of {
    ($record:ty, $field:ident) => {{
        let record = core::mem::MaybeUninit::<$record>::uninit();
        let start = record.as_ptr();
        // SAFETY: the field's place is inside the record, and nothing is read from it.
        let place = unsafe { core::ptr::addr_of!((*start).$field) };
        place as usize - start as usize
    }};
}
