//! The C calls of plain/ as functions on slices, as the crate `archive` has the
//! product's: the plain ones, and `tuned_` those tuned by hand.

#[cfg(feature = "packet")]
#[inline]
pub fn packet_decode(bytes: &[u8], message: &mut [u8]) -> archive::PacketResult {
    extern "C" {
        fn plain_packet_decode(
            bytes: *const u8,
            bytes_len: usize,
            message: *mut u8,
            message_len: usize,
        ) -> archive::PacketResult;
    }
    // SAFETY: each pointer and length come from one slice.
    unsafe { plain_packet_decode(bytes.as_ptr(), bytes.len(), message.as_mut_ptr(), message.len()) }
}

#[cfg(feature = "writers")]
#[inline]
pub fn packet_encode(packet_type: u64, payload: &[u8], packet: &mut [u8]) -> archive::WriteResult {
    extern "C" {
        fn plain_packet_encode(
            packet_type: u64,
            payload: *const u8,
            payload_len: usize,
            packet: *mut u8,
            packet_len: usize,
        ) -> archive::WriteResult;
    }
    // SAFETY: each pointer and length come from one slice.
    unsafe {
        plain_packet_encode(
            packet_type,
            payload.as_ptr(),
            payload.len(),
            packet.as_mut_ptr(),
            packet.len(),
        )
    }
}

#[cfg(feature = "push")]
#[inline]
pub fn line_push(line: &mut [u8], bytes: &[u8], packet: &mut [u8]) -> archive::LinePushed {
    extern "C" {
        fn plain_line_push(
            line: *mut u8,
            line_len: usize,
            bytes: *const u8,
            bytes_len: usize,
            packet: *mut u8,
            packet_len: usize,
        ) -> archive::LinePushed;
    }
    // SAFETY: each pointer and length come from one slice.
    unsafe {
        plain_line_push(
            line.as_mut_ptr(),
            line.len(),
            bytes.as_ptr(),
            bytes.len(),
            packet.as_mut_ptr(),
            packet.len(),
        )
    }
}

/// The function $name for the C function $c_name; $offset is there if the call has one.
#[cfg(any(feature = "list", feature = "stream"))]
macro_rules! list_call {
    ($name:ident, $c_name:ident $(, $offset:ident)?) => {
        #[inline]
        pub fn $name(
            bytes: &[u8],
            $($offset: u64,)?
            rows: &mut [u8],
            store: &mut [u8],
        ) -> archive::ListResult {
            extern "C" {
                fn $c_name(
                    bytes: *const u8,
                    bytes_len: usize,
                    $($offset: u64,)?
                    rows: *mut u8,
                    rows_len: usize,
                    store: *mut u8,
                    store_len: usize,
                ) -> archive::ListResult;
            }
            // SAFETY: each pointer and length come from one slice.
            unsafe {
                $c_name(
                    bytes.as_ptr(),
                    bytes.len(),
                    $($offset,)?
                    rows.as_mut_ptr(),
                    rows.len(),
                    store.as_mut_ptr(),
                    store.len(),
                )
            }
        }
    };
}

#[cfg(feature = "list")]
list_call!(list_decode, plain_list_decode);
#[cfg(feature = "list")]
list_call!(tuned_list_decode, tuned_list_decode);
#[cfg(feature = "stream")]
list_call!(stream_next, plain_stream_next, offset);
#[cfg(feature = "stream")]
list_call!(tuned_stream_next, tuned_stream_next, offset);
