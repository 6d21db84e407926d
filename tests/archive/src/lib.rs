//! The C calls of include/cinder.h as safe functions on slices. A slice is there, is
//! as long as it says and, when lent for writing, is apart from all others: that is
//! all the calls ask of their caller.

#[cfg(feature = "hub")]
pub use hub::{hub_detach, hub_publish, hub_read, hub_receive};
#[cfg(feature = "list")]
pub use list::list_decode;
#[cfg(feature = "packet")]
pub use packet::packet_decode;
#[cfg(feature = "push")]
pub use push::line_push;
pub use results::{
    LinePushed, ListResult, PacketResult, SettingResult, TextResult, ValueResult, WriteResult,
};
#[cfg(feature = "setting")]
pub use setting::setting_find;
#[cfg(feature = "stream")]
pub use stream::stream_next;
#[cfg(feature = "text")]
pub use text::{text_decode, text_encode};
#[cfg(feature = "writers")]
pub use writers::{list_encode, packet_encode};

mod results {
    /// `cinder_packet_result`.
    #[repr(C)]
    #[derive(Clone, Copy, PartialEq, Eq, Debug)]
    pub struct PacketResult {
        pub error: u64,
        pub consumed: u64,
    }

    /// `cinder_list_result`.
    #[repr(C)]
    #[derive(Clone, Copy, PartialEq, Eq, Debug)]
    pub struct ListResult {
        pub error: u64,
        pub consumed: u64,
        pub rows: u64,
        pub offset: u64,
        pub stored: u64,
        pub depth: u64,
    }

    /// `cinder_write_result`.
    #[repr(C)]
    #[derive(Clone, Copy, PartialEq, Eq, Debug)]
    pub struct WriteResult {
        pub error: u64,
        pub written: u64,
    }

    /// `cinder_text_result`.
    #[repr(C)]
    #[derive(Clone, Copy, PartialEq, Eq, Debug)]
    pub struct TextResult {
        pub error: u64,
        pub rows: u64,
        pub stored: u64,
    }

    /// `cinder_setting_result`.
    #[repr(C)]
    #[derive(Clone, Copy, PartialEq, Eq, Debug)]
    pub struct SettingResult {
        pub error: u64,
        pub list: u64,
        pub offset: u64,
        pub length: u64,
        pub depth: u64,
    }

    /// `cinder_line_result`.
    #[repr(C)]
    #[derive(Clone, Copy, PartialEq, Eq, Debug)]
    pub struct LinePushed {
        pub found: u64,
        pub error: u64,
        pub consumed: u64,
    }

    /// `cinder_value_result`.
    #[repr(C)]
    #[derive(Clone, Copy, PartialEq, Eq, Debug)]
    pub struct ValueResult {
        pub error: u64,
        pub kind: u64,
        pub bits: u64,
    }
}

#[cfg(feature = "packet")]
mod packet {
    use super::PacketResult;

    extern "C" {
        fn cinder_packet_decode(
            bytes: *const u8,
            bytes_len: usize,
            message: *mut u8,
            message_len: usize,
        ) -> PacketResult;
    }

    #[inline]
    pub fn packet_decode(bytes: &[u8], message: &mut [u8]) -> PacketResult {
        // SAFETY: each pointer and length come from one slice.
        unsafe {
            cinder_packet_decode(bytes.as_ptr(), bytes.len(), message.as_mut_ptr(), message.len())
        }
    }
}

#[cfg(feature = "list")]
mod list {
    use super::ListResult;

    extern "C" {
        fn cinder_list_decode(
            bytes: *const u8,
            bytes_len: usize,
            rows: *mut u8,
            rows_len: usize,
            store: *mut u8,
            store_len: usize,
        ) -> ListResult;
    }

    #[inline]
    pub fn list_decode(bytes: &[u8], rows: &mut [u8], store: &mut [u8]) -> ListResult {
        // SAFETY: each pointer and length come from one slice.
        unsafe {
            cinder_list_decode(
                bytes.as_ptr(),
                bytes.len(),
                rows.as_mut_ptr(),
                rows.len(),
                store.as_mut_ptr(),
                store.len(),
            )
        }
    }
}

#[cfg(feature = "stream")]
mod stream {
    use super::ListResult;

    extern "C" {
        fn cinder_stream_next(
            bytes: *const u8,
            bytes_len: usize,
            offset: u64,
            rows: *mut u8,
            rows_len: usize,
            store: *mut u8,
            store_len: usize,
        ) -> ListResult;
    }

    #[inline]
    pub fn stream_next(bytes: &[u8], offset: u64, rows: &mut [u8], store: &mut [u8]) -> ListResult {
        // SAFETY: each pointer and length come from one slice.
        unsafe {
            cinder_stream_next(
                bytes.as_ptr(),
                bytes.len(),
                offset,
                rows.as_mut_ptr(),
                rows.len(),
                store.as_mut_ptr(),
                store.len(),
            )
        }
    }
}

#[cfg(feature = "hub")]
mod hub {
    use super::{PacketResult, ValueResult, WriteResult};

    extern "C" {
        fn cinder_hub_receive(
            catalogue: *const u8,
            catalogue_len: usize,
            table: *mut u8,
            table_len: usize,
            socket: u64,
            bytes: *const u8,
            bytes_len: usize,
        ) -> PacketResult;

        fn cinder_hub_detach(
            catalogue: *const u8,
            catalogue_len: usize,
            table: *mut u8,
            table_len: usize,
            socket: u64,
        ) -> u64;

        fn cinder_hub_publish(
            catalogue: *const u8,
            catalogue_len: usize,
            table: *const u8,
            table_len: usize,
            list: *mut u8,
            list_len: usize,
        ) -> WriteResult;

        fn cinder_hub_read(
            catalogue: *const u8,
            catalogue_len: usize,
            table: *const u8,
            table_len: usize,
            socket: u64,
            index: u64,
        ) -> ValueResult;
    }

    #[inline]
    pub fn hub_receive(
        catalogue: &[u8],
        table: &mut [u8],
        socket: u64,
        bytes: &[u8],
    ) -> PacketResult {
        // SAFETY: each pointer and length come from one slice.
        unsafe {
            cinder_hub_receive(
                catalogue.as_ptr(),
                catalogue.len(),
                table.as_mut_ptr(),
                table.len(),
                socket,
                bytes.as_ptr(),
                bytes.len(),
            )
        }
    }

    #[inline]
    pub fn hub_detach(catalogue: &[u8], table: &mut [u8], socket: u64) -> u64 {
        // SAFETY: each pointer and length come from one slice.
        unsafe {
            cinder_hub_detach(
                catalogue.as_ptr(),
                catalogue.len(),
                table.as_mut_ptr(),
                table.len(),
                socket,
            )
        }
    }

    #[inline]
    pub fn hub_publish(catalogue: &[u8], table: &[u8], list: &mut [u8]) -> WriteResult {
        // SAFETY: each pointer and length come from one slice.
        unsafe {
            cinder_hub_publish(
                catalogue.as_ptr(),
                catalogue.len(),
                table.as_ptr(),
                table.len(),
                list.as_mut_ptr(),
                list.len(),
            )
        }
    }

    #[inline]
    pub fn hub_read(catalogue: &[u8], table: &[u8], socket: u64, index: u64) -> ValueResult {
        // SAFETY: each pointer and length come from one slice.
        unsafe {
            cinder_hub_read(
                catalogue.as_ptr(),
                catalogue.len(),
                table.as_ptr(),
                table.len(),
                socket,
                index,
            )
        }
    }
}

#[cfg(feature = "writers")]
mod writers {
    use super::WriteResult;

    extern "C" {
        fn cinder_packet_encode(
            packet_type: u64,
            payload: *const u8,
            payload_len: usize,
            packet: *mut u8,
            packet_len: usize,
        ) -> WriteResult;

        fn cinder_list_encode(
            rows: *const u8,
            rows_len: usize,
            store: *const u8,
            store_len: usize,
            list: *mut u8,
            list_len: usize,
        ) -> WriteResult;
    }

    #[inline]
    pub fn packet_encode(packet_type: u64, payload: &[u8], packet: &mut [u8]) -> WriteResult {
        // SAFETY: each pointer and length come from one slice.
        unsafe {
            cinder_packet_encode(
                packet_type,
                payload.as_ptr(),
                payload.len(),
                packet.as_mut_ptr(),
                packet.len(),
            )
        }
    }

    #[inline]
    pub fn list_encode(rows: &[u8], store: &[u8], list: &mut [u8]) -> WriteResult {
        // SAFETY: each pointer and length come from one slice.
        unsafe {
            cinder_list_encode(
                rows.as_ptr(),
                rows.len(),
                store.as_ptr(),
                store.len(),
                list.as_mut_ptr(),
                list.len(),
            )
        }
    }
}

#[cfg(feature = "text")]
mod text {
    use super::{TextResult, WriteResult};

    extern "C" {
        fn cinder_text_encode(
            rows: *const u8,
            rows_len: usize,
            store: *const u8,
            store_len: usize,
            text: *mut u8,
            text_len: usize,
        ) -> WriteResult;

        fn cinder_text_decode(
            text: *const u8,
            text_len: usize,
            rows: *mut u8,
            rows_len: usize,
            store: *mut u8,
            store_len: usize,
        ) -> TextResult;
    }

    #[inline]
    pub fn text_encode(rows: &[u8], store: &[u8], text: &mut [u8]) -> WriteResult {
        // SAFETY: each pointer and length come from one slice.
        unsafe {
            cinder_text_encode(
                rows.as_ptr(),
                rows.len(),
                store.as_ptr(),
                store.len(),
                text.as_mut_ptr(),
                text.len(),
            )
        }
    }

    #[inline]
    pub fn text_decode(text: &[u8], rows: &mut [u8], store: &mut [u8]) -> TextResult {
        // SAFETY: each pointer and length come from one slice.
        unsafe {
            cinder_text_decode(
                text.as_ptr(),
                text.len(),
                rows.as_mut_ptr(),
                rows.len(),
                store.as_mut_ptr(),
                store.len(),
            )
        }
    }
}

#[cfg(feature = "setting")]
mod setting {
    use super::SettingResult;

    extern "C" {
        fn cinder_setting_find(
            guest: *const u8,
            guest_len: usize,
            house: *const u8,
            house_len: usize,
            key: *const u8,
            key_len: usize,
        ) -> SettingResult;
    }

    #[inline]
    pub fn setting_find(guest: &[u8], house: &[u8], key: &[u8]) -> SettingResult {
        // SAFETY: each pointer and length come from one slice.
        unsafe {
            cinder_setting_find(
                guest.as_ptr(),
                guest.len(),
                house.as_ptr(),
                house.len(),
                key.as_ptr(),
                key.len(),
            )
        }
    }
}

#[cfg(feature = "push")]
mod push {
    use super::LinePushed;

    extern "C" {
        fn cinder_line_push(
            line: *mut u8,
            line_len: usize,
            bytes: *const u8,
            bytes_len: usize,
            packet: *mut u8,
            packet_len: usize,
        ) -> LinePushed;
    }

    #[inline]
    pub fn line_push(line: &mut [u8], bytes: &[u8], packet: &mut [u8]) -> LinePushed {
        // SAFETY: each pointer and length come from one slice.
        unsafe {
            cinder_line_push(
                line.as_mut_ptr(),
                line.len(),
                bytes.as_ptr(),
                bytes.len(),
                packet.as_mut_ptr(),
                packet.len(),
            )
        }
    }
}
