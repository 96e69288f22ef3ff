//! The one module with unsafe code: the archive's functions as include/barkcushion.h declares them, a safe function
//! over each, and a list in memory that nobody cleared. It knows numbers and slices of them, and no other module.
//!
//! What a function answers is the archive's own number: a size or a count, or below 0 a refusal.
//!
//! Why the calls are sound, said once ("lent slices" below): a slice's pointer is not null and good for its length,
//! also an empty one's; a `&mut` slice overlaps nothing else; no function of the archive keeps a pointer, has a state,
//! or touches what it was not lent; each takes every value of its arguments.
#![warn(clippy::undocumented_unsafe_blocks)]
use core::mem::MaybeUninit;

extern "C" {
    fn bark_path_size(segments: *const u32, count: usize, pool: *const u8, pool_len: usize) -> i64;
    fn bark_write_path(
        segments: *const u32,
        count: usize,
        pool: *const u8,
        pool_len: usize,
        out: *mut u8,
        out_len: usize,
    ) -> i64;
    fn bark_check_path(path: *const u8, path_len: usize) -> i64;
    fn bark_read_path(path: *const u8, path_len: usize, segments: *mut u32, count: usize) -> i64;

    fn bark_write_message(
        service: u8,
        path: *const u8,
        path_len: usize,
        data: *const u8,
        data_len: usize,
        out: *mut u8,
        out_len: usize,
    ) -> i64;
    fn bark_read_message(s: *const u8, len: usize, fields: *mut usize, count: usize) -> i64;
    fn bark_write_unconnected_send(
        priority_ticks: u8,
        timeout_ticks: u8,
        message: *const u8,
        message_len: usize,
        path: *const u8,
        path_len: usize,
        out: *mut u8,
        out_len: usize,
    ) -> i64;
    fn bark_read_unconnected_send(s: *const u8, len: usize, fields: *mut usize, count: usize) -> i64;

    fn bark_encode_parameters(
        large: bool,
        redundant_owner: bool,
        connection_type: u8,
        variable_length: bool,
        priority: u8,
        connection_size: u16,
    ) -> i64;
    fn bark_decode_parameters(large: bool, word: u32, fields: *mut usize, count: usize) -> i64;
    fn bark_encode_transport(server: bool, trigger: u8, transport_class: u8) -> i64;
    fn bark_decode_transport(byte: u8, fields: *mut usize, count: usize) -> i64;
    fn bark_write_forward_open(
        large_open: bool,
        priority_tick_time: u8,
        timeout_ticks: u8,
        o_t_connection_id: u32,
        t_o_connection_id: u32,
        connection_serial_number: u16,
        vendor_id: u16,
        originator_serial_number: u32,
        timeout_multiplier: u8,
        o_t_rpi: u32,
        o_t_params: u32,
        t_o_rpi: u32,
        t_o_params: u32,
        transport: u8,
        path: *const u8,
        path_len: usize,
        out: *mut u8,
        out_len: usize,
    ) -> i64;
    fn bark_read_forward_open(large: bool, s: *const u8, len: usize, fields: *mut usize, count: usize) -> i64;
    fn bark_default_forward_open(large: bool, connection_serial_number: u16, fields: *mut usize, count: usize) -> i64;
    fn bark_write_forward_close(
        priority_ticks: u8,
        timeout_ticks: u8,
        connection_serial_number: u16,
        vendor_id: u16,
        originator_serial_number: u32,
        path: *const u8,
        path_len: usize,
        out: *mut u8,
        out_len: usize,
    ) -> i64;
    fn bark_read_forward_close(s: *const u8, len: usize, fields: *mut usize, count: usize) -> i64;

    fn bark_read_reply(s: *const u8, len: usize, fields: *mut usize, count: usize) -> i64;
    fn bark_is_routing_error(general: u8, has_word: bool, word: u16) -> bool;
    fn bark_read_forward_open_reply(routing: bool, s: *const u8, len: usize, fields: *mut usize, count: usize) -> i64;
    fn bark_read_forward_close_reply(routing: bool, s: *const u8, len: usize, fields: *mut usize, count: usize) -> i64;
    fn bark_write_forward_open_success(
        service: u8,
        o_t_connection_id: u32,
        t_o_connection_id: u32,
        connection_serial_number: u16,
        vendor_id: u16,
        originator_serial_number: u32,
        o_t_api: u32,
        t_o_api: u32,
        app_data: *const u8,
        app_data_len: usize,
        out: *mut u8,
        out_len: usize,
    ) -> i64;
    fn bark_write_forward_close_success(
        service: u8,
        connection_serial_number: u16,
        vendor_id: u16,
        originator_serial_number: u32,
        app_data: *const u8,
        app_data_len: usize,
        out: *mut u8,
        out_len: usize,
    ) -> i64;
    fn bark_write_forward_failure(
        service: u8,
        general: u8,
        has_word: bool,
        word: u16,
        connection_serial_number: u16,
        vendor_id: u16,
        originator_serial_number: u32,
        has_remaining: bool,
        remaining: u8,
        out: *mut u8,
        out_len: usize,
    ) -> i64;
    fn bark_read_envelope(s: *const u8, len: usize, fields: *mut usize, count: usize) -> i64;

    fn bark_write_body(
        items: *const u8,
        items_len: usize,
        lengths: *const usize,
        count: usize,
        out: *mut u8,
        out_len: usize,
    ) -> i64;
    fn bark_read_body(s: *const u8, len: usize) -> i64;
    fn bark_walk_item(s: *const u8, len: usize, items: usize, index: usize, fields: *mut usize, count: usize) -> i64;
    fn bark_walk_reply(s: *const u8, len: usize, items: usize, index: usize, fields: *mut usize, count: usize) -> i64;
    fn bark_read_replies(s: *const u8, len: usize, rows: *mut usize, count: usize) -> i64;
    fn bark_join_bodies(
        first: *const u8,
        first_len: usize,
        second: *const u8,
        second_len: usize,
        out: *mut u8,
        out_len: usize,
    ) -> i64;

    fn bark_read_nested(s: *const u8, len: usize, rows: *mut u16, count: usize) -> i64;

    fn bark_take_scrap(
        state: *mut usize,
        buffer: *mut u8,
        buffer_len: usize,
        scrap: *const u8,
        scrap_len: usize,
        frame: *mut usize,
    ) -> i64;
}

// ---- paths

#[inline]
pub(crate) fn path_size(rows: &[u32], pool: &[u8]) -> i64 {
    // SAFETY: lent slices.
    unsafe { bark_path_size(rows.as_ptr(), rows.len(), pool.as_ptr(), pool.len()) }
}

#[inline]
pub(crate) fn write_path(rows: &[u32], pool: &[u8], out: &mut [u8]) -> i64 {
    // SAFETY: lent slices.
    unsafe { bark_write_path(rows.as_ptr(), rows.len(), pool.as_ptr(), pool.len(), out.as_mut_ptr(), out.len()) }
}

#[inline]
pub(crate) fn check_path(path: &[u8]) -> i64 {
    // SAFETY: lent slices.
    unsafe { bark_check_path(path.as_ptr(), path.len()) }
}

#[inline]
pub(crate) fn read_path(path: &[u8], rows: &mut [u32]) -> i64 {
    // SAFETY: lent slices.
    unsafe { bark_read_path(path.as_ptr(), path.len(), rows.as_mut_ptr(), rows.len()) }
}

// ---- requests

#[inline]
pub(crate) fn write_message(service: u8, path: &[u8], data: &[u8], out: &mut [u8]) -> i64 {
    // SAFETY: lent slices.
    unsafe {
        bark_write_message(service, path.as_ptr(), path.len(), data.as_ptr(), data.len(), out.as_mut_ptr(), out.len())
    }
}

#[inline]
pub(crate) fn read_message(s: &[u8], fields: &mut [usize; 5]) -> i64 {
    // SAFETY: lent slices.
    unsafe { bark_read_message(s.as_ptr(), s.len(), fields.as_mut_ptr(), fields.len()) }
}

#[inline]
pub(crate) fn write_unconnected_send(
    priority_ticks: u8,
    timeout_ticks: u8,
    message: &[u8],
    path: &[u8],
    out: &mut [u8],
) -> i64 {
    // SAFETY: lent slices.
    unsafe {
        bark_write_unconnected_send(
            priority_ticks,
            timeout_ticks,
            message.as_ptr(),
            message.len(),
            path.as_ptr(),
            path.len(),
            out.as_mut_ptr(),
            out.len(),
        )
    }
}

#[inline]
pub(crate) fn read_unconnected_send(s: &[u8], fields: &mut [usize; 6]) -> i64 {
    // SAFETY: lent slices.
    unsafe { bark_read_unconnected_send(s.as_ptr(), s.len(), fields.as_mut_ptr(), fields.len()) }
}

// ---- Forward Open and Forward Close

#[inline]
pub(crate) fn encode_parameters(
    large: bool,
    redundant_owner: bool,
    connection_type: u8,
    variable_length: bool,
    priority: u8,
    connection_size: u16,
) -> i64 {
    // SAFETY: numbers only.
    unsafe {
        bark_encode_parameters(large, redundant_owner, connection_type, variable_length, priority, connection_size)
    }
}

#[inline]
pub(crate) fn decode_parameters(large: bool, word: u32, fields: &mut [usize; 5]) -> i64 {
    // SAFETY: lent slices.
    unsafe { bark_decode_parameters(large, word, fields.as_mut_ptr(), fields.len()) }
}

#[inline]
pub(crate) fn encode_transport(server: bool, trigger: u8, class: u8) -> i64 {
    // SAFETY: numbers only.
    unsafe { bark_encode_transport(server, trigger, class) }
}

#[inline]
pub(crate) fn decode_transport(byte: u8, fields: &mut [usize; 3]) -> i64 {
    // SAFETY: lent slices.
    unsafe { bark_decode_transport(byte, fields.as_mut_ptr(), fields.len()) }
}

/// The numbers of a Forward Open: parameters as words and transport as a byte, encoded.
pub(crate) struct OpenNumbers {
    pub(crate) large_open: bool,
    pub(crate) priority_tick_time: u8,
    pub(crate) timeout_ticks: u8,
    pub(crate) o_t_connection_id: u32,
    pub(crate) t_o_connection_id: u32,
    pub(crate) connection_serial_number: u16,
    pub(crate) vendor_id: u16,
    pub(crate) originator_serial_number: u32,
    pub(crate) timeout_multiplier: u8,
    pub(crate) o_t_rpi: u32,
    pub(crate) o_t_params: u32,
    pub(crate) t_o_rpi: u32,
    pub(crate) t_o_params: u32,
    pub(crate) transport: u8,
}

#[inline]
pub(crate) fn write_forward_open(n: &OpenNumbers, path: &[u8], out: &mut [u8]) -> i64 {
    // SAFETY: lent slices.
    unsafe {
        bark_write_forward_open(
            n.large_open,
            n.priority_tick_time,
            n.timeout_ticks,
            n.o_t_connection_id,
            n.t_o_connection_id,
            n.connection_serial_number,
            n.vendor_id,
            n.originator_serial_number,
            n.timeout_multiplier,
            n.o_t_rpi,
            n.o_t_params,
            n.t_o_rpi,
            n.t_o_params,
            n.transport,
            path.as_ptr(),
            path.len(),
            out.as_mut_ptr(),
            out.len(),
        )
    }
}

#[inline]
pub(crate) fn read_forward_open(large: bool, s: &[u8], fields: &mut [usize; 15]) -> i64 {
    // SAFETY: lent slices.
    unsafe { bark_read_forward_open(large, s.as_ptr(), s.len(), fields.as_mut_ptr(), fields.len()) }
}

/// Fills the 13 numbers that a writer uses; the two of the path stay as they are.
#[inline]
pub(crate) fn default_forward_open(large: bool, serial: u16, fields: &mut [usize; 15]) -> i64 {
    // SAFETY: lent slices.
    unsafe { bark_default_forward_open(large, serial, fields.as_mut_ptr(), fields.len()) }
}

#[inline]
pub(crate) fn write_forward_close(
    priority_ticks: u8,
    timeout_ticks: u8,
    connection_serial_number: u16,
    vendor_id: u16,
    originator_serial_number: u32,
    path: &[u8],
    out: &mut [u8],
) -> i64 {
    // SAFETY: lent slices.
    unsafe {
        bark_write_forward_close(
            priority_ticks,
            timeout_ticks,
            connection_serial_number,
            vendor_id,
            originator_serial_number,
            path.as_ptr(),
            path.len(),
            out.as_mut_ptr(),
            out.len(),
        )
    }
}

#[inline]
pub(crate) fn read_forward_close(s: &[u8], fields: &mut [usize; 7]) -> i64 {
    // SAFETY: lent slices.
    unsafe { bark_read_forward_close(s.as_ptr(), s.len(), fields.as_mut_ptr(), fields.len()) }
}

// ---- replies

#[inline]
pub(crate) fn read_reply(s: &[u8], fields: &mut [usize; 6]) -> i64 {
    // SAFETY: lent slices.
    unsafe { bark_read_reply(s.as_ptr(), s.len(), fields.as_mut_ptr(), fields.len()) }
}

#[inline]
pub(crate) fn is_routing_error(general: u8, extended: Option<u16>) -> bool {
    // SAFETY: numbers only.
    unsafe { bark_is_routing_error(general, extended.is_some(), extended.unwrap_or(0)) }
}

/// Of a failure the last four numbers stay as they are.
#[inline]
pub(crate) fn read_forward_open_reply(routing: bool, s: &[u8], fields: &mut [usize; 16]) -> i64 {
    // SAFETY: lent slices.
    unsafe { bark_read_forward_open_reply(routing, s.as_ptr(), s.len(), fields.as_mut_ptr(), fields.len()) }
}

#[inline]
pub(crate) fn read_forward_close_reply(routing: bool, s: &[u8], fields: &mut [usize; 12]) -> i64 {
    // SAFETY: lent slices.
    unsafe { bark_read_forward_close_reply(routing, s.as_ptr(), s.len(), fields.as_mut_ptr(), fields.len()) }
}

/// The numbers of the reply to a Forward Open that was served.
pub(crate) struct OpenedNumbers {
    pub(crate) service: u8,
    pub(crate) o_t_connection_id: u32,
    pub(crate) t_o_connection_id: u32,
    pub(crate) connection_serial_number: u16,
    pub(crate) vendor_id: u16,
    pub(crate) originator_serial_number: u32,
    pub(crate) o_t_api: u32,
    pub(crate) t_o_api: u32,
}

#[inline]
pub(crate) fn write_opened(n: &OpenedNumbers, app_data: &[u8], out: &mut [u8]) -> i64 {
    // SAFETY: lent slices.
    unsafe {
        bark_write_forward_open_success(
            n.service,
            n.o_t_connection_id,
            n.t_o_connection_id,
            n.connection_serial_number,
            n.vendor_id,
            n.originator_serial_number,
            n.o_t_api,
            n.t_o_api,
            app_data.as_ptr(),
            app_data.len(),
            out.as_mut_ptr(),
            out.len(),
        )
    }
}

#[inline]
pub(crate) fn write_closed(
    service: u8,
    connection_serial_number: u16,
    vendor_id: u16,
    originator_serial_number: u32,
    app_data: &[u8],
    out: &mut [u8],
) -> i64 {
    // SAFETY: lent slices.
    unsafe {
        bark_write_forward_close_success(
            service,
            connection_serial_number,
            vendor_id,
            originator_serial_number,
            app_data.as_ptr(),
            app_data.len(),
            out.as_mut_ptr(),
            out.len(),
        )
    }
}

/// The numbers of the reply to a Forward Open or a Forward Close that failed.
pub(crate) struct FailureNumbers {
    pub(crate) service: u8,
    pub(crate) general: u8,
    pub(crate) extended: Option<u16>,
    pub(crate) connection_serial_number: u16,
    pub(crate) vendor_id: u16,
    pub(crate) originator_serial_number: u32,
    pub(crate) remaining: Option<u8>,
}

#[inline]
pub(crate) fn write_failure(n: &FailureNumbers, out: &mut [u8]) -> i64 {
    // SAFETY: lent slices.
    unsafe {
        bark_write_forward_failure(
            n.service,
            n.general,
            n.extended.is_some(),
            n.extended.unwrap_or(0),
            n.connection_serial_number,
            n.vendor_id,
            n.originator_serial_number,
            n.remaining.is_some(),
            n.remaining.unwrap_or(0),
            out.as_mut_ptr(),
            out.len(),
        )
    }
}

#[inline]
pub(crate) fn read_envelope(s: &[u8], fields: &mut [usize; 4]) -> i64 {
    // SAFETY: lent slices.
    unsafe { bark_read_envelope(s.as_ptr(), s.len(), fields.as_mut_ptr(), fields.len()) }
}

// ---- bodies and nested messages

#[inline]
pub(crate) fn write_body(items: &[u8], lengths: &[usize], out: &mut [u8]) -> i64 {
    // SAFETY: lent slices.
    unsafe {
        bark_write_body(items.as_ptr(), items.len(), lengths.as_ptr(), lengths.len(), out.as_mut_ptr(), out.len())
    }
}

#[inline]
pub(crate) fn read_body(s: &[u8]) -> i64 {
    // SAFETY: lent slices.
    unsafe { bark_read_body(s.as_ptr(), s.len()) }
}

#[inline]
pub(crate) fn walk_item(s: &[u8], items: usize, index: usize, fields: &mut [usize; 2]) -> i64 {
    // SAFETY: lent slices.
    unsafe { bark_walk_item(s.as_ptr(), s.len(), items, index, fields.as_mut_ptr(), fields.len()) }
}

#[inline]
pub(crate) fn walk_reply(s: &[u8], items: usize, index: usize, fields: &mut [usize; 6]) -> i64 {
    // SAFETY: lent slices.
    unsafe { bark_walk_reply(s.as_ptr(), s.len(), items, index, fields.as_mut_ptr(), fields.len()) }
}

#[inline]
pub(crate) fn read_replies(s: &[u8], rows: &mut [usize]) -> i64 {
    // SAFETY: lent slices.
    unsafe { bark_read_replies(s.as_ptr(), s.len(), rows.as_mut_ptr(), rows.len()) }
}

#[inline]
pub(crate) fn join_bodies(first: &[u8], second: &[u8], out: &mut [u8]) -> i64 {
    // SAFETY: lent slices.
    unsafe { bark_join_bodies(first.as_ptr(), first.len(), second.as_ptr(), second.len(), out.as_mut_ptr(), out.len()) }
}

#[inline]
pub(crate) fn read_nested(s: &[u8], rows: &mut [u16]) -> i64 {
    // SAFETY: lent slices.
    unsafe { bark_read_nested(s.as_ptr(), s.len(), rows.as_mut_ptr(), rows.len()) }
}

// ---- frames

/// Answers how many bytes of the scrap were taken; `frame` is the length of the frame at the buffer's front, or 0.
#[inline]
pub(crate) fn take_scrap(state: &mut [usize; 3], buffer: &mut [u8], scrap: &[u8], frame: &mut usize) -> i64 {
    // SAFETY: lent slices; the state has the three numbers that the function takes it to have.
    unsafe {
        bark_take_scrap(state.as_mut_ptr(), buffer.as_mut_ptr(), buffer.len(), scrap.as_ptr(), scrap.len(), frame)
    }
}

// ---- a list

/// A list in a fixed array of which only the front was ever written, so that a new one costs nothing, however long.
pub(crate) struct List<T, const N: usize> {
    room: [MaybeUninit<T>; N],
    /// The first `len` of `room` are written.
    len: usize,
}

impl<T: Copy, const N: usize> List<T, N> {
    #[inline]
    pub(crate) const fn new() -> Self {
        List { room: [const { MaybeUninit::uninit() }; N], len: 0 }
    }

    #[inline]
    pub(crate) fn clear(&mut self) {
        self.len = 0;
    }

    /// Adds all of these, or panics where they do not fit.
    #[inline]
    pub(crate) fn extend(&mut self, more: &[T]) {
        let room = &mut self.room[self.len..][..more.len()];
        for (to, from) in room.iter_mut().zip(more) {
            to.write(*from);
        }
        self.len += more.len();
    }

    #[inline]
    pub(crate) fn as_slice(&self) -> &[T] {
        let front = &self.room[..self.len];
        // SAFETY: the first `len` are written, and a MaybeUninit<T> lies in memory as a T does.
        unsafe { core::slice::from_raw_parts(front.as_ptr().cast(), front.len()) }
    }
}
