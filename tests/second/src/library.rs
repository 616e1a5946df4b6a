//! The calls of include/pualirqiq.h.
extern "C" {
    pub fn pq_state_size() -> usize;
    pub fn pq_begin_stream(state: *mut u8, state_len: usize) -> u8;
    pub fn pq_feed(
        state: *mut u8, state_len: usize, address: u8, bytes: *const u8, bytes_len: usize, out: *mut u8, out_len: usize,
        taken: *mut usize, len: *mut usize,
    ) -> u8;
    pub fn pq_check(tree: *const u8, tree_len: usize, cells: *const u8, cells_len: usize) -> u8;
    pub fn pq_check_tree(tree: *const u8, tree_len: usize) -> u8;
    pub fn pq_cells_size(tree: *const u8, tree_len: usize) -> usize;
    pub fn pq_begin_cells(tree: *const u8, tree_len: usize, cells: *mut u8, cells_len: usize) -> u8;
    pub fn pq_restore_cells(tree: *const u8, tree_len: usize, cells: *mut u8, cells_len: usize) -> u8;
    pub fn pq_post(
        tree: *const u8, tree_len: usize, cells: *mut u8, cells_len: usize, place: usize, word: u32, ready: u8,
    ) -> u8;
    pub fn pq_reading(
        tree: *const u8, tree_len: usize, cells: *const u8, cells_len: usize, place: usize, word: *mut u32,
    ) -> u8;
    pub fn pq_list(tree: *const u8, tree_len: usize, out: *mut u8, out_len: usize, len: *mut usize) -> u8;
    pub fn pq_write_sheet(
        tree: *const u8, tree_len: usize, cells: *const u8, cells_len: usize, out: *mut u8, out_len: usize, len: *mut usize,
    ) -> u8;
    pub fn pq_read_sheet(
        tree: *const u8, tree_len: usize, cells: *mut u8, cells_len: usize, sheet: *const u8, sheet_len: usize,
    ) -> u8;
    pub fn pq_buslink_send(
        tree: *const u8, tree_len: usize, cells: *const u8, cells_len: usize, base: u8, sub: u8, kind: u8, out: *mut u8,
        out_len: usize, identifier: *mut u32,
    ) -> u8;
    pub fn pq_begin_buslink(records: *mut u8, records_len: usize) -> u8;
    pub fn pq_buslink_receive(
        records: *mut u8, records_len: usize, base: u8, sub: u8, identifier: u32, data: *const u8, data_len: usize,
        usable: *mut u16,
    ) -> u8;
    pub fn pq_buslink_indicator(
        records: *const u8, records_len: usize, indicator: u8, value: *mut i32, status: *mut u8, format: *mut u8,
    ) -> u8;
    pub fn pq_serve_data(
        tree: *const u8, tree_len: usize, cells: *mut u8, cells_len: usize, host: u8, request: *const u8, request_len: usize,
        out: *mut u8, out_len: usize, len: *mut usize, action: *mut u8, missing: *mut u8,
    ) -> u8;
    pub fn pq_serve_serial(
        tree: *const u8, tree_len: usize, cells: *mut u8, cells_len: usize, host: u8, address: u8, string: *const u8,
        string_len: usize, out: *mut u8, out_len: usize, len: *mut usize, action: *mut u8, missing: *mut u8,
    ) -> u8;
    pub fn pq_serve_udp(
        tree: *const u8, tree_len: usize, cells: *mut u8, cells_len: usize, host: u8, datagram: *const u8, datagram_len: usize,
        out: *mut u8, out_len: usize, len: *mut usize, action: *mut u8, missing: *mut u8,
    ) -> u8;
    pub fn pq_frame(address: u8, data: *const u8, data_len: usize, out: *mut u8, out_len: usize, len: *mut usize) -> u8;
    pub fn pq_datagram(data: *const u8, data_len: usize, out: *mut u8, out_len: usize, len: *mut usize) -> u8;
    pub fn pq_read_frame(
        address: u8, string: *const u8, string_len: usize, out: *mut u8, out_len: usize, len: *mut usize,
    ) -> u8;
    pub fn pq_datagram_data(datagram: *const u8, datagram_len: usize, offset: *mut usize, len: *mut usize) -> u8;
    pub fn pq_read_serial(
        address: u8, string: *const u8, string_len: usize, op: *mut u8, path: *mut u8, path_len: *mut usize, index: *mut u8,
        value: *mut u32,
    ) -> u8;
    pub fn pq_read_udp(
        datagram: *const u8, datagram_len: usize, op: *mut u8, path: *mut u8, path_len: *mut usize, index: *mut u8,
        value: *mut u32,
    ) -> u8;
    pub fn pq_write_serial(
        address: u8, op: u8, path: *const u8, path_len: usize, index: u8, value: u32, out: *mut u8, out_len: usize,
        len: *mut usize,
    ) -> u8;
    pub fn pq_write_udp(
        op: u8, path: *const u8, path_len: usize, index: u8, value: u32, out: *mut u8, out_len: usize, len: *mut usize,
    ) -> u8;
}
