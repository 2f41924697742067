//! The exports of the proved library, as `include/zemrukste.h` declares them.
//!
//! Why each call in this crate is sound: a slice is lent as its pointer and its length, so all of it can be read, and
//! what the library may write is lent as `&mut`, so that nothing else looks at it meanwhile. Two inputs of one call
//! may lie on the same bytes, which the library only reads. Every number and every byte is answered: what does not
//! fit is refused. The library keeps no pointer and no state of its own, and always returns.

extern "C" {
    pub fn zemrukste_build(
        block: *const u8,
        block_len: usize,
        q: usize,
        n: usize,
        version: usize,
        g: usize,
        out: *mut u8,
        out_len: usize,
    ) -> u32;

    pub fn zemrukste_build_two(
        header: *const u8,
        header_len: usize,
        payload: *const u8,
        payload_len: usize,
        q: usize,
        n: usize,
        version: usize,
        g: usize,
        out: *mut u8,
        out_len: usize,
    ) -> u32;

    pub fn zemrukste_build_down(
        block: *const u8,
        block_len: usize,
        release: usize,
        mimo: usize,
        processes: usize,
        soft: usize,
        layers: usize,
        q: usize,
        n: usize,
        version: usize,
        g: usize,
        out: *mut u8,
        out_len: usize,
    ) -> u32;

    pub fn zemrukste_sizes(a: usize, out: *mut u8, out_len: usize) -> u32;

    pub fn zemrukste_report_build(
        report: *const u8,
        report_len: usize,
        control: usize,
        block: *const u8,
        block_len: usize,
        q: usize,
        n: usize,
        version: usize,
        g: usize,
        out: *mut u8,
        out_len: usize,
    ) -> u32;

    pub fn zemrukste_report_part(
        a: usize,
        q: usize,
        n: usize,
        o: usize,
        control: usize,
        received: *const u8,
        received_len: usize,
        out: *mut u8,
        out_len: usize,
    ) -> u32;

    pub fn zemrukste_control_build(
        payload: *const u8,
        payload_len: usize,
        terminal: u16,
        e: usize,
        out: *mut u8,
        out_len: usize,
    ) -> u32;

    pub fn zemrukste_control_whose(run: *const u8, run_len: usize, terminal: *mut u16) -> u32;

    pub fn zemrukste_pack(m: usize, from: *const u8, from_len: usize, to: *mut u8, to_len: usize) -> u32;

    pub fn zemrukste_unpack(m: usize, from: *const u8, from_len: usize, to: *mut u8, to_len: usize) -> u32;

    pub fn zemrukste_new(state: *mut u8, state_len: usize, slots: usize, blocks: usize) -> u32;

    pub fn zemrukste_open(
        state: *mut u8,
        state_len: usize,
        slot: usize,
        terminal: u16,
        a: usize,
        store: *mut u8,
        store_len: usize,
    ) -> u32;

    pub fn zemrukste_open_down(
        state: *mut u8,
        state_len: usize,
        slot: usize,
        terminal: u16,
        a: usize,
        release: usize,
        mimo: usize,
        processes: usize,
        soft: usize,
        layers: usize,
        store: *mut u8,
        store_len: usize,
    ) -> u32;

    pub fn zemrukste_receive(
        state: *const u8,
        state_len: usize,
        slot: usize,
        terminal: u16,
        q: usize,
        n: usize,
        version: usize,
        bits: *const u8,
        bits_len: usize,
        store: *mut u8,
        store_len: usize,
        count: *mut usize,
    ) -> u32;

    pub fn zemrukste_read(
        state: *const u8,
        state_len: usize,
        slot: usize,
        terminal: u16,
        store: *const u8,
        store_len: usize,
        out: *mut u8,
        out_len: usize,
        count: *mut usize,
    ) -> u32;

    pub fn zemrukste_streams(
        state: *const u8,
        state_len: usize,
        slot: usize,
        terminal: u16,
        block: usize,
        store: *const u8,
        store_len: usize,
        out: *mut u8,
        out_len: usize,
    ) -> u32;

    pub fn zemrukste_close(state: *mut u8, state_len: usize, slot: usize, terminal: u16) -> u32;

    pub fn zemrukste_open_packed(
        state: *mut u8,
        state_len: usize,
        slot: usize,
        terminal: u16,
        a: usize,
        store: *mut u8,
        store_len: usize,
    ) -> u32;

    pub fn zemrukste_open_down_packed(
        state: *mut u8,
        state_len: usize,
        slot: usize,
        terminal: u16,
        a: usize,
        release: usize,
        mimo: usize,
        processes: usize,
        soft: usize,
        layers: usize,
        store: *mut u8,
        store_len: usize,
    ) -> u32;

    pub fn zemrukste_receive_packed(
        state: *const u8,
        state_len: usize,
        slot: usize,
        terminal: u16,
        q: usize,
        n: usize,
        version: usize,
        bits: *const u8,
        bits_len: usize,
        store: *mut u8,
        store_len: usize,
        count: *mut usize,
    ) -> u32;

    pub fn zemrukste_read_packed(
        state: *const u8,
        state_len: usize,
        slot: usize,
        terminal: u16,
        store: *const u8,
        store_len: usize,
        out: *mut u8,
        out_len: usize,
        count: *mut usize,
    ) -> u32;

    pub fn zemrukste_streams_packed(
        state: *const u8,
        state_len: usize,
        slot: usize,
        terminal: u16,
        block: usize,
        store: *const u8,
        store_len: usize,
        out: *mut u8,
        out_len: usize,
    ) -> u32;
}
