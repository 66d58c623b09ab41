//! The functions of `include/ashthulgo.h`.

/// The form of both policing steps.
pub type Step =
    unsafe extern "C" fn(u16, u8, u16, u8, *mut u32, *mut u64, usize, u64, *mut u32) -> u8;

extern "C" {
    pub fn ashthulgo_read_frame(
        frame: *const u8,
        frame_octets: usize,
        link: *mut u16,
        sequence: *mut u8,
        payload: *mut usize,
    ) -> u8;
    pub fn ashthulgo_capacity(smax: u16, k: u8, jitter: u16, mode: u8, credit: u32) -> u32;
    pub fn ashthulgo_cost(
        smax: u16,
        k: u8,
        jitter: u16,
        mode: u8,
        credit: u32,
        octets: usize,
    ) -> u32;
    pub fn ashthulgo_top_up(
        smax: u16,
        k: u8,
        jitter: u16,
        mode: u8,
        credit: *mut u32,
        last: *mut u64,
        time: u64,
    );
    pub fn ashthulgo_police(
        smax: u16,
        k: u8,
        jitter: u16,
        mode: u8,
        credit: *mut u32,
        last: *mut u64,
        octets: usize,
        time: u64,
        reported: *mut u32,
    ) -> u8;
    pub fn ashthulgo_police_in_place(
        smax: u16,
        k: u8,
        jitter: u16,
        mode: u8,
        credit: *mut u32,
        last: *mut u64,
        octets: usize,
        time: u64,
        reported: *mut u32,
    ) -> u8;
    pub fn ashthulgo_frame_call(
        frame: *const u8,
        frame_octets: usize,
        port: u32,
        time: u64,
        constant: u32,
        accounts: *const u8,
        account_octets: usize,
        credits: *mut u32,
        credit_count: usize,
        lasts: *mut u64,
        last_count: usize,
        links: *const u8,
        link_octets: usize,
        account_count: usize,
        link_count: usize,
        mask: *mut u32,
        credit: *mut u32,
    ) -> u8;
    pub fn ashthulgo_check(
        image: *const u8,
        image_octets: usize,
        offset: *mut usize,
        constant: *mut u32,
        account_count: *mut usize,
        link_count: *mut usize,
    ) -> u8;
    pub fn ashthulgo_load(
        image: *const u8,
        image_octets: usize,
        accounts: *mut u8,
        account_octets: usize,
        credits: *mut u32,
        credit_count: usize,
        lasts: *mut u64,
        last_count: usize,
        links: *mut u8,
        link_octets: usize,
        offset: *mut usize,
        constant: *mut u32,
        account_count: *mut usize,
        link_count: *mut usize,
    ) -> u8;
    pub fn ashthulgo_reader_load(
        image: *const u8,
        image_octets: usize,
        place: *mut usize,
        accounts: *mut u8,
        account_octets: usize,
        credits: *mut u32,
        credit_count: usize,
        lasts: *mut u64,
        last_count: usize,
        links: *mut u8,
        link_octets: usize,
        offset: *mut usize,
        constant: *mut u32,
        account_count: *mut usize,
        link_count: *mut usize,
    ) -> u8;
    pub fn ashthulgo_write(
        constant: u32,
        accounts: *const u8,
        account_octets: usize,
        account_count: usize,
        links: *const u8,
        link_octets: usize,
        link_count: usize,
        room: *mut u8,
        room_octets: usize,
        offset: *mut usize,
    ) -> u8;
    pub fn ashthulgo_receive(
        link: u16,
        network: u8,
        number: u8,
        stamp: u64,
        rows: *const u8,
        row_octets: usize,
        records: *mut u64,
        record_words: usize,
    ) -> u8;
}
