//! The compiled library's functions, declared. Nothing checks this against
//! the library: each follows the boundary by hand, a slice as a pointer and a
//! length and a number as itself.

extern "C" {
    pub fn duskstall_read(
        message: *const u8,
        len: usize,
        fields: *mut u64,
        fields_len: usize,
    ) -> u64;
    pub fn duskstall_check(bytes: *const u8, len: usize) -> u64;
    pub fn duskstall_write(
        outgoing: *const u8,
        outgoing_len: usize,
        version: u32,
        given: *const u64,
        given_len: usize,
        source: *const u8,
        source_len: usize,
        buffer: *mut u8,
        buffer_len: usize,
    ) -> u64;
    pub fn duskstall_size(what: u8) -> u64;
    pub fn duskstall_registrar_empty(table: *mut u8, table_len: usize) -> u64;
    pub fn duskstall_registrar_message(
        table: *mut u8,
        table_len: usize,
        message: *const u8,
        message_len: usize,
        good: u8,
        board: u16,
        nonce: *const u8,
        nonce_len: usize,
        answer: *mut u8,
        answer_len: usize,
    ) -> u64;
    pub fn duskstall_registrar_issue(
        table: *mut u8,
        table_len: usize,
        id: *const u8,
        id_len: usize,
        nonce: *const u8,
        nonce_len: usize,
        hash: *const u8,
        hash_len: usize,
        answer: *mut u8,
        answer_len: usize,
    ) -> u64;
    pub fn duskstall_registrar_refuse(
        table: *mut u8,
        table_len: usize,
        id: *const u8,
        id_len: usize,
        nonce: *const u8,
        nonce_len: usize,
        answer: *mut u8,
        answer_len: usize,
    ) -> u64;
    pub fn duskstall_registrar_lapse(
        table: *mut u8,
        table_len: usize,
        id: *const u8,
        id_len: usize,
        answer: *mut u8,
        answer_len: usize,
    ) -> u64;
    pub fn duskstall_registrar_close(
        table: *mut u8,
        table_len: usize,
        id: *const u8,
        id_len: usize,
        answer: *mut u8,
        answer_len: usize,
    ) -> u64;
    pub fn duskstall_end_entity_start(
        enrolment: *mut u8,
        enrolment_len: usize,
        kind: u8,
        id: *const u8,
        id_len: usize,
        nonce: *const u8,
        nonce_len: usize,
        answer: *mut u8,
        answer_len: usize,
    ) -> u64;
    pub fn duskstall_end_entity_message(
        enrolment: *mut u8,
        enrolment_len: usize,
        message: *const u8,
        message_len: usize,
        good: u8,
        accept: u8,
        hash: *const u8,
        hash_len: usize,
        nonce: *const u8,
        nonce_len: usize,
        answer: *mut u8,
        answer_len: usize,
    ) -> u64;
    pub fn duskstall_end_entity_time_out(
        enrolment: *mut u8,
        enrolment_len: usize,
        answer: *mut u8,
        answer_len: usize,
    ) -> u64;
}
