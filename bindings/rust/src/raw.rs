//! The functions of the static libraries, as `crates/export_c/src/lib.rt`,
//! `crates/firmware/src/lib.rt` and `bindings/c/hoyllaqe.h` declare them. A slice is
//! a pointer and a length.

// Of libexport.a.
extern "C" {
    pub fn hoyllaqe_fresh(
        configuration: *const u32,
        configuration_length: usize,
        facade: *mut u32,
        facade_length: usize,
    ) -> u32;

    pub fn hoyllaqe_step(
        facade: *mut u32,
        facade_length: usize,
        kind: u32,
        first: u32,
        second: u32,
        third: u32,
        outcome: *mut u32,
    ) -> u32;

    pub fn hoyllaqe_verdict(script: *const u8, script_length: usize) -> u32;

    pub fn hoyllaqe_write(
        configuration: *const u32,
        configuration_length: usize,
        steps: *const u32,
        steps_length: usize,
        script: *mut u8,
        script_length: usize,
        length: *mut usize,
    ) -> u32;

    pub fn hoyllaqe_run(
        script: *const u8,
        script_length: usize,
        output: *mut u8,
        output_length: usize,
    ) -> usize;
}

// Of libfirmware.a.
extern "C" {
    pub fn hoyllaqe_receive_message(
        configuration: *const u32,
        configuration_length: usize,
        number: u32,
        reading: u32,
        server: *mut u32,
        server_length: usize,
        message: *const u32,
        message_length: usize,
        sent: *mut u32,
        sent_length: usize,
        outcome: *mut u32,
    ) -> u32;

    pub fn hoyllaqe_take_notice(
        configuration: *const u32,
        configuration_length: usize,
        number: u32,
        reading: u32,
        server: *mut u32,
        server_length: usize,
        about: u32,
        says: u32,
        sent: *mut u32,
        sent_length: usize,
        outcome: *mut u32,
    ) -> u32;

    pub fn hoyllaqe_come_back(
        configuration: *const u32,
        configuration_length: usize,
        number: u32,
        reading: u32,
        server: *mut u32,
        server_length: usize,
        sent: *mut u32,
        sent_length: usize,
        outcome: *mut u32,
    ) -> u32;

    pub fn hoyllaqe_clean_up(
        configuration: *const u32,
        configuration_length: usize,
        number: u32,
        reading: u32,
        server: *mut u32,
        server_length: usize,
        sent: *mut u32,
        sent_length: usize,
        outcome: *mut u32,
    ) -> u32;

    pub fn hoyllaqe_receive_reply(
        configuration: *const u32,
        configuration_length: usize,
        number: u32,
        reading: u32,
        client: *mut u32,
        client_length: usize,
        message: *const u32,
        message_length: usize,
        sent: *mut u32,
        sent_length: usize,
        outcome: *mut u32,
    ) -> u32;

    pub fn hoyllaqe_discover(
        configuration: *const u32,
        configuration_length: usize,
        number: u32,
        reading: u32,
        client: *mut u32,
        client_length: usize,
        interaction: u32,
        sent: *mut u32,
        sent_length: usize,
        outcome: *mut u32,
    ) -> u32;

    pub fn hoyllaqe_request(
        configuration: *const u32,
        configuration_length: usize,
        number: u32,
        reading: u32,
        client: *mut u32,
        client_length: usize,
        wanted: u32,
        sent: *mut u32,
        sent_length: usize,
        outcome: *mut u32,
    ) -> u32;

    pub fn hoyllaqe_renew(
        configuration: *const u32,
        configuration_length: usize,
        number: u32,
        reading: u32,
        client: *mut u32,
        client_length: usize,
        wanted: u32,
        interaction: u32,
        sent: *mut u32,
        sent_length: usize,
        outcome: *mut u32,
    ) -> u32;

    pub fn hoyllaqe_pass_time(
        configuration: *const u32,
        configuration_length: usize,
        number: u32,
        reading: u32,
        client: *mut u32,
        client_length: usize,
        sent: *mut u32,
        sent_length: usize,
        outcome: *mut u32,
    ) -> u32;
}
