// compare: the library of include/dispatcher.h, and plan, against the second simulator. What it does is in the crate's library; here is what it is linked with.

mod linked {
    extern "C" {
        pub fn dispatcher_open(image: *mut u8, image_len: usize, stations: u32, reply: *mut u8, reply_len: usize) -> u32;
        pub fn dispatcher_quote(image: *const u8, image_len: usize, order: *const u8, order_len: usize, reply: *mut u8, reply_len: usize) -> u32;
        pub fn dispatcher_offer(image: *mut u8, image_len: usize, order: *const u8, order_len: usize, reply: *mut u8, reply_len: usize) -> u32;
        pub fn dispatcher_quote_format(
            image: *const u8, image_len: usize, format: u32, due_in: u32, rank: u8, sheet: *const u8, sheet_len: usize, reply: *mut u8, reply_len: usize,
        ) -> u32;
        pub fn dispatcher_offer_format(
            image: *mut u8, image_len: usize, format: u32, due_in: u32, rank: u8, sheet: *const u8, sheet_len: usize, reply: *mut u8, reply_len: usize,
        ) -> u32;
        pub fn dispatcher_advance(image: *mut u8, image_len: usize, reply: *mut u8, reply_len: usize) -> u32;
        pub fn plan_probe_text(input: *const u8, input_len: usize, out: *mut u8) -> usize;
    }
}

fn main() -> std::process::ExitCode {
    comparison::command::run(comparison::desk::Library {
        open: linked::dispatcher_open,
        quote: linked::dispatcher_quote,
        offer: linked::dispatcher_offer,
        quote_format: linked::dispatcher_quote_format,
        offer_format: linked::dispatcher_offer_format,
        advance: linked::dispatcher_advance,
        plan_text: linked::plan_probe_text,
    })
}
