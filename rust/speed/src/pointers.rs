//! The functions as C has them, under the same names for both sides. Each
//! pointer is to as many elements as the length beside it says, and what is
//! written overlaps nothing else that is passed.

/// What `body` gives where the bytes of a message are gone.
pub const GONE: usize = usize::MAX;

/// include/cetskobi.h, in the archive.
pub mod engine {
    pub use cetskobi::sys::{
        cetskobi_accept as accept, cetskobi_ask as ask, cetskobi_body as body,
        cetskobi_commit as commit, cetskobi_deliver as deliver,
        cetskobi_deliver_accepted as deliver_accepted, cetskobi_deliver_packet as deliver_packet,
        cetskobi_fetch as fetch, cetskobi_fetch_accepted as fetch_accepted, cetskobi_pack as pack,
        cetskobi_read as read, cetskobi_recipients as recipients, cetskobi_replay as replay,
        cetskobi_resend as resend, cetskobi_start as start, cetskobi_validate as validate,
        cetskobi_view as view, cetskobi_write as write,
    };
}

/// peer/peer.h, compiled by build.rs.
#[rustfmt::skip]
pub mod peer {
    use cetskobi::sys::{Accepted, Admission, Answer, Arrival, Asked, Fetched, Message, Reading, Replica, Settings, Written};

    unsafe extern "C" {
        #[link_name = "peer_start"]
        pub fn start(number: u8, view: u16, settings: Settings, table: *mut u8, table_len: usize, store: *mut u8, store_len: usize) -> Admission;
        #[link_name = "peer_view"]
        pub fn view(me: Replica, epoch: u32, set: u16) -> Admission;
        #[link_name = "peer_read"]
        pub fn read(me: Replica, table: *const u8, table_len: usize, store: *const u8, store_len: usize, i: usize) -> Reading;
        #[link_name = "peer_write"]
        pub fn write(me: Replica, table: *mut u8, table_len: usize, store: *mut u8, store_len: usize, i: usize, value: *const u8, value_len: usize) -> Answer;
        #[link_name = "peer_ask"]
        pub fn ask(me: Replica, table: *const u8, table_len: usize, store: *const u8, store_len: usize, i: usize) -> Asked;
        #[link_name = "peer_commit"]
        pub fn commit(me: Replica, table: *mut u8, table_len: usize, store: *mut u8, store_len: usize, i: usize, version: u32, tie: u8, value: *const u8, value_len: usize) -> Answer;
        #[link_name = "peer_deliver"]
        pub fn deliver(me: Replica, table: *mut u8, table_len: usize, store: *mut u8, store_len: usize, i: usize, message: Message, value: *const u8, value_len: usize) -> Answer;
        #[link_name = "peer_replay"]
        pub fn replay(me: Replica, table: *mut u8, table_len: usize, store: *const u8, store_len: usize, i: usize) -> Answer;
        #[link_name = "peer_validate"]
        pub fn validate(me: Replica, table: *mut u8, table_len: usize, store: *const u8, store_len: usize, i: usize) -> Answer;
        #[link_name = "peer_resend"]
        pub fn resend(me: Replica, table: *mut u8, table_len: usize, store: *const u8, store_len: usize, i: usize) -> Answer;
        #[link_name = "peer_body"]
        pub fn body(table: *const u8, table_len: usize, store: *const u8, store_len: usize, i: usize, left: Answer) -> usize;
        #[link_name = "peer_recipients"]
        pub fn recipients(me: Replica, kind: u8, sender: u8) -> u16;
        #[link_name = "peer_fetch"]
        pub fn fetch(settings: Settings, packet: *const u8, packet_len: usize, i: usize) -> Fetched;
        #[link_name = "peer_pack"]
        pub fn pack(settings: Settings, messages: *const u32, messages_len: usize, bodies: *const u8, bodies_len: usize, out: *mut u8, out_len: usize) -> Written;
        #[link_name = "peer_deliver_packet"]
        pub fn deliver_packet(me: Replica, table: *mut u8, table_len: usize, store: *mut u8, store_len: usize, packet: *const u8, packet_len: usize, i: usize) -> Answer;
        #[link_name = "peer_accept"]
        pub fn accept(settings: Settings, packet: *const u8, packet_len: usize) -> Accepted;
        #[link_name = "peer_fetch_accepted"]
        pub fn fetch_accepted(packet: *const u8, packet_len: usize, accepted: Accepted, i: usize) -> Fetched;
        #[link_name = "peer_deliver_accepted"]
        pub fn deliver_accepted(me: Replica, table: *mut u8, table_len: usize, store: *mut u8, store_len: usize, packet: *const u8, packet_len: usize, accepted: Accepted, i: usize) -> Arrival;
    }
}
