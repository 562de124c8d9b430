//! The C interface of `libunmavreth.a`. A start and a count are those of memory that the caller lends for
//! the call; nothing lent for writing may overlap anything else that is lent.
use crate::layout::{
    AddressList, Ask, Assessment, CloneReply, DataWritten, EntryRead, EntryWritten, GatewayRead,
    IkeRecord, IpsecRecord, Offsets, Opening, Operator, Pair, Part, Policy, Reading,
    RedirectDecision, Reply, Rule, Written,
};
use crate::limits::{ENTRY_SLOTS, IKE_PLACES, OPERATORS, REDIRECTS_MOST, RULES_MOST};

/// The number of the interface that this crate was written for, and the library's symbol that ends in it:
/// every program that has this crate refers to the symbol, so that it does not link with a library of
/// another number.
macro_rules! interface {
    ($number:literal, $named:ident) => {
        /// The number of the C interface that this crate is for: the layout of the structs and the calls.
        pub const INTERFACE: u32 = $number;

        extern "C" {
            fn $named() -> u32;
        }

        #[used]
        static LINKED: unsafe extern "C" fn() -> u32 = $named;
    };
}
interface!(5, unmavreth_interface_5);

extern "C" {
    pub(crate) fn unmavreth_interface() -> u32;

    pub(crate) fn unmavreth_read(first: u8, body: *const u8, body_size: usize) -> Reading;

    /// `*out` must hold a valid part on entry.
    pub(crate) fn unmavreth_cookie(
        out: *mut Part,
        body: *const u8,
        body_size: usize,
        cookie: u16,
        cookie_len: u16,
    );

    /// `*out` must hold a valid part on entry.
    pub(crate) fn unmavreth_nat_value(
        out: *mut Part,
        body: *const u8,
        body_size: usize,
        offset: u16,
    );

    pub(crate) fn unmavreth_no_nats(
        body: *const u8,
        body_size: usize,
        no_nats: u16,
        no_nats_len: u16,
    ) -> Pair;

    pub(crate) fn unmavreth_addresses(
        body: *const u8,
        body_size: usize,
        list: Offsets,
    ) -> AddressList;

    pub(crate) fn unmavreth_assess(
        sent: *const u8,
        sent_size: usize,
        first: u8,
        body: *const u8,
        body_size: usize,
    ) -> Assessment;

    pub(crate) fn unmavreth_write(
        ask: Ask,
        pair: Pair,
        addresses: AddressList,
        nat_source: *const u8,
        nat_source_size: usize,
        nat_destination: *const u8,
        nat_destination_size: usize,
        cookie: *const u8,
        cookie_size: usize,
        out: *mut u8,
        out_size: usize,
    ) -> Written;

    pub(crate) fn unmavreth_open(
        ike: *mut [IkeRecord; IKE_PLACES],
        ipsec: *mut IpsecRecord,
        records: usize,
        opening: Opening,
    ) -> u8;

    pub(crate) fn unmavreth_open_ipsec(
        ike: *const [IkeRecord; IKE_PLACES],
        ipsec: *mut IpsecRecord,
        records: usize,
        spi: u32,
        owner: u64,
        operator: Operator,
    ) -> u8;

    pub(crate) fn unmavreth_close_ike(
        ike: *mut [IkeRecord; IKE_PLACES],
        ipsec: *mut IpsecRecord,
        records: usize,
        spi: u64,
        operator: Operator,
    ) -> u8;

    pub(crate) fn unmavreth_close_ipsec(
        ike: *const [IkeRecord; IKE_PLACES],
        ipsec: *mut IpsecRecord,
        records: usize,
        spi: u32,
        operator: Operator,
    ) -> u8;

    pub(crate) fn unmavreth_mark_deletion(
        ike: *mut [IkeRecord; IKE_PLACES],
        spi: u64,
        operator: Operator,
    ) -> u8;

    pub(crate) fn unmavreth_set_policy(
        policies: *mut [Policy; OPERATORS],
        count: u16,
        rules: *const [Rule; RULES_MOST],
        operator: Operator,
    ) -> u8;

    /// A `bool` in C, taken as the octet that it is.
    pub(crate) fn unmavreth_acceptable(
        policies: *const [Policy; OPERATORS],
        pair: Pair,
        operator: Operator,
    ) -> u8;

    pub(crate) fn unmavreth_handle(
        ike: *mut [IkeRecord; IKE_PLACES],
        ipsec: *const IpsecRecord,
        records: usize,
        policies: *const [Policy; OPERATORS],
        spi: u64,
        id: u32,
        pair: Pair,
        nat_source: *const u8,
        nat_source_size: usize,
        nat_destination: *const u8,
        nat_destination_size: usize,
        cookie: *const u8,
        cookie_size: usize,
        check_id: u32,
        first: u8,
        body: *const u8,
        body_size: usize,
        out: *mut u8,
        out_size: usize,
        operator: Operator,
    ) -> Reply;

    pub(crate) fn unmavreth_check(
        ike: *mut [IkeRecord; IKE_PLACES],
        ipsec: *mut IpsecRecord,
        records: usize,
        spi: u64,
        id: u32,
        first: u8,
        body: *const u8,
        body_size: usize,
        operator: Operator,
    ) -> Assessment;

    pub(crate) fn unmavreth_clone(
        ike: *mut [IkeRecord; IKE_PLACES],
        spi: u64,
        new_spi: u64,
        first: u8,
        body: *const u8,
        body_size: usize,
        out: *mut u8,
        out_size: usize,
        operator: Operator,
    ) -> CloneReply;

    pub(crate) fn unmavreth_read_entry(trace: *const u8, trace_size: usize, at: usize)
        -> EntryRead;

    pub(crate) fn unmavreth_write_entry(
        kind: u8,
        slots: *const [u64; ENTRY_SLOTS],
        source: *const u8,
        source_size: usize,
        out: *mut u8,
        out_size: usize,
    ) -> EntryWritten;
}

extern "C" {
    /// `*identity` and `*nonce` must hold a valid part on entry.
    pub(crate) fn unmavreth_read_redirect(
        identity: *mut Part,
        nonce: *mut Part,
        data: *const u8,
        data_size: usize,
    ) -> GatewayRead;

    /// `*identity` must hold a valid part on entry.
    pub(crate) fn unmavreth_read_redirected_from(
        identity: *mut Part,
        data: *const u8,
        data_size: usize,
    ) -> GatewayRead;

    pub(crate) fn unmavreth_read_redirect_supported(data: *const u8, data_size: usize) -> u8;

    pub(crate) fn unmavreth_write_redirect(
        identity_type: u8,
        identity: *const u8,
        identity_size: usize,
        nonce: *const u8,
        nonce_size: usize,
        out: *mut u8,
        out_size: usize,
    ) -> DataWritten;

    pub(crate) fn unmavreth_write_redirected_from(
        identity_type: u8,
        identity: *const u8,
        identity_size: usize,
        out: *mut u8,
        out_size: usize,
    ) -> DataWritten;

    pub(crate) fn unmavreth_write_redirect_supported(out: *mut u8, out_size: usize) -> DataWritten;

    /// `*identity` must hold a valid part on entry.
    pub(crate) fn unmavreth_decide_redirect(
        count: *mut u8,
        times: *mut [u64; REDIRECTS_MOST],
        identity: *mut Part,
        exchange: u8,
        sent: *const u8,
        sent_size: usize,
        time: u64,
        data: *const u8,
        data_size: usize,
    ) -> RedirectDecision;
}
