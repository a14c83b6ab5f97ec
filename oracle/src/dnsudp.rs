//! Names that `common.rs` mentions in callback types and that no mail session uses.
#![allow(dead_code)]

pub struct Qclass;
pub struct Qtype;
pub struct DnsHeader;
pub struct OptRR;
pub struct RR;
