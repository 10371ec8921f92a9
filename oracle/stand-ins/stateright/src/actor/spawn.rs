//! Stand-in for spawning on a real network: the one conversion that actor.rs names. A replay uses none of it.
use crate::actor::Id;
use std::net::{Ipv4Addr, SocketAddrV4};

impl From<Id> for SocketAddrV4 {
    fn from(_: Id) -> Self {
        SocketAddrV4::new(Ipv4Addr::UNSPECIFIED, 0)
    }
}
