//! The crate's own topology.rs, slot_map.rs and slot_range_map.rs, asked about answers to CLUSTER SLOTS.
//!
//! Each line of the input is the answering host and an answer, both in hexadecimal, separated by a blank. Each line
//! of the output has the ranges of the table, ascending by end, as `START END PRIMARY REPLICA ..`, separated by ` | `;
//! `-` is the empty table, and `unreadable` an answer that is not one RESP2 value with arrays nested at most 8 deep.
//! Hosts are shown as docs/SPECIFICATION.md has it.
#![allow(dead_code, unused_imports, unexpected_cfgs)]

mod cluster_handling {
    pub mod read_routing {
        mod interface;
        pub use interface::*;
    }
    pub mod slot_map;
    pub mod slot_range_map;
    pub mod topology;

    use arcstr::ArcStr;
    use std::fmt;
    include!("node_address.rs");
}

/// Stands in for the crate's routes: slot_map.rs asks a route for its slot and role.
mod cluster_routing {
    #[derive(Clone, Copy)]
    pub enum SlotAddr {
        Master,
        ReplicaOptional,
        ReplicaRequired,
    }

    #[derive(Clone, Copy)]
    pub struct Route(u16, SlotAddr);

    impl Route {
        pub fn slot(self) -> u16 {
            self.0
        }
        pub fn slot_addr(self) -> SlotAddr {
            self.1
        }
    }
}

mod connection {
    include!("is_wildcard_address.rs");
}

mod resp;

use cluster_handling::{NodeAddress, slot_map::SlotMap, topology::parse_slots};
use resp::Value;
use std::{collections::HashMap, convert::Infallible, io};

/// parse_slots never fails.
type RedisResult<T> = Result<T, Infallible>;

fn decoded(hex: &str) -> Vec<u8> {
    (0..hex.len() / 2)
        .map(|i| u8::from_str_radix(&hex[2 * i..2 * i + 2], 16).unwrap())
        .collect()
}

fn shown(address: &NodeAddress) -> String {
    let host = address.host().bytes().map(|c| match c {
        b'%' => "%25".to_string(),
        0x21..=0x7e => char::from(c).to_string(),
        _ => format!("%{c:02X}"),
    });
    format!("{}:{}", host.collect::<String>(), address.port())
}

/// The map keeps starts and ends to itself: a shard of its topology has those of one primary, in the order of the values.
fn ranges(map: &SlotMap) -> Vec<String> {
    let topology = map.topology();
    let mut spans: HashMap<_, _> = topology
        .shards()
        .map(|shard| (shard.primary(), shard.slot_ranges().iter()))
        .collect();
    map.values()
        .map(|addrs| {
            let nodes: Vec<&NodeAddress> = addrs.into_iter().collect();
            let (start, end) = spans.get_mut(nodes[0]).and_then(|spans| spans.next()).unwrap();
            let nodes: Vec<String> = nodes.into_iter().map(shown).collect();
            format!("{start} {end} {}", nodes.join(" "))
        })
        .collect()
}

fn told(line: &str) -> String {
    let (host, answer) = line.split_once(' ').expect("HOSTHEX ANSWERHEX");
    let Some(value) = resp::answer(&decoded(answer)) else {
        return "unreadable".to_string();
    };
    let host = String::from_utf8(decoded(host)).expect("a host in UTF-8");
    let Ok(slots) = parse_slots(value, &host);
    let ranges = ranges(&SlotMap::from_slots(slots));
    if ranges.is_empty() { "-".to_string() } else { ranges.join(" | ") }
}

fn main() {
    for line in io::stdin().lines() {
        println!("{}", told(&line.unwrap()));
    }
}
