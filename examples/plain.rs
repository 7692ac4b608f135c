//! The middleboxes of a chain without proofs, replicas and journal: plain CHAIN CAPTURE OUT
//!
//! `make bench` builds it with `rustc -O` and times it beside the proved program. OUT has the bytes
//! that `ftc run` writes on one thread, without events in the schedule, where no server crashes and
//! no message is lost. Some texts that `ftc` refuses are taken: the order of a chain's lines and the
//! bounds of its numbers aren't tested, nor is a capture's size.

use std::collections::{HashMap, HashSet};
use std::error::Error;
use std::net::{Ipv4Addr, SocketAddrV4 as Endpoint};
use std::num::NonZeroU16;
use std::ops::RangeInclusive;
use std::path::{Path, PathBuf};
use std::process::ExitCode;
use std::{env, fs};

type Result<T, E = Box<dyn Error>> = std::result::Result<T, E>;
/// The addresses from a net's first to its last.
type Net = RangeInclusive<Ipv4Addr>;

const ETHERTYPE: usize = 12;
const IPV4: usize = 14;
const IPV4_FRAGMENT: usize = IPV4 + 6;
const IPV4_PROTOCOL: usize = IPV4 + 9;
const IPV4_CHECKSUM: usize = IPV4 + 10;
const IPV4_SOURCE: usize = IPV4 + 12;
const IPV4_DESTINATION: usize = IPV4 + 16;
const IPV4_OPTIONS: usize = IPV4 + 20;

const CAPTURE_HEADER: usize = 24;
const RECORD_HEAD: usize = 16;

#[derive(Clone, Copy, PartialEq, Eq, Hash)]
enum Protocol {
    Tcp,
    Udp,
}

/// How a packet is forwarded.
enum Change {
    Keep,
    Source(Endpoint),
    Destination(Endpoint),
}

/// What middleboxes look at in a packet, and where its transport header stands.
struct Flow {
    protocol: Protocol,
    source: Endpoint,
    destination: Endpoint,
    transport: usize,
    checksum: usize,
}

impl Flow {
    /// None for a fragment and for what isn't TCP or UDP: that goes through the chain unread.
    fn of_packet(packet: &[u8]) -> Option<Flow> {
        let (protocol, fixed_header, checksum) = match packet.get(..IPV4_OPTIONS)?[IPV4_PROTOCOL] {
            6 => (Protocol::Tcp, 20, 16),
            17 => (Protocol::Udp, 8, 6),
            _ => return None,
        };
        let transport = IPV4 + 4 * usize::from(packet[IPV4] & 0x0f);
        let is_flow = packet[ETHERTYPE..IPV4] == [0x08, 0x00]
            // Version 4, and from 5 to 15 words of header.
            && (0x45..=0x4f).contains(&packet[IPV4])
            // No fragment follows, and none goes before.
            && word_at(packet, IPV4_FRAGMENT) & 0x3fff == 0
            && packet.len() >= transport + fixed_header;
        is_flow.then(|| Flow {
            protocol,
            source: endpoint_at(packet, IPV4_SOURCE, transport),
            destination: endpoint_at(packet, IPV4_DESTINATION, transport + 2),
            transport,
            checksum: transport + checksum,
        })
    }

    /// Makes a change here and in the packet.
    fn change(&mut self, packet: &mut [u8], change: Change) {
        let transport = self.transport;
        let (end, to, address_at, port_at) = match change {
            Change::Keep => return,
            Change::Source(to) => (&mut self.source, to, IPV4_SOURCE, transport),
            Change::Destination(to) => (&mut self.destination, to, IPV4_DESTINATION, transport + 2),
        };
        *end = to;
        let before = word_at(packet, self.checksum);
        let [a, b, c, d] = to.ip().octets();
        let checksums = [IPV4_CHECKSUM, self.checksum];
        change_word(packet, address_at, [a, b], &checksums);
        change_word(packet, address_at + 2, [c, d], &checksums);
        change_word(packet, port_at, to.port().to_be_bytes(), &[self.checksum]);

        // A UDP checksum of 0 says that there is none. One that comes out as 0 is sent as 0xffff.
        match (self.protocol, before, word_at(packet, self.checksum)) {
            (Protocol::Udp, 0, _) => put(packet, self.checksum, [0, 0]),
            (Protocol::Udp, _, 0) => put(packet, self.checksum, [0xff, 0xff]),
            _ => {}
        }
    }
}

fn word_at(packet: &[u8], at: usize) -> u16 {
    u16::from_be_bytes([packet[at], packet[at + 1]])
}

fn endpoint_at(packet: &[u8], address_at: usize, port_at: usize) -> Endpoint {
    let high = u32::from(word_at(packet, address_at));
    let low = u32::from(word_at(packet, address_at + 2));
    Endpoint::new(Ipv4Addr::from(high << 16 | low), word_at(packet, port_at))
}

fn put(packet: &mut [u8], at: usize, word: [u8; 2]) {
    packet[at..at + 2].copy_from_slice(&word);
}

/// Writes a word, and updates the checksums over it by equation 3 of RFC 1624. Where the word stays
/// they do too: of a checksum of 0xffff the equation would make 0.
fn change_word(packet: &mut [u8], at: usize, word: [u8; 2], checksums: &[usize]) {
    let (before, after) = (word_at(packet, at), u16::from_be_bytes(word));
    if before == after {
        return;
    }
    put(packet, at, word);
    for &checksum in checksums {
        let sum = add(add(!word_at(packet, checksum), !before), after);
        put(packet, checksum, (!sum).to_be_bytes());
    }
}

/// The sum in one's complement: a carry is added at the low end.
fn add(left: u16, right: u16) -> u16 {
    let (sum, carry) = left.overflowing_add(right);
    sum + u16::from(carry)
}

enum Middlebox {
    Pass,
    Monitor(Monitor),
    Nat(Nat),
    Firewall(Firewall),
    Balancer(Balancer),
}

impl Middlebox {
    /// None where the packet is filtered.
    fn visit(&mut self, flow: &Flow) -> Option<Change> {
        match self {
            Middlebox::Pass => Some(Change::Keep),
            Middlebox::Monitor(monitor) => Some(monitor.visit(flow)),
            Middlebox::Nat(nat) => nat.visit(flow),
            Middlebox::Firewall(firewall) => firewall.visit(flow),
            Middlebox::Balancer(balancer) => Some(balancer.visit(flow)),
        }
    }
}

/// Counts packets by the sum of the bytes of their source address.
struct Monitor {
    groups: NonZeroU16,
    counts: HashMap<u16, u64>,
}

impl Monitor {
    fn visit(&mut self, flow: &Flow) -> Change {
        let octets = flow.source.ip().octets();
        let sum: u16 = octets.iter().copied().map(u16::from).sum();
        *self.counts.entry(sum % self.groups).or_default() += 1;
        Change::Keep
    }
}

struct Nat {
    inside: Net,
    outside: Ipv4Addr,
    free_ports: RangeInclusive<u16>,
    outside_ports: HashMap<(Protocol, Endpoint), u16>,
    inside_ends: HashMap<(Protocol, u16), Endpoint>,
}

impl Nat {
    fn visit(&mut self, flow: &Flow) -> Option<Change> {
        let (source, destination) = (flow.source.ip(), flow.destination.ip());
        if self.inside.contains(source) && !self.inside.contains(destination) {
            let port = self.outside_port(flow)?;
            Some(Change::Source(Endpoint::new(self.outside, port)))
        } else if *destination == self.outside {
            let port = (flow.protocol, flow.destination.port());
            Some(Change::Destination(*self.inside_ends.get(&port)?))
        } else {
            Some(Change::Keep)
        }
    }

    /// The port of the flow's source, drawn at its first packet. None where no port is left.
    fn outside_port(&mut self, flow: &Flow) -> Option<u16> {
        let inside = (flow.protocol, flow.source);
        if let Some(&port) = self.outside_ports.get(&inside) {
            return Some(port);
        }
        let port = self.free_ports.next()?;
        self.outside_ports.insert(inside, port);
        self.inside_ends.insert((flow.protocol, port), flow.source);
        Some(port)
    }
}

#[derive(Default)]
struct Firewall {
    lines: Vec<FirewallLine>,
    /// Connections by their smaller and their greater end, which are the same for replies.
    open: HashSet<(Protocol, Endpoint, Endpoint)>,
}

impl Firewall {
    fn visit(&mut self, flow: &Flow) -> Option<Change> {
        let (one, other) = (flow.source, flow.destination);
        let connection = (flow.protocol, one.min(other), one.max(other));
        if !self.open.contains(&connection) {
            let line = self.lines.iter().find(|line| line.matches(flow));
            line.filter(|line| line.allow)?;
            self.open.insert(connection);
        }
        Some(Change::Keep)
    }
}

struct FirewallLine {
    allow: bool,
    /// None is both.
    protocol: Option<Protocol>,
    source: Net,
    destination: Net,
    ports: RangeInclusive<u16>,
}

impl FirewallLine {
    fn matches(&self, flow: &Flow) -> bool {
        self.protocol.unwrap_or(flow.protocol) == flow.protocol
            && self.source.contains(flow.source.ip())
            && self.destination.contains(flow.destination.ip())
            && self.ports.contains(&flow.destination.port())
    }
}

struct Balancer {
    service: Endpoint,
    backends: Vec<Ipv4Addr>,
    chosen: HashMap<(Protocol, Endpoint), Ipv4Addr>,
}

impl Balancer {
    fn visit(&mut self, flow: &Flow) -> Change {
        let port = self.service.port();
        if flow.destination == self.service {
            // Each new client is given the backend after that of the one before.
            let next = self.backends[self.chosen.len() % self.backends.len()];
            let client = (flow.protocol, flow.source);
            let backend = *self.chosen.entry(client).or_insert(next);
            return Change::Destination(Endpoint::new(backend, port));
        }
        let chosen = self.chosen.get(&(flow.protocol, flow.destination));
        if chosen == Some(flow.source.ip()) && flow.source.port() == port {
            Change::Source(self.service)
        } else {
            Change::Keep
        }
    }
}

fn read_net(word: &str) -> Result<Net> {
    let (address, length) = match word {
        "any" => ("0.0.0.0", "0"),
        _ => word.split_once('/').ok_or("a net without a length")?,
    };
    let address = u32::from(address.parse::<Ipv4Addr>()?);
    let hosts = u32::MAX.checked_shr(length.parse()?).unwrap_or(0);
    Ok(Ipv4Addr::from(address & !hosts)..=Ipv4Addr::from(address | hosts))
}

fn read_ports(word: &str) -> Result<RangeInclusive<u16>> {
    let (first, last) = match word {
        "any" => ("0", "65535"),
        _ => word.split_once('-').unwrap_or((word, word)),
    };
    Ok(first.parse()?..=last.parse()?)
}

fn read_firewall_line(words: &[&str]) -> Result<FirewallLine> {
    let [verdict, protocol, source, destination, ports] = *words else {
        return Err("a line of a firewall has five words".into());
    };
    Ok(FirewallLine {
        allow: verdict == "allow",
        protocol: match protocol {
            "any" => None,
            "tcp" => Some(Protocol::Tcp),
            "udp" => Some(Protocol::Udp),
            _ => return Err("neither tcp nor udp".into()),
        },
        source: read_net(source)?,
        destination: read_net(destination)?,
        ports: read_ports(ports)?,
    })
}

fn read_middlebox(words: &[&str]) -> Result<Middlebox> {
    Ok(match *words {
        ["pass" | "spare"] => Middlebox::Pass,
        ["monitor", groups] => Middlebox::Monitor(Monitor {
            groups: groups.parse()?,
            counts: HashMap::new(),
        }),
        ["nat", "inside", inside, "outside", outside, "ports", ports] => Middlebox::Nat(Nat {
            inside: read_net(inside)?,
            outside: outside.parse()?,
            free_ports: read_ports(ports)?,
            outside_ports: HashMap::new(),
            inside_ends: HashMap::new(),
        }),
        ["firewall"] => Middlebox::Firewall(Firewall::default()),
        ["balance", service, "to", backends] => Middlebox::Balancer(Balancer {
            service: service.parse()?,
            backends: backends
                .split(',')
                .map(str::parse)
                .collect::<Result<_, _>>()?,
            chosen: HashMap::new(),
        }),
        _ => return Err("no line of a chain".into()),
    })
}

fn read_chain(text: &str) -> Result<Vec<Middlebox>> {
    let mut chain = Vec::new();
    for (index, line) in text.lines().enumerate() {
        let words: Vec<&str> = line.split_ascii_whitespace().collect();
        let added = match (words.as_slice(), chain.last_mut()) {
            // Without replicas the first two lines of a chain say nothing.
            ([] | ["f" | "partitions", _], _) => Ok(()),
            ([first, ..], _) if first.starts_with('#') => Ok(()),
            (["allow" | "deny", ..], Some(Middlebox::Firewall(firewall))) => {
                read_firewall_line(&words).map(|line| firewall.lines.push(line))
            }
            _ => read_middlebox(&words).map(|middlebox| chain.push(middlebox)),
        };
        added.map_err(|fault| format!("line {}: {fault}", index + 1))?;
    }
    Ok(chain)
}

type ReadNumber = fn([u8; 4]) -> u32;

/// How numbers are read under this header: of micro- or nanoseconds, version 2.4 and Ethernet.
fn byte_order(header: &[u8]) -> Option<ReadNumber> {
    match header {
        [0xa1, 0xb2, 0xc3, 0xd4, 0, 2, 0, 4, .., 0, 0, 0, 1]
        | [0xa1, 0xb2, 0x3c, 0x4d, 0, 2, 0, 4, .., 0, 0, 0, 1] => Some(u32::from_be_bytes),
        [0xd4, 0xc3, 0xb2, 0xa1, 2, 0, 4, 0, .., 1, 0, 0, 0]
        | [0x4d, 0x3c, 0xb2, 0xa1, 2, 0, 4, 0, .., 1, 0, 0, 0] => Some(u32::from_le_bytes),
        _ => None,
    }
}

/// The record at the front, with its head, of which the third number says how many bytes follow.
fn first_record(bytes: &mut [u8], read_number: ReadNumber) -> Option<&mut [u8]> {
    let captured = read_number(*bytes.get(8..)?.first_chunk()?) as usize;
    bytes.get_mut(..RECORD_HEAD + captured)
}

/// The capture of the packets that come out of the chain. No change makes a packet longer, so each
/// record keeps its head.
fn run_capture(chain: &mut [Middlebox], mut capture: Vec<u8>) -> Result<Vec<u8>> {
    let header = capture.get(..CAPTURE_HEADER).ok_or("the header is cut")?;
    let read_number = byte_order(header).ok_or("no capture of Ethernet frames, version 2.4")?;
    let mut out = header.to_vec();
    let mut at = CAPTURE_HEADER;
    while at < capture.len() {
        let record = first_record(&mut capture[at..], read_number)
            .ok_or_else(|| format!("the record at byte {at} is cut"))?;
        if forward(chain, &mut record[RECORD_HEAD..]) {
            out.extend_from_slice(record);
        }
        at += record.len();
    }
    Ok(out)
}

/// Takes a packet through the chain. False where a middlebox filters it.
fn forward(chain: &mut [Middlebox], packet: &mut [u8]) -> bool {
    let Some(mut flow) = Flow::of_packet(packet) else {
        return true;
    };
    for middlebox in chain {
        match middlebox.visit(&flow) {
            Some(change) => flow.change(packet, change),
            None => return false,
        }
    }
    true
}

fn read_file(path: &Path) -> Result<Vec<u8>> {
    fs::read(path).map_err(|error| format!("{}: {error}", path.display()).into())
}

fn run(words: &[PathBuf]) -> Result<()> {
    let [chain, capture, out] = words else {
        return Err("usage: plain CHAIN CAPTURE OUT".into());
    };
    let text = read_file(chain)?;
    let mut chain = read_chain(&String::from_utf8_lossy(&text))?;
    let forwarded = run_capture(&mut chain, read_file(capture)?)?;
    fs::write(out, forwarded).map_err(|error| format!("{}: {error}", out.display()).into())
}

fn main() -> ExitCode {
    let words: Vec<PathBuf> = env::args_os().skip(1).map(PathBuf::from).collect();
    match run(&words) {
        Ok(()) => ExitCode::SUCCESS,
        Err(fault) => {
            eprintln!("plain: {fault}");
            ExitCode::FAILURE
        }
    }
}
