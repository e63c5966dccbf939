//! The lists that are measured, and frames for them.

/// Seeded numbers, the same in every run (splitmix64).
pub struct Random(pub u64);

impl Random {
    pub fn next(&mut self) -> u64 {
        self.0 = self.0.wrapping_add(0x9E37_79B9_7F4A_7C15);
        let mut z = self.0;
        z = (z ^ z >> 30).wrapping_mul(0xBF58_476D_1CE4_E5B9);
        z = (z ^ z >> 27).wrapping_mul(0x94D0_49BB_1331_11EB);
        z ^ z >> 31
    }

    pub fn below(&mut self, n: u64) -> u64 {
        (self.next() >> 32) % n
    }
}

/// What a frame is made of.
#[derive(Clone, Copy)]
pub struct Packet {
    pub protocol: u8,
    pub ttl: u8,
    pub fragment: u16,
    pub source: u32,
    pub destination: u32,
    /// Ports, or ICMP type and code in the upper byte and the lower one of the first.
    pub ports: (u16, u16),
    pub flags: u8,
}

/// The bytes of every frame: 60, as short packets are padded to.
pub const FRAME: usize = 60;

impl Packet {
    pub fn bytes(&self) -> [u8; FRAME] {
        let mut frame = [0; FRAME];
        frame[12] = 8;
        frame[14] = 0x45;
        frame[17] = 40;
        frame[20..22].copy_from_slice(&self.fragment.to_be_bytes());
        frame[22] = self.ttl;
        frame[23] = self.protocol;
        frame[26..30].copy_from_slice(&self.source.to_be_bytes());
        frame[30..34].copy_from_slice(&self.destination.to_be_bytes());
        frame[34..36].copy_from_slice(&self.ports.0.to_be_bytes());
        frame[36..38].copy_from_slice(&self.ports.1.to_be_bytes());
        frame[47] = self.flags;
        frame
    }
}

const TCP: u8 = 6;
const UDP: u8 = 17;
const ICMP: u8 = 1;

/// (a) and (d) So many filters in as many groups that test as many destination ports by equality.
pub fn ports(count: u32) -> Vec<u32> {
    (0..count).flat_map(|i| [i, 0, 1, 1, 9, 0xFFFF, port(i)]).collect()
}

fn port(i: u32) -> u32 {
    1000 + 37 * i
}

/// Frames that hit so many ports evenly.
pub fn port_packet<const COUNT: u64>(random: &mut Random) -> Packet {
    let port = port(random.below(COUNT) as u32) as u16;
    Packet { ports: (40_000, port), ..any_packet(random) }
}

fn any_packet(random: &mut Random) -> Packet {
    Packet {
        protocol: if random.below(2) == 0 { TCP } else { UDP },
        ttl: 64,
        fragment: 0x4000,
        source: 0xC0A8_0000 | random.below(65_536) as u32,
        destination: 0x0A00_0000 | random.below(65_536) as u32,
        ports: (40_000, 80),
        flags: 0x10,
    }
}

/// (c) Document 01's example.
pub const ECHO: [u32; 25] =
    [1, 0, 1, 1, 11, 255, 8, 2, 0, 2, 1, 11, 255, 0, 1, 4, 255, 1, 3, 0, 1, 1, 4, 255, 1];

/// Echo requests and replies, some with time to live 1, and other packets.
pub fn echo_packet(random: &mut Random) -> Packet {
    let ttl = if random.below(3) == 0 { 1 } else { 64 };
    let packet = Packet { ttl, ..any_packet(random) };
    match random.below(4) {
        0 => packet,
        kind => Packet { protocol: ICMP, ports: (if kind == 1 { 0 } else { 0x0800 }, 0), ..packet },
    }
}

/// So many one-bit tests in groups of their own: 2^(n+1) - 1 states.
pub fn one_bit_tests(count: u32) -> Vec<u32> {
    (0..count).flat_map(|i| [i, 0, 1, 1, 6, 1 << i, 1 << i]).collect()
}

const SYN_ONLY: [u32; 4] = [1, 10, 0x12, 0x02];
const ESTABLISHED: [u32; 4] = [1, 10, 0x10, 0x10];
const NO_FRAGMENT: [u32; 4] = [1, 3, 0x1FFF, 0];

fn protocol(number: u8) -> [u32; 4] {
    [1, 5, 255, u32::from(number)]
}

fn to(network: u32) -> [u32; 4] {
    [1, 7, 0xFFFF_0000, network]
}

fn from(network: u32) -> [u32; 4] {
    [1, 6, 0xFFFF_0000, network]
}

fn at_most(field: u32, bound: u32) -> [u32; 4] {
    [3, field, 0, bound]
}

fn at_least(field: u32, bound: u32) -> [u32; 4] {
    [4, field, 0, bound]
}

fn to_port(number: u32) -> [u32; 4] {
    [1, 9, 0xFFFF, number]
}

const OFFICE: u32 = 0x0A00_0000;
const SHOP: u32 = 0x0A01_0000;
const GUESTS: u32 = 0x0A02_0000;

type Tests = Vec<[u32; 4]>;

/// A source port above those of servers.
const HIGH: [u32; 4] = [4, 8, 0, 1024];

/// Connections to the servers: each network with its services, then what belongs to them.
fn to_servers() -> Vec<Tests> {
    let mut filters = Vec::new();
    for (network, services) in [(OFFICE, [22, 25, 80, 443]), (SHOP, [80, 443, 8080, 9100])] {
        for service in services {
            filters.push(vec![protocol(TCP), to(network), to_port(service), SYN_ONLY, HIGH]);
        }
        filters.push(vec![protocol(TCP), to(network), ESTABLISHED, NO_FRAGMENT]);
    }
    filters
}

/// Guests only reach the world, by web and mail, and never the other networks.
fn of_guests() -> Vec<Tests> {
    let world = [2, 7, 0xFF00_0000, 0x0A00_0000];
    let guest =
        |service| vec![protocol(TCP), from(GUESTS), world, to_port(service), HIGH, at_least(4, 2)];
    [80, 443, 587, 993].map(guest).into()
}

/// Ranges of ports that the office uses in the shop.
fn to_machines() -> Vec<Tests> {
    let range = |(low, top)| {
        let ports = [at_least(9, low), at_most(9, top)];
        vec![protocol(TCP), to(SHOP), ports[0], ports[1], SYN_ONLY, from(OFFICE)]
    };
    [(5000, 5100), (6000, 6063)].map(range).into()
}

/// Names, time, telephones.
fn datagrams() -> Vec<Tests> {
    let service = |number| vec![protocol(UDP), to(OFFICE), to_port(number), HIGH];
    let voices = |network| {
        let ports = [at_least(9, 16_384), at_most(9, 32_767)];
        vec![protocol(UDP), to(network), ports[0], ports[1], NO_FRAGMENT]
    };
    let mut filters: Vec<Tests> = [53, 123, 161, 5060].map(service).into();
    filters.extend([OFFICE, SHOP].map(voices));
    filters.push(vec![protocol(UDP), from(GUESTS), to_port(53), HIGH]);
    filters.push(vec![protocol(UDP), from(GUESTS), to_port(443), HIGH, at_least(4, 2)]);
    filters
}

/// Messages of the network itself.
fn messages() -> Vec<Tests> {
    let message = |(kind, code)| {
        let kind = [1, 11, 255, kind];
        vec![protocol(ICMP), kind, at_most(12, code), NO_FRAGMENT, at_least(4, 2)]
    };
    [(8, 0), (0, 0), (3, 15), (11, 1)].map(message).into()
}

/// What is only counted: odd flags, low ports on both sides.
fn counted() -> Vec<Tests> {
    vec![
        vec![protocol(TCP), [1, 10, 0x3F, 0x29], at_most(4, 64), NO_FRAGMENT],
        vec![protocol(TCP), [1, 10, 0x03, 0x03], at_most(4, 64), NO_FRAGMENT],
        vec![protocol(TCP), SYN_ONLY, at_most(8, 1023), at_most(9, 1023)],
        vec![protocol(UDP), at_most(8, 1023), at_most(9, 1023), at_most(4, 64)],
    ]
}

/// (b) A firewall's list: 32 filters of 4 to 6 tests in one group, the first that holds stands.
pub fn firewall() -> Vec<u32> {
    let filters =
        [to_servers(), of_guests(), to_machines(), datagrams(), messages(), counted()].concat();
    assert_eq!(filters.len(), 32);
    let level = |i: usize| 3 - i as u32 / 8;
    let words = |(i, tests): (usize, &Tests)| {
        [vec![1, level(i), tests.len() as u32], tests.concat()].concat()
    };
    filters.iter().enumerate().flat_map(words).collect()
}

/// Packets as such a firewall meets them: many towards its filters, some towards none.
pub fn firewall_packet(random: &mut Random) -> Packet {
    let pick =
        |random: &mut Random, items: &[u32]| items[random.below(items.len() as u64) as usize];
    let network = pick(random, &[OFFICE, OFFICE, SHOP, SHOP, GUESTS, 0x5DB8_0000]);
    let source = pick(random, &[OFFICE, GUESTS, GUESTS, 0xC0A8_0000, 0x5DB8_0000]);
    let services = [
        22, 25, 53, 80, 80, 123, 161, 443, 443, 443, 587, 993, 5060, 8080, 9100, 5050, 6001, 20_000,
    ];
    let service = pick(random, &services) as u16;
    let host = |random: &mut Random| random.below(65_536) as u32;
    let mut packet = Packet {
        protocol: pick(random, &[6, 6, 6, 6, 17, 17, 17, 1]) as u8,
        ttl: pick(random, &[1, 57, 64, 64, 128]) as u8,
        fragment: pick(random, &[0, 0x4000, 0x4000, 0x4000, 0x2000, 0x00B9]) as u16,
        source: source | host(random),
        destination: network | host(random),
        ports: (pick(random, &[53, 1023, 40_000, 50_000, 60_000]) as u16, service),
        flags: pick(random, &[0x02, 0x02, 0x10, 0x10, 0x18, 0x11, 0x29]) as u8,
    };
    if packet.protocol == ICMP {
        packet.ports.0 = pick(random, &[0x0800, 0x0000, 0x0301, 0x0B00, 0x0500]) as u16;
    }
    packet
}
