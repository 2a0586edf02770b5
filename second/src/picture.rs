//! Reading a picture: numbers 1 to 10, and the ports of a picture that reads.

use crate::claims::Holding;

pub const MIB: u64 = 1 << 20;
pub const FOUR_GIB: u64 = 1 << 32;

/// The addresses that a port claims with VGA Enable and Memory Space Enable.
pub const VIDEO_RANGE: AddressRange = AddressRange { base: 0xA_0000, last: 0xB_FFFF };

/// An ID or an address: what claims, walks and the check speak of.
#[derive(Clone, Copy, Debug, PartialEq, Eq)]
pub enum Target {
    Id(u16),
    Address(u64),
}

/// A port that a refusal names, with why it holds the target where one is named.
#[derive(Clone, Copy, Debug, PartialEq, Eq)]
pub struct Named {
    pub port: u8,
    pub holding: Option<Holding>,
}

/// A number given back instead of an answer, with what the table says it names.
#[derive(Clone, Debug, PartialEq, Eq)]
pub struct Refusal {
    pub number: u8,
    pub target: Option<Target>,
    pub ports: Vec<Named>,
}

impl Refusal {
    /// A refusal that names nothing.
    pub fn bare(number: u8) -> Refusal {
        Refusal { number, target: None, ports: Vec::new() }
    }

    /// A refusal that names one port.
    pub fn at_port(number: u8, port: usize) -> Refusal {
        Refusal { number, target: None, ports: vec![Named { port: port as u8, holding: None }] }
    }
}

/// The editions that a picture can have. They differ in the size of their records, and in what the longer ones
/// have at the end.
#[derive(Clone, Copy, Debug, Default, PartialEq, Eq, PartialOrd, Ord)]
pub enum Edition {
    #[default]
    One,
    Two,
}

impl Edition {
    /// The edition that a header's field stands for, if it is one.
    pub fn of(field: u16) -> Option<Edition> {
        match field {
            1 => Some(Edition::One),
            2 => Some(Edition::Two),
            _ => None,
        }
    }

    /// The header's field for it.
    pub fn field(self) -> u16 {
        match self {
            Edition::One => 1,
            Edition::Two => 2,
        }
    }

    /// How many bytes the record of a port has.
    pub fn record_size(self) -> usize {
        match self {
            Edition::One => 56,
            Edition::Two => 60,
        }
    }

    /// Where the record of a port begins; for the port count, where all records end and the vectors begin.
    pub fn record_start(self, port: usize) -> usize {
        16 + self.record_size() * port
    }
}

#[derive(Clone, Copy, Debug, PartialEq, Eq)]
pub enum Kind {
    Root,
    Upstream,
    Downstream,
}

/// A range of addresses from `base` to `last`, both inside; nothing if base is above last.
#[derive(Clone, Copy, Debug, PartialEq, Eq)]
pub struct AddressRange {
    pub base: u64,
    pub last: u64,
}

impl AddressRange {
    /// Is the address inside?
    pub fn contains(&self, address: u64) -> bool {
        self.base <= address && address <= self.last
    }
}

/// An enabled vector; start and granularity are in IDs (RID) or in bytes (Low, High).
#[derive(Clone, Debug, PartialEq, Eq)]
pub struct Vector {
    pub start: u64,
    pub granularity: u64,
    pub size: u64,
    pub bytes: Vec<u8>,
}

impl Vector {
    /// The entry that applies to a target, if one does.
    pub fn entry_of(&self, target: u64) -> Option<u64> {
        if target < self.start {
            return None;
        }
        let entry = (target - self.start) / self.granularity;
        (entry < self.size).then_some(entry)
    }

    /// Entry i is bit i mod 8 of byte i/8.
    pub fn is_set(&self, entry: u64) -> bool {
        let byte = self.bytes[(entry / 8) as usize];
        byte >> (entry % 8) & 1 == 1
    }

    /// Does an entry apply to the target, and is it set?
    pub fn claims(&self, target: u64) -> bool {
        self.entry_of(target).is_some_and(|entry| self.is_set(entry))
    }
}

/// A port of a picture that reads. A vector is here only if it is enabled.
#[derive(Clone, Debug, PartialEq, Eq)]
pub struct Port {
    pub kind: Kind,
    pub parent: Option<usize>,
    pub own_id: u16,
    pub memory_space: bool,
    pub secondary: u8,
    pub subordinate: u8,
    pub memory: AddressRange,
    pub prefetchable: AddressRange,
    /// Prefetchable is of type 1, of 64 bits.
    pub prefetchable_is_64: bool,
    /// ARI Forwarding Enable, at a root or downstream port (it means nothing at an upstream port).
    pub ari: bool,
    /// VGA Enable, bit 3 of Bridge Control; no other bit of that register counts.
    pub vga_enable: bool,
    /// P2P Request Redirect, bit 2 of ACS Control; it counts at a device port where a packet starts.
    pub request_redirect: bool,
    pub num_sec_dev: u16,
    /// Secondary Start, a unit.
    pub secondary_start: u16,
    pub rid: Option<Vector>,
    pub low: Option<Vector>,
    pub high: Option<Vector>,
}

/// A picture that reads.
#[derive(Clone, Debug, PartialEq, Eq)]
pub struct Picture {
    pub ports: Vec<Port>,
}

impl Picture {
    /// The ports at a place: the root ports (`None`), or the children of a port; lowest first.
    pub fn ports_at(&self, place: Option<usize>) -> Vec<usize> {
        (0..self.ports.len()).filter(|&port| self.ports[port].parent == place).collect()
    }

    /// A root or downstream port without a child.
    pub fn is_device_port(&self, port: usize) -> bool {
        self.ports[port].kind != Kind::Upstream && self.ports_at(Some(port)).is_empty()
    }

    /// The ports from this one up to its root port, in this order.
    pub fn way_up(&self, port: usize) -> Vec<usize> {
        let above = self.ports[port].parent.map_or(Vec::new(), |parent| self.way_up(parent));
        [vec![port], above].concat()
    }

    /// How many ports stand on the chain from the root port down to this one.
    pub fn depth(&self, port: usize) -> usize {
        self.way_up(port).len()
    }
}

/// What a good header says: the edition and the port count.
#[derive(Clone, Copy)]
struct Header {
    edition: Edition,
    count: usize,
}

/// The bytes of one port, as many as the edition has, with its fields by name.
pub struct Record<'a> {
    edition: Edition,
    bytes: &'a [u8],
}

/// One of the three vectors as a record sets it. A size or granularity that 001 reserves, or does
/// not allow together, is `None`. The start is in IDs or in bytes, like the granularity.
pub struct Setting {
    pub supported: bool,
    pub enabled: bool,
    pub size_code: u32,
    pub granularity_code: u32,
    pub size: Option<u64>,
    pub granularity: Option<u64>,
    pub start: u64,
}

impl Setting {
    /// How many bytes of the picture the vector takes: one bit an entry, if supported.
    fn length(&self) -> usize {
        match self.size {
            Some(size) if self.supported => (size / 8) as usize,
            _ => 0,
        }
    }

    /// Number 8's rule for the codes: of the size where supported, of the granularity where enabled.
    pub fn codes_are_good(&self) -> bool {
        let size = self.size.is_some() || !self.supported;
        let granularity = self.granularity.is_some() || !self.enabled;
        size && granularity
    }

    /// Number 9's rule: an enabled start is a multiple of the granularity.
    pub fn is_aligned(&self) -> bool {
        match self.granularity {
            Some(granularity) if self.enabled => self.start % granularity == 0,
            _ => true,
        }
    }
}

/// Two little-endian bytes.
fn half(bytes: &[u8], at: usize) -> u16 {
    u16::from_le_bytes([bytes[at], bytes[at + 1]])
}

/// Four little-endian bytes.
pub fn word(bytes: &[u8], at: usize) -> u32 {
    u32::from_le_bytes([bytes[at], bytes[at + 1], bytes[at + 2], bytes[at + 3]])
}

/// The bits high:low of a register.
fn bits(register: u32, high: u32, low: u32) -> u32 {
    (register >> low) & ((1u32 << (high - low + 1)) - 1)
}

/// Size codes of the RID vector: 0, 2 and 5.
fn rid_size(code: u32) -> Option<u64> {
    match code {
        0 => Some(256),
        2 => Some(1_024),
        5 => Some(8_192),
        _ => None,
    }
}

/// Granularity of the RID vector in IDs, where the size code allows it.
fn rid_granularity(code: u32, size_code: u32) -> Option<u64> {
    match (size_code, code) {
        (0 | 2 | 5, 0) => Some(8),
        (0 | 2, 3) => Some(64),
        (0, 5) => Some(256),
        _ => None,
    }
}

/// Size codes of the MEM Low vector: 0 to 4.
fn low_size(code: u32) -> Option<u64> {
    (code <= 4).then(|| 256 << code)
}

/// Granularity of the MEM Low vector in bytes, where the size code allows it.
fn low_granularity(code: u32, size_code: u32) -> Option<u64> {
    (size_code <= 4 && code <= 4 - size_code).then(|| MIB << code)
}

/// Size codes of the MEM High vector: 0 to 5.
fn high_size(code: u32) -> Option<u64> {
    (code <= 5).then(|| 256 << code)
}

/// Granularity of the MEM High vector in bytes; any size goes with any of them.
fn high_granularity(code: u32) -> Option<u64> {
    (code <= 7).then(|| (256 * MIB) << code)
}

impl Record<'_> {
    pub fn kind(&self) -> Option<Kind> {
        match self.bytes[0] {
            0 => Some(Kind::Root),
            1 => Some(Kind::Upstream),
            2 => Some(Kind::Downstream),
            _ => None,
        }
    }

    /// The kind as its byte has it, known or not.
    pub fn kind_code(&self) -> u8 {
        self.bytes[0]
    }

    pub fn parent(&self) -> u8 {
        self.bytes[1]
    }

    pub fn own_id(&self) -> u16 {
        half(self.bytes, 2)
    }

    /// Memory Base and Limit, Prefetchable Memory Base and Limit, with all their bits.
    pub fn range_registers(&self) -> [u16; 4] {
        [8, 10, 12, 14].map(|at| half(self.bytes, at))
    }

    fn capabilities(&self) -> u32 {
        word(self.bytes, 28)
    }

    fn rid_control_1(&self) -> u32 {
        word(self.bytes, 32)
    }

    /// Where the port says that its vectors start.
    pub fn vectors_start(&self) -> u32 {
        word(self.bytes, 52)
    }

    /// ARI Forwarding Enable, which means nothing at an upstream port.
    pub fn ari(&self) -> bool {
        self.kind() != Some(Kind::Upstream) && half(self.bytes, 24) >> 5 & 1 == 1
    }

    /// A field of 2 bytes that edition 2 has and edition 1 does not: it counts as 0 there.
    fn half_of_edition_2(&self, at: usize) -> u16 {
        match self.edition {
            Edition::One => 0,
            Edition::Two => half(self.bytes, at),
        }
    }

    fn acs_control(&self) -> u16 {
        self.half_of_edition_2(56)
    }

    /// The two bytes after ACS Control, which number 8 wants to be zero.
    pub fn after_acs_control(&self) -> u16 {
        self.half_of_edition_2(58)
    }

    /// Settings of the RID vector, in IDs.
    fn rid(&self) -> Setting {
        let capabilities = self.capabilities();
        let control = self.rid_control_1();
        let size_code = bits(capabilities, 10, 8);
        Setting {
            supported: bits(capabilities, 0, 0) == 1,
            enabled: bits(control, 0, 0) == 1,
            size_code,
            granularity_code: bits(control, 7, 4),
            size: rid_size(size_code),
            granularity: rid_granularity(bits(control, 7, 4), size_code),
            start: bits(control, 31, 19) as u64 * 8,
        }
    }

    /// Settings of the MEM Low vector, in bytes.
    fn low(&self) -> Setting {
        let capabilities = self.capabilities();
        let control = word(self.bytes, 40);
        let size_code = bits(capabilities, 18, 16);
        Setting {
            supported: bits(capabilities, 1, 1) == 1,
            enabled: bits(control, 0, 0) == 1,
            size_code,
            granularity_code: bits(control, 7, 4),
            size: low_size(size_code),
            granularity: low_granularity(bits(control, 7, 4), size_code),
            start: bits(control, 31, 20) as u64 * MIB,
        }
    }

    /// Settings of the MEM High vector, in bytes.
    fn high(&self) -> Setting {
        let capabilities = self.capabilities();
        let control_1 = word(self.bytes, 44);
        let control_2 = word(self.bytes, 48);
        let size_code = bits(capabilities, 26, 24);
        Setting {
            supported: bits(capabilities, 2, 2) == 1,
            enabled: bits(control_1, 0, 0) == 1,
            size_code,
            granularity_code: bits(control_1, 7, 4),
            size: high_size(size_code),
            granularity: high_granularity(bits(control_1, 7, 4)),
            start: (control_2 as u64) << 32 | (bits(control_1, 31, 28) as u64) << 28,
        }
    }

    /// The three vectors in the order in which they follow one another.
    pub fn settings(&self) -> [Setting; 3] {
        [self.rid(), self.low(), self.high()]
    }

    /// How many bytes each of the three vectors takes.
    pub fn vector_lengths(&self) -> [usize; 3] {
        self.settings().map(|setting| setting.length())
    }

    /// Memory Base..Limit: register bits 15:4 are address bits 31:20, the limit filled with ones.
    fn memory(&self) -> AddressRange {
        AddressRange {
            base: register_address(half(self.bytes, 8)),
            last: register_address(half(self.bytes, 10)) | 0xF_FFFF,
        }
    }

    /// Prefetchable Base..Limit: type 1 uses the upper words, type 0 ignores them.
    fn prefetchable(&self) -> AddressRange {
        let base = half(self.bytes, 12);
        let limit = half(self.bytes, 14);
        let (base_upper, limit_upper) = match base & 0xF {
            1 => (word(self.bytes, 16) as u64, word(self.bytes, 20) as u64),
            _ => (0, 0),
        };
        AddressRange {
            base: base_upper << 32 | register_address(base),
            last: limit_upper << 32 | register_address(limit) | 0xF_FFFF,
        }
    }

    /// Number 8's rule for the low bits of the Memory and Prefetchable registers.
    pub fn range_bits_are_good(&self) -> bool {
        let low_bits = |at| half(self.bytes, at) & 0xF;
        let memory = low_bits(8) == 0 && low_bits(10) == 0;
        let prefetchable = low_bits(12) <= 1 && low_bits(12) == low_bits(14);
        memory && prefetchable
    }

    /// Everything that number 8 looks at.
    fn settings_are_good(&self) -> bool {
        let vectors = self.settings().iter().all(|setting| {
            let supported = setting.supported || !setting.enabled;
            supported && setting.codes_are_good()
        });
        vectors && self.range_bits_are_good() && self.after_acs_control() == 0
    }

    /// Everything that number 9 looks at; the settings are good already.
    fn starts_are_good(&self) -> bool {
        self.settings().iter().all(Setting::is_aligned) && self.keeps_the_rule_of_ari()
    }

    /// Number 9's rule of ARI: a RID vector that is enabled starts at the first ID of a bus.
    pub fn keeps_the_rule_of_ari(&self) -> bool {
        let bound_by_ari = self.ari() && self.rid().enabled;
        !bound_by_ari || bits(self.rid_control_1(), 23, 19) == 0
    }
}

/// Bits 15:4 of a base or limit register as address bits 31:20.
fn register_address(register: u16) -> u64 {
    (register as u64 >> 4) << 20
}

/// Reads a picture: the lowest number from 1 to 10 that applies, or its ports.
pub fn read(picture: &[u8]) -> Result<Picture, Refusal> {
    let header = read_header(picture)?;
    let records = records(picture, header);
    judge_family(&records)?;
    judge_chains(&records)?;
    refuse_first(8, &records, |record| record.settings_are_good())?;
    refuse_first(9, &records, |record| record.starts_are_good())?;
    judge_layout(&records, header.edition, picture.len())?;
    let ports = records.iter().map(|record| read_port(record, picture)).collect();
    Ok(Picture { ports })
}

/// The records that a header tells of; the picture has room for them.
fn records(picture: &[u8], Header { edition, count }: Header) -> Vec<Record<'_>> {
    let bytes_of = |port| &picture[edition.record_start(port)..edition.record_start(port + 1)];
    (0..count).map(|port| Record { edition, bytes: bytes_of(port) }).collect()
}

/// The header's fields as they stand: edition, count and total. The picture has 72 bytes or more.
pub fn header_fields(picture: &[u8]) -> (u16, u16, u32) {
    (half(picture, 0), half(picture, 2), word(picture, 4))
}

/// The records of a picture whose header is good, whatever they hold; none if it is not.
pub fn records_of(picture: &[u8]) -> Vec<Record<'_>> {
    read_header(picture).map_or(Vec::new(), |header| records(picture, header))
}

/// The edition that the field at 0 stands for, if it is one; bytes past the end count as 0.
pub fn edition_of(picture: &[u8]) -> Option<Edition> {
    let byte = |at: usize| picture.get(at).copied().unwrap_or(0);
    Edition::of(u16::from_le_bytes([byte(0), byte(1)]))
}

/// The shortest length of a picture of this edition: a header and one record. That of edition 1 if it is none.
pub fn shortest_length(edition: Option<Edition>) -> usize {
    edition.unwrap_or_default().record_start(1)
}

/// Numbers 1 to 5.
fn read_header(picture: &[u8]) -> Result<Header, Refusal> {
    let edition = edition_of(picture);
    if picture.len() < shortest_length(edition) || picture.len() > 65_536 {
        return Err(Refusal::bare(1));
    }
    let Some(edition) = edition else { return Err(Refusal::bare(2)) };
    let count = half(picture, 2) as usize;
    if count == 0 || count > 64 {
        return Err(Refusal::bare(3));
    }
    if word(picture, 4) as usize != picture.len() {
        return Err(Refusal::bare(4));
    }
    let records_end = edition.record_start(count);
    let offsets = word(picture, 8) == 16 && word(picture, 12) as usize == records_end;
    if !offsets || records_end > picture.len() {
        return Err(Refusal::bare(5));
    }
    Ok(Header { edition, count })
}

/// Number 6: kind, parent and child rules, each port in the light of lower ports only.
fn judge_family(records: &[Record]) -> Result<(), Refusal> {
    for port in 0..records.len() {
        if !stands_well(&records[..=port]) {
            return Err(Refusal::at_port(6, port));
        }
    }
    Ok(())
}

/// Does the last of these ports keep the kind, parent and child rules?
fn stands_well(records: &[Record]) -> bool {
    let (port, lower) = records.split_last().expect("there is a last port");
    let Some(kind) = port.kind() else { return false };
    if kind == Kind::Root {
        return port.parent() == 255;
    }
    let Some(parent) = lower.get(port.parent() as usize) else { return false };
    let parent_is_upstream = parent.kind() == Some(Kind::Upstream);
    if kind == Kind::Downstream {
        return parent_is_upstream;
    }
    let has_sibling =
        lower.iter().any(|other| other.kind() != Some(Kind::Root) && other.parent() == port.parent());
    !parent_is_upstream && !has_sibling
}

/// Number 7: the lowest port that stands 17th or later on its chain.
fn judge_chains(records: &[Record]) -> Result<(), Refusal> {
    let mut depths = Vec::new();
    for (port, record) in records.iter().enumerate() {
        let depth = match record.kind() {
            Some(Kind::Root) => 1,
            _ => depths[record.parent() as usize] + 1,
        };
        if depth > 16 {
            return Err(Refusal::at_port(7, port));
        }
        depths.push(depth);
    }
    Ok(())
}

/// Gives a number at the lowest port that is not good.
fn refuse_first(number: u8, records: &[Record], good: fn(&Record) -> bool) -> Result<(), Refusal> {
    match records.iter().position(|record| !good(record)) {
        Some(port) => Err(Refusal::at_port(number, port)),
        None => Ok(()),
    }
}

/// Number 10: every start is the running offset, and the last vector ends at the total (else 255).
fn judge_layout(records: &[Record], edition: Edition, total: usize) -> Result<(), Refusal> {
    let mut offset = edition.record_start(records.len());
    for (port, record) in records.iter().enumerate() {
        if record.vectors_start() as usize != offset {
            return Err(Refusal::at_port(10, port));
        }
        offset += record.vector_lengths().iter().sum::<usize>();
    }
    if offset != total {
        return Err(Refusal::at_port(10, 255));
    }
    Ok(())
}

/// The three vectors of a port, cut out of the picture; those that are not enabled are left out.
fn read_vectors(record: &Record, picture: &[u8]) -> [Option<Vector>; 3] {
    let mut offset = record.vectors_start() as usize;
    record.settings().map(|setting| {
        let bytes = &picture[offset..offset + setting.length()];
        offset += setting.length();
        setting.enabled.then(|| Vector {
            start: setting.start,
            granularity: setting.granularity.expect("number 8 is behind us"),
            size: setting.size.expect("number 8 is behind us"),
            bytes: bytes.to_vec(),
        })
    })
}

/// A port of a picture that keeps all the rules.
fn read_port(record: &Record, picture: &[u8]) -> Port {
    let kind = record.kind().expect("number 6 is behind us");
    let [rid, low, high] = read_vectors(record, picture);
    Port {
        kind,
        parent: (kind != Kind::Root).then_some(record.parent() as usize),
        own_id: half(record.bytes, 2),
        memory_space: half(record.bytes, 4) >> 1 & 1 == 1,
        secondary: record.bytes[6],
        subordinate: record.bytes[7],
        memory: record.memory(),
        prefetchable: record.prefetchable(),
        prefetchable_is_64: half(record.bytes, 12) & 0xF == 1,
        ari: record.ari(),
        vga_enable: half(record.bytes, 26) >> 3 & 1 == 1,
        request_redirect: record.acs_control() >> 2 & 1 == 1,
        num_sec_dev: bits(record.capabilities(), 7, 3) as u16,
        secondary_start: bits(word(record.bytes, 36), 15, 3) as u16,
        rid,
        low,
        high,
    }
}
