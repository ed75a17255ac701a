//! The post as plain data: what the records say of client, tables, generator and moment, whole or not. A count or a length
//! may be over its limit; what lies past a limit is not kept.

pub type Address = [u8; 4];

/// The limits of document 01.
pub const MOST_ENTRIES: usize = 4;
pub const MOST_DNS: usize = 3;
pub const STORE: usize = 256;
pub const MOST_NAME: usize = 63;
pub const MOST_LIST: usize = 64;
pub const MOST_EXTRA: usize = 255;
pub const LEAST_MTU: u16 = 576;
pub const MOST_MTU: u16 = 1500;
pub const LONGEST: u32 = 1_073_741_824;
pub const DAY: u32 = 86_400_000;

/// The medium that has hardware addresses of six bytes. Any other number stands for the medium Ip.
pub const ETHERNET: u8 = 0;

#[derive(Clone, Debug, PartialEq, Eq)]
pub struct Settings {
    pub medium: u8,
    pub mtu: u16,
    pub hardware: [u8; 6],
    pub offload: bool,
    pub name: Vec<u8>,
    pub list: Option<Vec<u8>>,
    pub extra: Vec<u8>,
    pub maximum: Option<u32>,
    pub ignore_naks: bool,
}

impl Settings {
    pub fn zero() -> Self {
        Settings {
            medium: ETHERNET,
            mtu: 0,
            hardware: [0; 6],
            offload: false,
            name: vec![],
            list: None,
            extra: vec![],
            maximum: None,
            ignore_naks: false,
        }
    }

    /// The length of the datagram of a message that is sent with these settings; in Requesting it has two options more.
    pub fn datagram(&self, requesting: bool) -> usize {
        let name = if self.name.is_empty() { 0 } else { 2 + self.name.len() };
        let list = self.list.as_ref().map_or(3, Vec::len);
        8 + 240 + 3 + 9 + name + if requesting { 12 } else { 0 } + 4 + 2 + list + self.extra.len() + 1
    }
}

#[derive(Clone, Copy, Debug, PartialEq, Eq)]
pub enum State {
    Init,
    Discovering { retry_at: u32 },
    Requesting { retry_at: u32, retry: u16, server: Address, identifier: Address, requested: Address },
    Renewing { renew_at: u32, rebind_at: u32, expires_at: u32, rebinding: bool },
}

impl State {
    /// 0 to 3, in the order of the states.
    pub fn place(&self) -> u8 {
        match self {
            State::Init => 0,
            State::Discovering { .. } => 1,
            State::Requesting { .. } => 2,
            State::Renewing { .. } => 3,
        }
    }

    pub fn renewing(&self) -> bool {
        matches!(self, State::Renewing { .. })
    }
}

#[derive(Clone, Copy, Debug, PartialEq, Eq)]
pub struct Lease {
    pub server: Address,
    pub identifier: Address,
    pub address: Address,
    pub prefix: u8,
    pub router: Option<Address>,
    pub dns_count: u8,
    pub dns: [Address; MOST_DNS],
    pub used: u16,
    pub options: [u8; STORE],
}

impl Lease {
    pub const ZERO: Lease = Lease {
        server: [0; 4],
        identifier: [0; 4],
        address: [0; 4],
        prefix: 0,
        router: None,
        dns_count: 0,
        dns: [[0; 4]; MOST_DNS],
        used: 0,
        options: [0; STORE],
    };

    fn whole(&self) -> bool {
        self.prefix <= 32 && self.dns_count as usize <= MOST_DNS && self.store_whole()
    }

    pub fn store_whole(&self) -> bool {
        self.used as usize <= STORE && whole_items(&self.options[..self.used as usize])
    }
}

#[derive(Clone, Debug, PartialEq, Eq)]
pub struct Client {
    pub settings: Settings,
    pub id: u32,
    pub state: State,
    /// All zero but in Renewing.
    pub lease: Lease,
}

#[derive(Clone, Copy, Debug, Default, PartialEq, Eq)]
pub struct Entry {
    pub address: Address,
    pub prefix: u8,
    pub dhcp: bool,
}

#[derive(Clone, Copy, Debug, Default, PartialEq, Eq)]
pub struct RouteEntry {
    pub network: Address,
    pub prefix: u8,
    pub router: Address,
    pub dhcp: bool,
}

#[derive(Clone, Copy, Debug, Default, PartialEq, Eq)]
pub struct Tables {
    pub generation: u32,
    pub addresses: u8,
    pub address: [Entry; MOST_ENTRIES],
    pub routes: u8,
    pub route: [RouteEntry; MOST_ENTRIES],
}

impl Tables {
    pub fn address_entries(&self) -> &[Entry] {
        &self.address[..(self.addresses as usize).min(MOST_ENTRIES)]
    }

    pub fn route_entries(&self) -> &[RouteEntry] {
        &self.route[..(self.routes as usize).min(MOST_ENTRIES)]
    }

    /// Number 9, as far as it is about tables.
    pub fn whole(&self) -> bool {
        self.addresses as usize <= MOST_ENTRIES
            && self.routes as usize <= MOST_ENTRIES
            && self.address_entries().iter().all(|entry| entry.prefix <= 32)
            && self.route_entries().iter().all(|entry| entry.prefix <= 32)
    }
}

impl Client {
    /// Number 9, as far as it is about the client and no setting.
    pub fn whole(&self) -> bool {
        !self.state.renewing() || self.lease.whole()
    }
}

/// A post, and the buffer that the last call was lent, as the call left it.
#[derive(Clone, Debug, PartialEq, Eq)]
pub struct Plain {
    pub client: Client,
    pub tables: Tables,
    pub generator: u64,
    pub moment: u32,
    pub buffer: Vec<u8>,
}

impl Plain {
    /// An all-zero client with empty tables.
    pub fn zero() -> Self {
        Plain {
            client: Client { settings: Settings::zero(), id: 0, state: State::Init, lease: Lease::ZERO },
            tables: Tables::default(),
            generator: 0,
            moment: 0,
            buffer: vec![],
        }
    }
}

/// Items of kind, length and data, one after the other, up to the end.
pub fn whole_items(mut bytes: &[u8]) -> bool {
    while let [_, length, rest @ ..] = bytes {
        match rest.get(*length as usize..) {
            Some(after) => bytes = after,
            None => return false,
        }
    }
    bytes.is_empty()
}

/// The byte that a lent buffer holds at a place before the call.
pub fn lent(fill: u8, place: usize) -> u8 {
    fill.wrapping_add(place as u8)
}
