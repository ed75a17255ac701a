//! Records, as docs/TRACE.md has them: a line is a form with its gaps filled.
use crate::plain::*;
use crate::post::{Polled, Taken};

// The forms. A gap is %b (0 or 1), %c (8 bits), %h (16 bits), %w (32 bits), %q (64 bits), %a (an address), %x (bytes in hex).

pub const START: &str = "start moment=%w generator=%q";
pub const SETTINGS: &str =
    "settings medium=%c mtu=%h hardware=%x offload=%b name=%x listed=%b list=%x extra=%x capped=%b maximum=%w ignore_naks=%b";
pub const INIT: &str = "init id=%w";
pub const DISCOVERING: &str = "discovering id=%w retry_at=%w";
pub const REQUESTING: &str = "requesting id=%w retry_at=%w retry=%h server=%a identifier=%a requested=%a";
pub const RENEWING: &str = "renewing id=%w renew_at=%w rebind_at=%w expires_at=%w rebinding=%b";
pub const LEASE: &str = "lease server=%a identifier=%a address=%a/%c routed=%b router=%a dns=%c %a %a %a options=%x";
pub const TABLES: &str = "tables generation=%w addresses=%c routes=%c";
pub const ADDRESS: &str = "address address=%a/%c dhcp=%b";
pub const ROUTE: &str = "route network=%a/%c router=%a dhcp=%b";
pub const GENERATOR: &str = "generator state=%q";

pub const NEW: &str = "new";
pub const POLL: &str = "poll step=%w length=%h fill=%c";
pub const PROCESS: &str = "process step=%w source=%a reply=%x";
pub const RESET: &str = "reset step=%w";
pub const ADD_ADDRESS: &str = "add_address step=%w address=%a/%c";
pub const DROP_ADDRESS: &str = "drop_address step=%w address=%a/%c";
pub const ADD_ROUTE: &str = "add_route step=%w network=%a/%c router=%a";
pub const DROP_ROUTE: &str = "drop_route step=%w network=%a/%c router=%a";
pub const GET: &str = "get step=%w kind=%c";
pub const MASK: &str = "mask address=%a";
pub const OPTION: &str = "option kind=%c reply=%x";

/// Not in a list of calls: a reply to the client as it stands, written by hand, that `expand` turns into a `process`.
pub const REPLY: &str = "reply step=%w source=%a type=%c your=%a options=%x";

pub const CREATED: &str = "created moment=%w number=%c";
pub const POLLED: &str = "polled moment=%w number=%c wake=%w purge=%b";
pub const SENT: &str = "sent length=%h source=%a destination=%a";
pub const BUFFER: &str = "buffer bytes=%x";
pub const PROCESSED: &str = "processed moment=%w number=%c purge=%b";
pub const WAS_RESET: &str = "was_reset moment=%w number=%c purge=%b";
pub const CHANGED: &str = "changed moment=%w number=%c";
pub const GOT: &str = "got moment=%w number=%c found=%b place=%h length=%h";
pub const MASKED: &str = "masked unicast=%b contiguous=%b prefix=%c";
pub const OPTIONED: &str = "optioned found=%b data=%x";

/// The longest line that is read: a reply of 65,535 bytes fits.
pub const LONGEST_LINE: usize = 140_000;

#[derive(Clone, Debug, PartialEq)]
pub enum Call {
    Start { moment: u32, generator: u64 },
    Settings(Settings),
    State { id: u32, state: State },
    Lease(Box<Lease>),
    Tables { generation: u32, addresses: u8, routes: u8 },
    Address(Entry),
    Route(RouteEntry),
    Generator(u64),

    New,
    Poll { step: u32, length: u16, fill: u8 },
    Process { step: u32, source: Address, reply: Vec<u8> },
    Reset { step: u32 },
    AddAddress { step: u32, address: Address, prefix: u8 },
    DropAddress { step: u32, address: Address, prefix: u8 },
    AddRoute { step: u32, network: Address, prefix: u8, router: Address },
    DropRoute { step: u32, network: Address, prefix: u8, router: Address },
    Get { step: u32, kind: u8 },
    Mask(Address),
    Option { kind: u8, reply: Vec<u8> },

    Reply { step: u32, source: Address, kind: u8, your: Address, options: Vec<u8> },
}

impl Call {
    /// What it adds to the moment.
    pub fn step(&self) -> u32 {
        match self {
            Call::Poll { step, .. }
            | Call::Process { step, .. }
            | Call::Reset { step }
            | Call::AddAddress { step, .. }
            | Call::DropAddress { step, .. }
            | Call::AddRoute { step, .. }
            | Call::DropRoute { step, .. }
            | Call::Get { step, .. }
            | Call::Reply { step, .. } => *step,
            _ => 0,
        }
    }

    /// The word that its record begins with; one for all that have no answer.
    pub fn word(&self) -> &'static str {
        match self {
            Call::New => "new",
            Call::Poll { .. } => "poll",
            Call::Process { .. } => "process",
            Call::Reset { .. } => "reset",
            Call::AddAddress { .. } => "add_address",
            Call::DropAddress { .. } => "drop_address",
            Call::AddRoute { .. } => "add_route",
            Call::DropRoute { .. } => "drop_route",
            Call::Get { .. } => "get",
            Call::Mask(_) => "mask",
            Call::Option { .. } => "option",
            _ => "set",
        }
    }
}

#[derive(Clone, Debug, PartialEq)]
pub enum Answer {
    /// A record that sets something has none.
    Nothing,
    Created {
        number: u8,
    },
    Polled(Polled),
    Processed(Taken),
    WasReset(Taken),
    Changed {
        number: u8,
    },
    Got {
        number: u8,
        found: Option<(usize, usize)>,
    },
    Masked {
        unicast: bool,
        prefix: Option<u8>,
    },
    Optioned(Option<Vec<u8>>),
}

impl Answer {
    pub fn number(&self) -> u8 {
        match self {
            Answer::Created { number } | Answer::Changed { number } | Answer::Got { number, .. } => *number,
            Answer::Polled(polled) => polled.number,
            Answer::Processed(taken) | Answer::WasReset(taken) => taken.number,
            _ => 0,
        }
    }
}

/// The largest number that fits a gap.
pub fn most(gap: u8) -> u64 {
    match gap {
        b'b' => 1,
        b'c' => u8::MAX as u64,
        b'h' => u16::MAX as u64,
        b'w' => u32::MAX as u64,
        _ => u64::MAX,
    }
}
