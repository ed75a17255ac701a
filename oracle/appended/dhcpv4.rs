// Appended to the copy of src/iface/dhcpv4.rs: the client's private state, in and out.

use crate::plain;

fn moment(at: u32) -> Instant {
    Instant::from_millis(at)
}

fn server(address: plain::Address, identifier: plain::Address) -> DhcpServerInfo {
    DhcpServerInfo { address: address.into(), identifier: identifier.into() }
}

impl Client {
    pub(crate) fn plain(&self) -> (u32, plain::State, Option<plain::Lease>) {
        let state = match &self.state {
            ClientState::Init => plain::State::Init,
            ClientState::Discovering(s) => plain::State::Discovering { retry_at: s.retry_at.as_millis() },
            ClientState::Requesting(s) => plain::State::Requesting {
                retry_at: s.retry_at.as_millis(),
                retry: s.retry,
                server: s.server.address.octets(),
                identifier: s.server.identifier.octets(),
                requested: s.requested_ip.octets(),
            },
            ClientState::Renewing(s) => plain::State::Renewing {
                renew_at: s.renew_at.as_millis(),
                rebind_at: s.rebind_at.as_millis(),
                expires_at: s.expires_at.as_millis(),
                rebinding: s.rebinding,
            },
        };
        (self.transaction_id, state, self.lease().map(DhcpLease::plain))
    }

    /// The moments of the state as one number, the id, and the lease's address and how much of its store is used.
    pub(crate) fn glimpse(&self) -> (u32, u32, u32, u16) {
        let deadlines = match &self.state {
            ClientState::Init => 0,
            ClientState::Discovering(s) => s.retry_at.as_millis(),
            ClientState::Requesting(s) => s.retry_at.as_millis().wrapping_add(s.requested_ip.to_bits()),
            ClientState::Renewing(s) => {
                s.renew_at.as_millis().wrapping_add(s.rebind_at.as_millis()).wrapping_add(s.expires_at.as_millis())
            }
        };
        let (address, used) = self.lease().map_or((0, 0), |l| (l.address.address().to_bits(), l.options.len));
        (deadlines, self.transaction_id, address, used)
    }

    pub(crate) fn set(&mut self, id: u32, state: &plain::State, lease: &plain::Lease) {
        self.transaction_id = id;
        self.state = match *state {
            plain::State::Init => ClientState::Init,
            plain::State::Discovering { retry_at } => ClientState::Discovering(DiscoverState { retry_at: moment(retry_at) }),
            plain::State::Requesting { retry_at, retry, server: address, identifier, requested } => {
                ClientState::Requesting(RequestState {
                    retry_at: moment(retry_at),
                    retry,
                    server: server(address, identifier),
                    requested_ip: requested.into(),
                })
            }
            plain::State::Renewing { renew_at, rebind_at, expires_at, rebinding } => ClientState::Renewing(RenewState {
                lease: DhcpLease::from_plain(lease),
                renew_at: moment(renew_at),
                rebind_at: moment(rebind_at),
                rebinding,
                expires_at: moment(expires_at),
            }),
        };
    }
}

impl DhcpLease {
    fn plain(&self) -> plain::Lease {
        let mut dns = [[0; 4]; 3];
        for (place, address) in dns.iter_mut().zip(self.dns_servers.iter()) {
            *place = address.octets();
        }
        plain::Lease {
            server: self.server.address.octets(),
            identifier: self.server.identifier.octets(),
            address: self.address.address().octets(),
            prefix: self.address.prefix_len(),
            router: self.router.map(|router| router.octets()),
            dns_count: self.dns_servers.len() as u8,
            dns,
            used: self.options.len,
            options: self.options.buf,
        }
    }

    fn from_plain(lease: &plain::Lease) -> Self {
        let mut dns_servers = Vec::new();
        for address in &lease.dns[..lease.dns_count as usize] {
            dns_servers.push((*address).into()).unwrap();
        }
        DhcpLease {
            server: server(lease.server, lease.identifier),
            address: Ipv4Cidr::new(lease.address.into(), lease.prefix),
            router: lease.router.map(Ipv4Addr::from),
            dns_servers,
            options: DhcpLeaseOptions { buf: lease.options, len: lease.used },
        }
    }
}

/// Where in a store the data of the first such option lies, and its length.
pub(crate) fn place(used: u16, options: &[u8; DHCP_OPTIONS_BUF_SIZE], kind: u8) -> Option<(usize, usize)> {
    let store = DhcpLeaseOptions { buf: *options, len: used };
    let data = store.get(kind)?;
    Some((data.as_ptr() as usize - store.buf.as_ptr() as usize, data.len()))
}
