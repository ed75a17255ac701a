//! Counts in a list of calls the kinds of values that a list easily lacks; oracle/test asks for each of them.
use std::collections::BTreeMap;

use crate::lines;
use crate::message::{self, ACK};
use crate::plain::*;
use crate::post::Post;
use crate::read::Fields;
use crate::record::{Answer, Call};
use crate::run::Run;

#[derive(Default)]
struct Variety(BTreeMap<&'static str, u64>);

/// Reads a list, and prints each kind with its count.
pub fn variety() -> Result<(), String> {
    let (mut run, mut fields, mut variety) = (Run::new(Post::new()), Fields::default(), Variety::default());
    lines(|_, line| {
        if !line.is_empty() && line[0] != b'#' {
            let call = fields.call(line)?;
            let before = run.post.plain.clone();
            let answer = run.call(&call)?;
            variety.call(&call, &before, &answer, &run.post.plain);
        }
        Ok(())
    })?;
    for (what, count) in variety.0 {
        println!("{count} {what}");
    }
    Ok(())
}

impl Variety {
    /// A kind that was looked for: it is counted if it holds, and named if it never does.
    fn see(&mut self, what: &'static str, holds: bool) {
        *self.0.entry(what).or_default() += holds as u64;
    }

    fn call(&mut self, call: &Call, before: &Plain, answer: &Answer, after: &Plain) {
        match call {
            Call::Settings(settings) => self.settings(settings),
            Call::Lease(lease) => self.lease(lease),
            Call::State { id, state } => {
                self.see("state: id 0", *id == 0);
                self.see("state: id of all ones", *id == u32::MAX);
                if let State::Requesting { server, identifier, requested, .. } = state {
                    self.see("requesting: server not unicast", !message::unicast(*server));
                    self.see("requesting: identifier not unicast", !message::unicast(*identifier));
                    self.see("requesting: requested address not unicast", !message::unicast(*requested));
                }
            }
            Call::Poll { length, .. } => {
                let built = matches!(answer, Answer::Polled(polled) if polled.length > 0);
                let drawn = built && after.generator != before.generator;
                self.see("poll: an id of 0 is drawn", drawn && after.client.id == 0);
                self.see("poll: an id of all ones is drawn", drawn && after.client.id == u32::MAX);
                self.see("poll: a buffer of 65,535 octets", *length == u16::MAX);
                let lease = &before.client.lease;
                let held = built && before.client.state.renewing() && after.client.state.renewing();
                self.see("poll: renewed from an address that is not unicast", held && !message::unicast(lease.address));
                let asked = matches!(answer, Answer::Polled(polled) if held && polled.destination == lease.server);
                self.see("poll: renewed with a server that is not unicast", asked && !message::unicast(lease.server));
                self.see("poll: renewed with a server that is not its identifier", asked && lease.server != lease.identifier);
            }
            Call::Process { source, reply, .. } => self.reply(*source, reply, before, answer),
            Call::DropAddress { address, prefix, .. } => {
                let there = |dhcp| before.tables.address_entries().contains(&Entry { address: *address, prefix: *prefix, dhcp });
                self.see("drop_address: an entry that is there", there(false));
                self.see("drop_address: DHCP's", there(true));
            }
            Call::DropRoute { network, prefix, router, .. } => {
                let (network, prefix, router) = (*network, *prefix, *router);
                let there = |dhcp| before.tables.route_entries().contains(&RouteEntry { network, prefix, router, dhcp });
                self.see("drop_route: an entry that is there", there(false));
                self.see("drop_route: DHCP's", there(true));
            }
            Call::Get { .. } => self.see("get: found", matches!(answer, Answer::Got { found: Some(_), .. })),
            _ => {}
        }
        if *answer != Answer::Nothing {
            let (old, new) = (before.tables.generation, after.tables.generation);
            self.see("generation: wraps", old == u32::MAX && new == 0);
        }
    }

    fn settings(&mut self, s: &Settings) {
        let text = std::str::from_utf8(&s.name);
        self.see("name: ASCII", !s.name.is_empty() && s.name.is_ascii());
        self.see("name: UTF-8 with characters of several octets", text.is_ok_and(|text| !text.is_ascii()));
        self.see("name: no UTF-8", text.is_err());
        self.see("name: zeros alone", !s.name.is_empty() && s.name.iter().all(|octet| *octet == 0));
        self.see("name: 255 alone", !s.name.is_empty() && s.name.iter().all(|octet| *octet == 255));
        self.see("name: zero among others", s.name.contains(&0) && s.name.iter().any(|octet| *octet != 0));
        self.see("name: 63 octets, not ASCII", s.name.len() == MOST_NAME && !s.name.is_ascii());
        let list = s.list.as_deref().unwrap_or_default();
        self.see("request list: one code twice", (1..list.len()).any(|at| list[..at].contains(&list[at])));
        self.see("request list: code 0", list.contains(&0));
        self.see("request list: code 255", list.contains(&255));
        self.see("request list: 64 codes", list.len() == MOST_LIST);
        let kinds = kinds(&s.extra);
        self.see("extra options: kind 0", kinds.contains(&0));
        self.see("extra options: kind 255", kinds.contains(&255));
        self.see("extra options: 255 octets", s.extra.len() == MOST_EXTRA);
        self.see("hardware address: a group's", s.hardware[0] & 1 == 1 && s.hardware != [255; 6]);
        let longest = s.datagram(true) + 20;
        self.see("MTU: the least for the longest message, above 576", s.mtu > LEAST_MTU && s.mtu as usize == longest);
        self.see("maximum: the longest there is", s.maximum == Some(LONGEST));
        self.see("maximum: under 8 ms", s.maximum.is_some_and(|maximum| maximum < 8));
    }

    fn lease(&mut self, lease: &Lease) {
        let router = |router| lease.router == Some(router);
        self.see("lease: router 0.0.0.0", router([0; 4]));
        self.see("lease: router 255.255.255.255", router([255; 4]));
        self.see("lease: router 224.0.0.0 to 239.255.255.255", lease.router.is_some_and(|r| (224..=239).contains(&r[0])));
        self.see("lease: server not unicast", !message::unicast(lease.server));
        self.see("lease: identifier not unicast", !message::unicast(lease.identifier));
        self.see("lease: identifier is the server", lease.identifier == lease.server);
        self.see("lease: identifier is not the server", lease.identifier != lease.server);
        self.see("lease: address not unicast", !message::unicast(lease.address));
        self.see(
            "lease: a DNS server not unicast",
            lease.dns.iter().take(lease.dns_count as usize).any(|dns| !message::unicast(*dns)),
        );
        self.see("lease: store of 256 octets", lease.used as usize == STORE);
    }

    fn reply(&mut self, source: Address, reply: &[u8], before: &Plain, answer: &Answer) {
        if reply.len() < message::HEADER {
            return;
        }
        let data = message::option(reply, 54);
        self.see("reply: no identifier", data.is_none());
        self.see("reply: identifier of 0 to 3 octets", data.is_some_and(|data| data.len() < 4));
        self.see("reply: identifier of 5 octets or more", data.is_some_and(|data| data.len() > 4));
        self.see("reply: identifier of 255 octets", data.is_some_and(|data| data.len() == 255));
        let taken = answer.number() == 0;
        if let Some(identifier) = data.and_then(message::address) {
            self.see("reply: identifier 10.0.0.1", identifier == [10, 0, 0, 1]);
            self.see("reply: another identifier", identifier != [10, 0, 0, 1]);
            self.see("reply: identifier not unicast, taken", taken && !message::unicast(identifier));
            self.see("reply: identifier is the source, taken", taken && identifier == source);
            self.see("reply: identifier is not the source, taken", taken && identifier != source);
            let offered = match before.client.state {
                State::Requesting { identifier, .. } => Some(identifier),
                State::Renewing { .. } => Some(before.client.lease.identifier),
                _ => None,
            };
            if let Some(offered) = offered.filter(|_| taken && message::message_type(reply) == Some(ACK)) {
                self.see("ACK: with the OFFER's identifier", identifier == offered);
                self.see("ACK: with another identifier than the OFFER", identifier != offered);
            }
        }
        self.see("reply: another source than 10.0.0.9, taken", taken && source != [10, 0, 0, 9]);
        self.see("reply: another address than 10.0.0.50, taken", taken && reply[16..20] != [10, 0, 0, 50]);
        let id = u32::from_be_bytes([reply[4], reply[5], reply[6], reply[7]]);
        self.see("reply: to id 0, taken", taken && id == 0);
        self.see("reply: to id of all ones, taken", taken && id == u32::MAX);
        let others = [&reply[3..4], &reply[8..16], &reply[20..28], &reply[34..236]].concat();
        self.see("reply: fields that are not read, taken", taken && others.iter().any(|octet| *octet != 0));
        let codes: Vec<u8> = message::options(reply).iter().map(|item| item.0).collect();
        self.see("reply: option 52, taken", taken && codes.contains(&52));
        self.see("reply: over 40 options, taken", taken && codes.len() > 40);
        self.see("reply: 53 not the first option, taken", taken && codes[0] != 53);
        self.see("reply: one code twice, taken", taken && (1..codes.len()).any(|at| codes[..at].contains(&codes[at])));
        self.see("reply: 300 octets or more, taken", taken && reply.len() >= 300);
        self.see("reply: over 1,472 octets", reply.len() > 1472);
    }
}

/// The kinds of items, up to the first that is not whole.
fn kinds(mut items: &[u8]) -> Vec<u8> {
    let mut kinds = vec![];
    while let [kind, length, after @ ..] = items {
        kinds.push(*kind);
        items = after.get(*length as usize..).unwrap_or_default();
    }
    kinds
}
