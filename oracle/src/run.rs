//! Runs a list of calls: what sets the post, and who answers the rest.
use crate::message;
use crate::plain::*;
use crate::record::{Answer, Call};

/// Whoever answers calls: the Rust's client, or the papers.
pub trait Answers {
    /// The post as it stands.
    fn plain(&self) -> &Plain;
    /// The same, to be set; whether the settings are among what changes.
    fn set(&mut self, settings: bool, change: impl FnOnce(&mut Plain));
    /// Makes a call, one that has an answer.
    fn answer(&mut self, call: &Call) -> Answer;
}

pub struct Run<A> {
    pub post: A,
    /// How many entries have been put into the tables since they were set.
    addresses: usize,
    routes: usize,
}

impl<A: Answers> Run<A> {
    pub fn new(post: A) -> Self {
        Run { post, addresses: 0, routes: 0 }
    }

    /// A reply by hand becomes the call that it stands for, to the client as it is now; any other call is itself.
    pub fn expand(&self, call: Call) -> Call {
        match call {
            Call::Reply { step, source, kind, your, options } => {
                let client = &self.post.plain().client;
                let mut items = if kind == 0 { vec![] } else { vec![53, 1, kind] };
                items.extend_from_slice(&options);
                let reply = message::reply(client.id, &client.settings.hardware, your, &items);
                Call::Process { step, source, reply }
            }
            call => call,
        }
    }

    /// The records that set a post as this one stands.
    pub fn snapshot(&self) -> Vec<Call> {
        let Plain { client, tables, generator, moment, .. } = self.post.plain();
        let mut calls = vec![
            Call::Start { moment: *moment, generator: *generator },
            Call::Settings(client.settings.clone()),
            Call::State { id: client.id, state: client.state },
        ];
        if client.state.renewing() {
            calls.push(Call::Lease(Box::new(client.lease)));
        }
        let Tables { generation, addresses, routes, .. } = *tables;
        calls.push(Call::Tables { generation, addresses, routes });
        calls.extend(tables.address_entries().iter().map(|entry| Call::Address(*entry)));
        calls.extend(tables.route_entries().iter().map(|entry| Call::Route(*entry)));
        calls
    }

    pub fn call(&mut self, call: &Call) -> Result<Answer, String> {
        let post = &mut self.post;
        match call {
            Call::Start { moment, generator } => {
                post.set(true, |plain| *plain = Plain { moment: *moment, generator: *generator, ..Plain::zero() });
                (self.addresses, self.routes) = (0, 0);
            }
            Call::Settings(settings) => post.set(true, |plain| plain.client.settings = settings.clone()),
            Call::State { id, state } => {
                post.set(false, |plain| (plain.client.id, plain.client.state) = (*id, *state));
            }
            Call::Lease(lease) => post.set(false, |plain| plain.client.lease = **lease),
            Call::Tables { generation, addresses, routes } => {
                let tables = Tables { generation: *generation, addresses: *addresses, routes: *routes, ..Tables::default() };
                post.set(false, |plain| plain.tables = tables);
                (self.addresses, self.routes) = (0, 0);
            }
            Call::Address(_) if self.addresses == MOST_ENTRIES => return Err("address: a table has 4 places".into()),
            Call::Address(entry) => {
                post.set(false, |plain| plain.tables.address[self.addresses] = *entry);
                self.addresses += 1;
            }
            Call::Route(_) if self.routes == MOST_ENTRIES => return Err("route: a table has 4 places".into()),
            Call::Route(entry) => {
                post.set(false, |plain| plain.tables.route[self.routes] = *entry);
                self.routes += 1;
            }
            Call::Generator(state) => post.set(false, |plain| plain.generator = *state),
            Call::Reply { .. } => return Err("reply: a list of calls has `process`; expand this one first".into()),
            call => return Ok(post.answer(call)),
        }
        Ok(Answer::Nothing)
    }
}
