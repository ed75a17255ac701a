//! Reads records.
use crate::plain::*;
use crate::post::{Polled, Taken};
use crate::record::*;

/// What fills a line's gaps: numbers, and for bytes their count among the numbers and themselves apart.
#[derive(Default)]
pub struct Fields {
    numbers: Vec<u64>,
    bytes: Vec<u8>,
    number_at: usize,
    byte_at: usize,
}

fn digit(c: u8) -> Option<u8> {
    match c {
        b'0'..=b'9' => Some(c - b'0'),
        b'a'..=b'f' => Some(c - b'a' + 10),
        _ => None,
    }
}

fn unknown(what: &str, word: &[u8]) -> String {
    let word: String = String::from_utf8_lossy(word).chars().take(40).collect();
    format!("no {what} begins with `{}`", word.escape_debug())
}

/// The form of the record that begins with a word, where one does.
pub fn form(word: &[u8]) -> Option<&'static str> {
    Some(match word {
        b"start" => START,
        b"settings" => SETTINGS,
        b"init" => INIT,
        b"discovering" => DISCOVERING,
        b"requesting" => REQUESTING,
        b"renewing" => RENEWING,
        b"lease" => LEASE,
        b"tables" => TABLES,
        b"address" => ADDRESS,
        b"route" => ROUTE,
        b"generator" => GENERATOR,
        b"new" => NEW,
        b"poll" => POLL,
        b"process" => PROCESS,
        b"reset" => RESET,
        b"add_address" => ADD_ADDRESS,
        b"drop_address" => DROP_ADDRESS,
        b"add_route" => ADD_ROUTE,
        b"drop_route" => DROP_ROUTE,
        b"get" => GET,
        b"mask" => MASK,
        b"option" => OPTION,
        b"reply" => REPLY,
        _ => return None,
    })
}

impl Fields {
    fn number(&mut self, line: &[u8], at: &mut usize, most: u64) -> Result<(), String> {
        let begin = *at;
        let mut value = 0u64;
        while let Some(c @ b'0'..=b'9') = line.get(*at) {
            value = value
                .checked_mul(10)
                .and_then(|v| v.checked_add((c - b'0') as u64))
                .filter(|v| *v <= most)
                .ok_or_else(|| format!("a number over {most} at column {}", begin + 1))?;
            *at += 1;
        }
        if *at == begin {
            return Err(format!("no number at column {}", begin + 1));
        }
        if *at > begin + 1 && line[begin] == b'0' {
            return Err(format!("a number with a leading zero at column {}", begin + 1));
        }
        self.numbers.push(value);
        Ok(())
    }

    fn hex(&mut self, line: &[u8], at: &mut usize) -> Result<(), String> {
        let begin = *at;
        let before = self.bytes.len();
        while let Some(high) = line.get(*at).copied().and_then(digit) {
            let low = line.get(*at + 1).copied().and_then(digit);
            let low = low.ok_or_else(|| format!("half a byte at column {}", *at + 1))?;
            self.bytes.push(high << 4 | low);
            *at += 2;
        }
        let count = self.bytes.len() - before;
        if count > u16::MAX as usize {
            return Err(format!("{count} bytes at column {}: at most 65535 fit", begin + 1));
        }
        self.numbers.push(count as u64);
        Ok(())
    }

    /// Reads a line by its form.
    fn read(&mut self, form: &str, line: &[u8]) -> Result<(), String> {
        self.numbers.clear();
        self.bytes.clear();
        self.number_at = 0;
        self.byte_at = 0;
        let form = form.as_bytes();
        let (mut at, mut f) = (0, 0);
        while f < form.len() {
            if form[f] != b'%' {
                if line.get(at) != Some(&form[f]) {
                    let rest = form[f..].split(|c| *c == b'%').next().unwrap();
                    let rest = String::from_utf8_lossy(rest);
                    return Err(format!("expected `{rest}` at column {}", at + 1));
                }
                (at, f) = (at + 1, f + 1);
                continue;
            }
            match form[f + 1] {
                b'a' => {
                    for part in 0..4 {
                        if part > 0 {
                            if line.get(at) != Some(&b'.') {
                                return Err(format!("expected `.` at column {}", at + 1));
                            }
                            at += 1;
                        }
                        self.number(line, &mut at, 255)?;
                    }
                }
                b'x' => self.hex(line, &mut at)?,
                gap => self.number(line, &mut at, most(gap))?,
            }
            f += 2;
        }
        if at < line.len() {
            return Err(format!("nothing more was expected at column {}", at + 1));
        }
        Ok(())
    }

    fn n(&mut self) -> u64 {
        self.number_at += 1;
        self.numbers[self.number_at - 1]
    }
    fn yes(&mut self) -> bool {
        self.n() == 1
    }
    fn c(&mut self) -> u8 {
        self.n() as u8
    }
    fn h(&mut self) -> u16 {
        self.n() as u16
    }
    fn w(&mut self) -> u32 {
        self.n() as u32
    }
    fn address(&mut self) -> Address {
        [self.c(), self.c(), self.c(), self.c()]
    }
    fn taken(&mut self) -> &[u8] {
        let count = self.n() as usize;
        self.byte_at += count;
        &self.bytes[self.byte_at - count..self.byte_at]
    }

    /// Reads one record.
    pub fn call(&mut self, line: &[u8]) -> Result<Call, String> {
        let word = line.split(|c| *c == b' ').next().unwrap();
        let Some(form) = form(word) else {
            return Err(unknown("record", word));
        };
        self.read(form, line).map_err(|why| format!("{}: {why}", String::from_utf8_lossy(word)))?;
        Ok(match form {
            START => Call::Start { moment: self.w(), generator: self.n() },
            SETTINGS => {
                let (medium, mtu) = (self.c(), self.h());
                let Ok(hardware) = self.taken().try_into() else {
                    return Err("settings: a hardware address has 6 bytes".into());
                };
                let offload = self.yes();
                let name = self.taken().to_vec();
                let listed = self.yes();
                let list = self.taken().to_vec();
                let extra = self.taken().to_vec();
                let (capped, maximum, ignore_naks) = (self.yes(), self.w(), self.yes());
                Call::Settings(Settings {
                    medium,
                    mtu,
                    hardware,
                    offload,
                    name,
                    list: listed.then_some(list),
                    extra,
                    maximum: capped.then_some(maximum),
                    ignore_naks,
                })
            }
            INIT => Call::State { id: self.w(), state: State::Init },
            DISCOVERING => Call::State { id: self.w(), state: State::Discovering { retry_at: self.w() } },
            REQUESTING => Call::State {
                id: self.w(),
                state: State::Requesting {
                    retry_at: self.w(),
                    retry: self.h(),
                    server: self.address(),
                    identifier: self.address(),
                    requested: self.address(),
                },
            },
            RENEWING => Call::State {
                id: self.w(),
                state: State::Renewing { renew_at: self.w(), rebind_at: self.w(), expires_at: self.w(), rebinding: self.yes() },
            },
            LEASE => {
                let mut lease = Lease::ZERO;
                lease.server = self.address();
                lease.identifier = self.address();
                lease.address = self.address();
                lease.prefix = self.c();
                let routed = self.yes();
                let router = self.address();
                lease.router = routed.then_some(router);
                lease.dns_count = self.c();
                lease.dns = [self.address(), self.address(), self.address()];
                let stored = self.taken();
                lease.used = stored.len() as u16;
                let kept = stored.len().min(STORE);
                lease.options[..kept].copy_from_slice(&stored[..kept]);
                Call::Lease(Box::new(lease))
            }
            TABLES => Call::Tables { generation: self.w(), addresses: self.c(), routes: self.c() },
            ADDRESS => Call::Address(Entry { address: self.address(), prefix: self.c(), dhcp: self.yes() }),
            ROUTE => {
                Call::Route(RouteEntry { network: self.address(), prefix: self.c(), router: self.address(), dhcp: self.yes() })
            }
            GENERATOR => Call::Generator(self.n()),
            NEW => Call::New,
            POLL => Call::Poll { step: self.w(), length: self.h(), fill: self.c() },
            PROCESS => Call::Process { step: self.w(), source: self.address(), reply: self.taken().to_vec() },
            RESET => Call::Reset { step: self.w() },
            ADD_ADDRESS => Call::AddAddress { step: self.w(), address: self.address(), prefix: self.c() },
            DROP_ADDRESS => Call::DropAddress { step: self.w(), address: self.address(), prefix: self.c() },
            ADD_ROUTE => Call::AddRoute { step: self.w(), network: self.address(), prefix: self.c(), router: self.address() },
            DROP_ROUTE => Call::DropRoute { step: self.w(), network: self.address(), prefix: self.c(), router: self.address() },
            GET => Call::Get { step: self.w(), kind: self.c() },
            MASK => Call::Mask(self.address()),
            OPTION => Call::Option { kind: self.c(), reply: self.taken().to_vec() },
            _ => Call::Reply {
                step: self.w(),
                source: self.address(),
                kind: self.c(),
                your: self.address(),
                options: self.taken().to_vec(),
            },
        })
    }

    /// Reads the first line of an answer: the moment, 0 where it has none, and the answer, a poll's without what it sent.
    pub fn answer(&mut self, line: &[u8]) -> Result<(u32, Answer), String> {
        let word = line.split(|c| *c == b' ').next().unwrap();
        let form = match word {
            b"created" => CREATED,
            b"polled" => POLLED,
            b"processed" => PROCESSED,
            b"was_reset" => WAS_RESET,
            b"changed" => CHANGED,
            b"got" => GOT,
            b"masked" => MASKED,
            b"optioned" => OPTIONED,
            _ => return Err(unknown("answer", word)),
        };
        self.read(form, line).map_err(|why| format!("{}: {why}", String::from_utf8_lossy(word)))?;
        let moment = if form == MASKED || form == OPTIONED { 0 } else { self.w() };
        let answer = match form {
            CREATED => Answer::Created { number: self.c() },
            POLLED => Answer::Polled(Polled { number: self.c(), wake: self.w(), purge: self.yes(), ..Polled::default() }),
            PROCESSED => Answer::Processed(Taken { number: self.c(), purge: self.yes() }),
            WAS_RESET => Answer::WasReset(Taken { number: self.c(), purge: self.yes() }),
            CHANGED => Answer::Changed { number: self.c() },
            GOT => {
                let (number, found) = (self.c(), self.yes());
                let place = (self.h() as usize, self.h() as usize);
                Answer::Got { number, found: found.then_some(place) }
            }
            MASKED => {
                let (unicast, contiguous, prefix) = (self.yes(), self.yes(), self.c());
                Answer::Masked { unicast, prefix: contiguous.then_some(prefix) }
            }
            _ => {
                let found = self.yes();
                let data = self.taken().to_vec();
                Answer::Optioned(found.then_some(data))
            }
        };
        Ok((moment, answer))
    }

    /// Reads what a poll sent: the datagram's length and its two addresses.
    pub fn sent(&mut self, line: &[u8]) -> Result<(u16, Address, Address), String> {
        self.read(SENT, line).map_err(|why| format!("sent: {why}"))?;
        Ok((self.h(), self.address(), self.address()))
    }

    /// Reads the buffer behind it.
    pub fn buffer(&mut self, line: &[u8]) -> Result<&[u8], String> {
        self.read(BUFFER, line).map_err(|why| format!("buffer: {why}"))?;
        Ok(self.taken())
    }
}
