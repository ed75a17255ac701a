"""A post on a real segment: `replay` is the client, a raw socket its device, the machine's clock its moments.

What the client's stack would do is here and small: IPv4 and Ethernet round a datagram, ARP, and payloads from port 67 to 68
handed in. Every call goes into a list (docs/TRACE.md), so that any program that reads such lists can answer the run again.
"""
import os
import select
import socket
import struct
import subprocess
import time
from types import SimpleNamespace

MOMENTS = 1 << 32
ANY, BROADCAST = '0.0.0.0', '255.255.255.255'
EVERYONE = b'\xff' * 6
ETHERTYPE_IPV4, ETHERTYPE_ARP = 0x0800, 0x0806
KINDS = {1: 'Discover', 2: 'Offer', 3: 'Request', 5: 'Ack', 6: 'Nak'}
# A machine with other work wakes late, never early: what comes up to this many ms after its moment is in time.
LATE = 1500
ARP_TRIES, ARP_WAIT = 3, 1.0
# The number of a reply that is another post's.
ANOTHER_POST = 23
LENT, FILL = 1472, 165


class Failed(Exception):
    """A scenario is not as expected."""


def check(holds, what):
    if not holds:
        raise Failed(what)


def clock():
    """The machine's clock in whole milliseconds."""
    return time.monotonic_ns() // 1000000


def packed(address):
    return socket.inet_aton(address)


def octet_sum(octets):
    """The Internet checksum of RFC 1071."""
    if len(octets) % 2:
        octets += b'\0'
    total = sum(struct.unpack(f'!{len(octets) // 2}H', octets))
    while total >> 16:
        total = (total & 0xffff) + (total >> 16)
    return 0xffff - total


def options(message):
    """The options behind the magic number as pairs of code and data, in order; fields sname and file are not looked at."""
    found, at = [], 240
    while at + 1 < len(message) and message[at] != 255:
        if message[at] == 0:
            at += 1
            continue
        found.append((message[at], message[at + 2:at + 2 + message[at + 1]]))
        at += 2 + message[at + 1]
    return found


def kind_of(message):
    return KINDS.get(dict(reversed(options(message))).get(53, b'\0')[0], 'unknown')


class Replay:
    """The program under test: records go in, answers come out, and both are kept in files."""

    def __init__(self, command, stem):
        self.calls = open(stem + '.calls', 'w')
        self.answers = open(stem + '.answers', 'w')
        self.errors = open(stem + '.errors', 'w+')
        self.child = subprocess.Popen(command, stdin=subprocess.PIPE, stdout=subprocess.PIPE, stderr=self.errors,
                                      start_new_session=True)
        self.unread = b''

    def tell(self, record):
        self.calls.write(record + '\n')
        try:
            self.child.stdin.write(record.encode() + b'\n')
            self.child.stdin.flush()
        except BrokenPipeError:
            raise Failed('replay ended: ' + self.complaint()) from None

    def line(self):
        while b'\n' not in self.unread:
            ready, _, _ = select.select([self.child.stdout], [], [], 20)
            check(ready, 'replay has not answered for 20 s: does it flush each answer?')
            more = os.read(self.child.stdout.fileno(), 1 << 16)
            if not more:
                raise Failed('replay ended: ' + self.complaint())
            self.unread += more
        line, self.unread = self.unread.split(b'\n', 1)
        self.answers.write(line.decode() + '\n')
        return line.decode()

    def complaint(self):
        self.child.wait(5)
        self.errors.seek(0)
        return self.errors.read().strip() or f'exit status {self.child.returncode}'

    def ask(self, call):
        """The answer to a call as fields of its lines by their word; `generator` is an answer's last line."""
        self.tell(call)
        answer = {'address': [], 'route': []}
        while 'generator' not in answer:
            word, *texts = self.line().split(' ')
            fields = {}
            for text in texts:
                key, equals, value = text.partition('=')
                if equals:
                    fields[key] = value
                else:
                    fields[list(fields)[-1]] += ' ' + text
            if word in ('address', 'route'):
                answer[word].append(fields)
            else:
                answer[word] = fields
        return answer

    def close(self):
        try:
            self.child.stdin.close()
        except BrokenPipeError:
            pass
        try:
            self.child.wait(5)
        except subprocess.TimeoutExpired:
            self.child.kill()
            self.child.wait()
        for file in (self.child.stdout, self.calls, self.answers, self.errors):
            file.close()


class Post:
    """One post. `next` runs it to its next event, a message sent or a reply taken, and holds that to what is expected."""

    def __init__(self, replay, device, hardware, row, say, halted, moment=0, generator=1, **changed):
        self.replay, self.device, self.hardware, self.say, self.halted = replay, device, hardware, say, halted
        self.row = row
        row.append(self)
        self.neighbours, self.waiting = {}, {}
        self.events, self.passed, self.unreached = [], [], []
        self.loses = lambda destination: False
        self.on_wire = 0
        settings = dict(medium=0, mtu=1500, hardware=hardware.hex(), offload=0, name=b'pitch-07'.hex(), listed=0, list='',
                        extra='', capped=0, maximum=0, ignore_naks=0)
        settings.update(changed)
        self.maximum = settings['maximum']
        replay.tell(f'start moment={moment} generator={generator}')
        replay.tell('settings ' + ' '.join(f'{key}={value}' for key, value in settings.items()))
        self.told, self.due = clock(), float('inf')
        self.keep(replay.ask('new'), 'created')
        self.poll()

    # The client's calls.

    def step(self):
        now = clock()
        step, self.told = now - self.told, now
        return step

    def keep(self, answer, word):
        """Takes over how the post stands after an answer, which must not be a refusal."""
        self.answer, first = answer, answer[word]
        self.state = next(name for name in ('init', 'discovering', 'requesting', 'renewing') if name in answer)
        self.moment, number = int(first['moment']), int(first['number'])
        check(number == 0 or number >= 20, f'{word}: refused by {number}')
        if first.get('purge') == '1':
            self.neighbours.clear()
            self.waiting.clear()
        return number

    def poll(self):
        """Polls, and sends what is built. What was due must be sent, unless a call since the last poll has changed the state."""
        was_due = clock() >= self.due
        answer = self.replay.ask(f'poll step={self.step()} length={LENT} fill={FILL}')
        check(self.keep(answer, 'polled') == 0, 'a poll is numbered as a reply')
        self.due = self.told + (int(answer['polled']['wake']) - self.moment) % MOMENTS
        datagram, length = bytes.fromhex(answer['buffer']['bytes']), int(answer['sent']['length'])
        check(len(datagram) == length, 'the buffer is written beyond the datagram')
        check(length > 0 or not was_due, 'nothing is sent at the waking moment')
        if length:
            self.send(datagram, answer['sent']['source'], answer['sent']['destination'])

    def process(self, payload, source, destination):
        answer = self.replay.ask(f'process step={self.step()} source={source} reply={payload.hex()}')
        number = self.keep(answer, 'processed')
        event = SimpleNamespace(kind=kind_of(payload), moment=self.moment, source=source, destination=destination, number=number,
                                purge=answer['processed']['purge'] == '1', your=socket.inet_ntoa(payload[16:20]),
                                relay=socket.inet_ntoa(payload[24:28]), message=payload)
        (self.passed if number else self.events).append(event)
        if not number:
            self.due = float('inf')
        if number != ANOTHER_POST:
            outcome = f'passed over by {number}' if number else self.standing()
            self.say(f'{event.kind} from {source} to {destination}, {outcome}')
        self.poll()

    def look_up(self, kind):
        """The data of an option in the lease's store, or None."""
        got = self.replay.ask(f'get step={self.step()} kind={kind}')['got']
        if got['found'] == '0':
            return None
        place, length = int(got['place']), int(got['length'])
        return bytes.fromhex(self.lease['options'])[place:place + length]

    def reset(self):
        self.keep(self.replay.ask(f'reset step={self.step()}'), 'was_reset')
        self.due = float('inf')
        self.poll()

    # How it stands.

    @property
    def lease(self):
        return self.answer.get('lease')

    @property
    def address(self):
        return self.lease['address'].split('/')[0] if self.lease else None

    @property
    def generation(self):
        return int(self.answer['tables']['generation'])

    def held(self):
        """The DHCP entries of the tables: addresses with prefix, and routers."""
        return ([entry['address'] for entry in self.answer['address'] if entry['dhcp'] == '1'],
                [entry['router'] for entry in self.answer['route'] if entry['dhcp'] == '1'])

    def moments(self):
        """The moments to renew, to rebind and of expiry, as the client's state has them."""
        state = self.answer['renewing']
        return SimpleNamespace(renew=int(state['renew_at']), rebind=int(state['rebind_at']), expiry=int(state['expires_at']))

    def standing(self):
        return f'{self.state}, {self.lease["address"]}' if self.lease else self.state

    # The device.

    def send(self, datagram, source, destination):
        message = datagram[8:]
        self.events.append(SimpleNamespace(kind=kind_of(message), moment=self.moment, source=source, destination=destination,
                                           purge=self.answer['polled']['purge'] == '1', message=message))
        self.say(f'{kind_of(message)} sent to {destination}, {self.standing()}')
        header = struct.pack('!BBHHHBBH4s4s', 0x45, 0, 20 + len(datagram), 0, 0, 64, 17, 0, packed(source), packed(destination))
        packet = header[:10] + struct.pack('!H', octet_sum(header)) + header[12:] + datagram
        if self.loses(destination):
            self.say('that message is lost on the way, by the scenario')
        elif destination == BROADCAST:
            self.transmit(EVERYONE, packet)
        else:
            self.send_to(self.hop(destination), packet)

    def hop(self, destination):
        """The neighbour on the way: the destination in the lease's network, the lease's router elsewhere."""
        prefix = int(self.lease['address'].split('/')[1])
        numbers = [int.from_bytes(packed(address), 'big') >> (32 - prefix) for address in (destination, self.address)]
        return destination if numbers[0] == numbers[1] else self.lease['router']

    def transmit(self, to, packet):
        self.device.send(to + self.hardware + struct.pack('!H', ETHERTYPE_IPV4) + packet)
        self.on_wire += 1

    def send_to(self, neighbour, packet):
        if neighbour in self.neighbours:
            self.transmit(self.neighbours[neighbour], packet)
        else:
            self.waiting[neighbour] = SimpleNamespace(packet=packet, tries=0, again=0.0)
            self.ask_neighbours()

    def arp(self, operation, to, target):
        header = struct.pack('!HHHBBH', ETHERTYPE_ARP, 1, ETHERTYPE_IPV4, 6, 4, operation)
        self.device.send(to + self.hardware + header + self.hardware + packed(self.address) + target)

    def ask_neighbours(self):
        """Asks for each neighbour that a packet waits for, a few times, and gives the packet up then, as a stack does."""
        for neighbour, wait in list(self.waiting.items()):
            if time.monotonic() < wait.again:
                continue
            if wait.tries == ARP_TRIES or not self.lease:
                del self.waiting[neighbour]
                self.unreached.append(neighbour)
                self.say(f'{neighbour} answers no ARP, the message is given up')
                continue
            wait.tries, wait.again = wait.tries + 1, time.monotonic() + ARP_WAIT
            self.arp(1, EVERYONE, bytes(6) + packed(neighbour))

    def receive(self):
        frame = self.device.recv(65535)
        to, source, kind = frame[:6], frame[6:12], frame[12:14]
        if source == self.hardware or to not in (self.hardware, EVERYONE):
            return
        if kind == struct.pack('!H', ETHERTYPE_ARP):
            self.receive_arp(frame[14:42])
        elif kind == struct.pack('!H', ETHERTYPE_IPV4):
            self.receive_packet(frame[14:])

    def receive_arp(self, body):
        operation, sender, address, target = struct.unpack('!6xH6s4s6x4s', body)
        address = socket.inet_ntoa(address)
        if operation == 2 and address in self.waiting:
            self.neighbours[address] = sender
            self.transmit(sender, self.waiting.pop(address).packet)
        elif operation == 1 and self.lease and target == packed(self.address):
            self.arp(2, sender, sender + packed(address))

    def receive_packet(self, packet):
        header = (packet[0] & 15) * 4
        fragment, protocol = struct.unpack('!6xHxB', packet[:10])
        if protocol != 17:
            return
        check(not fragment & 0x3fff, 'a datagram comes in fragments')
        *ports, length = struct.unpack('!HHH', packet[header:header + 6])
        if ports == [67, 68]:
            self.process(packet[header + 8:header + length], socket.inet_ntoa(packet[12:16]), socket.inet_ntoa(packet[16:20]))

    # What scenarios ask.

    def turn(self, until):
        """One wait, for a frame, a moment or the end given, and what follows of it; the row's other posts run on meanwhile."""
        check(not self.halted.is_set(), 'stopped')
        ends = [until, time.monotonic() + 0.5] + [post.due / 1000 for post in self.row]
        ends += [wait.again for post in self.row for wait in post.waiting.values()]
        ready, _, _ = select.select([post.device for post in self.row], [], [], max(0, min(ends) - time.monotonic()))
        for post in self.row:
            if post.device in ready:
                post.receive()
            if clock() >= post.due:
                post.poll()
            post.ask_neighbours()

    def next(self, kind, within=12, at=None, **expected):
        end = time.monotonic() + within
        while not self.events:
            check(time.monotonic() < end, f'no {kind} within {within} s: {self.standing()}')
            self.turn(end)
        event = self.events.pop(0)
        check(event.kind == kind, f'{kind} was expected, seen: {event.kind}')
        for key, value in expected.items():
            check(getattr(event, key) == value, f'{kind} was expected with {key} {value}, seen with {getattr(event, key)}')
        if at is not None:
            check((event.moment - at) % MOMENTS < LATE, f'{kind} was expected at {at}, seen at {event.moment}')
        return event

    def rest(self, seconds):
        """Runs on for a while, in which nothing may be sent or taken."""
        end = time.monotonic() + seconds
        while time.monotonic() < end:
            self.turn(end)
            check(not self.events, f'nothing was expected for {seconds} s, seen: {self.events and self.events[0].kind}')

    def bind(self, discover=None):
        """Discover, if it has not been seen, to lease, and what that has to do to the tables. Gives the events of it."""
        count = self.generation
        discover = discover or self.next('Discover', source=ANY, destination=BROADCAST)
        offer = self.next('Offer')
        request = self.next('Request', source=ANY, destination=BROADCAST)
        ack = self.next('Ack', your=offer.your, purge=True)
        check(self.address == offer.your, f'no lease of {offer.your} after the Ack: {self.standing()}')
        check(self.held()[0] == [self.lease['address']], f'the address table has {self.held()[0]}')
        check(self.generation == count + 1, 'the generation is not one more')
        return SimpleNamespace(discover=discover, offer=offer, request=request, ack=ack)
