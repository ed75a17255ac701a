"""The scenarios. Each runs on a site of its own, with servers just started, and fails by `Failed`.

Where servers differ, the scenario says which does what: that is what was seen of the versions in docs/SITES.md, and a version
that does otherwise fails it.
"""
import socket
import time
from functools import partial

import network
from driver import ANY, BROADCAST, MOMENTS, Post, Replay, check, options
from servers import Server, relay

SERVERS = ('dnsmasq', 'kea', 'dhcpd', 'udhcpd')
# Caps on the lease, in ms, so that T1, T2 and expiry come within seconds: 5, 8.75 and 10 s; 8, 14 and 16 s.
SHORT, LONG = dict(capped=1, maximum=10000), dict(capped=1, maximum=16000)
DISCOVER_WAIT, REQUEST_WAIT = 10000, 5000


def post(site, place=7, moment=0, **settings):
    """A post at the segment, its first Discover sent."""
    device = network.raw_socket(site.home, 'post0')
    site.closing.append(device.close)
    replay = Replay(site.replay, f'{site.folder}/{place}')
    site.closing.append(replay.close)
    say = site.say if place == 7 else lambda text: site.say(f'post {place}: {text}')
    return Post(replay, device, bytes([2, 0, 0, 0, 0, place]), site.posts, say, site.halted, moment, place * 1000003, **settings)


def unicast(destination):
    return destination != BROADCAST


# Steps that several scenarios have.

def renewed(our):
    """T1: a Request to the server alone, an Ack, and nothing changed but the expiry and, with a count, the options."""
    was, held, generation, stored = our.moments(), our.held(), our.generation, our.lease['options']
    request = our.next('Request', at=was.renew, source=our.address, destination=our.lease['server'])
    check(socket.inet_ntoa(request.message[12:16]) == our.address, 'the Request has not the client address')
    ack = our.next('Ack', within=2, purge=False)
    check(our.state == 'renewing' and our.held() == held, f'not renewed: {our.standing()}, {our.held()}')
    check((our.moments().expiry - ack.moment) % MOMENTS == our.maximum, 'the lease does not end its maximum after the Ack')
    check(our.generation - generation == (our.lease['options'] != stored), 'the generation is not that of a change of options')


def rebound(our):
    """T1 without an answer; T2: a Request to all, and an Ack."""
    was, held = our.moments(), our.held()
    our.next('Request', at=was.renew, source=our.address, destination=our.lease['server'])
    our.next('Request', at=was.rebind, source=our.address, destination=BROADCAST)
    ack = our.next('Ack', within=2, purge=False)
    check(our.answer['renewing']['rebinding'] == '0' and our.held() == held, f'not rebound: {our.standing()}')
    return ack


def lost(our, at):
    """The lease is gone from the tables, and the post discovers, at this moment."""
    discover = our.next('Discover', at=at, source=ANY, destination=BROADCAST)
    check(our.held() == ([], []) and our.state == 'discovering', f'the lease is not lost: {our.standing()}, {our.held()}')
    return discover


def refused(our):
    """A Nak ends the lease, and the Discover follows at once."""
    nak = our.next('Nak', within=2, purge=True)
    return lost(our, nak.moment)


def expired(our, was=None):
    """T1 and T2 without an answer; the lease ends at its moment. Gives the Discover of that moment."""
    was = was or our.moments()
    our.next('Request', at=was.renew, destination=our.lease['server'])
    our.next('Request', at=was.rebind, destination=BROADCAST)
    discover = lost(our, was.expiry)
    check(discover.purge, 'link state is not purged at expiry')
    return discover


# With each server.

def lease(site, kind):
    server = Server(site.host('server', '10.1.0.1'), kind)
    our = post(site)
    seen = our.bind()
    check(our.held() == ([f'{our.address}/24'], ['10.1.0.1']), f'the tables have {our.held()}')
    check(our.lease['dns'] == '1 10.1.0.1 0.0.0.0 0.0.0.0', f'name servers: {our.lease["dns"]}')
    check(our.lease['identifier'] == our.lease['server'] == server.plan.own, f'server: {our.lease}')
    check(socket.inet_aton(our.address) in dict(options(seen.request.message)).values(), 'the Request asks for another address')
    # All but udhcpd send to an address that the post does not have yet, as it does not ask for broadcasts.
    for reply in seen.offer, seen.ack:
        check(reply.destination == (BROADCAST if kind == 'udhcpd' else our.address), f'{reply.kind} is to {reply.destination}')
    wait = seen.offer.moment - seen.discover.moment
    site.say(f'the Offer came after {wait} ms')
    # They look first whether the address is in use: dnsmasq and dhcpd by ping, udhcpd by ARP.
    check(wait >= {'dnsmasq': 2900, 'dhcpd': 900, 'udhcpd': 1900, 'kea': 0}[kind], f'the Offer came after {wait} ms')
    our.rest(2)
    check(not our.passed, 'a reply was passed over')


def minimum(site, kind):
    Server(site.host('server', '10.1.0.1'), kind, lease=20)
    our = post(site)
    ack = our.bind().ack
    seconds = int.from_bytes(dict(options(ack.message))[51], 'big')
    check(seconds == (120 if kind == 'dnsmasq' else 20), f'a lease of 20 s became one of {seconds} s')
    check((our.moments().expiry - ack.moment) % MOMENTS == seconds * 1000, 'the lease does not end with its time')


def endless(site, kind):
    """A lease without end, or as near to it as the server comes: the client cuts it to 2^30 ms."""
    Server(site.host('server', '10.1.0.1'), kind, lease='infinite' if kind == 'dnsmasq' else 2 ** 32 - 1)
    our = post(site)
    ack = our.bind().ack
    moments, longest = our.moments(), 2 ** 30
    check([moments.renew - ack.moment, moments.rebind - ack.moment, moments.expiry - ack.moment] ==
          [longest // 2, longest // 8 * 7, longest], f'from the Ack at {ack.moment}: {moments}')


def renewal(site, kind):
    Server(site.host('server', '10.1.0.1'), kind)
    our = post(site, **SHORT)
    our.bind()
    for _ in range(2):
        renewed(our)
    site.say(f'two renewals took the generation from 1 to {our.generation}')
    # dhcpd's second and third Ack have what is left of the lease, dnsmasq's have T1 and T2 shaken a little.
    check(our.generation in {'dnsmasq': (1, 2, 3), 'dhcpd': (3,)}.get(kind, (1,)), f'the generation is {our.generation}')


def rebinding(site, kind):
    Server(site.host('server', '10.1.0.1'), kind)
    our = post(site, **LONG)
    our.bind()
    our.loses = unicast
    rebound(our)


def moved(site, kind, authoritative=True, ignore_naks=0):
    """The router gets another network, its own address with it."""
    host = site.host('server', '10.1.0.1')
    server = Server(host, kind, authoritative=authoritative)
    our = post(site, ignore_naks=ignore_naks, **LONG)
    our.bind()
    server.stop()
    host.address('eth0', '10.2.0.1')
    server.start(net=2, authoritative=authoritative)
    if kind == 'dnsmasq' and not ignore_naks:
        was = our.moments()
        our.next('Request', at=was.renew, destination='10.1.0.1')
        our.next('Request', at=was.rebind, destination=BROADCAST)
        discover = refused(our)
    else:
        discover = expired(our)
    check(our.unreached == ['10.1.0.1'], 'the old address of the server answers ARP')
    check([reply.number for reply in our.passed] == [26] * ignore_naks, 'not exactly the Naks were passed over')
    our.bind(discover)
    check(our.held() == ([f'{our.address}/24'], ['10.2.0.1']), f'the tables have {our.held()}')


def repooled(site, kind):
    """The network stays, and the pool is another part of it."""
    server = Server(site.host('server', '10.1.0.1'), kind)
    our = post(site, **LONG)
    our.bind()
    server.stop()
    server.start(pool=(200, 220))
    if kind == 'dnsmasq':
        our.next('Request', at=our.moments().renew, destination='10.1.0.1')
        discover = refused(our)
    else:
        discover = expired(our)
    our.bind(discover)
    check(int(our.address.split('.')[3]) >= 200, f'the address is {our.address}')


def expiry(site, kind):
    server = Server(site.host('server', '10.1.0.1'), kind)
    our = post(site, **LONG)
    our.bind()
    server.stop()
    discover = expired(our)
    server.start()
    our.bind(our.next('Discover', at=(discover.moment + DISCOVER_WAIT) % MOMENTS))


def wrap(site, kind):
    server = Server(site.host('server', '10.1.0.1'), kind)
    our = post(site, moment=MOMENTS - 6000, **SHORT)
    ack = our.bind().ack
    check(our.moments().expiry < ack.moment, 'the lease does not lie across the wrap')
    for _ in range(2):
        renewed(our)
    check(our.moment < MOMENTS // 2, f'the clock has not wrapped: {our.moment}')
    server.stop()
    expired(our)


def forgotten(site, kind):
    server = Server(site.host('server', '10.1.0.1'), kind)
    our = post(site, **LONG)
    our.bind()
    address = our.address
    server.stop()
    server.forget()
    server.start()
    if kind == 'udhcpd':
        our.bind(expired(our))
        check(our.address == address, f'the address was {address}, is {our.address}')
    else:
        renewed(our)


def taken(site, kind):
    """The only address goes to another post once the server has forgotten who has it."""
    server = Server(site.host('server', '10.1.0.1'), kind, pool=(100, 100))
    our = post(site, **LONG)
    our.bind()
    was = our.moments()
    server.stop()
    server.forget()
    server.start(pool=(100, 100))
    other = post(site, place=8)
    if kind == 'udhcpd':
        # It asks by ARP, our post answers, and the address is set aside: neither post gets it.
        first = other.next('Discover')
        other.next('Discover', at=first.moment + DISCOVER_WAIT)
        discover = expired(our, was)
        check(server.says('reserving'), 'the address is not set aside')
    else:
        other.bind()
        check(other.address == our.address == '10.1.0.100', f'{other.address} and {our.address}')
        our.next('Request', at=was.renew, destination='10.1.0.1')
        discover = refused(our)
    our.next('Discover', at=(discover.moment + DISCOVER_WAIT) % MOMENTS)


def exhausted(site, kind):
    Server(site.host('server', '10.1.0.1'), kind, pool=(100, 100))
    post(site, place=8).bind()
    our = post(site)
    first = our.next('Discover')
    our.next('Discover', at=first.moment + DISCOVER_WAIT)
    our.rest(3)
    check(not our.passed, 'there was a reply')


def restart(site, kind):
    """The server restarts, and forgets, between Offer and Request."""
    server = Server(site.host('server', '10.1.0.1'), kind)
    our = post(site, **LONG)
    our.next('Discover')
    our.loses = lambda destination: True
    offer = our.next('Offer')
    request = our.next('Request', destination=BROADCAST)
    server.stop()
    server.forget()
    server.start()
    our.loses = lambda destination: False
    again = our.next('Request', at=request.moment + REQUEST_WAIT, destination=BROADCAST)
    check(again.message == request.message, 'the Request is not the one before')
    if kind == 'udhcpd':
        nak = our.next('Nak', within=2, purge=False)
        our.bind(lost(our, nak.moment))
    else:
        our.next('Ack', within=2, purge=True)
    check(our.address == offer.your, f'the address is {our.address}, offered was {offer.your}')


def relink(site, kind):
    """The link goes and comes back: the post is reset and discovers."""
    Server(site.host('server', '10.1.0.1'), kind)
    our = post(site)
    our.bind()
    address = our.address
    our.reset()
    our.bind(lost(our, our.moment))
    check(our.address == address, f'the address was {address}, is {our.address}')


def relayed(site, kind):
    middle = site.host('relay', '10.1.0.1').plug('eth1', 'far', '10.9.0.1')
    host = site.host('server', '10.9.0.2', 'far')
    host.route('10.1.0.0/24', '10.9.0.1')
    Server(host, kind, lines=['subnet 10.9.0.0 netmask 255.255.255.0 {}'] if kind == 'dhcpd' else [])
    relay(middle, '10.9.0.2')
    our = post(site, **SHORT)
    offer = our.bind().offer
    check(offer.relay == offer.source == '10.1.0.1', f'the Offer is from {offer.source}, its relay {offer.relay}')
    check((our.lease['server'], our.lease['identifier']) == ('10.1.0.1', '10.9.0.2'), f'server: {our.lease}')
    renewed(our)
    our.loses = unicast
    rebound(our)


def takeover(site, kind):
    """The server goes for good, and another of the same pool, which knows of no lease, is there at T2."""
    host = site.host('first', '10.1.0.1')
    first = Server(host, kind)
    our = post(site, **LONG)
    our.bind()
    first.stop()
    host.unplug('eth0')
    Server(site.host('second', '10.1.0.2'), kind, part=2)
    if kind == 'udhcpd':
        our.bind(expired(our))
        check(our.lease['server'] == '10.1.0.2', f'server: {our.lease["server"]}')
        return
    # The post keeps the server of its Offer, and asks there first for as long as the lease is carried on.
    for _ in range(2):
        check(rebound(our).source == '10.1.0.2', 'the Ack is not from the second server')
        check(our.lease['server'] == '10.1.0.1', f'server: {our.lease["server"]}')


def row(site, kind, fast, **plan):
    """Twelve posts that get current at one moment, and how long it takes until the last of them has a lease."""
    Server(site.host('server', '10.1.0.1'), kind, **plan)
    begun = time.monotonic()
    posts = [post(site, place) for place in range(20, 32)]
    while not all(our.lease for our in posts):
        check(time.monotonic() - begun < 60, 'not every post has a lease after 60 s')
        posts[0].turn(begun + 60)
    lasted = time.monotonic() - begun
    late = sum(reply.kind == 'Offer' and reply.number == 24 for our in posts for reply in our.passed)
    site.say(f'twelve posts have a lease after {lasted:.1f} s, {late} Offers came too late')
    check(len({our.address for our in posts}) == 12, 'two posts have one address')
    check(lasted < 8 and not late if fast else lasted > 10 and late, f'{lasted:.1f} s and {late} late Offers were not expected')


# Two servers on one segment, each with a network of its own.

def pair(site, kind, authoritative):
    """Neither speaks up against the other's lease."""
    Server(site.host('first', '10.1.0.1'), kind, authoritative=authoritative)
    Server(site.host('second', '10.2.0.1'), kind, authoritative=authoritative, net=2)
    our = post(site, **LONG)
    our.bind()
    our.loses = unicast
    rebound(our)
    check([reply.kind for reply in our.passed] == ['Offer'], 'other replies than the second Offer were passed over')


def naks(site, kind):
    """Each refuses the other's clients, in Requesting and after the Ack, and the post has no wait after a Nak."""
    Server(site.host('first', '10.1.0.1'), kind)
    Server(site.host('second', '10.2.0.1'), kind, net=2)
    our = post(site)
    our.next('Discover')
    our.next('Offer')
    first = our.next('Request')
    acks = rounds = 0
    while rounds < 10:
        while not our.events:
            our.turn(time.monotonic() + 5)
            check((our.moment - first.moment) % MOMENTS < 10000, f'only {rounds} Naks in 10 s')
        event = our.events.pop(0)
        acks += event.kind == 'Ack'
        rounds += event.kind == 'Nak'
    site.say(f'10 Naks in {our.moment - first.moment} ms, {acks} of them after an Ack')


def naks_ignored(site):
    """The same with dnsmasq, and a post that ignores Naks: the lease holds."""
    Server(site.host('first', '10.1.0.1'), 'dnsmasq')
    Server(site.host('second', '10.2.0.1'), 'dnsmasq', net=2)
    our = post(site, ignore_naks=1, **LONG)
    our.bind()
    our.loses = unicast
    rebound(our)
    our.rest(1)
    check([reply.number for reply in our.passed if reply.kind == 'Nak'] == [26, 26], 'not two Naks were passed over by 26')


def lax_forgotten(site):
    """dnsmasq without dhcp-authoritative has forgotten the lease: a Nak at T1, and the same address again."""
    server = Server(site.host('server', '10.1.0.1'), 'dnsmasq', authoritative=False)
    our = post(site, **LONG)
    our.bind()
    address = our.address
    server.stop()
    server.forget()
    server.start(authoritative=False)
    our.next('Request', at=our.moments().renew, destination='10.1.0.1')
    our.bind(refused(our))
    check(our.address == address, f'the address was {address}, is {our.address}')


# Replies of unusual form.

TEXTS = [(224 + place, chr(97 + place) * 60) for place in range(6)] + [(231, 'x' * 24)]
ASKED = dict(listed=1, list=bytes([1, 3, 6] + [code for code, _ in TEXTS]).hex())
LONGEST_AT_576 = 576 - 28


def overload(site, kind):
    """Options in sname and file (option 52), which the client does not read: with MTU 1500 it has option 231, with 576 not."""
    Server(site.host('server', '10.1.0.1'), kind, options=TEXTS[::-1] if kind == 'dnsmasq' else TEXTS)
    for place, mtu in (8, 1500), (7, 576):
        our = post(site, place, mtu=mtu, **ASKED)
        message = our.bind().ack.message
        site.say(f'with MTU {mtu} the Ack has {len(message)} octets, options {[code for code, _ in options(message)]}')
        overloaded = 52 in dict(options(message))
        elsewhere = dict(options(message[:240] + message[108:236]) + options(message[:240] + message[44:108]))
        check(overloaded == (231 in elsewhere) == (mtu == 576), 'option 231 is not in sname or file exactly where it has to be')
        check(our.look_up(231) == (None if overloaded else b'x' * 24), f'option 231 is read as {our.look_up(231)}')
        check(mtu == 1500 or len(message) <= LONGEST_AT_576, f'{len(message)} octets at MTU 576')
        check(our.held() == ([f'{our.address}/24'], ['10.1.0.1']), f'the tables have {our.held()}')
        check(our.lease['dns'].startswith('1 10.1.0.1'), f'name servers: {our.lease["dns"]}')


def mtu(site, kind, texts):
    """A segment of MTU 576, with the usual options or with many. Kea makes its Offer as long as ever, and cannot send it."""
    host = site.host('server', '10.1.0.1')
    host.limit('eth0', 576)
    server = Server(host, kind, options=texts)
    our = post(site, mtu=576, **SHORT, **(ASKED if texts else {}))
    if kind == 'kea' and texts:
        discover = our.next('Discover')
        our.next('Discover', at=discover.moment + DISCOVER_WAIT)
        check(server.says('DHCP4_PACKET_SEND_FAIL'), 'Kea does not say that it cannot send')
        return
    seen = our.bind()
    check(dict(options(seen.discover.message))[57] == (576 - 68).to_bytes(2, 'big'), 'option 57 is not 508')
    check(len(seen.ack.message) <= LONGEST_AT_576, f'the Ack has {len(seen.ack.message)} octets')
    check((52 in dict(options(seen.ack.message))) == bool(texts), 'options are moved, or not, against expectation')
    renewed(our)


def split(site, kind):
    """An option of 300 octets in two pieces (RFC 3396). The first does not fit the store, and the second stands for the whole."""
    Server(site.host('server', '10.1.0.1'), kind, options=[(224, 'a' * 255 + 'b' * 45)])
    our = post(site, listed=1, list=bytes([1, 3, 6, 224]).hex())
    pieces = [data for code, data in options(our.bind().ack.message) if code == 224]
    site.say(f'the pieces have {" and ".join(str(len(piece)) for piece in pieces)} octets')
    check(len(pieces) == 2 and len(b''.join(pieces)) == 300, 'the option is not in two pieces')
    check(our.look_up(224) == pieces[1], f'option 224 is read as {our.look_up(224)}')


PER_SERVER = dict(lease=lease, minimum=minimum, endless=endless, renewal=renewal, rebinding=rebinding, moved=moved,
                  repooled=repooled, expiry=expiry, wrap=wrap, forgotten=forgotten, taken=taken, exhausted=exhausted,
                  restart=restart, relink=relink, relayed=relayed, takeover=takeover)
GENERAL = {
    'naks-dnsmasq': (naks, 'dnsmasq'), 'naks-dhcpd': (naks, 'dhcpd'), 'naks-ignored': (naks_ignored,),
    'pair-dnsmasq': (pair, 'dnsmasq', False), 'pair-dhcpd': (pair, 'dhcpd', False), 'pair-kea': (pair, 'kea', True),
    'pair-udhcpd': (pair, 'udhcpd', True),
    'lax-forgotten': (lax_forgotten,), 'lax-moved': (moved, 'dnsmasq', False), 'moved-ignored': (moved, 'dnsmasq', True, 1),
    'overload-dnsmasq': (overload, 'dnsmasq'), 'overload-dhcpd': (overload, 'dhcpd'),
    'split-kea': (split, 'kea'), 'split-dhcpd': (split, 'dhcpd'),
    'mtu-dnsmasq': (mtu, 'dnsmasq', []), 'mtu-dnsmasq-long': (mtu, 'dnsmasq', TEXTS[::-1]),
    'mtu-kea': (mtu, 'kea', []), 'mtu-kea-long': (mtu, 'kea', TEXTS),
    'row-dnsmasq': (row, 'dnsmasq', False), 'row-dnsmasq-no-ping': (partial(row, lines=['no-ping']), 'dnsmasq', True),
    'row-kea': (row, 'kea', True), 'row-dhcpd': (row, 'dhcpd', True), 'row-udhcpd': (row, 'udhcpd', False),
    'row-udhcpd-short': (partial(row, words=['-a', '100']), 'udhcpd', True)}


# Whose lists are kept: some of each kind, not all, so that they stay small.
KEPT = {f'{kind}-{name}' for kind in SERVERS for name in ('rebinding', 'moved', 'expiry', 'wrap', 'relayed')} | {
    'dnsmasq-taken', 'udhcpd-restart', 'udhcpd-forgotten', 'naks-dhcpd', 'naks-ignored', 'lax-forgotten', 'overload-dhcpd',
    'split-kea', 'split-dhcpd', 'mtu-dnsmasq-long'}


def everything():
    """Each scenario by its name, as a function of a site, with the group whose list of calls it goes into."""
    found = {f'{kind}-{name}': (partial(run, kind=kind), kind) for kind in SERVERS for name, run in PER_SERVER.items()}
    for name, (run, *rest) in GENERAL.items():
        found[name] = (lambda site, run=run, rest=rest: run(site, *rest)), 'sites'
    return found
