"""Network namespaces with a segment in them, what is captured there, and what tshark says of it."""
import ctypes
import os
import signal
import socket
import subprocess
import threading
import time

from driver import Failed, check

CLONE_NEWNET = 0x40000000
libc = ctypes.CDLL(None, use_errno=True)
# tshark's words for a checksum that is right, and for the lowest severity that is an error.
GOOD, ERROR = '1', 0x800000
# It wants more of the machine than all else here, so there is one at a time.
one_tshark = threading.Lock()


def command(*words):
    done = subprocess.run(words, capture_output=True, text=True)
    check(done.returncode == 0, f'{" ".join(words)}: {done.stderr.strip()}')
    return done.stdout


def raw_socket(space, interface):
    """A packet socket in another namespace. A thread has its own namespace, and a socket stays in that where it was made."""
    here, there = os.open('/proc/thread-self/ns/net', os.O_RDONLY), os.open(f'/run/netns/{space}', os.O_RDONLY)
    try:
        check(libc.setns(there, CLONE_NEWNET) == 0, f'namespace {space}: {os.strerror(ctypes.get_errno())}')
        try:
            device = socket.socket(socket.AF_PACKET, socket.SOCK_RAW, socket.htons(3))
            device.bind((interface, 0))
        finally:
            check(libc.setns(here, CLONE_NEWNET) == 0, 'no way back into the own namespace')
        return device
    finally:
        os.close(here)
        os.close(there)


class Daemon:
    """A program in a namespace, with what it says in a file."""

    def __init__(self, space, words, log, ready, halted, environment=None):
        self.words, self.log = words, log
        before = os.path.getsize(log) if os.path.exists(log) else 0
        self.file = open(log, 'ab')
        self.child = subprocess.Popen(['ip', 'netns', 'exec', space, *words], stdin=subprocess.DEVNULL, stdout=self.file,
                                      stderr=self.file, start_new_session=True, env=dict(os.environ, **(environment or {})))
        end = time.monotonic() + 30
        while ready.encode() not in self.said()[before:]:
            if self.child.poll() is not None or time.monotonic() > end or halted.is_set():
                self.stop()
                last = self.said().decode(errors='replace').strip().splitlines()[-2:]
                raise Failed(f'{words[0]} does not start: ' + ' / '.join(line[:300] for line in last))
            time.sleep(0.05)

    def said(self):
        with open(self.log, 'rb') as file:
            return file.read()

    def stop(self):
        if self.child.poll() is None:
            self.child.terminate()
            try:
                self.child.wait(5)
            except subprocess.TimeoutExpired:
                self.child.kill()
                self.child.wait()
        self.file.close()


class Host:
    """A machine on the site: a namespace with an interface on one or two segments."""

    def __init__(self, site, label):
        self.site, self.space = site, site.space(label)
        command('ip', '-n', self.space, 'link', 'set', 'lo', 'up')

    def plug(self, interface, segment, address):
        """Puts an interface on a segment, the name of a bridge in the post's namespace."""
        port = f'{segment}{self.site.ports}'
        self.site.ports += 1
        ends = [interface, 'netns', self.space, 'type', 'veth', 'peer', 'name', port, 'netns', self.site.home]
        command('ip', 'link', 'add', *ends)
        command('ip', '-n', self.site.home, 'link', 'set', port, 'master', segment, 'up')
        command('ip', '-n', self.space, 'link', 'set', interface, 'up')
        self.address(interface, address)
        return self

    def address(self, interface, address):
        command('ip', '-n', self.space, 'address', 'flush', 'dev', interface)
        command('ip', '-n', self.space, 'address', 'add', f'{address}/24', 'dev', interface)

    def route(self, network, router):
        command('ip', '-n', self.space, 'route', 'add', network, 'via', router)

    def limit(self, interface, mtu):
        command('ip', '-n', self.space, 'link', 'set', interface, 'mtu', str(mtu))

    def unplug(self, interface):
        command('ip', '-n', self.space, 'link', 'set', interface, 'down')


class Capture:
    """All frames of an interface, as tcpdump writes them down."""

    def __init__(self, space, interface, folder, halted):
        self.file = os.path.join(folder, 'frames.pcap')
        words = ['tcpdump', '-i', interface, '-s', '0', '-U', '--immediate-mode', '-Z', 'root', '-w', self.file]
        self.daemon = Daemon(space, words, os.path.join(folder, 'tcpdump.log'), 'listening on', halted)

    def stop(self):
        time.sleep(0.2)
        if self.daemon.child.poll() is None:
            self.daemon.child.send_signal(signal.SIGINT)
            self.daemon.child.wait(10)
        self.daemon.stop()

    def judge(self, hardware, sent):
        """Holds our own frames to what tshark finds wrong in a frame. Gives how many DHCP messages there were."""
        ours = 'eth.src == ' + ':'.join(f'{octet:02x}' for octet in hardware)
        fields = 'frame.number dhcp.type ip.checksum.status udp.checksum.status _ws.malformed _ws.expert.severity'.split()
        with one_tshark:
            out = command('tshark', '-n', '-r', self.file, '-o', 'ip.check_checksum:TRUE', '-o', 'udp.check_checksum:TRUE',
                          '-Y', ours, '-T', 'fields', *(word for field in fields for word in ('-e', field)))
        messages = 0
        for line in out.splitlines():
            number, kind, packet_sum, datagram_sum, malformed, severities = line.split('\t')
            check(not malformed, f'tshark finds frame {number} malformed')
            check(not kind or packet_sum == datagram_sum == GOOD, f'tshark finds a bad checksum in frame {number}')
            worst = max(int(severity) for severity in severities.split(',')) if severities else 0
            check(worst < ERROR, f'tshark finds an error in frame {number}')
            messages += kind != ''
        check(messages == sent, f'{sent} messages were sent, tshark sees {messages}')
        return messages


class Site:
    """What one scenario runs on: namespaces, servers, posts, a capture. Leaving it takes all of that away."""

    def __init__(self, name, folder, replay, spaces, say, halted):
        self.name, self.folder, self.replay, self.say, self.halted = name, folder, replay, say, halted
        self.prefix, self.made, self.ports, self.closing, self.posts = spaces, [], 0, [], []
        os.makedirs(folder, exist_ok=True)

    def space(self, label):
        name = f'{self.prefix}-{label}'
        command('ip', 'netns', 'add', name)
        self.made.append(name)
        # No IPv6 of the kernel's own among the frames.
        command('ip', 'netns', 'exec', name, 'sh', '-c', 'for at in /proc/sys/net/ipv6/conf/*/disable_ipv6; do echo 1 >$at; done')
        return name

    def __enter__(self):
        try:
            self.home = self.space('post')
            for segment in ('near', 'far'):
                command('ip', '-n', self.home, 'link', 'add', segment, 'type', 'bridge')
                command('ip', '-n', self.home, 'link', 'set', segment, 'up')
            command('ip', '-n', self.home, 'link', 'add', 'post0', 'type', 'veth', 'peer', 'name', 'plug0')
            command('ip', '-n', self.home, 'link', 'set', 'plug0', 'master', 'near', 'up')
            command('ip', '-n', self.home, 'link', 'set', 'post0', 'promisc', 'on', 'up')
            self.capture = Capture(self.home, 'post0', self.folder, self.halted)
            self.closing.append(self.capture.stop)
        except BaseException:
            self.__exit__()
            raise
        return self

    def __exit__(self, *_):
        for close in reversed(self.closing):
            try:
                close()
            except Exception as why:
                self.say(f'while closing: {why}')
        for name in self.made:
            subprocess.run(['ip', 'netns', 'delete', name], capture_output=True, start_new_session=True)

    def host(self, label, address, segment='near'):
        return Host(self, label).plug('eth0', segment, address)

    def judge(self):
        """Once the site is left: what tshark has to say of our messages, and how many there were."""
        return sum(self.capture.judge(post.hardware, post.on_wire) for post in self.posts)
