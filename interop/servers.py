"""The servers, each with a configuration as short as a router's: a pool, a lease time, a router, a name server."""
import json
import os
import subprocess
import time
from dataclasses import dataclass, field

from network import Daemon

# What each needs: program, Debian package.
PACKAGES = [('dnsmasq', 'dnsmasq-base'), ('kea-dhcp4', 'kea-dhcp4-server'), ('dhcpd', 'isc-dhcp-server'), ('udhcpd', 'udhcpd'),
            ('dhcrelay', 'isc-dhcp-relay')]


@dataclass
class Plan:
    """What a server hands out on 10.N.0.0/24, which it has address 10.N.0.1 or another of."""
    net: int = 1
    part: int = 1
    pool: tuple = (100, 150)
    lease: int = 120
    authoritative: bool = True
    options: list = field(default_factory=list)   # code and text of options besides
    lines: list = field(default_factory=list)     # further lines of the server's own configuration
    words: list = field(default_factory=list)     # further words of its command

    def at(self, part):
        return f'10.{self.net}.0.{part}'

    @property
    def own(self):
        return self.at(self.part)

    @property
    def ends(self):
        return [self.at(part) for part in self.pool]


def dnsmasq(plan, path):
    lines = ['port=0', 'interface=eth0', 'user=root', 'log-dhcp', f'dhcp-leasefile={path("leases")}',
             f'dhcp-range={",".join(plan.ends)},255.255.255.0,{plan.lease}', f'dhcp-option=3,{plan.at(1)}',
             f'dhcp-option=6,{plan.at(1)}']
    lines += ['dhcp-authoritative'] * plan.authoritative
    lines += [f'dhcp-option-force={code},"{text}"' for code, text in plan.options]
    return lines + plan.lines, ['dnsmasq', '-k', '-C', path('conf'), '--log-facility=-', '--pid-file='], 'DHCP, IP range'


def dhcpd(plan, path):
    lines = ['authoritative;'] * plan.authoritative
    lines += [f'default-lease-time {plan.lease};', f'max-lease-time {plan.lease};']
    lines += [f'option own-{code} code {code} = text;\noption own-{code} "{text}";' for code, text in plan.options]
    lines += plan.lines
    lines += [f'subnet {plan.at(0)} netmask 255.255.255.0 {{', f'range {" ".join(plan.ends)};', f'option routers {plan.at(1)};',
              f'option domain-name-servers {plan.at(1)};', '}']
    open(path('leases'), 'a').close()
    words = ['dhcpd', '-4', '-f', '-d', '-cf', path('conf'), '-lf', path('leases'), '--no-pid', 'eth0']
    return lines, words, 'Server starting service'


def kea(plan, path):
    own = [{'code': code, 'name': f'own-{code}', 'type': 'string', 'space': 'dhcp4'} for code, _ in plan.options]
    data = [{'code': 3, 'data': plan.at(1)}, {'code': 6, 'data': plan.at(1)}]
    data += [{'code': code, 'data': text, 'always-send': True} for code, text in plan.options]
    subnet = {'id': plan.net, 'subnet': f'{plan.at(0)}/24', 'pools': [{'pool': ' - '.join(plan.ends)}], 'option-data': data}
    log = {'name': 'kea-dhcp4', 'severity': 'INFO', 'output_options': [{'output': 'stdout', 'flush': True}]}
    settings = {'interfaces-config': {'interfaces': ['eth0'], 'dhcp-socket-type': 'raw'}, 'authoritative': plan.authoritative,
                'lease-database': {'type': 'memfile', 'persist': True, 'name': path('leases'), 'lfc-interval': 0},
                'valid-lifetime': plan.lease, 'option-def': own, 'subnet4': [subnet],
                'loggers': [log]}
    return [json.dumps({'Dhcp4': settings}, indent=1)], ['kea-dhcp4', '-c', path('conf')], 'DHCP4_STARTED'


def udhcpd(plan, path):
    lines = [f'start {plan.ends[0]}', f'end {plan.ends[1]}', f'max_leases {plan.pool[1] - plan.pool[0] + 1}', 'interface eth0',
             f'pidfile {path("pid")}', f'lease_file {path("leases")}', 'option subnet 255.255.255.0',
             f'option router {plan.at(1)}', f'option dns {plan.at(1)}', f'option lease {plan.lease}']
    open(path('leases'), 'a').close()
    return lines + plan.lines, ['udhcpd', '-f', *plan.words, path('conf')], 'started'


# What each is set to: lines of its configuration, its command, and what it says once it serves.
KINDS = {'dnsmasq': dnsmasq, 'kea': kea, 'dhcpd': dhcpd, 'udhcpd': udhcpd}


class Server:
    """A server on a host: started, stopped, started again with another plan, with or without what it remembers."""

    def __init__(self, host, kind, **plan):
        self.host, self.kind, self.site, self.daemon = host, kind, host.site, None
        self.stem = os.path.join(self.site.folder, f'{host.space.rsplit("-", 1)[1]}.{kind}')
        self.site.closing.append(self.stop)
        self.start(**plan)

    def path(self, suffix):
        return f'{self.stem}.{suffix}'

    def start(self, **plan):
        self.plan = Plan(**plan)
        lines, words, ready = KINDS[self.kind](self.plan, self.path)
        with open(self.path('conf'), 'w') as file:
            file.write('\n'.join(lines) + '\n')
        environment = {'KEA_LOCKFILE_DIR': 'none', 'KEA_PIDFILE_DIR': self.site.folder}
        self.daemon = Daemon(self.host.space, words, self.path('log'), ready, self.site.halted, environment)
        self.listens()
        self.site.say(f'{self.kind} serves {" to ".join(self.plan.ends)}')

    def listens(self):
        """Waits for its socket at port 67: udhcpd says that it has started before it has one."""
        end = time.monotonic() + 5
        sockets = ['ip', 'netns', 'exec', self.host.space, 'cat', '/proc/net/udp']
        while ':0043 ' not in subprocess.run(sockets, capture_output=True, text=True).stdout and time.monotonic() < end:
            time.sleep(0.05)

    def stop(self):
        if self.daemon:
            self.daemon.stop()
            self.daemon = None

    def forget(self):
        """Loses what is remembered of leases."""
        for suffix in ('leases', 'leases~', 'leases.2'):
            if os.path.exists(self.path(suffix)):
                os.remove(self.path(suffix))

    def says(self, text):
        return text in self.daemon.said().decode(errors='replace')


def relay(host, server):
    """ISC's relay agent between a host's two interfaces."""
    words = ['dhcrelay', '-4', '-d', '--no-pid', '-id', 'eth0', '-iu', 'eth1', server]
    daemon = Daemon(host.space, words, os.path.join(host.site.folder, 'relay.log'), 'Sending on   Socket', host.site.halted)
    host.site.closing.append(daemon.stop)
    host.site.say(f'dhcrelay passes on to {server}')
