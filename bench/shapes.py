"""The zones that the scripts here run programs over.

The line format is that of docs/reference/program.md.

A zone is a list of blocks: the lines of one name, or of one delegation with its glue. Types other
than A, NS, SOA and MX are in the generic form, with data that are valid for the type. The same
arguments give the same octets, with the same Python.
"""
import itertools
import pathlib
import random
import sys

sys.path.insert(0, str(pathlib.Path(__file__).resolve().parents[1] / "bindings/python"))
from denial import wire_name

APEXES = {
    "tld": "tld.",
    "enterprise": "corp.example.",
    "reverse": "10.in-addr.arpa.",
    "reverse6": "8.b.d.0.1.0.0.2.ip6.arpa.",
    "few": "few.example.",
    "prefix": "prefix.example.",
}
ORDERS = ("names", "records", "sorted", "reversed")
SYLLABLES = """
    ba be bi bo bu ca ce co da de di do fa fe fi fo ga ge go ha he hi ho ja jo ka ke ki ko la le
    li lo lu ma me mi mo mu na ne ni no nu pa pe pi po ra re ri ro ru sa se si so su ta te ti to
    tu va ve vi vo wa we wi za ze zo tion ing er ster net web shop
""".split()
WORDS = """
    acme alpha auto bank best blue book buy car casa city cloud club code data deal design digital
    eco edu energy euro express farm film fit food free fun game garden global gold good green
    group health home hotel house inter job kids land law life light live lux mail market max
    media med mobile moda money my new nord office one online open park photo plus pro real red
    shop smart solar sport star store studio super systems team tech top tour trade travel trend
    tv uni vip web well wine work world
""".split()


def strings(*texts):
    """Returns data in generic form: character strings, as in TXT."""
    return generic(b"".join(bytes([len(text)]) + text.encode() for text in texts))


def generic(data):
    """Returns data in generic form."""
    return f"\\# {len(data)} {data.hex().upper()}" if data else "\\# 0"


def ipv4(draw):
    """Returns the data of an A record."""
    parts = draw.randint(1, 223), draw.randrange(256), draw.randrange(256), draw.randint(1, 254)
    return ".".join(map(str, parts))


def ipv6(draw):
    """Returns the data of an AAAA record."""
    return generic(b"\x20\x01" + draw.randbytes(14))


def ds(draw, owner):
    """Returns a DS record."""
    tag = draw.randrange(65536).to_bytes(2, "big")
    algorithm = bytes([draw.choice((8, 13, 13, 13)), 2])
    return f"{owner} 3600 IN DS {generic(tag + algorithm + draw.randbytes(32))}"


def label(draw):
    """Returns a label as people register them: words, syllables, digits and hyphens."""
    kind = draw.random()
    made = ""
    if kind < 0.60:
        made = draw.choice(WORDS) + ("" if kind < 0.45 else "-") + draw.choice(WORDS)
    if kind >= 0.45 or draw.random() < 0.8:
        made += "".join(draw.choice(SYLLABLES) for _ in range(draw.randint(2, 4)))
    if draw.random() < 0.12:
        made += str(draw.randint(1, 9999))
    return made


def apex_block(apex):
    """Returns the records of the apex, and the addresses of its servers."""
    return [
        f"{apex} 86400 IN SOA ns1.{apex} hostmaster.{apex} 2026112201 7200 3600 1209600 900",
        *[f"{apex} 86400 IN NS ns{number}.{apex}" for number in (1, 2)],
        *[f"ns{number}.{apex} 86400 IN A 192.0.2.{number}" for number in (1, 2)],
    ]


def tld(draw, names):
    """Yields delegations, most of them to a few hosters."""
    apex, seen = APEXES["tld"], set()
    count = max(20, min(3000, names // 50))
    tops = ("net", "com", "org", "tld")
    hosters = [f"{label(draw)}.{draw.choice(tops)}." for _ in range(count)]
    yield apex_block(apex)
    for _ in range(names):
        child = label(draw)
        while child in seen:
            child = label(draw) + draw.choice(SYLLABLES)
        seen.add(child)
        yield delegation(draw, f"{child}.{apex}", hosters)


def delegation(draw, owner, hosters):
    """Returns two NS records, a DS record for 20 %, and glue for 12 %."""
    if draw.random() < 0.12:
        lines = [f"{owner} 86400 IN NS ns{number}.{owner}" for number in (1, 2)]
        for server in (f"ns1.{owner}", f"ns2.{owner}"):
            lines.append(f"{server} 86400 IN A {ipv4(draw)}")
            if draw.random() < 0.4:
                lines.append(f"{server} 86400 IN AAAA {ipv6(draw)}")
    else:
        hoster = hosters[int(len(hosters) * draw.random() ** 4)]
        lines = [f"{owner} 86400 IN NS ns{number}.{hoster}" for number in (1, 2)]
    if draw.random() < 0.20:
        lines.append(ds(draw, owner))
    if draw.random() < 0.001:
        lines.append(lines[0])
    return lines


def enterprise(draw, names):
    """Yields hosts, aliases, services, wildcards, names with escapes, and subzones."""
    apex, seen, made = APEXES["enterprise"], set(), 0
    yield apex_block(apex) + [
        f"{apex} 3600 IN MX 10 mx1.emea.{apex}",
        f"{apex} 3600 IN TXT {strings('v=spf1 mx -all')}",
        f"{apex} 3600 IN CAA {generic(bytes([0, 5]) + b'issueletsencrypt.org')}",
        f"_dmarc.{apex} 3600 IN TXT {strings('v=DMARC1; p=reject')}",
    ]
    while made < names:
        region = f"{draw.choice(REGIONS)}.{apex}"
        rack, row = draw.randint(1, 99), draw.randint(1, 12 + names // 20000)
        rack = f"rack{rack:02}.row{row}.dc{draw.randint(1, 9)}.{region}"
        kind = draw.random()
        first_labels, make = next(entry[1:] for entry in ENTERPRISE if kind < entry[0])
        owner = f"{first_labels(draw)}.{rack if make is host else region}"
        if owner not in seen:
            seen.add(owner)
            for block in make(draw, owner, region, rack):
                yield block
                made += 1


def host(draw, owner, _region, _rack):
    """Yields a host, and the TLSA record of a tenth of them."""
    if draw.random() < 0.02:
        owner = owner[0].upper() + owner[1:]
    lines = [f"{owner} 3600 IN A {ipv4(draw)}"]
    if draw.random() < 0.5:
        lines.append(f"{owner} 3600 IN AAAA {ipv6(draw)}")
    if draw.random() < 0.4:
        for key in (1, 3, 4):
            lines.append(f"{owner} 3600 IN SSHFP {generic(bytes([key, 2]) + draw.randbytes(32))}")
    if draw.random() < 0.2:
        lines.append(f"{owner} 3600 IN HINFO {strings('X86-64', 'LINUX')}")
    if draw.random() < 0.2:
        texts = f"owner={label(draw)}", f"ticket={draw.randrange(10**8)}"
        lines.append(f"{owner} 3600 IN TXT {strings(*texts)}")
    if draw.random() < 0.05:
        octets = draw.randbytes(draw.randint(0, 40))
        lines.append(f"{owner} 3600 IN TYPE65534 {generic(octets)}")
    yield lines
    if draw.random() < 0.10:
        certificate = bytes([3, 1, 1]) + draw.randbytes(32)
        yield [f"_443._tcp.{owner} 3600 IN TLSA {generic(certificate)}"]


def alias(draw, owner, _region, rack):
    """Yields an alias."""
    target = f"lb{draw.randrange(100)}.{rack}"
    yield [f"{owner} 300 IN CNAME {generic(wire_name(target))}"]


def application(draw, owner, region, _rack):
    """Yields an application, and its services."""
    yield [
        *[f"{owner} 600 IN A {ipv4(draw)}" for _ in range(2)],
        f"{owner} 600 IN MX 10 mx1.{region}",
        f"{owner} 600 IN MX 20 MX2.{region}",
        f"{owner} 600 IN HTTPS {generic(bytes([0, 1, 0, 0, 1, 0, 3, 2]) + b'h2')}",
    ]
    for service in draw.sample(SERVICES, draw.randint(1, 3)):
        service = f"{service}._tcp.{owner}"
        yield [f"{service} 600 IN SRV {srv(draw, f'n{number}.{owner}')}" for number in (1, 2)]


def srv(draw, target):
    """Returns the data of an SRV record."""
    port = draw.randrange(1, 65536).to_bytes(2, "big")
    return generic(bytes([0, 0, 0, 5]) + port + wire_name(target))


def wildcard(draw, owner, _region, _rack):
    """Yields a wildcard."""
    yield [f"{owner} 60 IN A {ipv4(draw)}", f"{owner} 60 IN TXT {strings(label(draw))}"]


def escaped(_draw, owner, _region, _rack):
    """Yields a name with octets that need escapes."""
    yield [f"{owner} 60 IN TXT {strings('bench')}"]


def subzone(draw, owner, _region, _rack):
    """Yields a subzone with glue, 30 % with DS, 30 % with a record that it hides."""
    lines = [f"{owner} 3600 IN NS ns{number}.{owner}" for number in (1, 2)]
    lines += [f"ns{number}.{owner} 3600 IN A {ipv4(draw)}" for number in (1, 2)]
    if draw.random() < 0.3:
        lines.append(ds(draw, owner))
    if draw.random() < 0.3:
        lines.append(f"{owner} 3600 IN A {ipv4(draw)}")
    yield lines


def host_label(draw):
    """Returns the label of a host."""
    role = draw.choice(("srv", "db", "vm", "k8s", "esx", "app"))
    return f"{role}-{draw.choice(('prd', 'stg', 'dev'))}{draw.randrange(10000):04}"


def escaped_labels(draw):
    """Returns two labels with a space, a dot and one more octet that is escaped."""
    return f"Lab\\032{label(draw)}\\.x\\{draw.choice((0, 1, 127, 200, 255)):03}"


REGIONS = ("emea", "apac", "amer", "latam", "dach", "nordics")
SERVICES = ("_ldap", "_kerberos", "_sip", "_xmpp-client", "_http")
# Kinds of blocks: the share up to this kind, the first labels of the owner, and the records.
ENTERPRISE = [
    (0.60, host_label, host),
    (0.78, lambda draw: f"{label(draw)}-{draw.randrange(1000)}.svc", alias),
    (0.90, lambda draw: f"{label(draw)}.apps", application),
    (0.93, lambda draw: f"*.{label(draw)}", wildcard),
    (0.95, escaped_labels, escaped),
    (1.00, lambda draw: f"{label(draw)}{draw.randrange(1000)}.sub", subzone),
]


def reverse(draw, names):
    """Yields PTR records of addresses in blocks of 256, a few of which are delegated."""
    apex = APEXES["reverse"]
    yield apex_block(apex)
    chosen = draw.sample(range(65536), max(2, min(65536, names // 120 + 2)))
    nets = chosen + sorted(set(range(65536)) - set(chosen))
    blocks = (block for net in nets for block in reverse_net(draw, net, apex))
    yield from itertools.islice(blocks, names)


def reverse_net(draw, net, apex):
    """Yields the blocks of 256 addresses, or their delegation."""
    high, low = net >> 8, net & 255
    owner = f"{low}.{high}.{apex}"
    if draw.random() < 0.03:
        servers = [f"ns{number}.isp{draw.randrange(50)}.net." for number in (1, 2)]
        lines = [f"{owner} 86400 IN NS {server}" for server in servers]
        yield lines + ([ds(draw, owner)] if draw.random() < 0.3 else [])
        return
    count = 254 if draw.random() < 0.4 else draw.randint(20, 120)
    for last in draw.sample(range(256), count):
        pool = draw.choice(("dyn", "static", "pool"))
        target = f"{high}-{low}-{last}.{pool}.isp{draw.randrange(50)}.net."
        yield [f"{last}.{owner} 86400 IN PTR {generic(wire_name(target))}"]


def reverse6(draw, names):
    """Yields PTR records at names of 34 labels, with several empty non-terminals each."""
    apex, made = APEXES["reverse6"], 0
    yield apex_block(apex)
    while made < names:
        subnet = f"{draw.randrange(512):04x}{draw.randrange(65536):04x}"
        for _ in range(min(names - made, draw.randint(1, 60))):
            if draw.random() < 0.5:
                low = f"{draw.randint(1, 4096):016x}"
            else:
                high, middle = draw.choice("24681"), draw.randrange(1 << 20)
                low = f"0{high}{middle:06x}fffe{draw.randrange(1 << 24):06x}"[:16]
            owner = ".".join(reversed(subnet + low)) + "." + apex
            target = f"h{made}.{subnet}.example."
            yield [f"{owner} 3600 IN PTR {generic(wire_name(target))}"]
            made += 1


def few(draw, names):
    """Yields the A records of 20 owners, in no order."""
    apex = APEXES["few"]
    yield apex_block(apex)
    for place in shuffled(range(names), draw):
        yield [f"n{draw.randrange(20)}.{apex} 60 IN A {address(place)}"]


def prefix(draw, names):
    """Yields labels that begin with 50 octets alike."""
    apex = APEXES["prefix"]
    yield apex_block(apex)
    for number in range(names):
        yield [f"{'a' * 50}{number}.{apex} 60 IN A {ipv4(draw)}"]


def address(number):
    """Returns an address that no other number below 2^24 has."""
    return f"10.{number >> 16 & 255}.{number >> 8 & 255}.{number & 255}"


def shuffled(items, draw):
    """Returns the items in no order."""
    items = list(items)
    draw.shuffle(items)
    return items


KINDS = {kind.__name__: kind for kind in (tld, enterprise, reverse, reverse6, few, prefix)}


def canonical(line):
    """Returns what a line is sorted by: its owner, without regard to escapes, and its type."""
    owner, _, _, rtype, _ = line.split(" ", 4)
    return owner.lower().rstrip(".").split(".")[::-1], rtype


def zone(kind, names, order="names"):
    """Returns the lines of a zone.

    The order `names` shuffles the blocks and leaves the lines of each together. `records` shuffles
    all lines. `sorted` is the canonical order of owners, and `reversed` its reverse.
    """
    draw = random.Random(f"{kind} {names} 1")
    blocks = list(KINDS[kind](draw, names))
    if order == "names":
        draw.shuffle(blocks)
    lines = [line for block in blocks for line in block]
    if order == "records":
        draw.shuffle(lines)
    elif order != "names":
        lines.sort(key=canonical, reverse=order == "reversed")
    return lines


def written(lines):
    """Returns the octets of lines."""
    return ("\n".join(lines) + "\n").encode()
