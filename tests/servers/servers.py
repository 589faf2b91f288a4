"""Signs a zone, and serves it on 127.0.0.1: for `serve` and `deny` of this folder."""
import pathlib
import shutil
import socket
import subprocess
import sys
import time

APEX = "example.org."
# The options of dnssec-signzone for each kind of chain.
NSEC3 = ["-3", "abcd", "-H", "2"]
KINDS = {"nsec": [], "nsec3": NSEC3, "optout": [*NSEC3, "-A"]}
PERIOD = ["-s", "20260101000000", "-e", "20360101000000"]


def stop(why):
    """Ends the script with an error."""
    sys.exit(f"{pathlib.Path(sys.argv[0]).name}: {why}")


def need(packages):
    """Ends the script if a program is missing, and names its Debian package."""
    for program, package in packages.items():
        if not shutil.which(program):
            stop(f"{program} is missing; it is in Debian's package {package}")


def run(*words, cwd=None, given=None):
    """Returns what a command prints, and ends the script if it fails."""
    ran = subprocess.run(words, cwd=cwd, input=given, capture_output=True, text=True)
    if ran.returncode:
        stop(f"{words[0]}: {ran.stdout}{ran.stderr}")
    return ran.stdout


def sign(folder, text, *options):
    """Signs a zone with each kind of chain, in files named for the kinds."""
    make_key = ["dnssec-keygen", "-q", "-a", "ECDSAP256SHA256", "-f", "KSK"]
    key = run(*make_key, APEX, cwd=folder).strip()
    (folder / "zone").write_text(text + (folder / f"{key}.key").read_text())
    for kind, words in KINDS.items():
        files = ["-o", APEX, "-f", kind, "zone", key]
        signer = ["dnssec-signzone", "-q", "-P", "-z", *options, *PERIOD, *words]
        run(*signer, *files, cwd=folder)


def free_port():
    """Returns a port of 127.0.0.1 on which nobody listens."""
    with socket.socket(socket.AF_INET, socket.SOCK_DGRAM) as probe:
        probe.bind(("127.0.0.1", 0))
        return probe.getsockname()[1]


def named(folder, kind, port):
    """Writes the configuration of BIND, and returns the command that starts it."""
    (folder / "named.conf").write_text(f"""options {{
    directory "{folder}";
    listen-on port {port} {{ 127.0.0.1; }};
    listen-on-v6 {{ none; }};
    recursion no;
    pid-file none;
    session-keyfile none;
    managed-keys-directory "{folder}";
    minimal-responses no;
    check-names primary ignore;
}};
controls {{ }};
zone "{APEX}" {{ type primary; file "{kind}"; }};
""")
    return ["named", "-g", "-c", "named.conf"]


def knotd(folder, kind, port):
    """Writes the configuration of Knot DNS, and returns the command that starts it."""
    shutil.rmtree(folder / "knot", ignore_errors=True)
    (folder / "knot").mkdir()
    (folder / "knot.conf").write_text(f"""server:
  rundir: "{folder}/knot"
  listen: 127.0.0.1@{port}
database:
  storage: "{folder}/knot"
control:
  listen: "{folder}/knot/control"
zone:
  - domain: {APEX}
    storage: "{folder}"
    file: {kind}
    zonefile-load: whole
    journal-content: none
    zonefile-sync: -1
""")
    return ["knotd", "-c", "knot.conf"]


def nsd(folder, kind, port):
    """Writes the configuration of NSD, and returns the command that starts it."""
    (folder / "nsd.conf").write_text(f"""server:
  ip-address: 127.0.0.1@{port}
  username: ""
  zonesdir: "{folder}"
  database: ""
  pidfile: "{folder}/nsd.pid"
  xfrdfile: "{folder}/xfrd"
  zonelistfile: "{folder}/zones"
  xfrdir: "{folder}"
  logfile: "{folder}/nsd.log"
remote-control:
  control-enable: no
zone:
  name: {APEX}
  zonefile: {kind}
""")
    return ["nsd", "-d", "-c", "nsd.conf"]


SERVERS = {"named": named, "knotd": knotd, "nsd": nsd}


def serve(server, folder, kind, port):
    """Starts a server of a signed zone, and returns it when it replies."""
    words = SERVERS[server](folder, kind, port)
    outputs = {"stdout": subprocess.DEVNULL, "stderr": subprocess.DEVNULL}
    running = subprocess.Popen(words, cwd=folder, **outputs)
    ask = ["dig", "@127.0.0.1", "-p", str(port), "+short", "+tries=1", "+time=1", APEX, "SOA"]
    for _ in range(100):
        if subprocess.run(ask, capture_output=True).stdout.startswith(b"ns1."):
            return running
        time.sleep(0.1)
    running.kill()
    return stop(f"{server} does not reply")
