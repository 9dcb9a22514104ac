"""Command lines of the daemon: what they are read as, and why others are refused."""

DEFAULTS = (
    'Settings { vrps: ["a"], points: [], slurm: [], listen: [127.0.0.1:3323], session: None, session0: None, start: None, keep: 16, '
    "timing: Timing { refresh: 3600, retry: 600, expire: 7200 }, check: 60, max_age: None, stop_when_old: false, max_size: 1073741824, "
    "max_shrink: Some(90), shrink_hold: 86400, leave_out_length_0: false, clients: 256, clients_per_address: None, stall: 120, slow: 3600, status: None, status_name: None, log: Text, "
    "log_level: Info, once: false, check_config: false }"
)

# Lines, and a part of what they are read as.
READ = [
    ("--vrps a", DEFAULTS),
    ("--vrps=a", DEFAULTS),
    ("--vrps a --vrps b", 'vrps: ["a", "b"], points: [],'),
    ("--points c --points d", 'vrps: [], points: ["c", "d"],'),
    ("--vrps a --slurm s", 'slurm: ["s"],'),
    ("--vrps a --slurm s --slurm t", 'slurm: ["s", "t"],'),
    ("--vrps a --listen 192.0.2.1:323 --listen [::]:3323", "listen: [192.0.2.1:323, [::]:3323],"),
    ("--vrps a --listen 127.0.0.1:0", "listen: [127.0.0.1:0],"),
    ("--vrps a --listen [2001:db8::1]:65535", "listen: [[2001:db8::1]:65535],"),
    ("--vrps a --session 0", "session: Some(0),"),
    ("--vrps a --session0 0", "session0: Some(0),"),
    ("--vrps a --start 0", "start: Some(0),"),
    ("--vrps a --session 65535", "session: Some(65535),"),
    ("--vrps a --session0 65535", "session0: Some(65535),"),
    ("--vrps a --start 4294967295", "start: Some(4294967295),"),
    ("--vrps a --keep 1", "keep: 1,"),
    ("--vrps a --keep 65536", "keep: 65536,"),
    ("--vrps a --refresh 86400 --retry 7200 --expire 172800", "timing: Timing { refresh: 86400, retry: 7200, expire: 172800 },"),
    ("--vrps a --refresh 1 --retry 1 --expire 600", "timing: Timing { refresh: 1, retry: 1, expire: 600 },"),
    ("--vrps a --check 1", "check: 1,"),
    ("--vrps a --max-age 1", "max_age: Some(1),"),
    ("--vrps a --stop-when-old --max-age 86400", "max_age: Some(86400), stop_when_old: true,"),
    ("--vrps a --clients 1", "clients: 1,"),
    ("--vrps a --clients-per-address 1", "clients_per_address: Some(1),"),
    ("--vrps a --clients-per-address 4294967295", "clients_per_address: Some(4294967295),"),
    ("--vrps a --max-size 1", "max_size: 1,"),
    ("--vrps a --leave-out-length-0", "leave_out_length_0: true,"),
    ("--vrps a --max-size 1099511627776", "max_size: 1099511627776,"),
    ("--vrps a --max-shrink 1", "max_shrink: Some(1), shrink_hold: 86400,"),
    ("--vrps a --max-shrink 99", "max_shrink: Some(99), shrink_hold: 86400,"),
    ("--vrps a --max-shrink none", "max_shrink: None, shrink_hold: 86400,"),
    ("--vrps a --shrink-hold 60", "max_shrink: Some(90), shrink_hold: 60,"),
    ("--vrps a --max-shrink 50 --shrink-hold 31536000", "max_shrink: Some(50), shrink_hold: 31536000,"),
    ("--vrps a --stall 4294967295", "stall: 4294967295,"),
    ("--vrps a --slow 60", "slow: 60,"),
    ("--vrps a --slow 86400", "slow: 86400,"),
    ("--vrps a --status [::1]:9323", "status: Some([::1]:9323),"),
    ("--vrps a --log text", "log: Text,"),
    ("--vrps a --log json", "log: Json,"),
    ("--vrps a --log systemd", "log: Systemd,"),
    ("--vrps a --status [::1]:9323 --status-name cache-1.Example.net", 'status: Some([::1]:9323), status_name: Some("cache-1.Example.net"),'),
    ("--vrps a --log-level error", "log_level: Error,"),
    ("--vrps a --log-level warning", "log_level: Warning,"),
    ("--vrps a --log-level notice", "log_level: Notice,"),
    ("--vrps a --log-level info", "log_level: Info,"),
    ("--vrps a --once", "once: true, check_config: false "),
    ("--vrps a --check-config", "once: false, check_config: true "),
    ("--help", "Usage: rpkirtrd (--vrps FILE | --points DIR).. [OPTION]..\n"),
    ("-h --once", "Usage: rpkirtrd "),
    ("--help --keep 0", "Usage: rpkirtrd "),
    ("--version --help", "Usage: rpkirtrd "),
    ("--version --vrps a", "rpkirtrd 1.1.0\nproved with rattle-kit-13f logic dac8208d650f15bf"),
    ("--version", "rpkirtrd 1.1.0\nproved with rattle-kit-13f logic dac8208d650f15bf"),
    ("-V", "rpkirtrd 1.1.0\nproved with rattle-kit-13f logic dac8208d650f15bf"),
]

NOT_URL = 'a path, not a URL (see "A list from another machine, over HTTPS" in OPERATING.md), is required'

# Lines that are refused, and why: unknown, missing, repeated or conflicting words.
REFUSED = [
    ("", "nothing to serve: give --vrps or --points"),
    ("--slurm s", "nothing to serve: give --vrps or --points"),
    ("--vrps a --keep 1 --keep 2", "the argument '--keep <NUMBER>' cannot be used multiple times"),
    ("--vrps a --once --once", "the argument '--once' cannot be used multiple times"),
    ("--vrps a --log-level info --log-level info", "the argument '--log-level <LEVEL>' cannot be used multiple times"),
    ("--vrps a --log-level debug", '--log-level "debug": error, warning, notice or info is required'),
    ("--vrps a --log-level Info", '--log-level "Info": error, warning, notice or info is required'),
    ("--vrps a --status-name cache.example.net", "--status-name needs --status"),
    ("--vrps=", '--vrps "": a path is required'),
    ("--vrps https://validator.example.net/json", f'--vrps "https://validator.example.net/json": {NOT_URL}'),
    ("--vrps a --slurm http://x", f'--slurm "http://x": {NOT_URL}'),
    ("--vrps a --points=", '--points "": a path is required'),
    ("--vrps a --slurm=", '--slurm "": a path is required'),
    ("--vrps a --retry 7200", "--expire 7200 must be greater than --refresh (3600) and --retry (7200)"),
    ("--vrps a --refresh 7200", "--expire 7200 must be greater than --refresh (7200) and --retry (600)"),
    ("--vrps a --stop-when-old", "--stop-when-old needs --max-age"),
    ("--vrps a --max-shrink none --shrink-hold 86400", "--shrink-hold needs a --max-shrink other than none"),
    ("--vrps a --max-shrink 90 --max-shrink 90", "the argument '--max-shrink <PERCENT>' cannot be used multiple times"),
    ("--vrps a --max-shrink", "a value is required for '--max-shrink <PERCENT>' but none was supplied"),
    ("--vrps a --log xml", '--log "xml": text, json or systemd is required'),
    ("--vrps a --log Systemd", '--log "Systemd": text, json or systemd is required'),
    ("--vrps", "a value is required for '--vrps <FILE>' but none was supplied"),
    ("--vrps --points d", "a value is required for '--vrps <FILE>' but none was supplied"),
    ("--vrps a --keep --once", "a value is required for '--keep <NUMBER>' but none was supplied"),
    ("--vrps a --vrp b", "unexpected argument '--vrp' found\n\n  tip: a similar argument exists: '--vrps'"),
    ("--vrps a -x", "unexpected argument '-x' found"),
    ("--vrps a --once=yes", "unexpected value 'yes' for '--once' found; no more were expected"),
    ("--vrps a -- b", "unexpected argument 'b' found"),
    ("--vrps a b", "unexpected argument 'b' found"),
    ("--vrps a --reload", "unexpected argument '--reload' found"),
]

# Options with a number, its range, and words that have none of it.
NUMBERS = [
    ("--max-size", "from 1 to 1099511627776", [" 0", " 1099511627777"]),
    ("--clients-per-address", "from 1 to 4294967295", [" 0", " 4294967296"]),
    ("--keep", "from 1 to 65536", [" 0", " 65537", " 016", " +16", "=-16", " -16", "=", " 16s", " 0x10", " 18446744073709551616"]),
    ("--session", "from 0 to 65535", [" 00", " 65536"]),
    ("--start", "from 0 to 4294967295", [" -0", " 4294967296"]),
    ("--session0", "from 0 to 65535", [" 65536"]),
    ("--refresh", "from 1 to 86400", [" 86401", " 0"]),
    ("--retry", "from 1 to 7200", [" 0", " 7201"]),
    ("--expire", "from 600 to 172800", [" 599", " 172801"]),
    ("--check", "from 1 to 4294967295", [" 0", " 4294967296"]),
    ("--max-age", "from 1 to 4294967295", [" 0", " 4294967296"]),
    ("--clients", "from 1 to 4294967295", [" 0", " 4294967296"]),
    ("--stall", "from 1 to 4294967295", [" 0", " 4294967296"]),
    ("--slow", "from 60 to 86400", [" 59", " 86401"]),
    ("--shrink-hold", "from 60 to 31536000", [" 59", " 31536001", " none", " 060", "="]),
]

# The same for addresses, and for the name of the status pages.
ADDRESSES = [
    "--listen localhost:323",
    "--listen=::1:3323",
    "--listen=[::1]",
    "--listen=127.0.0.1",
    "--listen=127.0.0.1:",
    "--listen=127.0.0.1:65536",
    "--listen=127.0.0.1:03323",
    "--listen=127.0.0.1:+3323",
    "--listen=:3323",
    "--listen=",
    "--listen ::1",
    "--status 9323",
]

PERCENTAGES = [" 0", " 100", " 90%", " 090", " +90", " -90", " 89.5", " None", " off", "="]

NAMES = ["--status-name=", "--status-name cache.example.net:9323", "--status-name cache..net", "--status-name cache.example.net."]


def refused():
    """Each line that is refused, with the reason."""
    yield from REFUSED
    for option, span, words in NUMBERS:
        for word in words:
            yield f"--vrps a {option}{word}", f'{option} "{word[1:]}": a number {span} is required'
    for word in PERCENTAGES:
        yield f"--vrps a --max-shrink{word}", f'--max-shrink "{word[1:]}": a number from 1 to 99, or none, is required'
    for words in ADDRESSES:
        option, address = words.replace("=", " ", 1).split(" ")
        yield f"--vrps a {words}", f'{option} "{address}": an address with a port, as 192.0.2.1:3323 or [2001:db8::1]:3323, is required'
    for words in NAMES:
        option, name = words.replace("=", " ", 1).split(" ")
        yield f"--vrps a --status [::1]:9323 {words}", f'{option} "{name}": a host name, as cache.example.net, is required'
