"""The types of records that groot doesn't know by a word, written as TYPE and a number (RFC 3597 section 5)."""
import os
import re
import shutil
import subprocess

TOOL = "named-rrchecker"
REGISTERED = frozenset(
    b"MD MF MB MG MR NULL WKS MINFO X25 ISDN RT NSAP NSAP-PTR SIG PX GPOS NXT EID NIMLOC ATMA A6 SINK NINFO RKEY TALINK DSYNC "
    b"HHIT BRID UINFO UID GID UNSPEC NID L32 L64 LP AVC DOA AMTRELAY RESINFO WALLET TA".split())
# Types that a server has for itself (ALIAS and LUA: PowerDNS; WINS: Windows; AWS ALIAS: exports of Route 53; a CNAME record at
# the origin: exports of Cloudflare), and numbers for them: those that the server uses, or others of private use.
APEX_ALIAS = b"CNAME-AT-THE-ORIGIN"
OWN = {b"ALIAS": 65401, b"LUA": 65402, b"AWS": 65403, APEX_ALIAS: 65404, b"WINS": 65281, b"WINSR": 65282, b"WINS-R": 65282}
# In capitals, since a search that takes both cases takes twice as long.
LIKELY = re.compile(rb"[ \t](?:(?:%s)[ \t(\r\n]|\[AGE:)" % b"|".join(sorted(REGISTERED | set(OWN), reverse=True)))
MOST_OCTETS = 65_535


class NotWritten(ValueError):
    """Why a record can't be written under the number of its type."""


def is_unknown(rtype: bytes) -> bool:
    """Whether a type is one that can be written by its number alone."""
    return rtype in REGISTERED or rtype in OWN


def by_number(rtype: bytes, text: bytes, origin: str) -> bytes:
    """The type and the data of a record by number. The data of a server's own type are kept as the text that they are."""
    if rtype not in OWN:
        return checked(rtype, text, origin)
    if len(text) > MOST_OCTETS:
        raise NotWritten("its data are too long")
    return b"TYPE%d \\# %d %s" % (OWN[rtype], len(text), text.hex().encode())


def checked(rtype: bytes, text: bytes, origin: str) -> bytes:
    """What BIND's tool prints of a record's type and data by number."""
    tool = shutil.which(TOOL)
    if not tool:
        raise NotWritten(f"{TOOL}, which writes it by number, isn't installed (Debian: bind9)")
    run = subprocess.run([tool, "-u", "-o", origin], input=b"IN %s %s\n" % (rtype, text), stdout=subprocess.PIPE,
                         stderr=subprocess.STDOUT, check=False)
    words = run.stdout.split()
    if run.returncode or len(words) < 4 or words[0] != b"CLASS1":
        raise NotWritten(f"{TOOL} refuses it: {os.fsdecode(run.stdout).strip()}")
    return b" ".join(words[1:])
