"""The records of a zone, of whatever it is made."""
from typing import List

from .held import NoMetadata, Zone
from .master_file import NotCut
from .names import NotAName
from .records import Record, records
from .zone_files import text_of


def records_of(zone: Zone) -> List[Record]:
    """The records of a zone, in the order of its text."""
    try:
        return list(records(text_of(zone).octets, zone.name))
    except OSError as fault:
        raise NoMetadata(f"{fault.filename}: {fault.strerror}") from None
    except (NotAName, NotCut, IndexError) as fault:
        raise NoMetadata(f"{zone.file or zone.why}: it has what is no record: {fault}") from None


def name_servers(zone: Zone) -> List[str]:
    """The names of the servers that a zone has at its origin."""
    return name_servers_of(zone, records_of(zone))


def name_servers_of(zone: Zone, found: List[Record]) -> List[str]:
    """The names of the servers that some records of a zone have at its origin."""
    return list(dict.fromkeys(record.name() for record in found if record.rtype == "NS" and record.owner == zone.name))
