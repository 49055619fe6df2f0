"""Virtual lanes: the service level of each path, as path records have it, and the lane that a switch chooses by it."""

import re

FIELD = re.compile(r"\s*(dlid|slid|sl)\.{2,}(0x[0-9a-f]+|\d+)\s*\Z", re.I)
ROW = re.compile(r"\s*(\d+)\s+(\d+)\s+(\d+)\s*\Z")
HEAD = re.compile(r"\s*\S.* 0x([0-9a-f]+), base LID", re.I)
LANES = re.compile(r"\s*(\d+)\s+(\d+)\s*:((?:\s*\d+){16})\s*\Z")
# A packet with this lane is dropped.
DROPPED = 15
HIGHEST_LEVEL = 15


class NoLanes(Exception):
    """Why a file has no path's service level, or no switch's lanes."""


def read_paths(text):
    """The service level of each path by its two LIDs: of records as saquery prints them, or of lines `SLID DLID SL`."""
    levels, record = {}, {}
    for number, line in enumerate(text.splitlines(), 1):
        field, row = FIELD.match(line), ROW.match(line)
        if field:
            record[field[1].lower()] = int(field[2], 0)
        if row:
            record = dict(zip(("slid", "dlid", "sl"), map(int, row.groups())))
        if record.get("sl", 0) > HIGHEST_LEVEL:
            raise NoLanes(f"line {number}: there is no service level {record['sl']}: they are 0 to {HIGHEST_LEVEL}")
        if len(record) == 3:
            levels[record["slid"], record["dlid"]] = record["sl"]
            record = {}
    if not levels:
        one = "it has no path record, as `saquery PR --slid 3 --dlid 5` prints"
        raise NoLanes(f"{one}, and no line like '3 5 1': two LIDs and a service level")
    return levels


def read_lanes(text):
    """For each switch by its guid, and each two of its ports, the lane of each service level."""
    tables, table = {}, None
    for line in text.splitlines():
        head, row = HEAD.match(line), LANES.match(line)
        if head:
            table = tables.setdefault(int(head[1], 16), {})
        elif row and table is not None:
            table[int(row[1]), int(row[2])] = [int(it) for it in row[3].split()]
    if not any(tables.values()):
        row, head = "3 1 : 0 1 2 3 4 5 6 7 0 1 2 3 4 5 6 7", 'Switch 0x2c9, base LID 2, "name"'
        raise NoLanes(f"it has no line like '{row}' below one like '{head}', which opensm-sl2vl.dump has")
    return tables


class Lanes:
    """The lane of each step of each path."""

    def __init__(self, levels, tables):
        self.levels, self.tables = levels, tables

    def level(self, sender, lid):
        """The service level from a host to a LID: of each of the sender's own LIDs."""
        found = {self.levels.get((it, lid)) for it in sender.lids}
        if None in found:
            missing = next(it for it in sender.lids if (it, lid) not in self.levels)
            raise NoLanes(f"the path records have none from LID {missing} to LID {lid}")
        return sorted(found)

    def lane(self, guid, name, enters, leaves, level):
        row = self.tables.get(guid, {}).get((enters, leaves))
        if row is None:
            raise NoLanes(f'the lanes have none from port {enters} to port {leaves} of "{name}"')
        return row[level]
