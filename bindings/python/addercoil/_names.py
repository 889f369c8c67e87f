"""Names and numbers of include/addercoil.h. tools/bindings writes this file."""
from typing import Final

VERSION: Final = 1000
RECORD: Final = 22
RECORDS: Final = 2900
LINE: Final = 129
BLOCK: Final = 512
MESSAGE: Final = 14
FIELDS: Final = 28

# How many entries an array has
STAMPS: Final = 2
SITE: Final = 3
TRACK: Final = 72
SPOT: Final = 2
COUNTS: Final = 2
DEGREES: Final = 2

# What a reading is, and what an integrity is
UNKNOWN: Final = 0
KNOWN: Final = 1
OVER: Final = 2
NONE: Final = 3
STOPPED: Final = 4
INTEGRITY_UNKNOWN: Final = 0
INTEGRITY_NUC: Final = 1
INTEGRITY_NIC: Final = 2

# The numbers that come back: each by its name, and in words
REFUSALS: Final[dict[int, str]] = {
    1: 'LENGTH',
    2: 'LATE',
    3: 'PARITY',
    4: 'FORMAT',
    5: 'TYPE',
    6: 'FULL',
    7: 'PLACES',
    8: 'FIELD',
    9: 'LATITUDE',
    10: 'ZONES',
    12: 'NO_TRACK',
    13: 'OVERRUN',
    14: 'LOG',
    15: 'DEGREES',
    16: 'FORM',
}

WORDS: Final[dict[int, str]] = {
    0: 'accepted',
    1: 'a message that is not of 14 bytes, or an array of a wrong length',
    2: "a time below the table's clock, or a stamp too far past the last one",
    3: 'a parity remainder that is not 0',
    4: 'a DF or CF that is not taken',
    5: 'a TYPE or subtype that is not taken, or a reserved flag',
    6: 'a new aircraft, and no place is free',
    7: 'a table that is not of 1 to 1,024 whole places',
    8: 'a number out of its range: a field, a latitude, a choice',
    9: 'a decoded latitude beyond a pole',
    10: 'two latitudes in different longitude zones',
    11: 'a block of a capture that fails its rules',
    12: 'an aircraft that is not held, and a message that starts no track',
    13: 'a stamp whose time would pass 2^64 - 1',
    14: 'a log or capture of over 2,900 records, or a log not of whole ones',
    15: "a double that is no spot's latitude or longitude in degrees",
    16: 'a text that is not in the form of a listing',
}

# The kinds by their letters, the layouts, and the entries of each array
KINDS: Final[dict[str, int]] = {
    'I': 1,
    'O': 2,
    'T': 3,
    'M': 4,
    'N': 5,
    'C': 6,
}

LAYOUTS: Final[dict[str, int]] = {
    'IDENTIFICATION': 1,
    'SURFACE': 2,
    'AIRBORNE': 3,
    'GROUND': 4,
    'AIR': 5,
    'STATUS': 6,
    'COARSE': 7,
}

TRACK_ENTRIES: Final[dict[str, int]] = {
    'held': 0,
    'heard': 1,
    'identification': 2,
    'velocity': 3,
    'surface': 4,
    'status': 5,
    'pressure_code': 6,
    'height_code': 7,
    'position_type': 8,
    'position_bit8': 9,
    'position_known': 10,
    'latitude': 11,
    'longitude': 12,
    'position_time': 13,
    'even_known': 14,
    'even_latitude_count': 15,
    'even_longitude_count': 16,
    'even_time': 17,
    'odd_known': 18,
    'odd_latitude_count': 19,
    'odd_longitude_count': 20,
    'odd_time': 21,
    'altitude_is': 22,
    'altitude': 23,
    'altitude_step_is': 24,
    'altitude_step': 25,
    'gnss_height_is': 26,
    'gnss_height': 27,
    'gnss_height_step_is': 28,
    'gnss_height_step': 29,
    'callsign_is': 30,
    'callsign': 31,
    'category_set_is': 32,
    'category_set': 33,
    'category_is': 34,
    'category': 35,
    'east_is': 36,
    'east': 37,
    'north_is': 38,
    'north': 39,
    'heading_is': 40,
    'heading': 41,
    'heading_status_is': 42,
    'heading_status': 43,
    'airspeed_is': 44,
    'airspeed': 45,
    'airspeed_kind_is': 46,
    'airspeed_kind': 47,
    'rate_is': 48,
    'rate': 49,
    'rate_source_is': 50,
    'rate_source': 51,
    'on_ground_is': 52,
    'on_ground': 53,
    'movement_is': 54,
    'movement': 55,
    'surface_heading_is': 56,
    'surface_heading': 57,
    'surface_status_is': 58,
    'surface_status': 59,
    'angle_is': 60,
    'angle': 61,
    'angle_status_is': 62,
    'angle_status': 63,
    'speed_is': 64,
    'speed': 65,
    'version': 66,
    'supplement_a': 67,
    'supplement_b': 68,
    'supplement_c': 69,
    'integrity_is': 70,
    'integrity': 71,
}

HEAD: Final[dict[str, int]] = {
    'layout': 0,
    'df': 1,
    'ca': 2,
    'aa': 3,
    'key': 4,
    'typecode': 5,
}

FIELDS_OF: Final[dict[str, dict[str, int]]] = {
    'IDENTIFICATION': {'category': 6, 'characters': 7},
    'SURFACE': {'movement_code': 6, 'status': 7, 'heading_code': 8, 't': 9, 'f': 10, 'latitude_count': 11, 'longitude_count': 12},
    'AIRBORNE': {'surveillance': 6, 'bit8': 7, 'altitude_code': 8, 't': 9, 'f': 10, 'latitude_count': 11, 'longitude_count': 12},
    'GROUND': {'subtype': 6, 'bit9': 7, 'bit10': 8, 'nacv': 9, 'west': 10, 'eastward_code': 11, 'south': 12, 'northward_code': 13, 'source': 14, 'down': 15, 'rate_code': 16, 'reserved': 17, 'below': 18, 'difference_code': 19},
    'AIR': {'subtype': 6, 'bit9': 7, 'bit10': 8, 'nacv': 9, 'status': 10, 'heading_code': 11, 'airspeed_kind': 12, 'airspeed_code': 13, 'source': 14, 'down': 15, 'rate_code': 16, 'reserved': 17, 'below': 18, 'difference_code': 19},
    'STATUS': {'subtype': 6, 'class': 7, 'bit20': 8, 'width': 9, 'mode': 10, 'version_code': 11, 'supplement_a_code': 12, 'nacp': 13, 'bits49': 14, 'sil': 15, 'bit53': 16, 'bit54': 17, 'bits55': 18},
    'COARSE': {'flag': 5, 'surveillance': 6, 'station': 7, 'altitude_code': 8, 'status': 9, 'angle_code': 10, 'speed_code': 11, 'f': 12, 'latitude_count': 13, 'longitude_count': 14},
}

# A reading has two entries: what it is stands at the number, and its value behind it
READINGS_OF: Final[dict[str, dict[str, int]]] = {
    'IDENTIFICATION': {'set': 20, 'text': 22},
    'SURFACE': {'speed': 20, 'turn': 22},
    'AIRBORNE': {'altitude': 20, 'gnss': 22, 'step': 24},
    'GROUND': {'east': 20, 'north': 22, 'rate': 24, 'difference': 26},
    'AIR': {'turn': 20, 'speed': 22, 'rate': 24, 'difference': 26},
    'STATUS': {'version': 20, 'supplement_a': 22, 'supplement_c': 24},
    'COARSE': {'altitude': 20, 'step': 22, 'angle': 24, 'speed': 26},
}

# Each function: its answer, and its parameters, each with its type and what is done to an array
FUNCTIONS: Final[dict[str, tuple[str, tuple[tuple[str, str, str], ...]]]] = {
    'version': ('u32', ()),
    'table_bytes': ('u64', (('places', 'u64', ''),)),
    'set_up': ('u32', (('table', 'u8', 'writes'),)),
    'set_up_at': ('u32', (('table', 'u8', 'writes'), ('latitude', 'i32', ''), ('longitude', 'u32', ''))),
    'receive': ('u32', (('table', 'u8', 'writes'), ('message', 'u8', 'reads'), ('time', 'u64', ''))),
    'receive_stamp': ('u32', (('table', 'u8', 'writes'), ('message', 'u8', 'reads'), ('stamp', 'u32', ''), ('state', 'u64', 'writes'))),
    'clock': ('u32', (('table', 'u8', 'reads'), ('out', 'u64', 'writes'))),
    'site': ('u32', (('table', 'u8', 'reads'), ('out', 'u64', 'writes'))),
    'next': ('u32', (('table', 'u8', 'reads'), ('key', 'u32', ''), ('out', 'u64', 'writes'))),
    'look_up': ('u32', (('table', 'u8', 'reads'), ('key', 'u32', ''), ('out', 'u64', 'writes'))),
    'replay': ('u32', (('log', 'u8', 'reads'), ('kind', 'u32', ''), ('address', 'u32', ''), ('out', 'u64', 'writes'))),
    'replay_at': ('u32', (('log', 'u8', 'reads'), ('kind', 'u32', ''), ('address', 'u32', ''), ('latitude', 'i32', ''), ('longitude', 'u32', ''), ('out', 'u64', 'writes'))),
    'replay_coarse': ('u32', (('log', 'u8', 'reads'), ('address', 'u32', ''), ('flag', 'u32', ''), ('station', 'u32', ''), ('out', 'u64', 'writes'))),
    'listing': ('u32', (('table', 'u8', 'reads'), ('bad', 'u64', ''), ('all', 'u32', ''), ('order', 'u64', 'writes'), ('out', 'u8', 'writes'), ('written', 'u64', 'writes'))),
    'header': ('u32', (('table', 'u8', 'reads'), ('bad', 'u64', ''), ('all', 'u32', ''), ('out', 'u8', 'writes'))),
    'line': ('u32', (('table', 'u8', 'reads'), ('key', 'u32', ''), ('all', 'u32', ''), ('out', 'u8', 'writes'))),
    'feed_block': ('u32', (('table', 'u8', 'writes'), ('block', 'u8', 'reads'), ('bad', 'u64', ''), ('out', 'u64', 'writes'))),
    'check': ('u32', (('capture', 'u8', 'reads'), ('listing', 'u8', 'reads'), ('out', 'u64', 'writes'))),
    'merge': ('u32', (('a', 'u8', 'reads'), ('b', 'u8', 'reads'), ('out', 'u8', 'writes'), ('written', 'u64', 'writes'))),
    'encode_position': ('u32', (('latitude', 'i32', ''), ('longitude', 'u32', ''), ('surface', 'u32', ''), ('odd', 'u32', ''), ('out', 'u64', 'writes'))),
    'pair': ('u32', (('even_latitude', 'u32', ''), ('even_longitude', 'u32', ''), ('odd_latitude', 'u32', ''), ('odd_longitude', 'u32', ''), ('later_odd', 'u32', ''), ('out', 'u64', 'writes'))),
    'single': ('u32', (('latitude', 'i32', ''), ('longitude', 'u32', ''), ('count_latitude', 'u32', ''), ('count_longitude', 'u32', ''), ('surface', 'u32', ''), ('odd', 'u32', ''), ('out', 'u64', 'writes'))),
    'encode_position_coarse': ('u32', (('latitude', 'i32', ''), ('longitude', 'u32', ''), ('odd', 'u32', ''), ('out', 'u64', 'writes'))),
    'pair_coarse': ('u32', (('even_latitude', 'u32', ''), ('even_longitude', 'u32', ''), ('odd_latitude', 'u32', ''), ('odd_longitude', 'u32', ''), ('later_odd', 'u32', ''), ('out', 'u64', 'writes'))),
    'single_coarse': ('u32', (('latitude', 'i32', ''), ('longitude', 'u32', ''), ('count_latitude', 'u32', ''), ('count_longitude', 'u32', ''), ('odd', 'u32', ''), ('out', 'u64', 'writes'))),
    'degrees': ('u32', (('latitude', 'i32', ''), ('longitude', 'u32', ''), ('out', 'f64', 'writes'))),
    'from_degrees': ('u32', (('latitude', 'f64', ''), ('longitude', 'f64', ''), ('out', 'u64', 'writes'))),
    'decode': ('u32', (('message', 'u8', 'reads'), ('fields', 'u64', 'writes'))),
    'key': ('u32', (('message', 'u8', 'reads'), ('out', 'u64', 'writes'))),
    'me': ('u32', (('me', 'u64', ''), ('key', 'u32', ''), ('fields', 'u64', 'writes'))),
    'encode': ('u32', (('fields', 'u64', 'reads'), ('message', 'u8', 'writes'))),
}
