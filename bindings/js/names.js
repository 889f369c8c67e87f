// Names and numbers of include/addercoil.h. tools/bindings writes this file. A reading has two entries: what it is stands at
// its number, and its value behind it. A function has its answer and its parameters, each with its type and what is done
// to an array.
export const VERSION = 1000;
export const RECORD = 22;
export const RECORDS = 2900;
export const LINE = 129;
export const BLOCK = 512;
export const MESSAGE = 14;
export const FIELDS = 28;
export const STAMPS = 2;
export const SITE = 3;
export const TRACK = 72;
export const SPOT = 2;
export const COUNTS = 2;
export const DEGREES = 2;
export const UNKNOWN = 0;
export const KNOWN = 1;
export const OVER = 2;
export const NONE = 3;
export const STOPPED = 4;
export const INTEGRITY_UNKNOWN = 0;
export const INTEGRITY_NUC = 1;
export const INTEGRITY_NIC = 2;

export const REFUSALS = {
    1: "LENGTH",
    2: "LATE",
    3: "PARITY",
    4: "FORMAT",
    5: "TYPE",
    6: "FULL",
    7: "PLACES",
    8: "FIELD",
    9: "LATITUDE",
    10: "ZONES",
    12: "NO_TRACK",
    13: "OVERRUN",
    14: "LOG",
    15: "DEGREES",
    16: "FORM",
};

export const WORDS = [
    "accepted",
    "a message that is not of 14 bytes, or an array of a wrong length",
    "a time below the table's clock, or a stamp too far past the last one",
    "a parity remainder that is not 0",
    "a DF or CF that is not taken",
    "a TYPE or subtype that is not taken, or a reserved flag",
    "a new aircraft, and no place is free",
    "a table that is not of 1 to 1,024 whole places",
    "a number out of its range: a field, a latitude, a choice",
    "a decoded latitude beyond a pole",
    "two latitudes in different longitude zones",
    "a block of a capture that fails its rules",
    "an aircraft that is not held, and a message that starts no track",
    "a stamp whose time would pass 2^64 - 1",
    "a log or capture of over 2,900 records, or a log not of whole ones",
    "a double that is no spot's latitude or longitude in degrees",
    "a text that is not in the form of a listing",
];

export const KINDS = {
    "I": 1,
    "O": 2,
    "T": 3,
    "M": 4,
    "N": 5,
    "C": 6,
};

export const LAYOUTS = {
    "IDENTIFICATION": 1,
    "SURFACE": 2,
    "AIRBORNE": 3,
    "GROUND": 4,
    "AIR": 5,
    "STATUS": 6,
    "COARSE": 7,
};

export const TRACK_ENTRIES = {
    "held": 0,
    "heard": 1,
    "identification": 2,
    "velocity": 3,
    "surface": 4,
    "status": 5,
    "pressureCode": 6,
    "heightCode": 7,
    "positionType": 8,
    "positionBit8": 9,
    "positionKnown": 10,
    "latitude": 11,
    "longitude": 12,
    "positionTime": 13,
    "evenKnown": 14,
    "evenLatitudeCount": 15,
    "evenLongitudeCount": 16,
    "evenTime": 17,
    "oddKnown": 18,
    "oddLatitudeCount": 19,
    "oddLongitudeCount": 20,
    "oddTime": 21,
    "altitudeIs": 22,
    "altitude": 23,
    "altitudeStepIs": 24,
    "altitudeStep": 25,
    "gnssHeightIs": 26,
    "gnssHeight": 27,
    "gnssHeightStepIs": 28,
    "gnssHeightStep": 29,
    "callsignIs": 30,
    "callsign": 31,
    "categorySetIs": 32,
    "categorySet": 33,
    "categoryIs": 34,
    "category": 35,
    "eastIs": 36,
    "east": 37,
    "northIs": 38,
    "north": 39,
    "headingIs": 40,
    "heading": 41,
    "headingStatusIs": 42,
    "headingStatus": 43,
    "airspeedIs": 44,
    "airspeed": 45,
    "airspeedKindIs": 46,
    "airspeedKind": 47,
    "rateIs": 48,
    "rate": 49,
    "rateSourceIs": 50,
    "rateSource": 51,
    "onGroundIs": 52,
    "onGround": 53,
    "movementIs": 54,
    "movement": 55,
    "surfaceHeadingIs": 56,
    "surfaceHeading": 57,
    "surfaceStatusIs": 58,
    "surfaceStatus": 59,
    "angleIs": 60,
    "angle": 61,
    "angleStatusIs": 62,
    "angleStatus": 63,
    "speedIs": 64,
    "speed": 65,
    "version": 66,
    "supplementA": 67,
    "supplementB": 68,
    "supplementC": 69,
    "integrityIs": 70,
    "integrity": 71,
};

export const HEAD = {
    "layout": 0,
    "df": 1,
    "ca": 2,
    "aa": 3,
    "key": 4,
    "typecode": 5,
};

export const FIELDS_OF = {
    "IDENTIFICATION": {"category": 6, "characters": 7},
    "SURFACE": {"movementCode": 6, "status": 7, "headingCode": 8, "t": 9, "f": 10, "latitudeCount": 11, "longitudeCount": 12},
    "AIRBORNE": {"surveillance": 6, "bit8": 7, "altitudeCode": 8, "t": 9, "f": 10, "latitudeCount": 11, "longitudeCount": 12},
    "GROUND": {"subtype": 6, "bit9": 7, "bit10": 8, "nacv": 9, "west": 10, "eastwardCode": 11, "south": 12, "northwardCode": 13, "source": 14, "down": 15, "rateCode": 16, "reserved": 17, "below": 18, "differenceCode": 19},
    "AIR": {"subtype": 6, "bit9": 7, "bit10": 8, "nacv": 9, "status": 10, "headingCode": 11, "airspeedKind": 12, "airspeedCode": 13, "source": 14, "down": 15, "rateCode": 16, "reserved": 17, "below": 18, "differenceCode": 19},
    "STATUS": {"subtype": 6, "class": 7, "bit20": 8, "width": 9, "mode": 10, "versionCode": 11, "supplementACode": 12, "nacp": 13, "bits49": 14, "sil": 15, "bit53": 16, "bit54": 17, "bits55": 18},
    "COARSE": {"flag": 5, "surveillance": 6, "station": 7, "altitudeCode": 8, "status": 9, "angleCode": 10, "speedCode": 11, "f": 12, "latitudeCount": 13, "longitudeCount": 14},
};

export const READINGS_OF = {
    "IDENTIFICATION": {"set": 20, "text": 22},
    "SURFACE": {"speed": 20, "turn": 22},
    "AIRBORNE": {"altitude": 20, "gnss": 22, "step": 24},
    "GROUND": {"east": 20, "north": 22, "rate": 24, "difference": 26},
    "AIR": {"turn": 20, "speed": 22, "rate": 24, "difference": 26},
    "STATUS": {"version": 20, "supplementA": 22, "supplementC": 24},
    "COARSE": {"altitude": 20, "step": 22, "angle": 24, "speed": 26},
};

export const FUNCTIONS = {
    "version": ["u32", []],
    "table_bytes": ["u64", [["places", "u64", ""]]],
    "set_up": ["u32", [["table", "u8", "writes"]]],
    "set_up_at": ["u32", [["table", "u8", "writes"], ["latitude", "i32", ""], ["longitude", "u32", ""]]],
    "receive": ["u32", [["table", "u8", "writes"], ["message", "u8", "reads"], ["time", "u64", ""]]],
    "receive_stamp": ["u32", [["table", "u8", "writes"], ["message", "u8", "reads"], ["stamp", "u32", ""], ["state", "u64", "writes"]]],
    "clock": ["u32", [["table", "u8", "reads"], ["out", "u64", "writes"]]],
    "site": ["u32", [["table", "u8", "reads"], ["out", "u64", "writes"]]],
    "next": ["u32", [["table", "u8", "reads"], ["key", "u32", ""], ["out", "u64", "writes"]]],
    "look_up": ["u32", [["table", "u8", "reads"], ["key", "u32", ""], ["out", "u64", "writes"]]],
    "replay": ["u32", [["log", "u8", "reads"], ["kind", "u32", ""], ["address", "u32", ""], ["out", "u64", "writes"]]],
    "replay_at": ["u32", [["log", "u8", "reads"], ["kind", "u32", ""], ["address", "u32", ""], ["latitude", "i32", ""], ["longitude", "u32", ""], ["out", "u64", "writes"]]],
    "replay_coarse": ["u32", [["log", "u8", "reads"], ["address", "u32", ""], ["flag", "u32", ""], ["station", "u32", ""], ["out", "u64", "writes"]]],
    "listing": ["u32", [["table", "u8", "reads"], ["bad", "u64", ""], ["all", "u32", ""], ["order", "u64", "writes"], ["out", "u8", "writes"], ["written", "u64", "writes"]]],
    "header": ["u32", [["table", "u8", "reads"], ["bad", "u64", ""], ["all", "u32", ""], ["out", "u8", "writes"]]],
    "line": ["u32", [["table", "u8", "reads"], ["key", "u32", ""], ["all", "u32", ""], ["out", "u8", "writes"]]],
    "feed_block": ["u32", [["table", "u8", "writes"], ["block", "u8", "reads"], ["bad", "u64", ""], ["out", "u64", "writes"]]],
    "check": ["u32", [["capture", "u8", "reads"], ["listing", "u8", "reads"], ["out", "u64", "writes"]]],
    "merge": ["u32", [["a", "u8", "reads"], ["b", "u8", "reads"], ["out", "u8", "writes"], ["written", "u64", "writes"]]],
    "encode_position": ["u32", [["latitude", "i32", ""], ["longitude", "u32", ""], ["surface", "u32", ""], ["odd", "u32", ""], ["out", "u64", "writes"]]],
    "pair": ["u32", [["even_latitude", "u32", ""], ["even_longitude", "u32", ""], ["odd_latitude", "u32", ""], ["odd_longitude", "u32", ""], ["later_odd", "u32", ""], ["out", "u64", "writes"]]],
    "single": ["u32", [["latitude", "i32", ""], ["longitude", "u32", ""], ["count_latitude", "u32", ""], ["count_longitude", "u32", ""], ["surface", "u32", ""], ["odd", "u32", ""], ["out", "u64", "writes"]]],
    "encode_position_coarse": ["u32", [["latitude", "i32", ""], ["longitude", "u32", ""], ["odd", "u32", ""], ["out", "u64", "writes"]]],
    "pair_coarse": ["u32", [["even_latitude", "u32", ""], ["even_longitude", "u32", ""], ["odd_latitude", "u32", ""], ["odd_longitude", "u32", ""], ["later_odd", "u32", ""], ["out", "u64", "writes"]]],
    "single_coarse": ["u32", [["latitude", "i32", ""], ["longitude", "u32", ""], ["count_latitude", "u32", ""], ["count_longitude", "u32", ""], ["odd", "u32", ""], ["out", "u64", "writes"]]],
    "degrees": ["u32", [["latitude", "i32", ""], ["longitude", "u32", ""], ["out", "f64", "writes"]]],
    "from_degrees": ["u32", [["latitude", "f64", ""], ["longitude", "f64", ""], ["out", "u64", "writes"]]],
    "decode": ["u32", [["message", "u8", "reads"], ["fields", "u64", "writes"]]],
    "key": ["u32", [["message", "u8", "reads"], ["out", "u64", "writes"]]],
    "me": ["u32", [["me", "u64", ""], ["key", "u32", ""], ["fields", "u64", "writes"]]],
    "encode": ["u32", [["fields", "u64", "reads"], ["message", "u8", "writes"]]],
};
