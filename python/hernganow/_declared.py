"""What include/hernganow.h declares. Written by python/declare."""
from ctypes import c_size_t, c_uint16, c_uint32, c_uint64, c_uint8, c_void_p

# How many bytes or numbers things have; each number of a none.
VERSION_NUMBER = 1000000
ANSWER = 256
SHEET = 6968
SETTINGS = 784
TEXT = 200
TAPE_RECORD = 5056
TAPE_WORDS = 28
TAPE_SAMPLES = 5000
STACK = 24576
NONE = 2**64 - 1

# Where each number of an answer stands.
AT_REFUSAL = 0
AT_FAULT = 1
AT_KEY = 1
AT_ROW = 1
AT_PARTS_KIND = 1
AT_PARTS_SPACECRAFT = 2
AT_PARTS_SOURCE = 3
AT_PARTS_EQUIPMENT = 4
AT_PARTS_STREAM = 5
AT_PARTS_STATION = 3
AT_PARTS_RECEIVER = 4
AT_PARTS_SUBCHANNEL = 5
AT_KEY_VALID = 1
AT_DAY_COUNT = 1
AT_DATE_YEAR = 1
AT_DATE_DAY = 2
AT_TICKED = 1
AT_MISSING = 2
AT_LOWEST = 3
AT_IS_SHEET = 1
AT_ROW_KEY = 1
AT_ROW_FIRST = 2
AT_DESK_ROW = 1
AT_DESK_STALE = 2
AT_UNSAVED_TICKS = 1
AT_UNSAVED_UNTICKS = 2
AT_RECEIVED_COUNT = 1
AT_RECEIVED_PLACE = 2
AT_RECEIVED_STOP = 3
AT_RECEIVED_SECOND = 4
AT_RECEIVED_TICKED = 5
AT_GAP_NUMBER = 1
AT_GAP_ROW = 2
AT_ENTRY = 1
AT_ENTRY_NUMBER = 2
AT_ENTRY_ROW = 3
AT_SEASON_SHEETS = 1
AT_SEASON_TICKED = 2
AT_SEASON_MISSING = 3
AT_SEASON_PER_MILLION = 4
AT_SEASON_GAP_SHEET = 5
AT_SEASON_GAP_ROW = 6
AT_SEASON_GAP_NUMBER = 7
AT_SETTING_EDITION = 1
AT_SETTING_DAY = 2
AT_SETTING_FRAME = 3
AT_IS_SETTINGS = 1
AT_GAIN = 1
AT_COUNT = 1
AT_TEXT_LENGTH = 1
AT_PART_OFFSET = 1
AT_PART_LENGTH = 2
AT_WALK_COUNT = 1
AT_WALK_PLACE = 2
AT_WALK_STOP = 3
AT_WALK_SECOND = 4
AT_KIND = 1
AT_SIZE = 2
AT_MAJOR = 3
AT_MINOR = 4
AT_MISSION = 5
AT_FORMAT = 6
AT_STEP_NEXT = 7
AT_TELEMETRY_SPACECRAFT = 7
AT_TELEMETRY_SOURCE = 8
AT_TELEMETRY_RECEIVED = 9
AT_TELEMETRY_NUMBER = 10
AT_TELEMETRY_UPLINK = 11
AT_TELEMETRY_MODE = 12
AT_TELEMETRY_STREAM = 13
AT_TELEMETRY_EQUIPMENT = 14
AT_TELEMETRY_KEY = 15
AT_TELEMETRY_DAYS = 16
AT_TELEMETRY_MILLISECONDS = 17
AT_TELEMETRY_EXTENDED = 18
AT_RSR_SOFTWARE = 7
AT_RSR_NUMBER = 8
AT_RSR_COMPLEX = 9
AT_RSR_STATION = 10
AT_RSR_RECEIVER = 11
AT_RSR_SUBCHANNEL = 12
AT_RSR_SPACECRAFT = 13
AT_RSR_PASS = 14
AT_RSR_UPLINK = 15
AT_RSR_DOWNLINK = 16
AT_RSR_MODE = 17
AT_RSR_UPLINK_STATION = 18
AT_RSR_EXPECTED = 19
AT_RSR_BANDWIDTH = 20
AT_RSR_OVERRIDDEN = 21
AT_RSR_ATTENUATION = 22
AT_RSR_RMS = 23
AT_RSR_PEAK = 24
AT_RSR_YEAR = 25
AT_RSR_DAY = 26
AT_RSR_FREQUENCY = 27
AT_RSR_KEY = 28
AT_RSR_DAY_COUNT = 29
AT_TAPE_FIRST = 1
AT_TAPE_SOURCE_ERROR = 2
AT_TAPE_TYPE = 3
AT_TAPE_TAPE = 4
AT_TAPE_NUMBER = 5
AT_TAPE_SPACECRAFT = 6
AT_TAPE_STATION = 7
AT_TAPE_DRA_TAPE = 8
AT_TAPE_DAY = 9
AT_TAPE_HOUR = 10
AT_TAPE_MINUTE = 11
AT_TAPE_SECOND = 12
AT_TAPE_MICROS = 13
AT_TAPE_INPUT = 14
AT_TAPE_PPS_ABSENT = 15
AT_TAPE_CLOCK_UNSYNCED = 16
AT_TAPE_RECORDER_B = 17
AT_TAPE_MICROS_ABNORMAL = 18
AT_TAPE_TRACK_SYNCED = 19
AT_TAPE_PLAYBACK = 1
AT_TAPE_SAMPLING = 2
AT_TAPE_BYPASS = 3
AT_TAPE_DECIMATION = 4
AT_TAPE_PPS_TRACK = 5
AT_TAPE_TIME_TRACK = 6
AT_TAPE_CHANNEL = 7
AT_TAPE_BLOCK = 8
AT_TAPE_REDUCED_DAY = 9
AT_TAPE_REDUCED_SECOND = 10
AT_TAPE_OVERFLOW = 11
AT_TAPE_PPS_UNSYNCED = 12
AT_TAPE_BIT_SLIP = 13
AT_TAPE_COUNTER = 14
AT_TAPE_COUNT = 15

# What each call takes before the answer's address and length.
CALLS = {
    "refusal_text": (c_uint32, c_void_p, c_size_t),
    "read_one": (c_void_p, c_size_t),
    "secondary_part": (c_void_p, c_size_t),
    "data_part": (c_void_p, c_size_t),
    "write_one": (c_uint32, c_uint8, c_uint8, c_uint8, c_uint8, c_void_p, c_size_t, c_void_p, c_size_t, c_void_p, c_size_t),
    "read_headers": (c_void_p, c_size_t, c_uint32),
    "gain": (c_void_p, c_size_t, c_uint32),
    "agreed_gain": (c_void_p, c_size_t, c_void_p, c_size_t),
    "step": (c_void_p, c_size_t, c_uint64),
    "walk": (c_void_p, c_size_t),
    "list_numbers": (c_void_p, c_size_t, c_void_p, c_size_t, c_void_p, c_size_t, c_void_p, c_size_t, c_void_p, c_size_t),
    "most_records": (c_uint64,),
    "most_rsr_records": (c_uint64,),
    "unpack": (c_void_p, c_size_t, c_void_p, c_size_t),
    "pack": (c_uint32, c_uint32, c_void_p, c_size_t, c_void_p, c_size_t),
    "tape_read": (c_void_p, c_size_t),
    "tape_reduction": (c_void_p, c_size_t),
    "tape_words": (c_void_p, c_size_t, c_void_p, c_size_t),
    "tape_samples": (c_void_p, c_size_t),
    "tape_write": (c_void_p, c_size_t, c_void_p, c_size_t, c_void_p, c_size_t),
    "telemetry_key": (c_uint32, c_uint32, c_uint32, c_uint32),
    "rsr_key": (c_uint32, c_uint32, c_uint32, c_uint32),
    "parts": (c_uint64,),
    "key_valid": (c_uint64,),
    "day_count": (c_uint16, c_uint16),
    "date": (c_uint32,),
    "fresh": (c_void_p, c_size_t),
    "enrol": (c_void_p, c_size_t, c_uint64, c_uint32),
    "find": (c_void_p, c_size_t, c_uint64),
    "open": (c_void_p, c_size_t, c_uint32, c_uint32),
    "tick": (c_void_p, c_size_t, c_uint32, c_uint32),
    "untick": (c_void_p, c_size_t, c_uint32, c_uint32),
    "save": (c_void_p, c_size_t, c_uint32),
    "drop": (c_void_p, c_size_t, c_uint32),
    "strike": (c_void_p, c_size_t, c_uint32),
    "row_report": (c_void_p, c_size_t, c_uint32),
    "first_gap": (c_void_p, c_size_t),
    "is_sheet": (c_void_p, c_size_t),
    "row": (c_void_p, c_size_t, c_uint32),
    "desk": (c_void_p, c_size_t, c_uint32),
    "unsaved": (c_void_p, c_size_t, c_uint32),
    "missing_numbers": (c_void_p, c_size_t, c_uint32, c_void_p, c_size_t),
    "receive": (c_void_p, c_size_t, c_uint32, c_void_p, c_size_t, c_void_p, c_size_t),
    "convert": (c_void_p, c_size_t, c_void_p, c_size_t),
    "replay": (c_void_p, c_size_t, c_void_p, c_size_t),
    "replay_on": (c_void_p, c_size_t, c_void_p, c_size_t),
    "season": (c_void_p, c_size_t),
    "settings_make_empty": (c_void_p, c_size_t),
    "is_settings": (c_void_p, c_size_t),
    "settings_add": (c_void_p, c_size_t, c_uint8, c_uint32, c_uint32, c_uint32),
    "settings_ask": (c_void_p, c_size_t, c_uint8, c_uint32),
}
