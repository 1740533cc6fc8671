"""Document 01's sizes, places and limits for the Python tests, by the names that crates/model/specs has for them. tests/gate/layout shows that they agree."""

IMAGE_SIZE = 2128
MARK = b"WMC"
VERSION = 1
VERSION_AT = 3
STATION_COUNT_AT = 5
LIVE_COUNT_AT = 6
HEADER_ZERO_AT = 7
CLOCK_AT = 8
NEXT_AT = 12

# In an image, an entry for each station; and the places in it.
SERVICES_AT = 16
SERVICE_SIZE = 8
SERVED_AT = 0
LEFT_AT = 4
SERVICE_ZERO_AT = 6

# In an image, a record for each live order; and the places in it.
RECORDS_AT = 80
RECORD_SIZE = 64
TICKET_AT = 0
ACCEPTED_AT = 4
DUE_AT = 8
SUM_AT = 12
STATION_AT = 16
STATION_ZERO_AT = 17
RANKS_AT = 20
COSTS_AT = 28
MAXIMA_AT = 44
RECORD_ZERO_AT = 60

BLOCK_SIZE = 28
BLOCK_DUE_IN_AT = 0
BLOCK_RANKS_AT = 4
BLOCK_COSTS_AT = 12

SHEET_SIZE = 32
SHEET_FIXED_AT = 0
SHEET_SPEEDS_AT = 16

REPLY_SIZE = 16
REPLY_NUMBER_AT = 0
REPLY_TICKET_AT = 4
REPLY_TICK_AT = 8
REPLY_MARGIN_AT = 12

MAX_STATIONS = 8
MAX_COST = 6000
MAX_DUE_IN = 60000
DEFAULT_DUE_IN = 9000
MAX_LIVE = 32
MAX_FORMAT = 10
LAST_TICK = 4000000000
LAST_TICKET = 4294967295

# The length of an image of another version, that of request (vii) of document 02: here it is a wrong one.
OTHER_IMAGE_SIZE = 3152

# The bytes that every image begins with.
HEAD = MARK + VERSION.to_bytes(2, "little")


def service(j):
    """Where the entry of a station begins, and where the record of an order does, both counted from 0."""
    return SERVICES_AT + SERVICE_SIZE * j


def record(k):
    return RECORDS_AT + RECORD_SIZE * k


def get(data, at, width):
    """The number that these bytes are, low byte first."""
    return int.from_bytes(data[at:at + width], "little")


def put(data, at, value, width):
    data[at:at + width] = (value % 256**width).to_bytes(width, "little")


def get_row(data, at, width):
    """A number for each station that there can be."""
    return [get(data, at + width * j, width) for j in range(MAX_STATIONS)]


def put_row(data, at, row, width):
    for j, value in enumerate(row):
        put(data, at + width * j, value, width)


def empty_image(n, clock, ticket):
    """A cabinet with nothing live."""
    image = bytearray(HEAD.ljust(IMAGE_SIZE, b"\0"))
    image[STATION_COUNT_AT] = n
    put(image, CLOCK_AT, clock, 4)
    put(image, NEXT_AT, ticket, 4)
    return image


def block(due_in, ranks, costs):
    """An order block. What is not told of a station is 0."""
    order = bytearray(BLOCK_SIZE)
    put(order, BLOCK_DUE_IN_AT, due_in, 4)
    put_row(order, BLOCK_RANKS_AT, ranks, 1)
    put_row(order, BLOCK_COSTS_AT, costs, 2)
    return bytes(order)


def reply(number, ticket, tick, margin):
    answer = bytearray(REPLY_SIZE)
    for at, value in ((REPLY_NUMBER_AT, number), (REPLY_TICKET_AT, ticket), (REPLY_TICK_AT, tick), (REPLY_MARGIN_AT, margin)):
        put(answer, at, value, 4)
    return bytes(answer)
