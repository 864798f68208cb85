"""01's bounds and those of C-11, C-12 and C-14, each as the range of the whole numbers it allows."""


def up_to(greatest):
    return range(greatest + 1)


# Gigajoules: MDQ, schedule, free flow and compressor capacity, a round's weight and need.
GIGAJOULES = up_to(1_000_000)
ROUND_CAPACITY = up_to(2_000_000)

# Megajoules: metered hour, hourly point capacity, reserved entitlement.
MEGAJOULES = up_to(100_000_000)
BACKHAUL_METERED = up_to(2_400_000_000)
# An excused hour has no bound but its metered one (cl. 5.4), and what its bytes hold.
EXCUSED_MEGAJOULES = up_to(0xFFFF_FFFF)
SYSTEM_USE = up_to(1_000_000_000)
ACCUMULATED_IMBALANCE = range(-1_000_000_000, 1_000_000_001)
CHARGEABLE_OVERRUN = up_to(28_800_000_000)

# Cubic metres: an hour's volume.
CUBIC_METRES = up_to(100_000_000)

REQUESTS = up_to(1_000)
RATE = up_to(100_000_000)
CPI = up_to(100_000)

# How many: rows in any list of shippers, the listed points and their entries, the days of a month.
SHIPPERS = up_to(64)
POINTS = up_to(32)
ENTRIES = up_to(512)
MONTH_DAYS = up_to(31)

DAY_NUMBER = up_to(0xFFFF_FFFF)
NAME = range(1, 0x1_0000)
SIDE = range(2)
