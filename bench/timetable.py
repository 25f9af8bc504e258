#!/usr/bin/env python3
"""Writes a timetable of about so many stop times: timetable.py STOP_TIMES FOLDER [falling].

Each trip has twenty stop times, and trips share the stops of their route. With `falling` one trip has them all, in
falling order: the worst order for a table that keeps them sorted. It needs nothing but Python.
"""
import os, sys

STOPS_OF_A_TRIP = 20


def clock(seconds):
    return "%02d:%02d:%02d" % (seconds // 3600, seconds // 60 % 60, seconds % 60)


def ordinary(count):
    """The trips and the stop times of ordinary trips."""
    trips, times = [], []
    for trip in range(count // STOPS_OF_A_TRIP):
        begin = 18000 + trip * 37 % 64800
        trips.append("R%d,WK,T%07d,%d" % (trip % 400, trip, trip % 2))
        for k in range(STOPS_OF_A_TRIP):
            at = clock(begin + 90 * k)
            times.append("T%07d,%s,%s,S%05d,%d" % (trip, at, at, (trip % 400) * 7 + k, k + 1))
    return trips, times


def falling(count):
    """One trip with all stop times, the last first."""
    return ["R0,WK,T0,0"], ["T0,08:00:00,08:00:00,S%05d,%d" % (k % 3000, k) for k in range(count, 0, -1)]


def write(folder, name, header, rows):
    with open(os.path.join(folder, name), "w") as file:
        file.write(header + "\n")
        file.writelines(row + "\n" for row in rows)


def main():
    count, folder = int(sys.argv[1]), sys.argv[2]
    trips, times = (falling if sys.argv[3:] == ["falling"] else ordinary)(count)
    os.makedirs(folder, exist_ok=True)
    write(folder, "agency.txt", "agency_id", ["A1"])
    write(folder, "stops.txt", "stop_id,location_type", ["S%05d," % k for k in range(3000)])
    write(folder, "routes.txt", "route_id", ["R%d" % k for k in range(400)])
    write(folder, "trips.txt", "route_id,service_id,trip_id,direction_id", trips)
    write(folder, "stop_times.txt", "trip_id,arrival_time,departure_time,stop_id,stop_sequence", times)
    days = "monday,tuesday,wednesday,thursday,friday,saturday,sunday"
    write(folder, "calendar.txt", "service_id,%s,start_date,end_date" % days, ["WK,1,1,1,1,1,0,0,20231101,20231231"])
    print("%s: %d trips, %d stop times" % (folder, len(trips), len(times)))


if __name__ == "__main__":
    main()
