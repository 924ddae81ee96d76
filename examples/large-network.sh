#!/bin/sh
# Writes the configuration of a large network: 240 local zones, 60 zones of other gatekeepers, 22 prefixes to each local
# zone and 12 to each other one, technology prefixes, and limits.
#
#   sh examples/large-network.sh > examples/large-network.cfg
#
# With a number of lines as its only word, from 400 on, it writes the same zones with as many prefixes as make up so
# many lines, to see how long a configuration of that length takes.
set -eu
awk -v lines="${1:-0}" '
function put(line) { print line; written++ }
function declare_zones(    zone) {
    for (zone = 0; zone < locals; zone++)
        put(sprintf(" zone local site-%03d example.com 10.%d.%d.2", zone, 1 + int(zone / 200), zone % 200))
    for (zone = 0; zone < remotes; zone++)
        put(sprintf(" zone remote peer-%02d example.net 192.0.2.%d 1719 cost %d priority %d", zone, 1 + zone, 10 + zone % 80, 100 - zone % 90))
}
function write_prefixes(    zone, place) {
    for (place = 0; place < 22; place++)
        for (zone = 0; zone < locals; zone++) {
            line = sprintf(" zone prefix site-%03d %d%02d....", zone, 200 + zone, place)
            if (place % 7 == 0)
                line = line sprintf(" gw-priority 8 gw-%03d-a gw-%03d-b", zone, zone)
            put(line)
        }
    for (place = 0; place < 12; place++)
        for (zone = 0; zone < remotes; zone++)
            put(sprintf(" zone prefix peer-%02d 00%02d%02d*", zone, 10 + zone, place))
    for (zone = 0; zone < 20; zone++)
        put(sprintf(" gw-type-prefix %d# hopoff peer-%02d peer-%02d", 100 + zone, zone, 59 - zone))
    put(" gw-type-prefix 1#* default-technology")
    put(" arq reject-unknown-prefix")
}
function write_limits(    zone) {
    for (zone = 0; zone < locals; zone += 3)
        put(sprintf(" bandwidth total zone site-%03d %d", zone, 640 * (1 + zone % 9)))
    for (zone = 0; zone < locals; zone += 4)
        put(sprintf(" bandwidth interzone zone site-%03d %d", zone, 320 * (1 + zone % 7)))
    put(" bandwidth session default 768")
    put(" bandwidth remote 200000")
}
function fill(    place) {
    for (place = 0; written < lines - 2; place++)
        put(sprintf(" zone prefix site-%03d 7%07d..", place % locals, place))
}
BEGIN {
    locals = 240
    remotes = 60
    put("! A large network, as examples/large-network.sh writes it.")
    put("gatekeeper")
    declare_zones()
    if (lines > 0) {
        fill()
    } else {
        write_prefixes()
        write_limits()
    }
    put(" no shutdown")
    put("end")
}'
