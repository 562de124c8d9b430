// The scenes of the day, and the addresses that they share.
#ifndef DAY_SCENES_H
#define DAY_SCENES_H

#include "exchange.h"

// Where our initiator is, as the gateway sees it. School and neighbour share the address of the school's NAT.
#define GATEWAY "192.0.2.1"
#define SCHOOL_NAT "203.0.113.7"
#define BUS "198.51.100.40"
#define BUS_NAT "198.51.100.99"
#define BUS_IP6 "2001:db8:b05::40"
#define CAFE "198.51.100.200"
#define HOTEL_NAT "203.0.113.80"
#define TRAIN "198.51.100.77"
#define WIFI "203.0.113.20"
#define NEXT_WIFI "203.0.113.21"
#define CELLULAR "198.51.100.22"
enum { IKE_PORT = 4500, OUR_SCHOOL_PORT = 61001, NEIGHBOUR_PORT = 61002, CORRIDOR_PORT = 61009 };
enum { BUS_NAT_PORT = 62000, HOTEL_NAT_PORT = 63000 };

#define SCENE(name, brief, story) void play_##name(day *d);
#include "scenes.def"
#undef SCENE

#endif
