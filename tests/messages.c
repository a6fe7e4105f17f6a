/* Whole messages from the line: traces with the events, outcomes and end state that the readings of request 10 give, by the plain engine and by an account. */
#include "check.h"

static const struct {
    const char *name, *trace, *wanted;
} cases[] = {
    {"1 no message at all",
     "",
     "none / none / phase Idle"},
    {"2 octets but no pair",
     "lengths none; octets 08 00 62",
     "48"},
    {"3 a length too many by one",
     "lengths 4n; octets 08 00 62",
     "48"},
    {"4 a length too few by one",
     "lengths 2n; octets 08 00 62",
     "48"},
    {"5 48 before 49",
     "lengths 2n; octets 09",
     "48"},
    {"6 a sum that is right only in 32 bits",
     "lengths 4294967295n 4n; octets 08 00 62",
     "48"},
    {"7 adds up, parted in the wrong place",
     "lengths 4n 2n; octets 08 00 62 08 00 62",
     "49 1"},
    {"8 a message of length 0 alone",
     "lengths 0u; octets none",
     "49 1"},
    {"9 a message of length 0 after a good one",
     "lengths 3n 0u; octets 08 00 62",
     "49 2"},
    {"10 08 alone",
     "n 08",
     "49 1"},
    {"11 no type, no reference",
     "n 08 00",
     "49 1"},
    {"12 no type after the reference",
     "n 08 01 05",
     "49 1"},
    {"13 reference cut",
     "n 08 02 05",
     "49 1"},
    {"14 reference of three octets",
     "n 08 03 01 02 03 62",
     "49 1"},
    {"15 reference length with high bits",
     "n 08 11 05 62",
     "49 1"},
    {"16 another discriminator, second message",
     "n 08 00 62\n"
     "n 03 00 62\n"
     "n 09",
     "49 2"},
    {"17 shortest message",
     "n 08 00 62",
     "none / none / phase Idle"},
    {"18 identifier without its length",
     "n 08 00 62 28",
     "49 1"},
    {"19 contents one short",
     "n 08 00 62 28 02 41",
     "49 1"},
    {"20 empty element, one-octet elements",
     "n 08 00 62 28 00 A1 FF 80",
     "none / none / phase Idle"},
    {"21 length octet 80 is 128",
     "n 08 00 62 28 80 41 41 41 41 41 41 41 41 41 41 41 41 41 41 41 41 41 41 41 41 41 41 41 41 41 41 41 41 41 41 41 "
     "41 41 41 41 41 41 41 41 41 41 41 41 41 41 41 41 41 41 41 41 41 41 41 41 41 41 41 41 41 41 41 41 41 41 41 41 "
     "41 41 41 41 41 41 41 41 41 41 41 41 41 41 41 41 41 41 41 41 41 41 41 41 41 41 41 41 41 41 41 41 41 41 41 41 "
     "41 41 41 41 41 41 41 41 41 41 41 41 41 41 41 41 41 41 41 41 41 41 41 41 41",
     "none / none / phase Idle"},
    {"22 length octet 80 with nothing after it",
     "n 08 00 62 28 80",
     "49 1"},
    {"23 a message of another call is framed too",
     "u 08 01 05 05\n"
     "n 08 01 09 62 1C",
     "49 2"},
    {"24 a whole call: request granted, subtotal, user clears, E in the RELEASE",
     "u 08 01 05 05 A1 04 03 80 90 A3 18 01 83 1C 0C 91 A1 09 02 01 05 02 01 1E 0A 01 01 70 04 81 31 32 33\n"
     "n 08 01 85 02 18 01 89 1C 0D 91 A2 0A 02 01 05 30 05 02 01 1E 05 00\n"
     "n 08 01 85 01\n"
     "n 08 01 85 07 29 05 5F 01 02 0A 1E\n"
     "u 08 01 05 0F\n"
     "n 08 01 85 62 1C 1D 91 A1 1A 02 01 01 02 01 21 30 12 A1 0D 81 03 45 55 52 A2 06 81 01 32 82 01 01 82 01 00\n"
     "u 08 01 05 45 08 02 80 90\n"
     "n 08 01 85 4D 1C 14 91 A1 11 02 01 02 02 01 24 30 09 30 07 A1 05 30 03 02 01 0C 28 03 31 2C 32\n"
     "u 08 01 05 5A",
     "setup - 5 -; component 43 12; connect; component 81 28; clear; component 124 19; released / 0 24D 0 21D 0 22E "
     "0 / phase Ended, closing E 12 units, running D 500"},
    {"25 the same without an answer: the request silences D",
     "u 08 01 05 05 1C 0C 91 A1 09 02 01 05 02 01 1E 0A 01 01\n"
     "n 08 01 85 07\n"
     "n 08 01 85 62 1C 1D 91 A1 1A 02 01 01 02 01 21 30 12 A1 0D 81 03 45 55 52 A2 06 81 01 32 82 01 01 82 01 00",
     "setup - 5 -; connect; component 29 28 / 0 0 26D / phase Active, pending D 5"},
    {"26 a CONNECT's components come before Connect",
     "u 08 01 05 05\n"
     "n 08 01 85 07 1C 1D 91 A1 1A 02 01 01 02 01 21 30 12 A1 0D 81 03 45 55 52 A2 06 81 01 32 82 01 01 82 01 00\n"
     "n 08 01 85 62 1C 1D 91 A1 1A 02 01 01 02 01 21 30 12 A1 0D 81 03 45 55 52 A2 06 81 01 32 82 01 01 82 01 00",
     "setup - - -; component 11 28; connect; component 46 28 / 0 27D 0 21D / phase Active, running D 500"},
    {"27 a clearing message's after Clear",
     "u 08 01 05 05\n"
     "n 08 01 85 07\n"
     "n 08 01 85 45 1C 14 91 A1 11 02 01 02 02 01 24 30 09 30 07 A1 05 30 03 02 01 0C",
     "setup - - -; connect; clear; component 15 19 / 0 0 0 22E / phase Clearing"},
    {"28 RELEASE COMPLETE as the first clearing message",
     "u 08 01 05 05\n"
     "n 08 01 85 5A 1C 14 91 A1 11 02 01 02 02 01 24 30 09 30 07 A1 05 30 03 02 01 0C",
     "setup - - -; clear; component 11 19; released / 0 0 22E 0 / phase Ended, closing E 12 units"},
    {"29 the user's RELEASE COMPLETE: its components are none",
     "u 08 01 05 05\n"
     "u 08 01 05 5A 1C 14 91 A1 11 02 01 02 02 01 24 30 09 30 07 A1 05 30 03 02 01 0C",
     "setup - - -; clear; released / 0 0 0 / phase Ended, closing none"},
    {"30 only the first of the three gives Clear",
     "u 08 01 05 05\n"
     "u 08 01 05 45\n"
     "n 08 01 85 45 1C 14 91 A1 11 02 01 02 02 01 24 30 09 30 07 A1 05 30 03 02 01 0C\n"
     "u 08 01 05 4D\n"
     "n 08 01 85 5A",
     "setup - - -; clear; component 15 19; released / 0 0 22E 0 / phase Ended, closing E 12 units"},
    {"31 a clearing message before the SETUP uses it up",
     "n 08 01 85 5A\n"
     "u 08 01 05 05\n"
     "n 08 01 85 07\n"
     "u 08 01 05 45\n"
     "n 08 01 85 5A",
     "clear; released; setup - - -; connect; released / 14 14 0 0 14 / phase Active"},
    {"32 RELEASE COMPLETE twice",
     "u 08 01 05 05\n"
     "u 08 01 05 5A\n"
     "u 08 01 05 5A",
     "setup - - -; clear; released; released / 0 0 0 14 / phase Ended, closing none"},
    {"33 RELEASE sent again with the same charge, then with another",
     "u 08 01 05 05\n"
     "u 08 01 05 45\n"
     "n 08 01 85 4D 1C 14 91 A1 11 02 01 02 02 01 24 30 09 30 07 A1 05 30 03 02 01 0C\n"
     "n 08 01 85 4D 1C 14 91 A1 11 02 01 02 02 01 24 30 09 30 07 A1 05 30 03 02 01 0C\n"
     "n 08 01 85 4D 1C 0D 91 A1 0A 02 01 04 02 01 23 30 02 81 00\n"
     "u 08 01 05 5A",
     "setup - - -; clear; component 15 19; component 41 19; component 67 12; released / 0 0 22E 28E 29E 0 / phase "
     "Ended, closing E 12 units, conflict E"},
    {"34 a call from the network: no Setup, all refused",
     "n 08 01 05 05 1C 0B 91 A1 08 02 01 03 02 01 21 81 00\n"
     "u 08 01 85 07\n"
     "n 08 01 05 0F\n"
     "n 08 01 05 45 1C 14 91 A1 11 02 01 02 02 01 24 30 09 30 07 A1 05 30 03 02 01 0C",
     "component 7 10; clear; component 32 19 / 14 14 14 / phase Idle"},
    {"35 the user's CONNECT and the network's SETUP give nothing",
     "u 08 01 05 05\n"
     "u 08 01 05 07\n"
     "n 08 01 85 05",
     "setup - - - / 0 / phase Establishment"},
    {"36 types with the top bit, and unknown ones, carry components only",
     "u 08 01 05 05\n"
     "n 08 01 85 C5 1C 0B 91 A1 08 02 01 03 02 01 21 81 00\n"
     "n 08 01 85 00 1C 0B 91 A1 08 02 01 03 02 01 21 81 00\n"
     "u 08 01 05 85\n"
     "n 08 01 85 87",
     "setup - - -; component 11 10; component 28 10 / 0 21D 21D / phase Establishment, running D free"},
    {"37 components before the SETUP and after Released",
     "n 08 01 85 62 1C 14 91 A1 11 02 01 02 02 01 24 30 09 30 07 A1 05 30 03 02 01 0C\n"
     "u 08 01 05 05\n"
     "u 08 01 05 5A\n"
     "n 08 01 85 62 1C 14 91 A1 11 02 01 02 02 01 24 30 09 30 07 A1 05 30 03 02 01 0C",
     "component 7 19; setup - - -; clear; released; component 41 19 / 14 0 0 0 14 / phase Ended, closing none"},
    {"38 components that the reader refuses are events",
     "u 08 01 05 05\n"
     "n 08 01 85 62 1C 0C 91 A1 06 02 01 07 02 01 25 A5 00 30\n"
     "n 08 01 85 62 1C 0D 91 A1 06 02 01 07 02 01 25 A5 00 30 00",
     "setup - - -; component 29 8; component 37 2; component 39 2 / 0 7 4 4 / phase Establishment"},
    {"39 any direction number but 0 is the network (7 here)",
     "7 08 01 85 62 1C 0B 91 A1 08 02 01 03 02 01 21 81 00",
     "component 7 10 / 14 / phase Idle"},
    {"40 SUSPEND ACKNOWLEDGE and RESUME ACKNOWLEDGE give no Suspend and no Resume",
     "u 08 01 05 05\n"
     "n 08 01 85 07\n"
     "u 08 01 05 25\n"
     "n 08 01 85 2D 1C 0B 91 A1 08 02 01 03 02 01 21 81 00\n"
     "n 08 01 85 2E",
     "setup - - -; connect; component 19 10 / 0 0 21D / phase Active, running D free"},
    {"41 two for one service: the first",
     "u 08 01 05 05 1C 17 91 A1 09 02 01 05 02 01 1E 0A 01 01 A1 09 02 01 09 02 01 1E 0A 01 01",
     "setup - 5 - / 0 / phase Establishment, pending D 5"},
    {"42 three services in three elements",
     "u 08 01 05 05 1C 0C 91 A1 09 02 01 01 02 01 1E 0A 01 00 1C 0C 91 A1 09 02 01 05 02 01 1E 0A 01 01 70 01 81 1C "
     "0C 91 A1 09 02 01 09 02 01 1E 0A 01 02",
     "setup 1 5 9 / 0 / phase Establishment, pending S 1, pending D 5, pending E 9"},
    {"43 one identifier for two services: 13, a later SETUP is taken",
     "u 08 01 05 05 1C 17 91 A1 09 02 01 05 02 01 1E 0A 01 00 A1 09 02 01 05 02 01 1E 0A 01 01\n"
     "u 08 01 05 05 1C 0C 91 A1 09 02 01 05 02 01 1E 0A 01 01",
     "setup 5 5 -; setup - 5 - / 13 0 / phase Establishment, pending D 5"},
    {"44 the SETUP sent again",
     "u 08 01 05 05 1C 0C 91 A1 09 02 01 05 02 01 1E 0A 01 01\n"
     "u 08 01 05 05 1C 0C 91 A1 09 02 01 05 02 01 1E 0A 01 01",
     "setup - 5 -; setup - 5 - / 0 14 / phase Establishment, pending D 5"},
    {"45 components that are refused, or no request, among them",
     "u 08 01 05 05 1C 1E 91 A1 03 02 01 09 A1 09 02 01 08 02 01 1E 0A 01 03 A1 09 02 01 05 02 01 1E 0A 01 01 00 "
     "00\n"
     "n 08 01 85 62 1C 0D 91 A2 0A 02 01 05 30 05 02 01 1E 05 00",
     "setup - 5 -; component 43 12 / 0 24D / phase Establishment"},
    {"46 requests in malformed elements, with 9F, under a shift: none",
     "u 08 01 05 05 1C 0D 91 A1 09 02 01 05 02 01 1E 0A 01 01 00 1C 0C 9F A1 09 02 01 06 02 01 1E 0A 01 00 96 1C 0C "
     "91 A1 09 02 01 05 02 01 1E 0A 01 01",
     "setup - - - / 0 / phase Establishment"},
    {"47 a request in the user's other messages is none",
     "u 08 01 05 05\n"
     "u 08 01 05 7B 1C 0C 91 A1 09 02 01 05 02 01 1E 0A 01 01",
     "setup - - - / 0 / phase Establishment"},
    {"48 a request from the network: 32",
     "u 08 01 05 05\n"
     "n 08 01 85 62 1C 0C 91 A1 09 02 01 05 02 01 1E 0A 01 01",
     "setup - - -; component 11 11 / 0 32 / phase Establishment"},
    {"49 locking shift: to the end of the message, not of the trace",
     "u 08 01 05 05\n"
     "n 08 01 85 07 1C 0B 91 A1 08 02 01 03 02 01 21 81 00 96 28 01 41 1C 0B 91 A1 08 02 01 03 02 01 21 81 00 95 1C "
     "0B 91 A1 08 02 01 03 02 01 21 81 00\n"
     "n 08 01 85 62 1C 0B 91 A1 08 02 01 03 02 01 21 81 00",
     "setup - - -; component 11 10; connect; component 59 10 / 0 21D 0 21D / phase Active, running D free"},
    {"50 locking shift hides no phase event",
     "u 08 01 05 05 96\n"
     "n 08 01 85 5A 96 1C 14 91 A1 11 02 01 02 02 01 24 30 09 30 07 A1 05 30 03 02 01 0C",
     "setup - - -; clear; released / 0 0 0 / phase Ended, closing none"},
    {"51 non-locking shift: the next element alone",
     "u 08 01 05 05\n"
     "n 08 01 85 62 9E 1C 0B 91 A1 08 02 01 03 02 01 21 81 00 1C 0B 91 A1 08 02 01 03 02 01 21 81 00",
     "setup - - -; component 25 10 / 0 21D / phase Establishment, running D free"},
    {"52 the next element may be one octet",
     "u 08 01 05 05\n"
     "n 08 01 85 62 9E A1 1C 0B 91 A1 08 02 01 03 02 01 21 81 00",
     "setup - - -; component 13 10 / 0 21D / phase Establishment, running D free"},
    {"53 two non-locking shifts, then an element",
     "u 08 01 05 05\n"
     "n 08 01 85 62 9E 9D 1C 0B 91 A1 08 02 01 03 02 01 21 81 00 1C 0B 91 A1 08 02 01 03 02 01 21 81 00",
     "setup - - -; component 26 10 / 0 21D / phase Establishment, running D free"},
    {"54 non-locking, then locking: locking",
     "u 08 01 05 05\n"
     "n 08 01 85 62 9E 96 28 00 1C 0B 91 A1 08 02 01 03 02 01 21 81 00",
     "setup - - - / 0 / phase Establishment"},
    {"55 a shift to codeset 0 is a shift (90, 98)",
     "u 08 01 05 05\n"
     "n 08 01 85 62 98 1C 0B 91 A1 08 02 01 03 02 01 21 81 00 1C 0B 91 A1 08 02 01 03 02 01 21 81 00 90 1C 0B 91 A1 "
     "08 02 01 03 02 01 21 81 00",
     "setup - - -; component 25 10 / 0 21D / phase Establishment, running D free"},
    {"56 98 in a locked codeset brings nothing back",
     "u 08 01 05 05\n"
     "n 08 01 85 62 96 98 1C 0B 91 A1 08 02 01 03 02 01 21 81 00",
     "setup - - - / 0 / phase Establishment"},
    {"57 a shift as the last element",
     "u 08 01 05 05\n"
     "n 08 01 85 62 9E\n"
     "n 08 01 85 62 1C 0B 91 A1 08 02 01 03 02 01 21 81 00",
     "setup - - -; component 16 10 / 0 21D / phase Establishment, running D free"},
    {"58 malformed ones give none, those after them count",
     "u 08 01 05 05\n"
     "n 08 01 85 62 1C 00 1C 01 91 1C 03 91 A1 01 1C 02 91 A1 1C 03 92 A1 00 1C 03 11 A1 00 1C 0B 91 A1 08 02 01 03 "
     "02 01 21 81 00",
     "setup - - -; component 35 10 / 0 21D / phase Establishment, running D free"},
    {"59 one bad tile spoils its whole element",
     "u 08 01 05 05\n"
     "n 08 01 85 62 1C 0D 91 A1 08 02 01 03 02 01 21 81 00 A1 05",
     "setup - - - / 0 / phase Establishment"},
    {"60 9F gives none",
     "u 08 01 05 05\n"
     "n 08 01 85 62 1C 0B 9F A1 08 02 01 03 02 01 21 81 00 1C 0B 91 A1 08 02 01 03 02 01 21 81 00",
     "setup - - -; component 24 10 / 0 21D / phase Establishment, running D free"},
    {"61 order: elements as they come, components within them",
     "u 08 01 05 05\n"
     "u 08 01 05 45\n"
     "n 08 01 85 4D 1C 20 91 A1 11 02 01 02 02 01 24 30 09 30 07 A1 05 30 03 02 01 0C A1 0A 02 01 04 02 01 23 30 02 "
     "81 00 28 00 1C 14 91 A1 11 02 01 02 02 01 24 30 09 30 07 A1 05 30 03 02 01 0C",
     "setup - - -; clear; component 15 19; component 34 12; component 51 19 / 0 0 22E 29E 28E / phase Clearing, "
     "conflict E"},
    {"62 the flag does not count",
     "u 08 01 05 05\n"
     "n 08 01 05 07\n"
     "n 08 01 85 62 1C 0B 91 A1 08 02 01 03 02 01 21 81 00",
     "setup - - -; connect; component 15 10 / 0 0 21D / phase Active, running D free"},
    {"63 another reference gives none",
     "u 08 01 05 05\n"
     "n 08 01 86 07 1C 0B 91 A1 08 02 01 03 02 01 21 81 00\n"
     "u 08 01 06 05 1C 0C 91 A1 09 02 01 05 02 01 1E 0A 01 01",
     "setup - - - / 0 / phase Establishment"},
    {"64 one octet and two octets, one number",
     "u 08 01 05 05\n"
     "n 08 02 80 05 07\n"
     "n 08 02 00 05 62 1C 0B 91 A1 08 02 01 03 02 01 21 81 00\n"
     "n 08 02 05 00 62 1C 0B 91 A1 08 02 01 03 02 01 21 81 00",
     "setup - - -; connect; component 17 10 / 0 0 21D / phase Active, running D free"},
    {"65 none and zero differ; zero is zero in one octet or two",
     "n 08 01 80 62 1C 0B 91 A1 08 02 01 03 02 01 21 81 00\n"
     "n 08 00 62 1C 0B 91 A1 08 02 01 03 02 01 21 81 00\n"
     "n 08 02 00 00 62 1C 0B 91 A1 08 02 01 03 02 01 21 81 00",
     "component 7 10; component 41 10 / 14 14 / phase Idle"},
    {"66 the first has none: only those with none count",
     "n 08 00 62 1C 0D 91 A1 0A 02 01 04 02 01 23 30 02 81 00\n"
     "u 08 01 05 05\n"
     "u 08 00 05",
     "component 6 12; setup - - - / 14 0 / phase Establishment"},
    {"67 another call's DISCONNECT does not use up the first",
     "u 08 01 05 05\n"
     "n 08 01 09 45 1C 14 91 A1 11 02 01 02 02 01 24 30 09 30 07 A1 05 30 03 02 01 0C\n"
     "n 08 01 85 4D 1C 14 91 A1 11 02 01 02 02 01 24 30 09 30 07 A1 05 30 03 02 01 0C",
     "setup - - -; clear; component 37 19 / 0 0 22E / phase Clearing"},
    {"68 S granted with an arrangement, which is the rate",
     "u 08 01 05 05 1C 0C 91 A1 09 02 01 01 02 01 1E 0A 01 00\n"
     "n 08 01 85 02 1C 0E 91 A2 0B 02 01 01 30 06 02 01 1E 02 01 03",
     "setup 1 - -; component 25 13 / 0 24S / phase Establishment, rate special 3"},
    {"69 a result that does not fit, then a reject, then a second one",
     "u 08 01 05 05 1C 0C 91 A1 09 02 01 01 02 01 1E 0A 01 00\n"
     "n 08 01 85 02 1C 0D 91 A2 0A 02 01 01 30 05 02 01 1E 05 00 1C 09 91 A4 06 02 01 01 81 01 01 1C 09 91 A4 06 02 "
     "01 01 81 01 01 1C 08 91 A4 05 05 00 80 01 02",
     "setup 1 - -; component 25 12; component 40 8; component 51 8; component 62 7 / 0 31S 25S 30 30 / phase "
     "Establishment"},
    {"70 closing: E before D, in Ended alone",
     "u 08 01 05 05\n"
     "u 08 01 05 45\n"
     "n 08 01 85 4D 1C 17 91 A1 08 02 01 03 02 01 21 81 00 A1 0A 02 01 04 02 01 23 30 02 81 00\n"
     "u 08 01 05 5A",
     "setup - - -; clear; component 15 10; component 25 12; released / 0 0 22D 22E 0 / phase Ended, closing E free"},
};

enum { MOST = 1024 };

static uint32_t pairs[2 * 16];
static uint8_t octets[MOST];
static size_t messages, length;

/* A line is a message: u or n or a direction's number, and hex; or `lengths 4n 2u; octets HEX`. */
static void lay(const char *trace)
{
    messages = length = 0;
    if (!strncmp(trace, "lengths ", 8)) {
        const char *part = strstr(trace, "; octets ");
        for (const char *at = trace + 8; at < part && strncmp(at, "none", 4);) {
            char *end;
            pairs[2 * messages] = (uint32_t)strtoul(at, &end, 10);
            pairs[2 * messages++ + 1] = *end == 'n';
            at = end + (end[1] == ' ' ? 2 : 1);
        }
        if (strcmp(part + 9, "none"))
            length = unhex(part + 9, octets);
        return;
    }
    while (*trace) {
        char line[1024];
        size_t n = strcspn(trace, "\n");
        memcpy(line, trace, n);
        line[n] = 0;
        size_t count = unhex(line + 2, octets + length);
        pairs[2 * messages] = (uint32_t)count;
        pairs[2 * messages++ + 1] = *line == 'u' ? AOC_FROM_USER : *line == 'n' ? AOC_FROM_NETWORK : (uint32_t)(*line - '0');
        length += count;
        trace += n + (trace[n] == '\n');
    }
}

static uint16_t rows[6 * MOST];
static uint8_t out[MOST];

static aoc_trace_answer ask(size_t numbers, size_t row_room, size_t out_room)
{
    memset(rows, MARK, sizeof rows);
    memset(out, MARK, sizeof out);
    return aoc_trace_events(pairs, numbers, lend(octets, length), length, rows, row_room, out, out_room);
}

/* ------------------------------------------------------------------ in words */

static char text[4096];
static size_t used;

static void say(const char *form, const char *word, long number, const char *last)
{
    used += (size_t)snprintf(text + used, sizeof text - used, form, word, number, last);
}

static void say_charge(const char *what, const char *service, const aoc_charge *c)
{
    if (c->kind == AOC_CHARGE_FREE)
        say(", %s%.0ld%s free", what, 0L, service);
    else if (c->kind == AOC_CHARGE_MONEY)
        say(", %s%.0ld%s", what, 0L, service), say(" %s%ld%s", "", (long)c->money.number * (c->money.multiplier == 1 ? 10 : 1), "");
    else if (c->kind == AOC_CHARGE_UNITS)
        say(", %s%.0ld%s", what, 0L, service), say(" %s%ld%s", "", (long)c->numbers[0], " units");
    else if (c->kind == AOC_CHARGE_ARRANGEMENT)
        say(", %s%ld%s", "rate special ", (long)c->arrangement, "");
}

static const char letters[] = "-SDE";

/* What the engine answers, in the words of the cases; each answer is also the account's. */
static void tell(const aoc_trace_answer *a, const char *name)
{
    size_t numbers = 6 * (size_t)a->events, n = (size_t)a->octets, at = 0;
    aoc_account call = aoc_fresh();
    used = 0;
    *text = 0;
    for (size_t k = 1; k <= a->events; k++) {
        const uint16_t *row = rows + 6 * (k - 1);
        aoc_event e = {(uint8_t)row[0], {row[1] & 1, row[1] >> 1 & 1, row[1] >> 2 & 1}, row[2], row[3], row[4]};
        aoc_outcome by_account = aoc_step(&call, e, out + at, row[5]);
        aoc_plain_outcome_answer o = aoc_plain_outcome(rows, numbers, out, n, k);
        CHECK(o.refusal == 0 && o.outcome.number == by_account.number && o.outcome.service == by_account.service, name);
        char service[2] = {o.outcome.service ? letters[o.outcome.service] : 0, 0};
        say(k > 1 ? " %s%ld%s" : "%s%ld%s", "", (long)o.outcome.number, service);
        at += row[5];
    }
    if (!a->events)
        say("%s%.0ld%s", "none", 0L, "");
    static const char *const phases[] = {"Idle", "Establishment", "Active", "Clearing", "Ended", "Suspended"};
    aoc_plain_phase_answer phase = aoc_plain_phase(rows, numbers, out, n);
    CHECK(phase.refusal == 0 && phase.phase == aoc_phase_of(&call), name);
    say(" / phase %s%.0ld%s", phases[phase.phase], 0L, "");
    aoc_plain_pending_answer pending = aoc_plain_pending(rows, numbers, out, n);
    aoc_pending held = aoc_pending_of(&call);
    CHECK(pending.refusal == 0 && !memcmp(&pending.pending, &held, sizeof held), name);
    if (held.asked.s)
        say(", %s %ld%s", "pending S", (long)held.s, "");
    if (held.asked.d)
        say(", %s %ld%s", "pending D", (long)held.d, "");
    if (held.asked.e)
        say(", %s %ld%s", "pending E", (long)held.e, "");
    aoc_plain_charge_answer rate = aoc_plain_rate(rows, numbers, out, n), running = aoc_plain_running(rows, numbers, out, n);
    aoc_charge rate_of = aoc_rate_of(&call), running_of = aoc_running_of(&call);
    CHECK(rate.refusal == 0 && !memcmp(&rate.charge, &rate_of, sizeof rate_of), name);
    CHECK(running.refusal == 0 && !memcmp(&running.charge, &running_of, sizeof running_of), name);
    say_charge("rate ", "S", &rate.charge);
    aoc_plain_closing_answer closing = aoc_plain_closing(rows, numbers, out, n);
    aoc_closing closing_of = aoc_closing_of(&call);
    CHECK(closing.refusal == 0 && !memcmp(&closing.closing, &closing_of, sizeof closing_of), name);
    if (phase.phase == AOC_PHASE_ENDED && !closing_of.service)
        say(", %s%.0ld%s", "closing none", 0L, "");
    else
        say_charge("closing ", closing_of.service == AOC_SERVICE_D ? "D" : "E", &closing_of.charge);
    say_charge("running ", "D", &running.charge);
    aoc_plain_marks_answer marks = aoc_plain_marks(rows, numbers, out, n);
    aoc_marks marks_of = aoc_marks_of(&call);
    CHECK(marks.refusal == 0 && !memcmp(&marks.marks, &marks_of, sizeof marks_of), name);
    for (uint8_t s = 1; s <= 3; s++) {
        char service[2] = {letters[s], 0};
        if (aoc_has_service(marks_of.absent, s))
            say(", %s%.0ld%s", "not available ", 0L, service);
        if (aoc_has_service(marks_of.conflict, s))
            say(", %s%.0ld%s", "conflict ", 0L, service);
    }
}

/* The events against `setup - 5 -; component 43 12; connect`: a component's octets are those at its place in the trace. */
static void test_events(const aoc_trace_answer *a, const char *wanted, const char *name)
{
    size_t k = 0, at = 0;
    int over = 0;
    if (!strncmp(wanted, "none", 4)) {
        CHECK(a->events == 0, name);
        return;
    }
    for (;; k++) {
        const uint16_t *row = rows + 6 * k;
        char word[16], ids[3][8];
        size_t place, count;
        if (k >= a->events || sscanf(wanted, "%15[a-z]", word) != 1)
            break;
        if (!strcmp(word, "setup")) {
            CHECK(sscanf(wanted, "setup %7[-0-9] %7[-0-9] %7[-0-9]", ids[0], ids[1], ids[2]) == 3 && row[0] == AOC_EVENT_SETUP, name);
            for (int s = 0; s < 3; s++)
                CHECK(row[1] >> s & 1 ? row[2 + s] == atoi(ids[s]) : *ids[s] == '-' && row[2 + s] == 0, name);
            CHECK(row[5] == 0 && row[1] < 8, name);
        } else if (sscanf(wanted, "component %zu %zu", &place, &count) == 2) {
            CHECK(row[0] == AOC_EVENT_COMPONENT && row[5] == count && !memcmp(out + at, octets + place, count), name);
        } else {
            CHECK(row[0] == (*word == 'r' ? AOC_EVENT_RELEASED : word[1] == 'o' ? AOC_EVENT_CONNECT : AOC_EVENT_CLEAR), name);
            CHECK(row[5] == 0, name);
        }
        if (row[0] != AOC_EVENT_SETUP)
            CHECK(!row[1] && !row[2] && !row[3] && !row[4], name);
        at += row[5];
        wanted = strchr(wanted, *strpbrk(wanted, ";/"));
        over = *wanted == '/';
        wanted += 2;
        if (over) {
            k++;
            break;
        }
    }
    CHECK(over && k == a->events && at == a->octets, name);
}

static void test_cases(void)
{
    for (size_t i = 0; i < sizeof cases / sizeof *cases; i++) {
        const char *name = cases[i].name, *wanted = cases[i].wanted;
        lay(cases[i].trace);
        aoc_trace_answer a = ask(2 * messages, 6 * length, length);
        if (!strchr(wanted, '/')) {
            CHECK(a.refusal == strtoul(wanted, NULL, 10), name);
            CHECK(a.message == (strchr(wanted, ' ') ? strtoul(strchr(wanted, ' '), NULL, 10) : 0), name);
            CHECK(a.events == 0 && a.octets == 0 && all(rows, sizeof rows, MARK) && all(out, sizeof out, MARK), name);
            continue;
        }
        CHECK(a.refusal == AOC_ACCEPTED && a.message == 0, name);
        CHECK(all(rows + 6 * a.events, sizeof rows - 12 * a.events, MARK) && all(out + a.octets, sizeof out - a.octets, MARK), name);
        test_events(&a, wanted, name);
        tell(&a, name);
        CHECK(!strcmp(text, strchr(wanted, '/') + 2), name);
        if (strcmp(text, strchr(wanted, '/') + 2))
            printf("%s: %s\n", name, text);
        /* the events of a trace that is cut are the first of the whole */
        uint16_t kept[6 * MOST];
        memcpy(kept, rows, sizeof rows);
        size_t whole = length, all_messages = messages;
        for (; messages; messages--) {
            length -= pairs[2 * messages - 2];
            aoc_trace_answer b = ask(2 * messages - 2, 6 * length, length);
            CHECK(b.refusal == 0 && b.events <= a.events && !memcmp(rows, kept, 12 * b.events), name);
        }
        length = whole;
        messages = all_messages;
        /* room: six numbers and an octet for each octet of the trace are asked for, though the list needs less */
        CHECK(6 * a.events <= 6 * length && a.octets <= length, name);
        for (int less = 0; length && less < 3; less++) {
            aoc_trace_answer b = ask(2 * messages, 6 * length - (less != 1), length - (less != 0));
            CHECK(b.refusal == AOC_REFUSED_NO_ROOM && !b.message && !b.events && !b.octets, name);
            CHECK(all(rows, sizeof rows, MARK) && all(out, sizeof out, MARK), name);
        }
        /* a pair that is not whole */
        if (messages)
            CHECK(ask(2 * messages - 1, 6 * length, length).refusal == AOC_REFUSED_LENGTHS, name);
    }
}

/* Slices that are no event list, and numbers that are no event's. */
static void test_slices(void)
{
    static const uint16_t list[12] = {AOC_EVENT_SETUP, 0, 0, 0, 0, 0, AOC_EVENT_COMPONENT, 0, 0, 0, 0, 3};
    static const uint8_t three[3] = {0xA1, 0x01, 0x00};
    for (size_t numbers = 0; numbers <= 12; numbers++)
        for (size_t n = 0; n <= 3; n++) {
            int fine = (numbers == 12 && n == 3) || (numbers == 6 && n == 0) || (numbers == 0 && n == 0);
            uint32_t refusal = fine ? AOC_ACCEPTED : AOC_REFUSED_LENGTHS;
            const void *lent = lend(three, n);
            uint8_t *to = edges[1] - 2 * numbers;
            memcpy(to, list, 2 * numbers);
            const uint16_t *r = (const uint16_t *)to;
            CHECK(aoc_plain_phase(r, numbers, lent, n).refusal == refusal, "phase");
            CHECK(aoc_plain_pending(r, numbers, lent, n).refusal == refusal, "pending");
            CHECK(aoc_plain_rate(r, numbers, lent, n).refusal == refusal, "rate");
            CHECK(aoc_plain_running(r, numbers, lent, n).refusal == refusal, "running");
            CHECK(aoc_plain_closing(r, numbers, lent, n).refusal == refusal, "closing");
            CHECK(aoc_plain_marks(r, numbers, lent, n).refusal == refusal, "marks");
            for (size_t k = 0; k < 5; k++) {
                aoc_plain_outcome_answer o = aoc_plain_outcome(r, numbers, lent, n, k);
                int there = fine && k == 2 && numbers == 12;
                CHECK(o.refusal == refusal && (there ? o.outcome.number == AOC_REFUSED_BAD_FRAME : !o.outcome.number && !o.outcome.service), "outcome");
            }
            CHECK(aoc_plain_outcome(r, numbers, lent, n, (size_t)-1).refusal == refusal, "outcome");
        }
}

int main(void)
{
    make_edges();
    test_cases();
    test_slices();
    return report("messages");
}
